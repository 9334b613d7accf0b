"""The programs in tools/, as the checks run them: vaultdesk-check within this process, or either as a process."""
import contextlib
import importlib.machinery
import importlib.util
import itertools
import os
import pathlib
import subprocess
import sys
from typing import NamedTuple

from kept.program import TOP, Answer, CheckFailed

FIRST_DATE = "1900-01-01T00:00:00"
LONGEST_RUN = 900  # seconds


def loaded(name):
    """A program of tools/ as a module."""
    loader = importlib.machinery.SourceFileLoader(name.replace("-", "_"), str(TOP / "tools" / name))
    module = importlib.util.module_from_spec(importlib.util.spec_from_loader(loader.name, loader))
    sys.modules[loader.name] = module
    loader.exec_module(module)
    return module


CHECK = loaded("vaultdesk-check")


class Told(NamedTuple):
    """What a check told: the status, the faults as file, place and text, and the check itself."""

    status: int
    faults: set
    check: object

    def said(self):
        return {text for _, _, text in self.faults}


def told(folder, *words):
    """What vaultdesk-check tells in a folder."""
    before = os.getcwd()
    os.chdir(folder)
    try:
        check, status = CHECK.checked(CHECK.read_words(["--most", "1000", *words]))
    finally:
        os.chdir(before)
    faults = {(found.file, (found.line, found.column), found.said) for found in check.findings}
    return Told(status, faults, check)


class Bench:
    """The program, a folder for all that a check writes, and how many cases are tried where they are drawn."""

    def __init__(self, program, folder, cases):
        self.program, self.folder, self.cases = program, pathlib.Path(folder), cases
        self.numbers = itertools.count(1)

    def new_folder(self, files=None):
        """A folder with files."""
        folder = self.folder / f"f{next(self.numbers)}"
        folder.mkdir()
        for name, data in (files or {}).items():
            target = folder / name
            target.parent.mkdir(parents=True, exist_ok=True)
            target.write_bytes(data.encode() if isinstance(data, str) else data)
        return folder

    def run(self, folder, *words, **how):
        """Runs the program vaultdesk in a folder."""
        return answer([self.program, *words], folder, **how)

    def run_shell(self, folder, commands):
        """What commands of bash write to standard output."""
        return answer(["bash", "-c", commands], folder, env={**os.environ, "LC_ALL": "C.UTF-8"}).out.decode("utf-8", "surrogateescape")

    def tool_path(self, name):
        return TOP / "tools" / name

    def tool(self, name, folder, *words, front=(), **how):
        """Runs a program of tools/ in a folder, by a command in front of it where one is given."""
        return answer([*front, sys.executable, str(self.tool_path(name)), *words], folder, **how)

    def tried(self, folder, manifests):
        """The status of the program over windows, and what it says of the mapping and of each window that it refuses."""
        got = self.run(folder, "try", "feed:customers", FIRST_DATE, *(manifests or ["none"]))
        said = []
        for line in got.err.decode("utf-8", "surrogateescape").split("\n"):
            if line.startswith("vaultdesk: mapping "):
                said.append(line.removeprefix("vaultdesk: "))
            elif ": W" in line:
                said.append(line.split(": ", 1)[1])
        return got, said

    def leave_out(self, what):
        print(f"tool checks: left out: {what}", flush=True)


def answer(words, folder, **how):
    done = subprocess.run(words, cwd=folder, stdin=subprocess.DEVNULL, stdout=how.pop("out_to", subprocess.PIPE),
                          stderr=subprocess.PIPE, timeout=LONGEST_RUN, check=False, **how)
    return Answer(done.returncode, done.stdout or b"", done.stderr or b"")


def expect_faults(what, expected, found):
    """Fails where other faults are told than are expected."""
    if expected != found:
        raise CheckFailed(f"{what}\n    not told: {sorted(expected - found)[:6]}\n    told besides: {sorted(found - expected)[:6]}")


@contextlib.contextmanager
def in_case(what):
    """Says in which case a check failed."""
    try:
        yield
    except CheckFailed as found:
        raise CheckFailed(f"{what}: {found}") from found
    except Exception as error:
        raise CheckFailed(f"{what}: {type(error).__name__}: {error}") from error
