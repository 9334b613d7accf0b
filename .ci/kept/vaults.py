"""Folders with a mapping, manifests, extracts and a store, over which the program is run."""
import contextlib
import itertools
import os
import pathlib
import shutil

from kept.program import TOP, CheckFailed, begin, expect, run

STORE_FILES = ("vault.db", "vault.db-wal", "vault.db-journal", "vault.db-shm")


def as_bytes(text):
    return text.encode() if isinstance(text, str) else text


def as_lines(err):
    """Lines, each with its end."""
    return as_bytes(err + "\n" if err else "")


class Vault:
    """A folder in which the program is run."""

    def __init__(self, bench, folder):
        self.bench, self.folder = bench, folder

    def file(self, name):
        return self.folder / name

    def write(self, name, text):
        self.file(name).write_bytes(as_bytes(text))

    def run(self, *words, **how):
        return run(self.bench.program, self.folder, words, **how)

    def begin(self, *words, **how):
        return begin(self.bench.program, self.folder, words, **how)

    def says(self, *words, status=0, out="", err="", **how):
        """Runs the program, and compares its status, its text and its lines. One that it writes elsewhere is empty."""
        got = self.run(*words, **how)
        said = " ".join(words)
        expect(f"{said}: standard error", as_lines(err), got.err)
        expect(f"{said}: exit status", status, got.status)
        expect(f"{said}: standard output", as_bytes(out), got.out)

    def text(self, *words):
        """The text of a command that writes one and no line."""
        got = self.run(*words)
        expect(f"{' '.join(words)}: exit status and lines", (0, b""), (got.status, got.err))
        return got.out

    def loaded(self, *manifests):
        """Loads windows, of which each is new; how many rows each added."""
        counts = []
        for manifest in manifests:
            got = self.run("load", manifest)
            front = f"{manifest}: Loaded ".encode()
            if got.status != 0 or not got.err.startswith(front):
                raise CheckFailed(f"load {manifest}\n    expected: a line {front.decode()!r}\n    got:      {got}")
            counts.append(int(got.err[len(front):]))
        return counts

    def store_bytes(self):
        """The bytes of the store's files, by their names."""
        return {name: self.file(name).read_bytes() for name in STORE_FILES if self.file(name).is_file()}

    def store_size(self):
        """How many bytes the store's files have."""
        size = 0
        for name in STORE_FILES:
            with contextlib.suppress(FileNotFoundError):
                size += os.stat(self.file(name)).st_size
        return size

    def without_store(self):
        """Takes the store's files away."""
        for name in STORE_FILES:
            self.file(name).unlink(missing_ok=True)

    def copy_store(self, folder):
        """Copies the store's files into a folder."""
        for name, data in self.store_bytes().items():
            (folder / name).write_bytes(data)

    def twin(self, folder=None):
        """Another folder with the same inputs, which stand there once, and a store of its own, with the same bytes."""
        folder = folder or self.bench.new_folder()
        for path in self.folder.iterdir():
            if path.name not in STORE_FILES:
                (folder / path.name).symlink_to(path.resolve())
        self.copy_store(folder)
        return Vault(self.bench, folder)


class Bench:
    """The program and the folder of all checks; counts what was left out."""

    def __init__(self, program, folder):
        self.program, self.folder = program, pathlib.Path(folder)
        self.numbers = itertools.count(1)

    def new_folder(self):
        folder = self.folder / f"vault{next(self.numbers)}"
        folder.mkdir()
        return folder

    def empty(self):
        """A vault in a folder with no file."""
        return Vault(self, self.new_folder())

    def example(self, name):
        """A vault in a copy of an example's folder."""
        folder = self.new_folder()
        left = shutil.ignore_patterns("vault.db*")
        shutil.copytree(TOP / "examples" / name, folder, ignore=left, dirs_exist_ok=True)
        return Vault(self, folder)

    def kept_example(self, name, *manifests):
        """The same, with its mapping stored and windows loaded."""
        vault = self.example(name)
        vault.says("init", err="init: Stored")
        vault.loaded(*manifests)
        return vault

    def drop(self, *vaults):
        """Takes folders away that are no longer needed."""
        for vault in vaults:
            shutil.rmtree(vault.folder)

    def leave_out(self, what):
        print(f"kept checks: left out: {what}", flush=True)
