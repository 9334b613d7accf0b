"""The file of samples: lines of JSON, of which each says of which run it is.

A run begins with a line that has its command, and ends with one that has its seconds in all. The lines between are the
records of its checks, as they were known then: the last one of a check counts.
"""
import json
import os
import pathlib
import sys
import time
from typing import NamedTuple


class Run(NamedTuple):
    """A run as its lines tell it: what stands in the first and in the last one, and the records of its checks."""

    name: str
    head: dict
    foot: dict
    checks: list


def default_file():
    """Where samples are put if nothing is said."""
    cache = os.environ.get("XDG_CACHE_HOME") or pathlib.Path.home() / ".cache"
    return pathlib.Path(cache, "vaultdesk", "gate-times.jsonl")


def machine():
    """The processors of this machine, in words."""
    found = pathlib.Path("/proc/cpuinfo").read_text(errors="replace").splitlines()
    models = {line.partition(": ")[2] for line in found if line.startswith("model name")}
    return f"{os.cpu_count()} processors, {', '.join(sorted(models)) or 'of unknown model'}"


class Writer:
    """Puts the lines of a new run behind a file, each at once. Where that fails it says so, once, and the run goes on."""

    def __init__(self, file, head):
        self.name, self.out = time.strftime(f"%Y-%m-%dT%H:%M:%S {os.getpid()}"), None
        try:
            file.parent.mkdir(parents=True, exist_ok=True)
            self.out = file.open("a+b", buffering=0)
            if file.stat().st_size:
                self.out.seek(-1, os.SEEK_END)
                if self.out.read(1) != b"\n":
                    # Somebody who was killed left half a line.
                    self.out.write(b"\n")
        except OSError as error:
            self.give_up(error)
        self.write(head)

    def write(self, record):
        try:
            if self.out:
                self.out.write(json.dumps({"run": self.name, **record}).encode() + b"\n")
        except OSError as error:
            self.give_up(error)

    def give_up(self, error):
        self.out = None
        print(f"gate-times: the samples are not kept: {error}", file=sys.stderr)


def read_runs(files):
    """The runs of which lines stand in files, in their order in time. Half a line counts for nothing."""
    lines = {}
    for file in files:
        for line in file.read_text(encoding="utf-8", errors="replace").splitlines():
            try:
                record = json.loads(line)
                lines.setdefault(record.pop("run"), []).append(record)
            except (ValueError, KeyError, AttributeError):
                continue
    return [run_of(name, lines[name]) for name in sorted(lines)]


def run_of(name, records):
    """A run, by its lines without its name."""
    head = next((each for each in records if "command" in each), {})
    foot = next((each for each in records if "total" in each), {})
    checks = {each["check"]: each for each in records if "check" in each}
    return Run(name, head, foot, list(checks.values()))
