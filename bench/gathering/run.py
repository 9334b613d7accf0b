#!/usr/bin/env python3
"""Seconds and memory of one window whose keys are at the limits, loaded by one worker and by four.

Usage: python3 bench/gathering/run.py [--program FILE] [--peer FILE] [--records N] [--repeat N] [--keep FOLDER]

FILE, or what the environment's VAULTDESK names, is a built vaultdesk; where none is named, the script vaultdesk builds the
repository's. `--peer` names another build, such as the last release, which is given one worker. Each kind of window has N records
(400,000, as many as a window may have). They are loaded by `try` and by `load`, REPEAT times in turn. Stops where a line or a
vault is another one with other workers; prints the best times and the most memory.
"""
import argparse
import os
import pathlib
import shutil
import sys
import tempfile
from typing import NamedTuple

HERE = pathlib.Path(__file__).resolve().parent
sys.path.insert(0, str(HERE.parent))
from runs import built_program, head, row, run  # noqa: E402

WORKERS = (1, 4)
MOST_RECORDS = 400_000
# How many keys a hub has where records share them.
SHARED_KEYS = 1_000
# A date before the window, at which `try` writes a header alone.
BEFORE = "2000-01-01T00:00:00"

MANIFEST = """load = "2024-03-01T02:00:00"
extract = [{ feed = "left", file = "left.csv" }, { feed = "right", file = "right.csv" }]
"""

FOUR_HUBS = """hub = [
  { name = "north", parts = 1 },
  { name = "east", parts = 1 },
  { name = "south", parts = 1 },
  { name = "west", parts = 1 },
]
link = [{ name = "cross", hubs = ["north", "east", "south", "west"] }]
feed = [
  { name = "left", source = "gen", link = "cross", keys = [["N"], ["E"], ["S"], ["W"]] },
  { name = "right", source = "gen", link = "cross", keys = [["N"], ["E"], ["S"], ["W"]] },
]
"""

ONE_HUB = """hub = [{ name = "north", parts = 1 }]
feed = [
  { name = "left", source = "gen", hub = "north", keys = [["N"]], sub = ["K"], attrs = ["A"] },
  { name = "right", source = "gen", hub = "north", keys = [["N"]], sub = ["K"], attrs = ["A"] },
]
"""


def own_keys(number):
    """Four keys that no other record has."""
    return f"N{number:07},E{number:07},S{number:07},W{number:07}"


def shared_keys(number):
    """Four of a thousand keys each, at most; no two records have the same four."""
    first, second = number % SHARED_KEYS, number // SHARED_KEYS
    third = (7 * first + second) % SHARED_KEYS
    return f"N{first:03},E{second:03},S{third:03},W{(first + third) % SHARED_KEYS:03}"


def one_key(number):
    """The key of all records, a sub-key, and an attribute."""
    return f"N,{number},{number % 7}"


class Kind(NamedTuple):
    """A kind of window: its name, its mapping, the header of its extracts, a record by its number, how many items a record has,
    and how many of the items of so many records differ."""

    name: str
    mapping: str
    header: str
    record: object
    items: int
    lists: object


KINDS = (Kind("keys of their own", FOUR_HUBS, "N,E,S,W", own_keys, 5, lambda records: 5 * records),
         Kind("keys that are shared", FOUR_HUBS, "N,E,S,W", shared_keys, 5,
              lambda records: records + sum(len({shared_keys(n).split(",")[place] for n in range(records)}) for place in range(4))),
         Kind("one key", ONE_HUB, "N,K,A", one_key, 1, lambda records: 1))


def write_window(folder, kind, records):
    """A mapping, and a window of two extracts with half of the records each."""
    folder.mkdir(parents=True)
    (folder / "mapping.toml").write_text(kind.mapping)
    (folder / "w1.toml").write_text(MANIFEST)
    for name, numbers in (("left", range(records // 2)), ("right", range(records // 2, records))):
        (folder / f"{name}.csv").write_text("\n".join([kind.header, *map(kind.record, numbers), ""]))


class Build(NamedTuple):
    """A program, and its options."""

    name: str
    program: pathlib.Path
    options: tuple


class Measured(NamedTuple):
    """Seconds, processor seconds, kB at the peak, and lines."""

    seconds: float
    processor: float
    peak: int
    lines: list


def tried(build, data, folder):
    """`try`, of which nothing is kept."""
    del folder
    return Measured(*run([build.program, "try", *build.options, "table:hub_north", BEFORE, "w1.toml"], data, os.devnull))


def loaded(build, data, folder):
    """`init`, which is not measured, and `load` into a new vault, which stays in the folder."""
    shutil.rmtree(folder, ignore_errors=True)
    folder.mkdir(parents=True)
    for path in data.iterdir():
        (folder / path.name).symlink_to(path)
    run([build.program, "init"], folder, os.devnull)
    return Measured(*run([build.program, "load", *build.options, "w1.toml"], folder, os.devnull))


def best(runs):
    return Measured(min(one.seconds for one in runs), min(one.processor for one in runs), max(one.peak for one in runs), runs[0].lines)


def same_vaults(builds, folder):
    """Stops where a vault is another one than that of the first build."""
    files = [(folder / build.name / "vault.db").read_bytes() for build in builds]
    if any(file != files[0] for file in files):
        raise SystemExit(f"the vaults differ: see {folder}")


def measure(kind, builds, folder, repeat):
    """The best of each build by each command, in turn."""
    data, found = folder / kind.name.replace(" ", "_"), {}
    for what, do in (("try", tried), ("load", loaded)):
        runs = {build.name: [] for build in builds}
        for _ in range(repeat):
            for build in builds:
                runs[build.name].append(do(build, data, folder / "vaults" / build.name))
        lines = {tuple(one.lines) for of_one in runs.values() for one in of_one}
        if len(lines) != 1:
            raise SystemExit(f"{what} of {kind.name}: {lines}")
        found[what] = {name: best(of_one) for name, of_one in runs.items()}
    same_vaults(builds, folder / "vaults")
    return found


def show(kind, records, found):
    for what, by_name in found.items():
        for name, one in by_name.items():
            rows = one.lines[0].rpartition(" ")[2]
            row([kind.name, f"{kind.items * records:,}", f"{kind.lists(records):,}", f"{int(rows):,}", what, name, f"{one.seconds:.2f}",
                 f"{one.processor:.2f}", f"{one.peak / 1024:,.0f}"])


def arguments():
    parser = argparse.ArgumentParser(description=__doc__, formatter_class=argparse.RawDescriptionHelpFormatter)
    parser.add_argument("--program", type=pathlib.Path, default=os.environ.get("VAULTDESK"))
    parser.add_argument("--peer", type=pathlib.Path)
    parser.add_argument("--records", type=int, default=MOST_RECORDS)
    parser.add_argument("--repeat", type=int, default=2)
    parser.add_argument("--keep", type=pathlib.Path)
    return parser.parse_args()


def main():
    given = arguments()
    folder = (given.keep or pathlib.Path(tempfile.mkdtemp())).resolve()
    program = pathlib.Path(given.program or built_program()).resolve()
    builds = [Build(f"workers_{count}", program, ("--workers", str(count))) for count in WORKERS]
    if given.peer:
        builds.append(Build("peer", given.peer.resolve(), ("--workers", "1")))
    print(f"load average before: {os.getloadavg()[0]:.1f} on {os.cpu_count()} processors")
    head(["window", "items", "lists", "rows", "command", "who", "s", "processor s", "peak MB"])
    for kind in KINDS:
        data = folder / kind.name.replace(" ", "_")
        if not data.exists():
            write_window(data, kind, given.records)
        show(kind, given.records, measure(kind, builds, folder, given.repeat))
        if not given.keep:
            shutil.rmtree(data)
    print(f"load average after: {os.getloadavg()[0]:.1f}")
    if not given.keep:
        shutil.rmtree(folder)


if __name__ == "__main__":
    main()
