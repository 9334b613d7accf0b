#!/usr/bin/env python3
"""Seconds, processor seconds and memory of loads with 1, 2, 4 and 8 workers, in turn and in one run.

Usage: python3 bench/workers/run.py [--program FILE] [--peer FILE] [--size N] [--repeat N] [--keep FOLDER]

FILE, or what the environment's VAULTDESK names, is a built vaultdesk; where none is named, the script vaultdesk builds the
repository's. `--peer` names another build, such as the last release, which is given one worker. Loads four windows of SIZE
customers by `try` and by `load`, 200 windows of ten records by `try`, and the generated load of `exercise`, REPEAT times in
turn. Stops where a text, a line or a table is another one with other workers; prints the best times and the
most memory, and how many times those of one worker and of the peer they are.
"""
import argparse
import os
import pathlib
import shutil
import sys
import tempfile
from typing import Callable, NamedTuple

HERE = pathlib.Path(__file__).resolve().parent
sys.path[1:1] = [str(HERE.parent), str(HERE.parent / "kept")]
import extracts  # noqa: E402
from runs import built_program, head, row, run  # noqa: E402

WINDOWS, SMALL_WINDOWS = 4, 200
# As many customers as make a window of ten records.
SMALL_SIZE = 2
WORKERS, FEW_WORKERS = (1, 2, 4, 8), (1, 4)
GENERATED = 50_000
LAST_DATE = "9998-12-31T23:59:59"
MART = "feed:customers"
TABLES = ("hub_customer hub_sales_order hub_product link_placed link_contains sat_customers status_customers sat_orders "
          "status_orders status_placements sat_lines status_lines").split()
TEXTS = (("windows",), *(("table", table) for table in TABLES),
         *(("mart", f"feed:{feed}", LAST_DATE) for feed in ("customers", "orders", "placements", "lines")))
# What is held against an aim, and the most times that it may be with four workers what it is with one.
AIMS = (("seconds", 0.45), ("processor", 1.15), ("peak", 1.2))
LARGE = ("try", "load")
SMALL_AIM = 1.0


class Build(NamedTuple):
    """A program, and the number of workers that it is given."""

    name: str
    program: pathlib.Path
    workers: int

    def options(self):
        return ["--workers", str(self.workers)]


class Measured(NamedTuple):
    """Seconds, processor seconds, and kB at the peak."""

    seconds: float
    processor: float
    peak: int


class Work(NamedTuple):
    """What is measured: its name, the numbers of workers that do it, how they do it in a folder of their own, and how many
    rounds there are. What is done answers what it took, and what has to be the same for all."""

    name: str
    workers: tuple
    do: Callable
    rounds: int


def fresh(folder):
    shutil.rmtree(folder, ignore_errors=True)
    folder.mkdir()
    return folder


def windows_in(data):
    """The manifests of a folder, in the order of their windows."""
    return sorted((path.name for path in data.glob("w*.toml")), key=lambda name: int(name[1:-5]))


def taken(build, folder, out, *words):
    """What a command takes, with its text in a file, and its lines."""
    *cost, lines = run([build.program, *words], folder, out)
    return Measured(*cost), lines


def tried(data):
    """`try` over all windows of a folder."""

    def do(build, out):
        cost, lines = taken(build, data, out / "mart.csv", "try", *build.options(), MART, LAST_DATE, *windows_in(data))
        return cost, [lines, (out / "mart.csv").read_bytes()]

    return do


def loaded(data):
    """`init`, and `load` of each window of a folder, a process a window. Seconds are those of the loads."""

    def do(build, out):
        for path in data.iterdir():
            (out / path.name).symlink_to(path)
        taken(build, out, os.devnull, "init")
        found = [taken(build, out, os.devnull, "load", *build.options(), manifest) for manifest in windows_in(data)]
        costs = [cost for cost, _ in found]
        total = Measured(sum(cost.seconds for cost in costs), sum(cost.processor for cost in costs), max(cost.peak for cost in costs))
        return total, [line for _, lines in found for line in lines]

    return do


def exercised(build, out):
    cost, lines = taken(build, out, out / "counts", "exercise", *build.options(), str(GENERATED))
    return cost, [lines, (out / "counts").read_bytes()]


def best(runs):
    """The least times, and the most memory."""
    return Measured(min(one.seconds for one in runs), min(one.processor for one in runs), max(one.peak for one in runs))


def measure(work, builds, folder):
    """The best of each build, where they do the work in turn and all answer the same."""
    runs, first = {build.name: [] for build in builds}, None
    for _ in range(work.rounds):
        for build in builds:
            cost, answer = work.do(build, fresh(folder / build.name))
            runs[build.name].append(cost)
            first = answer if first is None else first
            if answer != first:
                raise SystemExit(f"{work.name} by {build.name} is not that by {builds[0].name}: see {folder}")
    return {name: best(costs) for name, costs in runs.items()}


def texts_of(build, folder):
    for words in TEXTS:
        taken(build, folder, folder / "text", *words)
        yield (folder / "text").read_bytes()


def compare_vaults(builds, folder):
    """Stops where a vault that was loaded last is another one than that of the first build: where the files differ, by a text
    of all tables, of the marts and of the windows."""
    first, *others = builds
    file = (folder / first.name / "vault.db").read_bytes()
    differing = [build for build in others if (folder / build.name / "vault.db").read_bytes() != file]
    expected = list(texts_of(first, folder / first.name)) if differing else []
    for build in differing:
        for words, one, other in zip(TEXTS, expected, texts_of(build, folder / build.name), strict=True):
            if one != other:
                raise SystemExit(f"{' '.join(words)} by {build.name} is not that by {first.name}: see {folder}")
    return len(others) - len(differing), len(differing)


def times(one, other):
    return [f"{own / others:.2f}" if others else "" for own, others in zip(one, other)]


def show(found):
    head(["what", "who", "s", "processor s", "peak MB", "times one worker: s", "processor s", "peak", "times the peer: s",
          "processor s", "peak"])
    for what, by_name in found.items():
        for name, one in by_name.items():
            peer = times(one, by_name["peer"]) if "peer" in by_name else ["", "", ""]
            row([what, name, f"{one.seconds:.3f}", f"{one.processor:.3f}", f"{one.peak / 1024:,.0f}",
                 *times(one, by_name["workers_1"]), *peer])


def show_aims(found):
    """How many times what one worker takes four take, beside what is aimed at."""
    head(["what", "of four workers, times one", "aimed at, at most", "found"])
    for what, by_name in found.items():
        if what not in LARGE and what != "ten records":
            continue
        for name, most in AIMS if what in LARGE else (("seconds", SMALL_AIM),):
            one, four = (getattr(by_name[f"workers_{count}"], name) for count in FEW_WORKERS)
            row([what, name, f"{most:.2f}", f"{four / one:.2f}" if one else ""])


def works(folder, size, repeat):
    """What is measured, over windows that are made where they are not there."""
    data = {name: folder / f"data_{name}" for name in (str(size), "small")}
    for name, customers, windows in ((str(size), size, WINDOWS), ("small", SMALL_SIZE, SMALL_WINDOWS)):
        if not data[name].exists():
            extracts.write(data[name], customers, windows)
    return [Work("try", WORKERS, tried(data[str(size)]), repeat), Work("load", WORKERS, loaded(data[str(size)]), repeat),
            Work("ten records", FEW_WORKERS, tried(data["small"]), 5 * repeat),
            Work("exercise", FEW_WORKERS, exercised, repeat)]


def arguments():
    parser = argparse.ArgumentParser(description=__doc__, formatter_class=argparse.RawDescriptionHelpFormatter)
    parser.add_argument("--program", type=pathlib.Path, default=os.environ.get("VAULTDESK"))
    parser.add_argument("--peer", type=pathlib.Path)
    parser.add_argument("--size", type=int, default=200_000)
    parser.add_argument("--repeat", type=int, default=3)
    parser.add_argument("--keep", type=pathlib.Path)
    return parser.parse_args()


def main():
    given = arguments()
    folder = (given.keep or pathlib.Path(tempfile.mkdtemp())).resolve()
    folder.mkdir(parents=True, exist_ok=True)
    program = pathlib.Path(given.program or built_program()).resolve()
    print(f"load average before: {os.getloadavg()[0]:.1f} on {os.cpu_count()} processors")
    found = {}
    for work in works(folder, given.size, given.repeat):
        builds = [Build(f"workers_{count}", program, count) for count in work.workers]
        if given.peer:
            builds.append(Build("peer", given.peer.resolve(), 1))
        found[work.name] = measure(work, builds, folder)
        if work.name == "load":
            same, compared = compare_vaults(builds, folder)
            print(f"{same} of the other vaults are that of one worker byte for byte, {compared} by their {len(TEXTS)} texts")
    print(f"load average after: {os.getloadavg()[0]:.1f}")
    print(f"all lines and texts are equal; {given.size:,} customers, the best of {given.repeat} runs\n")
    show(found)
    print()
    show_aims(found)
    if not given.keep:
        shutil.rmtree(folder)


if __name__ == "__main__":
    main()
