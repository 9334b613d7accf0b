#!/usr/bin/env python3
"""Microseconds a row of `delta` and `apply` of satellites, of multi-active ones, of status and of effectivity tables,
and of telling the periods of these, against the same in Rust that nobody proved.

Usage: python3 bench/tables/run.py [--keep FOLDER] [--repeat N] [--rows N,N,..]

Builds, in a folder of its own, the program of program/ over copies of the crates that it needs (which proves them, so the
first time takes minutes) and peer.rs with rustc -O, runs both in turn, compares the rows that each measured window adds,
and prints the best times. With --keep the folder is kept, and a later run with it starts at once.
"""
import argparse
import os
import pathlib
import shutil
import subprocess
import sys
import tempfile

HERE = pathlib.Path(__file__).resolve().parent
sys.path.insert(0, str(HERE.parent))
from programs import build_peer, build_program  # noqa: E402

USES = ["dv_sat", "dv_track", "dv_index", "dv_records", "dv_digest", "dv_mapfile", "dv_catalog", "dv_text", "anyhow"]
WINDOW = 10_000
SIZES = "10000,100000,1000000"


def size_of(sizes, rows):
    """The size of which a table of so many rows is: it grows from one measured window to the next."""
    return max(size for size in sizes if rows >= 0.9 * size)


def measure(programs, sizes, repeat):
    """The best microseconds a row of a window, of `delta` and of `apply`, by table, who and size."""
    best, answers = {}, set()
    for _ in range(repeat):
        for program in programs:
            text = subprocess.run([program, *map(str, sizes)], check=True, capture_output=True, text=True).stdout
            for who, table, *numbers in map(str.split, text.splitlines()):
                before, delta, apply, added, total = map(int, numbers)
                answers.add((table, before, added, total))
                calls = {"periods": delta} if table == "periods" else {"delta": delta, "apply": apply}
                for call, taken in calls.items():
                    rows = before if table == "periods" else WINDOW
                    best.setdefault((table, call, who), {}).setdefault(size_of(sizes, before), []).append(taken / rows / 1000)
    windows = {(table, before) for table, before, _, _ in answers}
    if len(windows) != len(answers):
        raise SystemExit(f"they disagree: {sorted(answers)}")
    return {key: {size: min(times) for size, times in by_size.items()} for key, by_size in best.items()}


def show(best, sizes):
    last = sizes[-1]
    heads = [f"{size:,} rows, µs a row" for size in sizes] + [f"{last:,} by {sizes[0]:,}", f"ours takes at {last:,}, times"]
    print(f"| table | call | who | {' | '.join(heads)} |\n|{'---|' * (len(heads) + 3)}")
    for (table, call, who), times in sorted(best.items()):
        cells = [f"{times[size]:.2f}" for size in sizes] + [f"{times[last] / times[sizes[0]]:.2f}"]
        ours = best[table, call, "ours"][last]
        print(f"| {table} | {call} | {who} | {' | '.join(cells)} | {ours / times[last]:.2f} |")


def main():
    parser = argparse.ArgumentParser(description=__doc__, formatter_class=argparse.RawDescriptionHelpFormatter)
    parser.add_argument("--keep", type=pathlib.Path)
    parser.add_argument("--repeat", type=int, default=3)
    parser.add_argument("--rows", default=SIZES)
    given = parser.parse_args()
    folder = (given.keep or pathlib.Path(tempfile.mkdtemp())).resolve()
    folder.mkdir(parents=True, exist_ok=True)
    programs = [build_program(folder, HERE / "program", "tables_bench", USES), build_peer(folder, HERE / "peer.rs")]
    print(f"load average before: {os.getloadavg()[0]:.1f} on {os.cpu_count()} processors")
    sizes = sorted(map(int, given.rows.split(",")))
    best = measure(programs, sizes, given.repeat)
    print(f"load average after: {os.getloadavg()[0]:.1f}")
    show(best, sizes)
    if not given.keep:
        shutil.rmtree(folder)


if __name__ == "__main__":
    main()
