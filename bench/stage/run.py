#!/usr/bin/env python3
"""Nanoseconds a record of `stage` of dv_stage, against the same in Rust that nobody proved and in Python, in one run.

Usage: python3 bench/stage/run.py [--keep FOLDER] [--records N,N,..]

Builds, in a folder of its own, the program of program/ over copies of the crates that it needs (which proves them, so the
first time takes minutes) and peer.rs with rustc -O, gives each the same extracts of records of 64 bytes, compares the rows
that they make, and prints the best times. With --keep the folder is kept, and a later run with it starts at once.
"""
import argparse
import os
import pathlib
import random
import shutil
import subprocess
import sys
import tempfile

HERE = pathlib.Path(__file__).resolve().parent
sys.path.insert(0, str(HERE.parent))
from programs import build_peer, build_program  # noqa: E402

NAMES = "Ann Bo Carl Dag Eva Finn Gro Hans Ida Jon Kari Lars Mona Nils Ola Åse Øyvind José".split()
CITIES = "Oslo Bergen Trondheim Stavanger Drammen Tromsø Bodø Ålesund Molde Hamar".split()


def record(number, chance):
    """A record of 64 bytes: one key in twenty is in lower case, one in fifty has blanks round it, one name in ten is quoted."""
    key = f"C{number:09d}"
    key = key.lower() if chance.random() < 0.05 else f" {key}  " if chance.random() < 0.02 else key
    first, last = chance.choice(NAMES), chance.choice(NAMES)
    name = f'"{last}, {first}"' if chance.random() < 0.1 else f"{first} {last}"
    front = f"{key},{name},{chance.choice(CITIES)},"
    return front + "n" * (63 - len(front.encode()))


def extract(count):
    """So many records in no order, of which one in a thousand stands twice."""
    chance = random.Random(count)
    records = [record(number, chance) for number in range(count - count // 1000)]
    records += chance.sample(records, count // 1000)
    chance.shuffle(records)
    return ("CUST_NO,NAME,CITY,NOTE\n" + "\n".join(records) + "\n").encode()


def measure(commands, counts):
    """The best nanoseconds a record of each who, by the number of records."""
    best = {}
    for count in counts:
        data, answers = extract(count), set()
        for command in commands:
            text = subprocess.run(command, input=data, check=True, capture_output=True).stdout.decode()
            for who, *numbers in map(str.split, text.splitlines()):
                records, taken, rows, total = map(int, numbers)
                answers.add((records, rows, total))
                best.setdefault(who, {}).setdefault(count, []).append(taken / records)
        if len(answers) != 1:
            raise SystemExit(f"they disagree at {count} records: {answers}")
    return {who: {count: min(times) for count, times in by_count.items()} for who, by_count in best.items()}


def show(best, counts):
    last, middle = counts[-1], counts[-2]
    heads = [f"{count:,} records, ns each" for count in counts] + [f"ours takes at {last:,}", f"{last:,} by {middle:,}"]
    print(f"| who | {' | '.join(heads)} |\n|{'---|' * (len(heads) + 1)}")
    for who, times in best.items():
        cells = [f"{times[count]:,.0f}" for count in counts]
        print(f"| {who} | {' | '.join(cells)} | {best['ours'][last] / times[last]:.2f} | {times[last] / times[middle]:.2f} |")


def main():
    parser = argparse.ArgumentParser(description=__doc__, formatter_class=argparse.RawDescriptionHelpFormatter)
    parser.add_argument("--keep", type=pathlib.Path)
    parser.add_argument("--records", default="1000,20000,200000")
    given = parser.parse_args()
    folder = (given.keep or pathlib.Path(tempfile.mkdtemp())).resolve()
    folder.mkdir(parents=True, exist_ok=True)
    program = build_program(folder, HERE / "program", "stage_bench", ["dv_stage", "dv_mapfile", "dv_catalog", "dv_text", "anyhow"])
    commands = [[program], [build_peer(folder, HERE / "peer.rs")], [sys.executable, HERE / "peer.py"]]
    counts = sorted(map(int, given.records.split(",")))
    print(f"load average before: {os.getloadavg()[0]:.1f} on {os.cpu_count()} processors")
    best = measure(commands, counts)
    print(f"load average after: {os.getloadavg()[0]:.1f}")
    show(best, counts)
    if not given.keep:
        shutil.rmtree(folder)


if __name__ == "__main__":
    main()
