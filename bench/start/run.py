#!/usr/bin/env python3
"""Microseconds and bytes a row of `Office::start` over a keeper in memory, against a start in Rust that nobody proved.

Usage: python3 bench/start/run.py [--keep FOLDER] [--repeat N] [--customers N,N,..]

Builds, in a folder of its own, the program of program/ over copies of the crates that it needs (which proves them, so the
first time takes minutes), peer.rs with rustc -O, and heap.c, which counts what a program has of malloc. Each program makes
the store of four windows of so many customers, and starts an office over it; the script compares the rows of both stores.
Prints the best times of three starts in each of REPEAT runs in turn, and the memory of a run of its own. With --keep the
folder is kept, and a later run with it starts at once.
"""
import argparse
import mmap
import os
import pathlib
import shutil
import struct
import subprocess
import sys
import tempfile

HERE = pathlib.Path(__file__).resolve().parent
sys.path.insert(0, str(HERE.parent))
from programs import build_peer, build_program  # noqa: E402

USES = ["dv_window", "dv_outside", "dv_digest", "dv_records", "dv_index", "dv_catalog", "dv_text", "anyhow"]
ROUNDS = 3
COUNTS = struct.Struct("ll")


class Heap:
    """What the program that was started last has of malloc now, and at most since it was last asked."""

    def __init__(self, folder):
        subprocess.run(["cc", "-O2", "-shared", "-fPIC", "-o", folder / "heap.so", HERE / "heap.c"], check=True)
        (folder / "heap").write_bytes(bytes(COUNTS.size))
        self.env = os.environ | {"LD_PRELOAD": str(folder / "heap.so"), "HEAP": str(folder / "heap")}
        with open(folder / "heap", "r+b") as file:
            self.counts = mmap.mmap(file.fileno(), COUNTS.size)

    def clear(self):
        COUNTS.pack_into(self.counts, 0, 0, 0)

    def read(self):
        now, most = COUNTS.unpack_from(self.counts)
        COUNTS.pack_into(self.counts, 0, now, now)
        return now, most


def lines_of(program, customers, rounds, env=None):
    """The words of each line that a program prints; it goes on where the next one is asked for."""
    command = [program, str(customers), str(rounds)]
    with subprocess.Popen(command, env=env, stdin=subprocess.PIPE, stdout=subprocess.PIPE, text=True, bufsize=1) as process:
        for number in range(1 + rounds):
            line = process.stdout.readline().split()
            if not line:
                raise SystemExit(f"{program} ended early")
            yield line
            # It waits before each start, and while the office stands.
            process.stdin.write("\n" if number in (0, rounds) else "\n\n")
            process.stdin.flush()
    if process.returncode != 0:
        raise SystemExit(f"{program} ended with {process.returncode}")


def times(program, customers):
    """What the store has, and the nanoseconds of the best start."""
    store, *starts = lines_of(program, customers, ROUNDS)
    windows = {words[2] for words in starts}
    if windows != {"4"}:
        raise SystemExit(f"{program} has {windows} windows")
    return tuple(map(int, store[1:])), min(int(words[1]) for words in starts)


def memory(program, customers, heap):
    """The bytes of the office, and the most that its start had, over those with the store alone."""
    heap.clear()
    lines = lines_of(program, customers, 1, heap.env)
    next(lines)
    alone, _ = heap.read()
    next(lines)
    now, most = heap.read()
    list(lines)
    return now - alone, most - alone


def measure(programs, customers, repeat, heap):
    """What the store has; and by program the nanoseconds of the best start, and its bytes."""
    stores, best = set(), {}
    for _ in range(repeat):
        for who, program in programs.items():
            store, taken = times(program, customers)
            stores.add(store)
            best[who] = min(taken, best.get(who, taken))
    if len(stores) != 1:
        raise SystemExit(f"they have other stores: {sorted(stores)}")
    return stores.pop(), {who: (best[who], *memory(program, customers, heap)) for who, program in programs.items()}


def show(found):
    heads = ["rows", "who", "µs a row", "growth", "ours takes, times", "bytes a row at most", "bytes a row of the office", "by the vault's weight"]
    print(f"| {' | '.join(heads)} |\n|{'---|' * len(heads)}")
    first = {}
    for (rows, weight, _), by_name in found:
        for who, (taken, office, most) in by_name.items():
            each = taken / rows / 1000
            growth = f"{each / first[who]:.2f}" if who in first else ""
            first.setdefault(who, each)
            cells = [f"{rows:,}", who, f"{each:.2f}", growth, f"{by_name['ours'][0] / taken:.2f}"]
            print(f"| {' | '.join([*cells, f'{most / rows:,.0f}', f'{office / rows:,.0f}', f'{office / weight:.2f}'])} |")


def main():
    parser = argparse.ArgumentParser(description=__doc__, formatter_class=argparse.RawDescriptionHelpFormatter)
    parser.add_argument("--keep", type=pathlib.Path)
    parser.add_argument("--repeat", type=int, default=3)
    parser.add_argument("--customers", default="900,9000,90000")
    given = parser.parse_args()
    folder = (given.keep or pathlib.Path(tempfile.mkdtemp())).resolve()
    folder.mkdir(parents=True, exist_ok=True)
    programs = {"ours": build_program(folder, HERE / "program", "start_bench", USES), "rust_peer": build_peer(folder, HERE / "peer.rs")}
    heap = Heap(folder)
    print(f"load average before: {os.getloadavg()[0]:.1f} on {os.cpu_count()} processors")
    found = [measure(programs, customers, given.repeat, heap) for customers in sorted(map(int, given.customers.split(",")))]
    print(f"load average after: {os.getloadavg()[0]:.1f}")
    show(found)
    if not given.keep:
        shutil.rmtree(folder)


if __name__ == "__main__":
    main()
