#!/usr/bin/env python3
"""Records a second of `vaultdesk try`, against loaders in Rust that nobody proved, in one run.

Usage: python3 bench/load/run.py [--shared FOLDER] [--program FILE] [--before FILE] [--workers N] [--customers N,N,..]
                                 [--repeat N] [--keep FOLDER]
       python3 bench/load/run.py --phones N,N,.. [--program FILE] [--before FILE] [--workers N] [--repeat N] [--keep FOLDER]

FOLDER (`shared/bench` beside the repository, where it isn't said) has gen.py, which writes mappings and windows, and
rust_peer/, whose two programs are built with cargo into a folder of this run. With --phones, phones.py and phones_peer.rs
beside this file stand for them. FILE is a built vaultdesk; where it isn't said, the script vaultdesk builds the
repository's. `--before` names another build, such as the release before. Ours have one worker where `--workers` doesn't
say otherwise, since the peers have one thread. Loads four windows of each size, REPEAT times in turn, ours also with
settings of the allocator, compares what all write, and prints the best rates, the growth and the peaks of memory.
"""
import argparse
import os
import pathlib
import shutil
import subprocess
import sys
import tempfile

HERE = pathlib.Path(__file__).resolve().parent
sys.path.insert(0, str(HERE.parent))
from runs import built_program, head, row, run  # noqa: E402

TOP = HERE.parent.parent
WINDOWS = 4
MANIFESTS = [f"w{number}.toml" for number in range(1, WINDOWS + 1)]

# Huge pages, no bins of small blocks, and no memory given back before the end.
TUNED = ["hugetlb=1", "mxfast=0", "trim_threshold=4000000000", "mmap_threshold=4000000000"]

TUNES = {"GLIBC_TUNABLES": ":".join(f"glibc.malloc.{setting}" for setting in TUNED)}


class Orders:
    """Customers, their orders and the lines of these; a size is a number of customers."""

    unit, feed = "customers", "customers"

    def __init__(self, shared):
        self.shared = shared

    def build_peers(self, folder):
        manifest = self.shared / "rust_peer/Cargo.toml"
        command = ["cargo", "build", "--quiet", "--release", "--offline", "--manifest-path", manifest]
        subprocess.run([*command, "--target-dir", folder / "target"], check=True)
        return {name: folder / "target/release" / name for name in ["rust_shape", "rust_peer"]}

    def write(self, data, size):
        """Writes the windows and their mapping."""
        command = [sys.executable, self.shared / "gen.py", data, "--keys", str(size), "--windows", str(WINDOWS)]
        subprocess.run(command, check=True)


class Phones:
    """Several phones of each customer; a size is about the number of records of a window."""

    unit, feed = "phones", "phones"

    def build_peers(self, folder):
        program = folder / "phones_peer"
        subprocess.run(["rustc", "-O", "--edition", "2021", "-o", program, HERE / "phones_peer.rs"], check=True)
        return {"rust_peer": program}

    def write(self, data, size):
        command = [sys.executable, HERE / "phones.py", data, "--records", str(size), "--windows", str(WINDOWS)]
        subprocess.run(command, check=True)


def make_data(work, folder, size):
    data = folder / f"data_{work.unit}_{size}"
    if not data.exists():
        work.write(data, size)
    return data


def count_records(data):
    return sum(file.read_bytes().count(b"\n") - 1 for file in data.glob("w*.csv"))


def last_date(data):
    return (data / MANIFESTS[-1]).read_text().split('"')[1]


def run_ours(program, settings, workers, feed, data, mart):
    """Our time is that of the process, and what it says of each window is compared with what the peer added."""
    command = [program, "try", "--workers", str(workers), f"feed:{feed}", last_date(data), *MANIFESTS]
    taken, used, peak, said = run(command, data, mart, settings)
    return taken, used, peak, [int(line.rpartition(" ")[2]) for line in said]


def run_peer(program, data, out):
    """A peer's time is that of its windows and of the last mart, which it prints: it writes an earlier one too."""
    _, used, peak, _ = run([program, data, out, str(WINDOWS)], data, out / "printed")
    lines = [line.split() for line in (out / "printed").read_text().splitlines()]
    taken = sum(float(words[2]) for words in lines if words[0] == "window" or words[:2] == ["mart", "last"])
    return taken, used, peak, [int(words[2]) for words in lines if words[1].startswith("added_")]


def compare_marts(builds, out, name):
    """Whether the mart of each of our runs is that of a peer, byte for byte."""
    for ours in builds:
        if (out / f"{ours}.csv").read_bytes() != (out / "mart_last.csv").read_bytes():
            raise SystemExit(f"the mart of {ours} differs from that of {name}: see {out}")


def compare_tables(program, peer, data, out):
    """Whether the text of each raw table is that of rust_peer, byte for byte; how many there are."""
    texts = out / "tables"
    texts.mkdir(exist_ok=True)
    run([peer, data, out, str(WINDOWS), "--tables", texts], data, out / "printed")
    names = sorted(file.stem for file in texts.glob("*.csv"))
    for name in names:
        run([program, "try", f"table:{name}", last_date(data), *MANIFESTS], data, out / "ours.csv")
        if (out / "ours.csv").read_bytes() != (texts / f"{name}.csv").read_bytes():
            raise SystemExit(f"our table {name} differs from that of rust_peer: see {out}")
    return len(names)


def measure(builds, peers, feed, data, out, repeat):
    """What each took at best, where they run in turn."""
    runs = {name: [] for name in [*builds, *peers]}
    for _ in range(repeat):
        for name, build in builds.items():
            runs[name].append(run_ours(*build, feed, data, out / f"{name}.csv"))
        for name, peer in peers.items():
            runs[name].append(run_peer(peer, data, out))
            compare_marts(builds, out, name)
    added = {name: all_runs[0][3] for name, all_runs in runs.items()}
    for name in builds:
        if added[name] != added["rust_peer"]:
            raise SystemExit(f"the windows add other numbers of rows: {added[name]} and {added['rust_peer']}")
    return {name: best(all_runs) for name, all_runs in runs.items()}


def best(runs):
    """The least time, the least processor time and the highest peak."""
    taken, used, peaks, _ = zip(*runs)
    return min(taken), min(used), max(peaks)


def show(unit, found):
    """The rates and peaks of each size, and how much longer a record takes at one size than at the one before."""
    head([unit, "records", "who", "seconds", "processor s", "records a second", "ours takes, times", "peak, MB", "ours has, times", "growth"])
    before = {}
    for size, (records, by_name) in found.items():
        ours, _, our_peak = by_name["ours"]
        for name, (taken, used, peak) in by_name.items():
            each = taken / records
            growth = f"{each / before[name]:.2f}" if name in before else ""
            before[name] = each
            cells = [f"{size:,}", f"{records:,}", name, f"{taken:.3f}", f"{used:.3f}", f"{records / taken:,.0f}"]
            row([*cells, f"{ours / taken:.2f}", f"{peak / 1024:,.0f}", f"{our_peak / peak:.2f}", growth])


def main():
    parser = argparse.ArgumentParser(description=__doc__, formatter_class=argparse.RawDescriptionHelpFormatter)
    parser.add_argument("--shared", type=pathlib.Path, default=TOP.parent / "shared/bench")
    parser.add_argument("--program", type=pathlib.Path)
    parser.add_argument("--before", type=pathlib.Path)
    parser.add_argument("--workers", type=int, default=1)
    parser.add_argument("--customers", default="2000,20000,200000")
    parser.add_argument("--phones")
    parser.add_argument("--repeat", type=int, default=3)
    parser.add_argument("--keep", type=pathlib.Path)
    given = parser.parse_args()
    folder = (given.keep or pathlib.Path(tempfile.mkdtemp())).resolve()
    out = folder / "out"
    out.mkdir(parents=True, exist_ok=True)
    program = (given.program or built_program()).resolve()
    # Our runs, each a program, what it adds to the environment, and how many workers it has.
    builds = {"ours": (program, {}, given.workers), "ours_tuned": (program, TUNES, given.workers)}
    if given.before:
        builds["before"] = (given.before.resolve(), {}, given.workers)
    work = Phones() if given.phones else Orders(given.shared.resolve())
    peers = work.build_peers(folder)
    print(f"load average before: {os.getloadavg()[0]:.1f} on {os.cpu_count()} processors")
    sizes = sorted(map(int, (given.phones or given.customers).split(",")))
    found = {}
    for size in sizes:
        data = make_data(work, folder, size)
        found[size] = count_records(data), measure(builds, peers, work.feed, data, out, given.repeat)
    tables = compare_tables(program, peers["rust_peer"], make_data(work, folder, sizes[0]), out)
    print(f"load average after: {os.getloadavg()[0]:.1f}")
    print(f"marts of all sizes, and {tables} tables of the smallest, are equal byte for byte\n")
    show(work.unit, found)
    if not given.keep:
        shutil.rmtree(folder)


if __name__ == "__main__":
    main()
