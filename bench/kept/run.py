#!/usr/bin/env python3
"""Seconds, bytes and memory of a kept vault, a process a window, against PostgreSQL 15 and Python over SQLite.

Usage: python3 bench/kept/run.py [--program FILE] [--customers N,N,..] [--repeat N] [--keep FOLDER]

FILE is a built vaultdesk; where it isn't said, the script vaultdesk builds the repository's. Loads four windows of each
size with each of them, REPEAT times in turn, compares the mart at the last date and, at the smallest size, the text of
each raw table, and prints the best times. Where PostgreSQL is absent (Debian package `postgresql`) it says so, and goes
on without it.
"""
import argparse
import contextlib
import os
import pathlib
import shutil
import sys
import tempfile
from typing import NamedTuple

HERE = pathlib.Path(__file__).resolve().parent
sys.path.insert(0, str(HERE.parent))
sys.path.insert(0, str(HERE))
import extracts  # noqa: E402
import postgres  # noqa: E402
from runs import built_program, head, row, run  # noqa: E402

WINDOWS = 4
MANIFESTS = [f"w{number}.toml" for number in range(1, WINDOWS + 1)]
TABLES = ("hub_customer hub_sales_order hub_product link_placed link_contains sat_customers status_customers sat_orders "
          "status_orders status_placements sat_lines status_lines").split()


class Measured(NamedTuple):
    """Seconds before the first window, of each window and of the mart; the bytes of the file and of its log; and the
    most memory in kB."""

    begin: float
    windows: list
    mart: float
    file: int
    log: int
    peak: int


def last_date(data):
    return (data / MANIFESTS[-1]).read_text().split('"')[1]


def fresh(folder):
    shutil.rmtree(folder, ignore_errors=True)
    folder.mkdir()
    return folder


def size_of(path):
    return path.stat().st_size if path.exists() else 0


class Ours:
    """A process for init, for each window and for the mart, over vault.db in a folder."""

    name = "ours"

    def __init__(self, program):
        self.program = program

    def run(self, data, out):
        for path in data.iterdir():
            (out / path.name).symlink_to(path)
        peaks = []

        def taken(*words, text=os.devnull):
            seconds, _, peak, said = run([self.program, *words], out, text)
            peaks.append(peak)
            if words[0] == "load" and " Loaded " not in said[-1]:
                raise SystemExit(f"load: {said}")
            return seconds

        begin = taken("init")
        windows = [taken("load", manifest) for manifest in MANIFESTS]
        sizes = [size_of(out / name) for name in ("vault.db", "vault.db-wal")]
        mart = taken("mart", "feed:customers", last_date(data), text=out / "mart.csv")
        return Measured(begin, windows, mart, *sizes, max(peaks))

    def tables(self, data, out):
        self.run(data, out)
        for table in TABLES:
            run([self.program, "table", table], out, out / f"{table}.csv")


class OverSqlite:
    """The loader in Python: one process, which prints the seconds of each window and of the mart."""

    name = "sqlite_python"

    def run(self, data, out, *more):
        command = [sys.executable, HERE / "sqlite_peer.py", data, out, str(WINDOWS), *more]
        _, _, peak, _ = run(command, out, out / "printed")
        lines = [line.split() for line in (out / "printed").read_text().splitlines()]
        *windows, mart = [float(seconds) for _, seconds in lines]
        return Measured(0, windows, mart, size_of(out / "peer.db"), size_of(out / "peer.db-wal"), peak)

    def tables(self, data, out):
        self.run(data, out, "--tables")


class OverPostgres:
    """A server of its own; a process of psql for each window and for the mart."""

    name = "postgres"

    def __init__(self, server):
        self.server = server

    def run(self, data, out):
        self.server.new_vault()
        peak = [0]
        end = self.server.watch(peak)
        try:
            commands = [self.server.load_command(data, manifest) for manifest in MANIFESTS]
            windows = [run(command, out, os.devnull)[0] for command in commands]
            mart = run(self.server.mart_command(last_date(data)), out, out / "mart.csv")[0]
        finally:
            end()
        size = int(self.server.ask("vault", "SELECT pg_database_size('vault')"))
        return Measured(0, windows, mart, size, 0, peak[0])

    def tables(self, data, out):
        self.run(data, out)
        for table in TABLES:
            (out / f"{table}.csv").write_bytes(self.server.table_text(table))


def make_data(folder, size):
    data = folder / f"data_{size}"
    if not data.exists():
        extracts.write(data, size, WINDOWS)
    return data


def is_same(name, peers, folder):
    """Stops where a text of a peer is not ours, byte for byte."""
    texts = {peer.name: (folder / peer.name / f"{name}.csv").read_bytes() for peer in peers}
    for peer, text in texts.items():
        if text != texts["ours"]:
            raise SystemExit(f"the text of {name} of {peer} is not ours: see {folder}")


def measure(peers, data, folder, repeat):
    """The best of each, where they run in turn."""
    runs = {peer.name: [] for peer in peers}
    for _ in range(repeat):
        for peer in peers:
            runs[peer.name].append(peer.run(data, fresh(folder / peer.name)))
        is_same("mart", peers, folder)
    return {name: best(found) for name, found in runs.items()}


def best(runs):
    """The least time of each step, and the most bytes and memory."""
    windows = [min(each.windows[at] for each in runs) for at in range(WINDOWS)]
    return Measured(min(each.begin for each in runs), windows, min(each.mart for each in runs),
                    max(each.file for each in runs), max(each.log for each in runs), max(each.peak for each in runs))


def compare_tables(peers, data, folder):
    for peer in peers:
        peer.tables(data, fresh(folder / peer.name))
    for table in TABLES:
        is_same(table, peers, folder)


def show(found):
    """The times of each size, and how many times the others' ours are."""
    head(["customers", "who", "init s", *(f"window {n} s" for n in range(1, WINDOWS + 1)), "all s", "ours takes, times",
          "mart s", "file MB", "log MB", "ours has, times", "peak MB"])
    for size, by_name in found.items():
        ours = by_name["ours"]
        for name, each in by_name.items():
            loads, bytes_kept = sum(each.windows), each.file + each.log
            times = [f"{seconds:.3f}" for seconds in (*each.windows, loads)]
            sizes = [f"{count / 1e6:.1f}" for count in (each.file, each.log)]
            row([f"{size:,}", name, f"{each.begin:.3f}" if each.begin else "", *times,
                 f"{sum(ours.windows) / loads:.2f}", f"{each.mart:.3f}", *sizes,
                 f"{(ours.file + ours.log) / bytes_kept:.2f}", f"{each.peak / 1024:,.0f}"])


def arguments():
    parser = argparse.ArgumentParser(description=__doc__, formatter_class=argparse.RawDescriptionHelpFormatter)
    parser.add_argument("--program", type=pathlib.Path)
    parser.add_argument("--customers", default="2000,20000,200000")
    parser.add_argument("--repeat", type=int, default=3)
    parser.add_argument("--keep", type=pathlib.Path)
    return parser.parse_args()


def main():
    given = arguments()
    folder = (given.keep or pathlib.Path(tempfile.mkdtemp())).resolve()
    folder.mkdir(parents=True, exist_ok=True)
    folder.chmod(0o755)  # The server may be another user's.
    sizes = sorted(map(int, given.customers.split(",")))
    print(f"load average before: {os.getloadavg()[0]:.1f} on {os.cpu_count()} processors")
    with contextlib.ExitStack() as ending:
        peers = [Ours((given.program or built_program()).resolve()), OverSqlite()]
        if postgres.is_there():
            peers.append(OverPostgres(ending.enter_context(postgres.Server(folder / "server"))))
        else:
            print("PostgreSQL is absent here (Debian package postgresql), so it is left out")
        found = {size: measure(peers, make_data(folder, size), folder, given.repeat) for size in sizes}
        compare_tables(peers, make_data(folder, sizes[0]), folder)
    print(f"load average after: {os.getloadavg()[0]:.1f}")
    print(f"the marts of all sizes, and {len(TABLES)} tables of the smallest, are equal byte for byte\n")
    show(found)
    if not given.keep:
        shutil.rmtree(folder)


if __name__ == "__main__":
    main()
