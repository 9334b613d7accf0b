#!/usr/bin/env python3
"""Seconds and MB a second of marts, point-in-time tables and bridges over a kept vault, against PostgreSQL 15.

Usage: python3 bench/marts/run.py [--program FILE] [--before FILE] [--sizes N,N,..] [--only hub|paths] [--repeat N]
                                  [--keep FOLDER] [--desk] [--peers-only]

FILE, or what the environment's VAULTDESK names, is a built vaultdesk; where none is named, the script vaultdesk builds
the repository's. Of each subject, a hub and paths, loads four windows of each size once with each, asks each query and an
empty one REPEAT times in turn, compares what is answered, and prints the best times. At the smallest size every query is
also asked at the date of each window, and compared with what the extracts themselves say (`model.py`, `path_model.py`).
`--before` names another build, such as the release before, which is asked in the same turns. With `--desk` marts alone are
asked, and ours of a desk, which has read the vault before. `--peers-only` leaves the program out.
"""
import argparse
import contextlib
import os
import pathlib
import shutil
import sys
import tempfile
import time
from typing import NamedTuple

HERE = pathlib.Path(__file__).resolve().parent
sys.path[1:1] = [str(HERE.parent), str(HERE.parent / "kept"), str(HERE.parent / "desk")]
import postgres  # noqa: E402
from asking import Link, Server, get  # noqa: E402
from runs import built_program, head, row, run  # noqa: E402
from subjects import SUBJECTS  # noqa: E402

WINDOWS = 4
MANIFESTS = [f"w{number}.toml" for number in range(1, WINDOWS + 1)]
DATES = [f"2024-03-{number:02d}T02:00:00" for number in range(1, WINDOWS + 1)]


class Asked(NamedTuple):
    """The best seconds of a query and of an empty one in the same turns, the bytes of its text, and how many rows that has."""

    seconds: float
    empty: float
    size: int
    rows: int

    def beyond(self):
        return self.seconds - self.empty


class Ours:
    """A process for each query, which reads and checks the whole of vault.db first."""

    def __init__(self, program, name="ours"):
        self.program, self.name = pathlib.Path(program).resolve(), name

    def load(self, subject, data, out):
        """Keeps the vault as the windows leave it, since a snapshot is stored once."""
        (out / "loaded").mkdir()
        for path in data.iterdir():
            (out / "loaded" / path.name).symlink_to(path)
        for words in (["init"], *(["load", manifest] for manifest in MANIFESTS)):
            said = run([self.program, *words], out / "loaded", os.devnull)[3]
            if words[0] == "load" and " Loaded " not in said[-1]:
                raise SystemExit(f"load: {said}")

    def ask(self, subject, query, date, out, text):
        if query == "snapshot":
            for path in out.glob("vault.db*"):
                path.unlink()
            for path in (out / "loaded").glob("vault.db*"):
                shutil.copy(path, out / path.name)
        folder = out if query in ("snapshot", *subject.stored) else out / "loaded"
        dated = [] if query == "nothing" else [date]
        return run([self.program, *subject.words[query], *dated], folder, text)[0]


class AtDesk(Ours):
    """A desk, which reads and checks vault.db once: a request for each mart."""

    desk = None

    def load(self, subject, data, out):
        self.end()
        super().load(subject, data, out)
        self.desk = Server(self.name, out / "loaded", lambda port: [self.program, "serve", str(port)])

    def ask(self, subject, query, date, out, text):
        link = Link(self.desk)
        target = "/windows" if query == "nothing" else f"/marts/{subject.words[query][1]}?at={date}"
        begun = time.perf_counter()
        size = link.ask(get(target))
        taken = time.perf_counter() - begun
        head, _, body = bytes(link.room[:size]).partition(b"\r\n\r\n")
        link.close()
        if not head.startswith(b"HTTP/1.1 200 "):
            raise SystemExit(f"{target}: {head}")
        text.write_bytes(body)
        return taken

    def end(self):
        if self.desk:
            self.desk.end()


class OverPostgres:
    """A process of psql for each query, over a server that runs already."""

    name = "postgres"

    def __init__(self, server):
        self.server = server

    def load(self, subject, data, out):
        self.server.scripts = subject.scripts
        self.server.new_vault()
        for manifest in MANIFESTS:
            run(self.server.load_command(data, manifest), out, os.devnull)
        self.server.ask("vault", "VACUUM ANALYZE")

    def ask(self, subject, query, date, out, text):
        if query == "nothing":
            return run([*self.server.psql, "-d", "vault", "-c", "SELECT"], out, os.devnull)[0]
        return run(self.server.mart_command(date, f"postgres_{query}.sql"), out, text)[0]


def text_of(peer, query, folder):
    return folder / peer.name / f"{query}.csv"


def compared(peers, query, folder, date):
    """Stops where a text of a peer is not that of the first one, byte for byte."""
    texts = [text_of(peer, query, folder).read_bytes() for peer in peers]
    for peer, text in zip(peers, texts):
        if text != texts[0]:
            raise SystemExit(f"{query} at {date} of {peer.name} is not that of {peers[0].name}: see {folder}")
    return texts[0]


def has_text(query):
    return query not in ("nothing", "snapshot")


def best_times(subject, peers, query, folder, repeat):
    """The best seconds of a query at the last date and of an empty one by each peer, where both and all are asked in turn."""
    times = {peer.name: ([], []) for peer in peers}
    for _ in range(repeat):
        for peer in peers:
            for asked, taken in zip((query, "nothing"), times[peer.name]):
                taken.append(peer.ask(subject, asked, DATES[-1], folder / peer.name, text_of(peer, asked, folder)))
    return {name: tuple(map(min, taken)) for name, taken in times.items()}


def measure(subject, peers, queries, data, folder, repeat):
    """What is found of each query at the last date."""
    for peer in peers:
        out = folder / peer.name
        shutil.rmtree(out, ignore_errors=True)
        out.mkdir()
        peer.load(subject, data, out)
    found = {peer.name: {} for peer in peers}
    for query in queries:
        best = best_times(subject, peers, query, folder, repeat)
        text = compared(peers, query, folder, DATES[-1]) if has_text(query) else b""
        for name, seconds in best.items():
            found[name][query] = Asked(*seconds, len(text), text.count(b"\n") - 1)
    for asked in found.values() if "snapshot" in queries else ():
        # what a snapshot stores is what is read of it then
        stored = [asked[query] for query in subject.stored]
        asked["snapshot"] = asked["snapshot"]._replace(size=sum(one.size for one in stored), rows=sum(one.rows for one in stored))
    return found


def compare_dates(subject, peers, queries, data, folder):
    """At the date of each window, and at one before all and one between two, each answer is what the extracts say."""
    model = subject.model(data, MANIFESTS)
    dates = ["2024-02-29T00:00:00", *DATES, "2024-03-02T12:00:00"]
    for date in dates:
        for query in queries:
            # a snapshot is stored at the date of a sealed window or behind one, and never before the first
            if date < DATES[0] and query in ("snapshot", *subject.stored):
                continue
            for peer in peers:
                peer.ask(subject, query, date, folder / peer.name, text_of(peer, query, folder))
            if has_text(query) and compared(peers, query, folder, date) != model.told(query, date):
                raise SystemExit(f"{query} at {date} is not what the extracts say: see {folder}")
    return len(dates)


def show(subject, found):
    """The seconds of each query, those beyond an empty one, and the MB of text a second."""
    head([subject.unit, "asked", "rows", "MB", "who", "s", "s beyond an empty query", "MB/s", "MB/s beyond it", "ours takes, times", "growth a row"])
    sizes = sorted(found)
    for at, size in enumerate(sizes):
        for query in next(iter(found[size].values())):
            for name, asked in found[size].items():
                one = asked[query]
                before = found[sizes[at - 1]][name][query] if at else None
                row([f"{size:,}", subject.shown[query], f"{one.rows:,}", f"{one.size / 1e6:.2f}", name, f"{one.seconds:.3f}", f"{one.beyond():.3f}",
                     f"{one.size / 1e6 / one.seconds:.1f}", f"{rate(one.size, one.beyond())}", times(found[size], query, one), growth(one, before)])


def rate(size, seconds):
    return f"{size / 1e6 / seconds:.1f}" if seconds > 0.001 else ""


def times(by_name, query, one):
    return f"{by_name['ours'][query].seconds / one.seconds:.2f}" if "ours" in by_name else ""


def growth(one, before):
    """How many times the seconds a row are those of the size before."""
    return f"{one.seconds / one.rows / (before.seconds / before.rows):.2f}" if before else ""


def show_empty(subject, found):
    print()
    head([subject.unit, "who", "empty query, s"])
    for size, by_name in sorted(found.items()):
        for name, asked in by_name.items():
            row([f"{size:,}", name, f"{min(one.empty for one in asked.values()):.3f}"])
    print()


def arguments():
    parser = argparse.ArgumentParser(description=__doc__, formatter_class=argparse.RawDescriptionHelpFormatter)
    parser.add_argument("--program", type=pathlib.Path, default=os.environ.get("VAULTDESK"))
    parser.add_argument("--before", type=pathlib.Path)
    parser.add_argument("--sizes", default="20000,200000")
    parser.add_argument("--only", choices=SUBJECTS)
    parser.add_argument("--repeat", type=int, default=3)
    parser.add_argument("--keep", type=pathlib.Path)
    parser.add_argument("--desk", action="store_true")
    parser.add_argument("--peers-only", action="store_true")
    return parser.parse_args()


def make_data(subject, folder, size):
    data = folder / f"{subject.unit}_{size}"
    if not data.exists():
        subject.write(data, size, WINDOWS)
    return data


def builds(given):
    """The program, and another build of it where one is named."""
    if given.peers_only:
        return []
    kind = AtDesk if given.desk else Ours
    ours = [kind(given.program or built_program())]
    return [*ours, kind(given.before, "before")] if given.before else ours


def measure_all(subject, peers, queries, folder, sizes, repeat):
    """What was found at each size, and at how many dates the answers were compared with the extracts."""
    found, dates = {}, 0
    for size in sizes:
        data = make_data(subject, folder, size)
        found[size] = measure(subject, peers, queries, data, folder, repeat)
        if size == sizes[0]:
            dates = compare_dates(subject, peers, queries, data, folder)
    return found, dates


def main():
    given = arguments()
    folder = (given.keep or pathlib.Path(tempfile.mkdtemp())).resolve()
    folder.mkdir(parents=True, exist_ok=True)
    folder.chmod(0o755)  # The server may be another user's.
    sizes = sorted(map(int, given.sizes.split(",")))
    subjects = [SUBJECTS[given.only]] if given.only else SUBJECTS.values()
    print(f"load average before: {os.getloadavg()[0]:.1f} on {os.cpu_count()} processors")
    with contextlib.ExitStack() as ending:
        peers = builds(given)
        for peer in peers if given.desk else ():
            ending.callback(peer.end)
        if postgres.is_there():
            peers.append(OverPostgres(ending.enter_context(postgres.Server(folder / "server", HERE))))
        else:
            print("PostgreSQL is absent here (Debian package postgresql), so it is left out")
        for subject in subjects:
            queries = subject.marts() if given.desk else list(subject.shown)
            found, dates = measure_all(subject, peers, queries, folder, sizes, given.repeat)
            print(f"load average after: {os.getloadavg()[0]:.1f}")
            print(f"all texts are equal byte for byte; at {sizes[0]:,} {subject.unit} also those at {dates} dates, and to what the extracts say\n")
            show(subject, found)
            show_empty(subject, found)
    if not given.keep:
        shutil.rmtree(folder)


if __name__ == "__main__":
    main()
