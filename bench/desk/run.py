#!/usr/bin/env python3
"""Requests a second of the desk over a kept connection, against Python's http.server that has the replies in memory.

Usage: python3 bench/desk/run.py [--program FILE] [--before FILE] [--customers N] [--repeat N] [--keep FOLDER]

FILE, or what the environment's VAULTDESK names, is a built vaultdesk; where none is named, the script vaultdesk builds
the repository's. `--before` names another build, such as the release before, which serves a copy of the same vault. Loads
four windows of N customers, serves the vault, and prints of a list of windows, a mart and a small load the requests a
second, the median and the 99th percentile of their times, and the MB of replies a second, in the best of REPEAT rounds, in
which all servers are asked in turn. Then what a request in single bytes costs, and how much memory long bodies take.
"""
import argparse
import datetime
import itertools
import json
import os
import pathlib
import shutil
import statistics
import sys
import tempfile
import time
from typing import Callable, NamedTuple

HERE = pathlib.Path(__file__).resolve().parent
sys.path[1:1] = [str(HERE.parent), str(HERE.parent / "marts"), str(HERE.parent / "kept")]
import windows  # noqa: E402
from asking import Link, Server, get, post  # noqa: E402
from costs import show_long_bodies, show_single_bytes  # noqa: E402
from runs import built_program, head, row, run  # noqa: E402

WINDOWS = 4
MANIFESTS = [f"w{number}.toml" for number in range(1, WINDOWS + 1)]
LAST = datetime.datetime(2024, 3, WINDOWS, 2)
MART = f"/marts/feed:customers?at={LAST.isoformat()}"
# A small feed, since an extract has all that its source has.
NOTES = """
[[feed]]
name = "notes"
source = "desk"
hub = "customer"
keys = [["CUST_NO"]]
attrs = ["NOTE"]
"""
NOTED = 10  # records of a small load


class Asked(NamedTuple):
    """A kind of request: its name, how many make a round, and what makes the next one."""

    name: str
    count: int
    target: str
    request: Callable


def small_load(number):
    """The n-th window behind the last one: each has another note of one customer."""
    load = LAST + datetime.timedelta(minutes=number)
    records = "".join(f"C{at:08d},note {number if at == number % NOTED else 0}\n" for at in range(NOTED))
    extracts = [{"feed": "notes", "text": f"CUST_NO,NOTE\n{records}"}]
    return post(json.dumps({"load": load.isoformat(), "extracts": extracts}).encode())


def kinds():
    """What is asked. The list of windows comes first, since each load makes it longer."""
    loads = itertools.count(1)
    return (
        Asked("`GET /windows`", 4_000, "/windows", lambda: get("/windows")),
        Asked("`GET /marts/feed:customers`", 100, MART, lambda: get(MART)),
        Asked(f"`POST /windows` of {NOTED} records", 100, "/windows POST", lambda: small_load(next(loads))),
    )


def loaded(program, folder, customers):
    """A folder with the four windows and a vault of them."""
    if not folder.exists():
        windows.write(folder, customers, WINDOWS)
        with open(folder / "mapping.toml", "a") as mapping:
            mapping.write(NOTES)
        for words in (["init"], *(["load", manifest] for manifest in MANIFESTS)):
            run([program, *words], folder, os.devnull)
    return folder


def copied(vault, folder):
    """A folder with a copy of a vault, which may be changed."""
    folder.mkdir()
    for path in vault.glob("vault.db*"):
        shutil.copy(path, folder / path.name)
    return folder


def made_peer(folder, replies):
    """The peer with the desk's replies, by their targets."""
    folder.mkdir()
    for number, reply in enumerate(replies.values()):
        (folder / str(number)).write_bytes(reply)
    (folder / "replies.json").write_text(json.dumps({target: str(number) for number, target in enumerate(replies)}))
    return Server("http.server", folder, lambda port: [sys.executable, HERE / "peer.py", str(port), str(folder)])


def replies_of(desk, all_kinds):
    """The desk's reply to each kind. The first small load adds more rows than those behind it, and the list of windows has
    those loads."""
    link = Link(desk)
    found = {asked.target: [link.reply(asked.request()) for _ in range(2)][1] for asked in reversed(all_kinds)}
    link.close()
    for target, reply in found.items():
        if not reply.startswith(b"HTTP/1.1 200 OK\r\n") or target.endswith("POST") and b"Loaded" not in reply:
            raise SystemExit(f"{target}: {reply[:400]}")
    return found


def timed(server, asked):
    """The seconds of each request of a round, and the bytes of its replies."""
    requests = [asked.request() for _ in range(asked.count)]
    link, taken, size = Link(server), [], 0
    for request in requests:
        begun = time.perf_counter()
        size += link.ask(request)
        taken.append(time.perf_counter() - begun)
    link.close()
    return taken, size


def best_rounds(servers, asked, repeat):
    """The best round of each server, where they are asked in turn."""
    found = {server.name: [] for server in servers}
    for _ in range(repeat):
        for server in servers:
            found[server.name].append(timed(server, asked))
    return {name: min(rounds, key=lambda one: sum(one[0])) for name, rounds in found.items()}


def show_rates(asked, found):
    ours = statistics.median(found["ours"][0])
    for name, (taken, size) in found.items():
        seconds, middle, late = sum(taken), statistics.median(taken), statistics.quantiles(taken, n=100)[98]
        row([asked.name, f"{size // len(taken):,}", name, f"{len(taken) / seconds:,.0f}", f"{middle * 1e3:.3f}",
             f"{late * 1e3:.3f}", f"{size / 1e6 / seconds:.1f}", f"{ours / middle:.2f}"])


def made_desk(name, program, vault, folder):
    """A desk over a copy of the vault."""
    return Server(name, copied(vault, folder / name), lambda port: [program, "serve", str(port)])


def compare_rates(programs, vault, folder, repeat):
    """Serves a copy of the vault by each program, and asks these and the peer."""
    all_kinds = kinds()
    desks = [made_desk(name, program, vault, folder) for name, program in programs.items()]
    replies = [replies_of(desk, all_kinds) for desk in desks]
    if any(reply[MART] != replies[0][MART] for reply in replies):
        raise SystemExit("the marts of the programs differ")
    servers = [*desks, made_peer(folder / "peer", replies[0])]
    head(["asked", "bytes of a reply", "who", "requests a second", "median, ms", "99th percentile, ms", "MB/s",
          "ours takes, times"])
    for asked in all_kinds:
        show_rates(asked, best_rounds(servers, asked, repeat))
    for server in servers:
        server.end()


def arguments():
    parser = argparse.ArgumentParser(description=__doc__, formatter_class=argparse.RawDescriptionHelpFormatter)
    parser.add_argument("--program", type=pathlib.Path, default=os.environ.get("VAULTDESK"))
    parser.add_argument("--before", type=pathlib.Path)
    parser.add_argument("--customers", type=int, default=20_000)
    parser.add_argument("--repeat", type=int, default=3)
    parser.add_argument("--keep", type=pathlib.Path)
    return parser.parse_args()


def main():
    given = arguments()
    program = pathlib.Path(given.program).resolve() if given.program else built_program()
    programs = {"ours": program} | ({"before": given.before.resolve()} if given.before else {})
    with tempfile.TemporaryDirectory() as made:
        made = pathlib.Path(made)
        (given.keep or made).mkdir(parents=True, exist_ok=True)
        vault = loaded(program, (given.keep or made) / f"customers_{given.customers}", given.customers)
        compare_rates(programs, vault, made, given.repeat)
        print()
        show_single_bytes(program, copied(vault, made / "pieces"))
        print()
        show_long_bodies(program, vault, lambda name: copied(vault, made / name))


main()
