#!/usr/bin/env python3
"""Seconds in which tools/vaultdesk-report hands a vault over to SQLite and to PostgreSQL, beside peers that bring the same
rows without a vault: `.import` of the shell sqlite3 and `\\copy` of psql, of the CSV files that `table` has written.

Usage: python3 bench/report/run.py [--program FILE] [--customers N] [--repeat N] [--servers]

The vault has four windows of bench/kept/extracts.py. The peers make the same tables with the same primary keys, and nothing
else. --servers also spreads the rows over three servers, and times marts on one server and on three. PostgreSQL is the Debian
package `postgresql`; where it is absent it is left out.
"""
import argparse
import os
import pathlib
import sys
import tempfile
import time

TOP = pathlib.Path(__file__).resolve().parent.parent.parent
for folder in (TOP / "bench", TOP / "bench/kept", TOP / "tools", TOP / ".ci"):
    sys.path.insert(0, str(folder))
sys.dont_write_bytecode = True
import extracts  # noqa: E402
from report.mapping import read_mapping  # noqa: E402
from report.names import quoted  # noqa: E402
from reports.servers import Servers  # noqa: E402
from runs import built_program, head, row, run  # noqa: E402

TOOL = TOP / "tools/vaultdesk-report"
DATE = "2024-03-03T02:00:00"
MARTS = ("feed_customers", "hub_customer", "feed_lines", "path_sold")
PATH = 'path = [{ name = "sold", feeds = ["placements", "lines"], via = ["sales_order"] }]\n'


def made_vault(program, folder, customers):
    """A vault with four windows, and its tables as CSV."""
    extracts.write(folder, customers, 4)
    (folder / "mapping.toml").write_text(PATH + extracts.MAPPING)
    run([program, "init"], folder, os.devnull)
    for number in range(1, 5):
        run([program, "load", f"w{number}.toml"], folder, os.devnull)
    mapping = read_mapping(folder)
    for table in mapping.tables():
        run([program, "table", table.name], folder, folder / f"{table.name}.csv")
    return list(mapping.tables())


def created(table, kind):
    columns = ", ".join(f"{quoted(column)} {kind} NOT NULL" for column in table.columns)
    return f"CREATE TABLE {quoted(table.name)} ({columns}, PRIMARY KEY ({', '.join(map(quoted, table.key))}))"


def over_sqlite(program, folder, tables):
    """The commands of the report and of the peer, which writes a file of its own."""
    script = "PRAGMA synchronous = OFF;\nBEGIN;\n" + "".join(f"{created(each, 'TEXT')};\n" for each in tables)
    script += ".mode csv\n" + "".join(f".import --skip 1 {each.name}.csv {each.name}\n" for each in tables) + "COMMIT;\n"
    (folder / "import.sql").write_text(script)
    ours = [sys.executable, TOOL, "sqlite", "--out", "report.db", "--program", program]
    return ours, ["sh", "-c", "rm -f peer.db; sqlite3 peer.db < import.sql"]


def over_postgres(program, folder, tables, server):
    """The same of PostgreSQL."""
    kind = 'text COLLATE "C"'
    script = "DROP SCHEMA IF EXISTS peer CASCADE; CREATE SCHEMA peer; SET search_path TO peer;\nBEGIN;\n"
    script += "".join(f"{created(each, kind)};\n" for each in tables)
    for each in tables:
        free = f", FORCE_NOT_NULL ({', '.join(map(quoted, each.columns))})"
        script += f"\\copy {each.name} FROM '{each.name}.csv' (FORMAT csv, HEADER{free})\n"
    (folder / "copy.sql").write_text(script + "COMMIT;\n")
    ours = [sys.executable, TOOL, "postgres", "--database", server.connection(), "--schema", "one", "--program", program]
    return ours, ["psql", "-X", "-q", "-v", "ON_ERROR_STOP=1", "-d", server.connection(), "-f", "copy.sql"]


def best(command, folder, repeat, before=lambda: None):
    """The least seconds of some runs, and the least of a processor, without those of a server."""
    found = []
    for _ in range(repeat):
        before()
        found.append(run(list(map(str, command)), folder, os.devnull)[:2])
    return tuple(map(min, zip(*found)))


def dropped(server, others=()):
    """Takes the reports of this run away, so that the next one writes a new one."""
    def drop():
        server.ask('DROP SCHEMA IF EXISTS one CASCADE; DROP SCHEMA IF EXISTS spread CASCADE')
        for number in range(1, 1 + len(others)):
            server.ask(f'DROP SERVER IF EXISTS "spread#{number}" CASCADE')
        for other in others:
            other.ask('DROP SCHEMA IF EXISTS "spread#1" CASCADE')
    return drop


def mart_seconds(server, schema, mart, repeat):
    """The least seconds of all rows of a mart at a date."""
    seconds = []
    for _ in range(repeat):
        begun = time.perf_counter()
        server.ask(f"SELECT count(*), md5(string_agg(m::text, '' ORDER BY m::text)) FROM {schema}.mart_{mart}('{DATE}') m")
        seconds.append(time.perf_counter() - begun)
    return min(seconds)


def spread(program, folder, servers, repeat):
    """Hands the vault over to three servers, and times marts on one server and on three."""
    first, *others = (servers.server(number) for number in range(4))
    shards = [word for other in others for word in ("--shards", other.connection())]
    ours = [sys.executable, TOOL, "postgres", "--database", first.connection(), "--schema", "spread", "--program", program, *shards]
    taken, _ = best(ours, folder, 1, dropped(first, others))
    alone = [sys.executable, TOOL, "postgres", "--database", first.connection(), "--schema", "one", "--program", program]
    run(alone, folder, os.devnull)
    print(f"\nover three servers: {taken:.1f} s\n")
    head(["mart", "one server, s", "three servers, s"])
    for mart in MARTS:
        row([mart, *(f"{mart_seconds(first, schema, mart, repeat):.2f}" for schema in ("one", "spread"))])


def main():
    parser = argparse.ArgumentParser(description=__doc__, formatter_class=argparse.RawDescriptionHelpFormatter)
    parser.add_argument("--program", type=pathlib.Path)
    parser.add_argument("--customers", type=int, default=200_000)
    parser.add_argument("--repeat", type=int, default=3)
    parser.add_argument("--servers", action="store_true")
    given = parser.parse_args()
    program = (given.program or built_program()).resolve()
    print(f"load average before: {os.getloadavg()[0]:.1f} on {os.cpu_count()} processors")
    with tempfile.TemporaryDirectory() as made, Servers() as servers:
        folder = pathlib.Path(made) / "vault"
        tables = made_vault(program, folder, given.customers)
        found = {"SQLite": [best(each, folder, given.repeat) for each in over_sqlite(program, folder, tables)]}
        if server := servers.server():
            ours, peer = over_postgres(program, folder, tables, server)
            found["PostgreSQL"] = [best(ours, folder, given.repeat, dropped(server)), best(peer, folder, given.repeat)]
        head(["customers", "to", "vaultdesk-report, s", "of a processor, without the server", "the rows alone by import or copy, s",
              "of a processor, without the server", "times"])
        for name, ((ours, ours_busy), (peer, peer_busy)) in found.items():
            row([f"{given.customers:,}", name, f"{ours:.1f}", f"{ours_busy:.1f}", f"{peer:.1f}", f"{peer_busy:.1f}",
                 f"{ours / peer:.1f}"])
        if given.servers and server:
            spread(program, folder, servers, given.repeat)
    print(f"load average after: {os.getloadavg()[0]:.1f}")


if __name__ == "__main__":
    main()
