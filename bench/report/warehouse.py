#!/usr/bin/env python3
"""Several vaults, each with record sources of its own and the same customers, over three servers of PostgreSQL as one
warehouse: seconds of each vault, and of queries over all of them.

Usage: python3 bench/report/warehouse.py [--program FILE] [--customers N] [--vaults N]

Each vault has one window of bench/kept/extracts.py, from a seed of its own. The servers are the run's own, on this machine.
Stops where the warehouse has not the rows of the vaults. PostgreSQL is the Debian package `postgresql`.
"""
import argparse
import csv
import datetime
import io
import os
import pathlib
import subprocess
import sys
import tempfile
import time

TOP = pathlib.Path(__file__).resolve().parent.parent.parent
for place in (TOP / "bench", TOP / "bench/kept", TOP / "bench/report", TOP / ".ci"):
    sys.path.insert(0, str(place))
sys.dont_write_bytecode = True
import extracts  # noqa: E402
from reports.servers import Servers  # noqa: E402
from run import PATH, TOOL  # noqa: E402
from runs import built_program, head, row, run  # noqa: E402

DATE = "2024-12-31T00:00:00"
QUERIES = {
    "customers, each once": "SELECT count(*) FROM everything.hub_customer",
    "in how many vaults each customer is": "SELECT n, count(*) FROM (SELECT count(*) AS n FROM everything.sat_customers "
                                           "GROUP BY hash_key) c GROUP BY n",
    "mart of the customers of all vaults": f"SELECT vault, count(*) FROM everything.mart_feed_customers('{DATE}') GROUP BY 1",
    "mart of the path of all vaults": f"SELECT vault, count(*) FROM everything.mart_path_sold('{DATE}') GROUP BY 1",
    "one customer in all vaults": "SELECT count(*) FROM everything.history_feed_customers WHERE \"CUST_NO\" = 'C00000001'",
}


def made_vault(program, folder, customers, number):
    """A vault with one window, and record sources of its own; the seconds of the load."""
    folder.mkdir()
    mapping = PATH + extracts.MAPPING
    for source in ("crm", "shop"):
        mapping = mapping.replace(f'source = "{source}"', f'source = "{source}_{number}"')
    (folder / "mapping.toml").write_text(mapping)
    extracts.write_window(folder, extracts.Source(customers, seed=100 + number), datetime.date(2024, 3, number))
    run([program, "init"], folder, os.devnull)
    return run([program, "load", "w1.toml"], folder, os.devnull)[0]


def handed_over(program, folder, servers, schema):
    """The seconds of the report of a vault over all servers but the first."""
    shards = [word for server in servers[1:] for word in ("--shards", server.connection())]
    ours = [sys.executable, TOOL, "postgres", "--database", servers[0].connection(), "--schema", schema, "--program", program, *shards]
    return run(list(map(str, ours)), folder, os.devnull)[0]


def asked(server, query):
    """The seconds of a query, and its rows."""
    begun = time.perf_counter()
    found = server.ask(query)
    return time.perf_counter() - begun, sorted(found.splitlines())


def is_of_the_vaults(program, server, vaults):
    """Stops where a mart of the warehouse has other rows than those of the vaults."""
    for word, mart in (("feed:customers", "mart_feed_customers"), ("path:sold", "mart_path_sold")):
        for schema, folder in vaults.items():
            said = subprocess.run([program, "mart", word, DATE], cwd=folder, capture_output=True, check=True).stdout.decode()
            header, *rows = csv.reader(io.StringIO(said, newline=""))
            columns = " || '|' || ".join(f'"{column}"' for column in header)
            found = asked(server, f"SELECT {columns} FROM everything.{mart}('{DATE}') WHERE vault = '{schema}'")[1]
            if found != sorted("|".join(each) for each in rows):
                raise SystemExit(f"{word} of {schema} is not that of the vault")


def main():
    parser = argparse.ArgumentParser(description=__doc__, formatter_class=argparse.RawDescriptionHelpFormatter)
    parser.add_argument("--program", type=pathlib.Path)
    parser.add_argument("--customers", type=int, default=200_000)
    parser.add_argument("--vaults", type=int, default=10)
    given = parser.parse_args()
    program = (given.program or built_program()).resolve()
    print(f"load average before: {os.getloadavg()[0]:.1f} on {os.cpu_count()} processors")
    with tempfile.TemporaryDirectory() as made, Servers() as started:
        servers, vaults = [started.server(number) for number in range(4)], {}
        if not servers[0]:
            raise SystemExit("PostgreSQL is not here")
        head(["vault", "load, s", "over three servers, s"])
        for number in range(1, given.vaults + 1):
            folder = vaults[f"shop{number}"] = pathlib.Path(made) / str(number)
            loaded = made_vault(program, folder, given.customers, number)
            row([str(number), f"{loaded:.1f}", f"{handed_over(program, folder, servers, f'shop{number}'):.1f}"])
        words = ["warehouse", "--database", servers[0].connection(), "--schema", "everything", *vaults]
        taken = run([sys.executable, str(TOOL), *words], made, os.devnull)[0]
        print(f"\nthe warehouse: {taken:.1f} s\n")
        head(["query", "s", "rows"])
        for name, query in QUERIES.items():
            seconds, rows = asked(servers[0], query)
            row([name, f"{seconds:.1f}", str(len(rows))])
        is_of_the_vaults(program, servers[0], vaults)
    print(f"load average after: {os.getloadavg()[0]:.1f}")


if __name__ == "__main__":
    main()
