"""Checks of reports over several servers, and of several reports as one warehouse."""
import csv
import io

from kept import worlds
from kept.program import CheckFailed, expect
from reports.bench import Target

SHARDS = (1, 2, 3)


class Spread(Target):
    """A report over three servers, of which the first one asks."""

    def __init__(self, place, servers):
        super().__init__("postgres", place, servers[0])
        self.others = servers[1:]

    def words(self):
        shards = [word for server in self.others for word in ("--shards", server.connection())]
        return (*super().words(), *shards)


def spread_target(bench, name):
    """A new report over three servers; none where PostgreSQL is not here."""
    if not bench.servers.server():
        return None
    return Spread(f"{bench.folder.name} {name}", [bench.servers.server(number) for number in (0, *SHARDS)])


def over_three_servers(bench):
    """a report over three servers is equal, what one hash key has is on one server, and marts are worked out there"""
    if not (target := spread_target(bench, "spread")):
        return
    vault = bench.kept_example("orders", "w1.toml", "w2.toml", "w3.toml")
    vault.run("snapshot", "2024-04-01T02:00:00")
    for _ in range(2):
        bench.done(vault, *target.words())
        bench.is_equal(vault, target)
    counts = [[int(server.ask(f'SELECT count(*) FROM "{target.place}#2".{table}')) for server in target.others]
              for table in ("hub_customer", "sat_customers", "status_customers", "link_contains")]
    for table, parts in zip((b"hub_customer", b"sat_customers", b"status_customers", b"link_contains"), counts):
        expect(f"rows of {table}", vault.text("table", table.decode()).count(b"\n") - 1, sum(parts))
    expect("whether keys are on more than one server", True, sum(part > 0 for part in counts[0]) > 1)
    for server in target.others:
        apart = server.ask(f'SELECT count(*) FROM "{target.place}#2".sat_customers s LEFT JOIN "{target.place}#2".hub_customer h '
                           "USING (hash_key) WHERE h.hash_key IS NULL")
        expect("satellite rows without their hub row", "0", apart)
    is_worked_out_there(target)


def is_worked_out_there(target):
    """Fails where the first server is sent more than the rows of marts, of feeds of hubs and of links, of hubs and of paths: it
    filters nothing, and joins nothing but what the feeds of a path have."""
    at = "WHERE \"begin\" <= '2024-04-15' AND '2024-04-15' < \"end\""
    for relation, condition, parts in (("history_feed_customers", at, 1), ("history_feed_lines", at, 1), ("mart_feed_lines", "", 1),
                                       ("history_hub_customer", at, 1), ("mart_path_sold", "", 2)):
        plan = target.server.ask(f'EXPLAIN (VERBOSE, COSTS OFF) SELECT * FROM "{target.place}".{relation} {condition}').splitlines()
        remote = [line for line in plan if "Remote SQL" in line]
        expect(f"remote queries of {relation}", parts * len(SHARDS), len(remote))
        dated = [line for line in remote if '"end"' in line.partition(" WHERE ")[2]]
        expect(f"remote queries of {relation} with the date", remote, dated)
        expect(f"filters of {relation} on the first server", [], [line for line in plan if line.strip().startswith("Filter:")])


def random_vaults_over_servers(bench):
    """random vaults over three servers are equal"""
    for seed in range(20, 40 if bench.is_all else 21):
        if target := spread_target(bench, f"world {seed}"):
            vault = bench.world(seed)
            vault.run("snapshot", worlds.DATES[3])
            bench.done(vault, *target.words())
            bench.is_equal(vault, target)


def server_is_down(bench):
    """where one of the servers is down a run says so in a line with status 6, and the report stays"""
    if not (target := spread_target(bench, "down")):
        return
    vault = bench.kept_example("first", "w1.toml")
    words = target.words()
    bench.done(vault, *words)
    absent = [*words[:-1], "host=/nonexistent user=postgres"]
    got = bench.tool(vault, *absent, "--schema", f"{target.place} other")
    expect("status and lines", (6, 1), (got.status, got.err.count(b"\n")))
    bench.is_equal(vault, target)
    got = bench.tool(vault, *absent)
    expect("status of other servers under the same schema", 1, got.status)
    bench.is_equal(vault, target)


MAPPING = """
hub = [{ name = "customer", parts = 1 }]
[[feed]]
name = "customers"
source = "shop_%d"
hub = "customer"
keys = [["CUST_NO"]]
attrs = ["NAME"]
"""


def one_of_several(bench, number):
    """A vault of one of several shops, which share some customers. The later its number, the earlier its window."""
    rows = "".join(f"c{key},{'name ' + str(number)}\n" for key in range(number, number + 5))
    date = f"2024-03-{20 - number:02}T02:00:00"
    return bench.mapped(MAPPING % number, (date, {"customers": "CUST_NO,NAME\n" + rows}))


def one_warehouse(bench):
    """several vaults, each of a source, are one warehouse: a key that several have is one row of the hub"""
    if not bench.servers.server():
        return
    count = 10 if bench.is_all else 3
    vaults = [one_of_several(bench, number) for number in range(1, count + 1)]
    targets = [spread_target(bench, f"shop {number}") for number in range(1, count + 1)]
    expected, first = set(), {}
    for number, (vault, target) in enumerate(zip(vaults, targets), 1):
        bench.done(vault, *target.words())
        text = vault.text("mart", "feed:customers", "2024-12-31T00:00:00").decode()
        for row in list(csv.reader(io.StringIO(text)))[1:]:
            expected.add((target.place, *row))
            first[row[0]] = f"shop_{number}.customers"  # A later number has an earlier window.
    server, name = targets[0].server, f"{bench.folder.name} warehouse"
    words = ("warehouse", "--database", server.connection(), "--schema", name, *(target.place for target in targets))
    for _ in range(2):
        bench.done(vaults[0], *words)
        rows = server.ask(f"SELECT vault, \"CUST_NO\", \"NAME\" FROM \"{name}\".mart_feed_customers('2024-12-31')").splitlines()
        expect("the mart of all", expected, {tuple(row.split("|")) for row in rows})
    hub = dict(row.split("|") for row in server.ask(f'SELECT part_1, record_source FROM "{name}".hub_customer').splitlines())
    expect("the hub of all", first, hub)
    known = server.ask(f'SELECT count(*) FROM (SELECT hash_key FROM "{name}".sat_customers GROUP BY 1 HAVING count(*) > 2) s')
    expect("customers of three shops or more", str(sum(sum(key == row[1] for row in expected) > 2 for key in first)), known)
    got = bench.tool(vaults[0], *words[:5], "nothing")
    if got.status != 4:
        raise CheckFailed(f"an unknown schema: {got}")


CHECKS = (over_three_servers, random_vaults_over_servers, server_is_down, one_warehouse)
