"""Checks of what is refused: names that a database cannot take, another mapping, what is not there, a vault that another
process has, a full disk. Each time a line and a status, and nothing is changed."""
import contextlib
import hashlib
import sqlite3

from kept.program import CheckFailed, expect, with_limits
from kept.stores import change
from reports.bench import without_server
from reports.servers import Server

LONG = "x" * 64
HUB = 'hub = [{ name = "customer", parts = 1 }]\n'
FEED = HUB + '[[feed]]\nname = "customers"\nsource = "crm"\nhub = "customer"\nkeys = [["CUST_NO"]]\nattrs = ["%s"]\n'
DATE = "2024-03-01T02:00:00"


def attribute(bench, names):
    """A vault of one feed with attributes."""
    header = ",".join(["CUST_NO", *names])
    values = ",".join(["c1", *("v" * len(names))])
    return bench.mapped(FEED % '", "'.join(names), (DATE, {"customers": f"{header}\n{values}\n"}))


def refused(*faults):
    """The lines of names that cannot be taken."""
    return "".join(f"vaultdesk-report: {line}\n" for line in (*faults, f"{len(faults)} of the names cannot be taken"))



def names_of_sqlite(bench):
    """names that differ in the letters' size alone are refused for SQLite with a list, and PostgreSQL takes them"""
    vault = attribute(bench, ["Name", "NAME"])
    said = "the columns {0} and {1} have one name up to the letters' size"
    faults = [f"{table}: {said.format(*names)}" for table, names in (
        *((name, ("Name", "NAME")) for name in ("sat_customers", "rows_customers", "history_feed_customers")),
        ("history_hub_customer", ("customers.Name", "customers.NAME")), ("mart_feed_customers", ("Name", "NAME")),
        ("mart_hub_customer", ("customers.Name", "customers.NAME")))]
    for target in bench.targets():
        if target.kind == "sqlite":
            bench.says(vault, target.words(), 1, refused(*faults))
            expect("whether a file is there", False, target.place.exists())
        else:
            bench.done(vault, *target.words())
            bench.is_equal(vault, target)


def names_of_postgres(bench):
    """names that PostgreSQL cannot take are refused with a list: longer than 63 bytes, or those of its own columns"""
    for target in bench.targets():
        if target.kind == "sqlite":
            continue
        vault = attribute(bench, [LONG])
        long = "the column {} has %s bytes, where PostgreSQL takes 63"
        places = {"sat_customers": LONG, "rows_customers": LONG, "history_feed_customers": LONG, "history_hub_customer": f"customers.{LONG}",
                  "mart_feed_customers": LONG, "mart_hub_customer": f"customers.{LONG}"}
        faults = [f"{table}: {long.format(name) % len(name)}" for table, name in places.items()]
        bench.says(vault, target.words(), 1, refused(*faults))
        vault = attribute(bench, ["ctid"])
        bench.says(vault, target.words(), 1, refused("sat_customers: the column ctid has a name that PostgreSQL keeps for itself"))


def names_twice(bench):
    """an attribute called as a column that each raw table has is refused with a list"""
    vault = attribute(bench, ["load_date"])
    for target in bench.targets():
        bench.says(vault, target.words(), 1, refused("sat_customers: the columns load_date and load_date have one name"))


def zero_bytes(bench):
    """a text with a zero byte goes to SQLite, and is refused for PostgreSQL"""
    vault = bench.mapped(FEED % "NAME", (DATE, {"customers": "CUST_NO,NAME\nc1,a\0b\n"}))
    for target in bench.targets():
        if target.kind == "sqlite":
            bench.done(vault, *target.words())
            bench.is_equal(vault, target)
        else:
            bench.says(vault, target.words(), 1,
                       "vaultdesk-report: sat_customers: a text has a zero byte, which PostgreSQL does not take\n")
            expect("the schema", "f", target.server.ask(f"SELECT to_regnamespace('\"{target.place}\"') IS NOT NULL"))


def vault_not_there(bench):
    """a folder without a vault, one without a stored mapping, and another mapping than the stored one"""
    empty, other = bench.empty(), attribute(bench, ["NAME"])
    empty.write("mapping.toml", FEED % "NAME")
    other.write("mapping.toml", (FEED % "NAME").replace("crm", "erp"))
    halfway = attribute(bench, ["NAME"])
    halfway.without_store()
    halfway.write("vault.db", "")
    differs = "vaultdesk-report: mapping.toml is not the mapping that the vault has stored\n"
    for target in bench.targets():
        bench.says(empty, target.words(), 3, "vaultdesk-report: vaultdesk: mapping none\n")
        bench.says(halfway, target.words(), 3, "vaultdesk-report: vaultdesk: mapping none\n")
        bench.says(other, target.words(), 3, differs)
        expect("files of a folder without a vault", {"mapping.toml"}, {path.name for path in empty.folder.iterdir()})
        empty.file("mapping.toml").unlink()
        bench.says(empty, target.words(), 4, "vaultdesk-report: mapping.toml: No such file or directory\n")
        empty.write("mapping.toml", FEED % "NAME")


def busy_vault(bench):
    """a vault that another process has: the program's line and its status 5, and the report stays"""
    vault = bench.kept_example("orders", "w1.toml")
    for target in bench.targets():
        bench.done(vault, *target.words())
        before = contents(target)
        with contextlib.closing(sqlite3.connect(vault.file("vault.db"))) as other:
            other.execute("SELECT count(*) FROM sqlite_schema").fetchone()
            other.execute("BEGIN IMMEDIATE")
            for words in (target.words(), (*target.words(), "--since", DATE), target.compare_words()):
                bench.says(vault, words, 5, "vaultdesk-report: vaultdesk: keeper fault\n")
        expect("the report", before, contents(target))
        bench.is_equal(vault, target)


def contents(target):
    """What tells a report from another."""
    if target.kind == "sqlite":
        if not target.place.exists():
            return ""
        with contextlib.closing(sqlite3.connect(target.place)) as database:
            return hashlib.sha256("\n".join(database.iterdump()).encode()).hexdigest()
    names = target.server.ask(
        f"SELECT string_agg(format('SELECT %L, md5(t::text) FROM %I.%I t', relname, '{target.place}', relname), ' UNION ALL ' "
        f"ORDER BY relname) FROM pg_class WHERE relkind = 'r' AND relnamespace = to_regnamespace('\"{target.place}\"')")
    return target.server.ask(f"SELECT * FROM ({names}) s ORDER BY 1, 2") if names else ""


def damaged_vault(bench):
    """a damaged vault: the program's line and its status 8"""
    vault = bench.kept_example("first", "w1.toml")
    change(vault, "UPDATE rows_of_hub_0 SET part_1 = part_1 || part_1 WHERE number = 1")
    for target in bench.targets():
        got = bench.tool(vault, *target.words())
        expect("status", 8, got.status)
        expect("line", True, got.err.startswith(b"vaultdesk-report: vaultdesk: damaged "))


def reports_not_there(bench):
    """no server, an unknown schema, one that is no report, a file that is none: a line and a status"""
    vault = bench.kept_example("first", "w1.toml")
    for words in (("postgres",), ("compare",), ("postgres", "--since", DATE)):
        got = bench.tool(vault, *words, env=without_server())
        expect(f"{words}: status", 6, got.status)
        one_line(words, got)
    for target in bench.targets():
        if target.kind == "postgres":
            said = f"vaultdesk-report: there is no report in a schema {target.place}"
            bench.says(vault, target.compare_words(), 4, f"{said}\n")
            bench.says(vault, (*target.words(), "--since", DATE), 4, f"{said} yet; write one without --since first\n")
            target.server.ask(f'CREATE SCHEMA "{target.place}"')
            bench.says(vault, target.words(), 1,
                       f"vaultdesk-report: the schema {target.place} is there and has no report; name another by --schema\n")
        else:
            bench.says(vault, target.compare_words(), 4, f"vaultdesk-report: {target.place}: there is no report\n")
            bench.says(vault, (*target.words(), "--since", DATE), 4,
                       f"vaultdesk-report: {target.place}: there is no report yet; write one without --since first\n")
            target.place.write_text("no database")
            for words in (target.compare_words(), (*target.words(), "--since", DATE)):
                expect("status", 4, bench.tool(vault, *words).status)
            expect("the file", "no database", target.place.read_text())


def one_line(words, got):
    if got.err.count(b"\n") != 1 or got.out:
        raise CheckFailed(f"{words}\n    expected: one line\n    got:      {got}")


def other_mapping(bench):
    """a report of another mapping is left as it is"""
    one, other = attribute(bench, ["NAME"]), attribute(bench, ["CITY"])
    for target in bench.targets():
        bench.done(one, *target.words())
        before = contents(target)
        words = (*target.words(), "--since", DATE)
        got = bench.tool(other, *words)
        expect("status", 1, got.status)
        one_line(words, got)
        expect("the report", before, contents(target))


def full_disk(bench):
    """a full disk: a line, status 6, and the report that is there stays"""
    vault = bench.kept_example("orders", "w1.toml", "w2.toml", "w3.toml")
    for target in bench.targets():
        if target.kind == "postgres":
            continue
        bench.done(vault, *target.words())
        before = contents(target)
        for size in (10_000, 40_000, 100_000):
            for words in (target.words(), (*target.words(), "--since", DATE)):
                got = bench.tool(vault, *words, preexec_fn=with_limits(file_size=size))
                if words == target.words() or got.status:
                    expect(f"status with {size} bytes", 6, got.status)
                    one_line(words, got)
                    expect("the report", before, contents(target))
        expect("files beside", [], list(target.place.parent.glob("*.part")))
        bench.is_equal(vault, target)


def full_disk_of_a_server(bench):
    """a server whose disk is full: a line, status 6, and the report that is there stays"""
    if not bench.servers.server():
        return
    vault = attribute(bench, ["NAME"])
    server = Server(bench.servers.tools, with_limits(file_size=2_000_000), " -c max_wal_size=2MB")
    try:
        words = ("postgres", "--database", server.connection(), "--schema", "small")
        bench.done(vault, *words)
        rows = "".join(f"c{number},{'x' * 500}{number}\n" for number in range(6000))
        vault.write("w2_customers.csv", "CUST_NO,NAME\n" + rows)
        vault.write("w2.toml", 'load = "2024-04-01T02:00:00"\n[[extract]]\nfeed = "customers"\nfile = "w2_customers.csv"\n')
        vault.loaded("w2.toml")
        for more in ((), ("--since", DATE)):
            got = bench.tool(vault, *words, *more)
            expect("status", 6, got.status)
            one_line(words, got)
            expect("rows of the report", "1", server.ask("SELECT count(*) FROM small.sat_customers"))
    finally:
        server.stop()


def usage(bench):
    """wrong words: usage and status 2"""
    vault = bench.kept_example("first", "w1.toml")
    for words in ((), ("sqlite",), ("oracle",), ("sqlite", "--out", "r.db", "--since", "2024-03-01"), ("compare", "r.db")):
        got = bench.tool(vault, *words)
        expect(f"{words}: status", 2, got.status)
        expect(f"{words}: usage", True, got.err.startswith(b"usage: vaultdesk-report"))


CHECKS = (names_of_sqlite, names_of_postgres, names_twice, zero_bytes, vault_not_there, busy_vault, damaged_vault,
          reports_not_there, other_mapping, full_disk, full_disk_of_a_server, usage)

