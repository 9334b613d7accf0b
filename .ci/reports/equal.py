"""Checks that a report has what the vault has: at once, in parts, with odd names and texts, and that a difference is found."""
import contextlib
import csv
import io
import sqlite3
import subprocess

from kept import worlds
from kept.program import CheckFailed, expect, with_limits
from reports.bench import BETWEEN

EXAMPLES = {"orders": 3, "assignments": 4, "phones": 4, "visits": 2, "first": 1, "desk": 2}
FEW, ALL = 2, 20


def kept_examples(bench, names=EXAMPLES):
    for name in names:
        yield bench.kept_example(name, *(f"w{number}.toml" for number in range(1, EXAMPLES[name] + 1)))


def examples(bench):
    """each example with a snapshot goes over whole, and again, and is equal"""
    for vault in kept_examples(bench):
        vault.run("snapshot", "2024-03-01T02:00:00")
        for target in bench.targets():
            for _ in range(2 if bench.is_all or vault.file("w1_lines.csv").exists() else 1):
                bench.done(vault, *target.words())
                said = bench.is_equal(vault, target)
                if not said.endswith(", 1 snapshots\n"):
                    raise CheckFailed(f"compare says {said}")


def random_vaults(bench):
    """random vaults with snapshots go over whole, and with later windows by --since, and are equal"""
    for seed in range(ALL if bench.is_all else FEW):
        vault = bench.world(seed, 2)
        targets = list(bench.targets())
        vault.run("snapshot", worlds.DATES[0])
        for target in targets:
            bench.done(vault, *target.words())
            bench.is_equal(vault, target)
        vault.loaded(*worlds.MANIFESTS[2:])
        vault.run("snapshot", worlds.DATES[2])
        vault.run("snapshot", BETWEEN)
        for target in targets:
            for _ in range(2):
                bench.done(vault, *target.words(), "--since", worlds.DATES[1], "--snapshot", BETWEEN)
                bench.is_equal(vault, target, "--snapshot", BETWEEN)
        bench.drop(vault)


ODD_NAMES = r"""
hub = [{ name = "order", parts = 2 }, { name = "select", parts = 1 }]
link = [{ name = "end", hubs = ["order", "select"] }]
path = [{ name = "begin", feeds = ["group", "group"], via = ["select"] }]
[[feed]]
name = "table"
source = "s"
hub = "order"
keys = [["CUST_NO", "end"]]
attrs = ["begin", "a\"b", "é ñ", "A.B", "select", "$$", "it's", "line\nend"]
[[feed]]
name = "order"
source = "s"
hub = "order"
keys = [["hash_key", "load_date"]]
sub = ["%s", "\\x"]
attrs = ["known_begin"]
[[feed]]
name = "group"
source = "s"
link = "end"
keys = [["KEY", "begin_"], ["row number"]]
driver = ["select"]
"""
ODD_TEXTS = ("", "NULL", "\\N", "\\.", '"', "''", "a\tb", "a\nb", "a\r\nb", "a,b", "$$", "é", "\\", "\\t", "%s", ":at", "{}",
             "\U0001f600", "N;1")


def as_csv(header, rows):
    text = io.StringIO()
    csv.writer(text, lineterminator="\n").writerows([header, *rows])
    return text.getvalue()


def odd_vault(bench):
    """A vault with names that are words of SQL and texts that formats take for something else."""
    header = ["CUST_NO", "end", "begin", 'a"b', "é ñ", "A.B", "select", "$$", "it's", "line\nend"]
    count = len(ODD_TEXTS)
    rows = [[f"c{at}", each, *(ODD_TEXTS[(at + place) % count] for place in range(8))] for at, each in enumerate(ODD_TEXTS)]
    subs = [[f"c{at % 3}", "", each, "\\N", each] for at, each in enumerate(ODD_TEXTS)]
    pairs = [[f"c{at % 4}", each, f"k{at}"] for at, each in enumerate(ODD_TEXTS)]
    sub_header = ["hash_key", "load_date", "%s", "\\x", "known_begin"]
    link_header = ["KEY", "begin_", "row number"]
    turned = [[*row[:2], *row[:1:-1]] for row in rows]
    moved = [[*pair[:2], "k1"] for pair in pairs[:1]]
    windows = ({"table": (header, rows), "order": (sub_header, subs), "group": (link_header, pairs)},
               {"table": (header, rows[3:]), "group": (link_header, moved)},
               {"table": (header, turned), "order": (sub_header, subs[4:])})
    return bench.mapped(ODD_NAMES, *((f"2024-03-01T00:00:0{number}", {feed: as_csv(*extract) for feed, extract in window.items()})
                                     for number, window in enumerate(windows)))


def odd_names_and_texts(bench):
    """names that are words of SQL are quoted, and odd texts stay what they are: empty ones are empty and not NULL"""
    vault = odd_vault(bench)
    vault.run("snapshot", "2024-03-01T00:00:01")
    for target in bench.targets():
        bench.done(vault, *target.words())
        bench.is_equal(vault, target)
        query = "SELECT count(*) FROM {}sat_table WHERE \"begin\" = '' AND \"begin\" IS NOT NULL"
        if target.kind == "sqlite":
            with contextlib.closing(sqlite3.connect(target.place)) as database:
                got = database.execute(query.format("")).fetchone()[0]
        else:
            got = int(target.server.ask(query.format(f'"{target.place}".')))
        # The empty text is one of the texts, and so is the begin of one row in each window that brings it.
        expect("rows of an empty text", 2, got)


def broken_off(vault):
    """Loads the second window until it breaks off with rows in some tables; gives what `windows` lists then."""
    for more in range(50_000, 3_000_000, 50_000):
        vault.run("load", "w2.toml", limits=with_limits(file_size=vault.store_size() + more))
        listed = vault.text("windows").decode().splitlines()
        if len(listed) == 3 and vault.text("table", "hub_customer").count(b"2024-04-01"):
            expect("the state of the second window", "open", listed[2].split(",")[1])
            return listed
    raise CheckFailed("no load broke off with rows in a table, so the check says nothing")


def open_window(bench):
    """rows of an open window do not come over"""
    vault = bench.kept_example("orders", "w1.toml")
    with open(vault.file("w2_customers.csv"), "a", encoding="utf-8") as file:
        file.writelines(f"x{number},name,city\n" for number in range(3000))
    listed = broken_off(vault)
    for target in bench.targets():
        bench.done(vault, *target.words())
        bench.is_equal(vault, target)
        vault.says("windows", out="\n".join([*listed, ""]))


def change(target, statement):
    """Changes a report by hand."""
    if target.kind == "sqlite":
        with contextlib.closing(sqlite3.connect(target.place)) as database:
            database.execute(statement.format(""))
            database.commit()
    else:
        target.server.ask(statement.format(f'"{target.place}".'))


FIRST_ROW = "1a2ddc2db4693cfd16d534cde5572cc1,2024-03-01T02:00:00,crm.customers,0cf121b7196a7f6e278826d5abf9e556"
CHANGES = {
    "UPDATE {}sat_customers SET \"CITY\" = 'Hamar' WHERE \"CITY\" = 'Oslo'":
        f"table sat_customers: row 1 is {FIRST_ROW},Ann Roe,Oslo in the vault, and {FIRST_ROW},Ann Roe,Hamar in the report",
    "UPDATE {}status_customers SET status = 'I' WHERE status = 'D'": "table status_customers: ",
    "DELETE FROM {}sat_lines WHERE load_date = '2024-05-01T02:00:00'": "table sat_lines: ",
    "UPDATE {}report_windows SET feeds = 'lines' WHERE load_date = '2024-05-01T02:00:00'":
        "the windows: row 3 is 2024-05-01T02:00:00,customers lines in the vault, and 2024-05-01T02:00:00,lines in the report",
    "UPDATE {}pit_customer SET \"customers.present\" = 'N'": "pit customer 2024-04-01T02:00:00: ",
    "DELETE FROM {}bridge_sold": "bridge sold 2024-04-01T02:00:00: row 1 is ",
}


def planted_differences(bench):
    """one value that somebody changed is found, and named with the row of the vault and that of the report"""
    vault = bench.kept_example("orders", "w1.toml", "w2.toml", "w3.toml")
    vault.run("snapshot", "2024-04-01T02:00:00")
    targets = list(bench.targets())
    for statement, begins in CHANGES.items():
        for target in targets:
            bench.done(vault, *target.words())
            change(target, statement)
            got = bench.tool(vault, *target.compare_words())
            expect(f"status of compare after {statement}", 1, got.status)
            if not got.err.decode().startswith(f"vaultdesk-report: {begins}"):
                raise CheckFailed(f"{statement}\n    expected: a line with {begins}\n    got:      {got}")
            if "sat_" in statement:
                more = bench.tool(vault, *target.words(), "--since", "2024-05-01T02:00:00")
                expect(f"status of --since after {statement}", 1, more.status)


OTHER_MART = """CREATE VIEW history_hub_product AS
SELECT hash_key, part_1 AS "product.1", 'Y' AS products, 'x' AS "products.TITLE", '2024-03-01T02:00:00' AS "begin",
  '9999-12-31T23:59:59' AS "end" FROM hub_product"""


def planted_view(bench):
    """a mart that says something else than the program is found"""
    vault = bench.kept_example("orders", "w1.toml", "w2.toml", "w3.toml")
    target = next(bench.targets())
    bench.done(vault, *target.words())
    change(target, "DROP VIEW history_hub_product")
    change(target, OTHER_MART)
    got = bench.tool(vault, *target.compare_words())
    expect("status", 1, got.status)
    expect("line", True, got.err.startswith(b"vaultdesk-report: mart hub:product 2024-03-01T02:00:00: "))


def script_for_psql(bench):
    """a script that is written for psql makes an equal report, and a second time it fails and changes nothing"""
    for target in bench.targets():
        if target.kind == "postgres":
            vault = bench.kept_example("phones", "w1.toml", "w2.toml", "w3.toml", "w4.toml")
            vault.run("snapshot", "2024-03-01T02:00:00")
            bench.done(vault, "postgres", "--schema", target.place, "--out", "report.sql")
            words = ["psql", "-X", "-q", "-v", "ON_ERROR_STOP=1", "-d", target.server.connection(), "-f", "report.sql"]
            for status in (0, 3):
                done = subprocess.run(words, cwd=vault.folder, stdin=subprocess.DEVNULL, capture_output=True)
                expect("status of psql", status, done.returncode)
                bench.is_equal(vault, target)


CHECKS = (examples, random_vaults, odd_names_and_texts, open_window, planted_differences, planted_view, script_for_psql)
