"""Checks of what people see who open the store with SQLite."""
import sqlite3

from kept import orders
from kept.orders import DATES, MANIFESTS
from kept.program import expect
from kept.readmes import added_rows, loaded_rows
from kept.stores import opened, opened_copy, rows_of, shown_rows, without_header

SEALED_DATES = "SELECT load_date FROM windows ORDER BY load_date"


def rows_as_printed(bench):
    """the rows of each raw table stand in the file with the values that the command `table` prints, after each load"""
    for example in ("orders", "phones", "assignments"):
        vault = bench.kept_example(example)
        for manifest in ("", *loaded_rows(example)):
            if manifest:
                vault.loaded(manifest)
            with opened_copy(vault) as connection:
                for table in added_rows(example):
                    printed = without_header(vault.text("table", table))
                    expect(f"{example}: the rows of {table}", printed, shown_rows(rows_of(connection, table)))


def what_the_file_is(bench):
    """the file says which program's it is and of which format, has tables alone, and sums in its pages"""
    for count in (0, 1):
        with opened_copy(orders.kept(bench, count)) as connection:
            said = connection.execute("SELECT program, format, generation FROM vault").fetchall()
            expect("what the file says of itself", [("vaultdesk", 2, 0)], said)
            kinds = connection.execute("SELECT DISTINCT type FROM sqlite_schema ORDER BY type").fetchall()
            expect("kinds of objects", [("index",), ("table",)], kinds)


def opened_between_loads(bench):
    """a store that is opened with SQLite between the loads goes on"""
    vault = bench.example("orders")
    vault.says("init", err="init: Stored")
    for count, manifest in enumerate(MANIFESTS, 1):
        vault.says("load", manifest, err=orders.line_of(manifest))
        with opened(vault.file("vault.db")) as connection:
            rows = len(list(rows_of(connection, "sat_customers")))
            expect("rows of sat_customers", sum(added_rows("orders")["sat_customers"][:count]), rows)
        expect("files after SQLite closed the store", ["vault.db"], sorted(vault.store_bytes()))
        vault.says("windows", out=orders.windows_text(count))
    expect("all texts", orders.texts(orders.kept(bench, 3)), orders.texts(vault))


def read_only(bench):
    """who opens a store read-only leaves its bytes as they are, and it goes on"""
    vault = orders.kept(bench, 2)
    before = vault.file("vault.db").read_bytes()
    connection = sqlite3.connect(f"file:{vault.file('vault.db')}?mode=ro", uri=True)
    expect("sealed windows", [(date,) for date in DATES[:2]], connection.execute(SEALED_DATES).fetchall())
    connection.close()
    expect("the store's bytes after it was read", before, vault.file("vault.db").read_bytes())
    vault.says("load", "w3.toml", err=orders.line_of("w3.toml"))
    vault.says("windows", out=orders.windows_text(3))
    expect("all texts", orders.texts(orders.kept(bench, 3)), orders.texts(vault))


CHECKS = (rows_as_printed, what_the_file_is, opened_between_loads, read_only)
