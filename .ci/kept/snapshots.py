"""Checks of snapshots: what `snapshot` says, what `pit` and `bridge` write, and that a stored snapshot stays what it is."""
import time

from kept import breaks, history, joins, orders
from kept.orders import DATES, MANIFESTS
from kept.points import hubs_of, mapping_of, pit_text, windows_of
from kept.program import KEEPER_FAULT, expect, with_limits
from kept.stores import (line_of, change, contents, is_whole, opened, opened_copy, rows_of, shown_rows,
                         without_header)

BETWEEN = "2024-03-15T12:00:00"
BEFORE = "2024-02-29T00:00:00"
AFTER_LAST = "2024-05-01T02:00:01"
SNAPSHOT_DATES = (DATES[0], BETWEEN, *DATES[1:])
KILLS = 40

NO_SUCH_DATE = {"status": 1, "err": "vaultdesk: Q2 BadDate text=never"}


def future(last):
    return {"status": 1, "err": f"vaultdesk: Q4 Future last={last}"}


def not_stored(date):
    return {"status": 1, "err": f"vaultdesk: Q5 NoSnapshot date={date}"}


def tables(vault):
    """The command that writes each table of a snapshot, and the name that it takes, in order."""
    yield from (("pit", hub) for hub in hubs_of(vault))
    yield from (("bridge", path) for path in joins.paths_of(mapping_of(vault)))


def table_text(vault, command, name, date):
    """The text of a table of a snapshot, of the extracts."""
    if command == "pit":
        return pit_text(vault, name, date)
    return joins.bridge_text(mapping_of(vault), windows_of(vault), name, date)


def row_count(vault, date):
    """How many rows a snapshot at a date has."""
    return sum(table_text(vault, *table, date).count(b"\n") - 1 for table in tables(vault))


def texts(vault, date):
    """What is stored in the snapshot at a date."""
    return {table: vault.text(*table, date) for table in tables(vault)}


def stored(vault, date):
    """Stores a snapshot at a date at which none is."""
    vault.says("snapshot", date, err=f"snapshot: Stored {row_count(vault, date)}")


def is_as_delivered(vault, date):
    """Fails where a stored table is not that of the extracts."""
    for table in tables(vault):
        expect(f"{' '.join(table)} {date}", table_text(vault, *table, date), vault.text(*table, date))


def snapshots_at_dates(bench):
    """a snapshot at each load date, between two and before all has the point-in-time tables and bridges of the extracts"""
    vault = orders.kept(bench, 3)
    for date in (*SNAPSHOT_DATES[::-1], BEFORE):
        stored(vault, date)
        vault.says("snapshot", date, err="snapshot: Repeated")
    for date in (BEFORE, *SNAPSHOT_DATES):
        is_as_delivered(vault, date)
        for command, name in (("pit", "customer"), ("bridge", "sold")):
            tried = vault.run("try", f"{command}:{name}", date, *MANIFESTS)
            expect(f"try {command}:{name} {date}", table_text(vault, command, name, date), tried.out)


def snapshots_stay(bench):
    """later windows leave a stored snapshot as it is, also one stored while a window was open"""
    vault = orders.kept(bench, 1)
    stored(vault, DATES[0])
    kept = texts(vault, DATES[0])
    for manifest in MANIFESTS[1:]:
        vault.loaded(manifest)
        expect(f"what is stored, after {manifest}", kept, texts(vault, DATES[0]))
    made = history.make(bench)
    open_vault, closed = breaks.an_open_window(made), made.after_first
    date = history.DATES[0]
    for each in (open_vault, closed):
        stored(each, date)
    open_vault.says("snapshot", history.DATES[1], **future(date))
    history.complete(made, open_vault, "open", by_resume=True)
    expect("what a vault with an open window stored", texts(closed, date), texts(open_vault, date))


def refused_snapshots(bench):
    """a snapshot is refused at no date, later than the last window, and where none is sealed, in this order"""
    vault = orders.kept(bench, 0)
    vault.says("snapshot", "never", **NO_SUCH_DATE)
    vault.says("snapshot", DATES[0], **future("none"))
    vault.loaded("w1.toml")
    vault.says("snapshot", "2024-03-01T02:00:01", **future(DATES[0]))
    stored(vault, DATES[0])
    vault.says("snapshot", "never", **NO_SUCH_DATE)


def unstored_tables(bench):
    """pit and bridge name an unknown hub or path first, then a date that is none, then a date without a snapshot"""
    vault = orders.kept(bench, 2)
    stored(vault, DATES[0])
    for command, name, others in (("pit", "customer", ("customers", "pit:customer", "sold")),
                                  ("bridge", "sold", ("placed", "bridge:sold", "customer", ""))):
        for other in others:
            for date in (DATES[0], "never"):
                vault.says(command, other, date, status=1, err=f"vaultdesk: Q1 UnknownMart name={other}")
        vault.says(command, name, "never", **NO_SUCH_DATE)
        vault.says(command, name, DATES[1], **not_stored(DATES[1]))
    is_as_delivered(vault, DATES[0])


def killed_snapshots(bench):
    """a snapshot that is killed, at forty moments, is stored whole or not at all"""
    made = history.make(bench)
    date = history.DATES[0]
    unbroken = made.after_first.twin()
    rows = row_count(unbroken, date)
    begun = time.perf_counter()
    unbroken.says("snapshot", date, err=f"snapshot: Stored {rows}")
    taken = time.perf_counter() - begun
    whole = texts(unbroken, date)
    for kill, moment in breaks.moments(made.after_first, taken, KILLS // 2, KILLS // 2, "snapshot", date):
        vault = made.after_first.twin()
        kill(vault, moment, "snapshot", date)
        is_stored = vault.run("pit", "customer", date).status == 0
        vault.says("snapshot", date, err="snapshot: Repeated" if is_stored else f"snapshot: Stored {rows}")
        expect("what is stored, after a kill", whole, texts(vault, date))
        with opened(vault.file("vault.db")) as connection:
            is_whole(connection)
        bench.drop(vault)


def shown_tables(connection, table, dates):
    """What the file has of a table in the snapshots at dates, as the program prints it: a date behind a point-in-time row's
    key, or before a bridge's row."""
    at = 1 if table[0] == "pit" else 0
    return b"".join(shown_rows([*row[:at], date, *row[at:]] for row in rows_of(connection, "_".join(table), date)) for date in dates)


def printed_tables(vault, table, dates):
    """What the program prints of a table in the snapshots at dates, under one header."""
    printed = [vault.text(*table, date).splitlines(keepends=True) for date in dates]
    return b"".join([printed[0][0], *(line for text in printed for line in text[1:])])


def rows_of_snapshots(bench):
    """the rows of each stored point-in-time table and bridge stand in the file with the values that `pit` and `bridge` print"""
    vault = orders.kept(bench, 3)
    for date in SNAPSHOT_DATES[::-1]:
        stored(vault, date)
    with opened_copy(vault) as connection:
        for table in tables(vault):
            printed = without_header(printed_tables(vault, table, SNAPSHOT_DATES))
            expect(f"the rows of {'_'.join(table)}", printed, shown_tables(connection, table, SNAPSHOT_DATES))


def refused_whole(bench):
    """a snapshot that the file doesn't take is a keeper fault, and none of it is stored"""
    vault = orders.kept(bench, 2)
    stored(vault, DATES[0])
    before = contents(vault)
    vault.says("snapshot", DATES[1], **KEEPER_FAULT, limits=with_limits(file_size=4096))
    expect("what is kept where the file may not grow", before, contents(vault))
    twice = ("INSERT INTO directory (generation, rows_in, snapshot_date, first_row, row_count) "
             "VALUES (0, 'rows_of_bridge_0', ?, 100, 1)")
    change(vault, twice, DATES[1])
    with_line = contents(vault)
    vault.says("snapshot", DATES[1], **KEEPER_FAULT)
    expect("what is kept where a table stands there already", with_line, contents(vault))
    change(vault, "DELETE FROM directory WHERE snapshot_date = ?", DATES[1])
    stored(vault, DATES[1])
    for date in DATES[:2]:
        is_as_delivered(vault, date)


def damaged(place):
    return {"status": 8, "err": f"vaultdesk: damaged {place}"}


def changed_snapshots(bench):
    """changed heads of snapshots are named by every command, and a changed row by pit and bridge"""
    vault = orders.kept(bench, 2)
    for date in DATES[:2]:
        stored(vault, date)
    late = f"UPDATE snapshots SET snapshot_date = '{AFTER_LAST}' WHERE snapshot_date = '{DATES[1]}'"
    heavy = f"UPDATE snapshots SET weight = 268435456 WHERE snapshot_date = '{DATES[1]}'"
    for sql in (late, heavy):
        changed = vault.twin()
        change(changed, sql)
        for words in (("windows",), ("snapshot", DATES[0]), ("pit", "customer", DATES[0]), ("bridge", "sold", DATES[0])):
            changed.says(*words, **damaged("snapshots 2 F14"))
    for command, name, column in (("pit", "customer", "hash_key"), ("bridge", "sold", "hub_4"), ("bridge", "sold", "link_1")):
        changed = vault.twin()
        with opened_copy(vault) as connection:
            line = line_of(connection, f"{command}_{name}", DATES[1])
        change(changed, f"UPDATE {line.rows_in} SET {column} = ? WHERE number = ?", bytes(32), line.first + 1)
        changed.says("windows", out=orders.windows_text(2))
        changed.says(command, name, DATES[1], **damaged(f"{command}_{name} 2 F4"))
        is_as_delivered(changed, DATES[0])
    change(vault, "UPDATE directory SET first_row = first_row + 100 WHERE rows_in = 'rows_of_pit_0' AND snapshot_date = ?", DATES[1])
    vault.says("windows", out=orders.windows_text(2))
    vault.says("pit", "customer", DATES[1], **KEEPER_FAULT)
    vault.says("snapshot", DATES[1], err="snapshot: Repeated")
    is_as_delivered(vault, DATES[0])


CHECKS = (snapshots_at_dates, snapshots_stay, refused_snapshots, unstored_tables, killed_snapshots, rows_of_snapshots,
          refused_whole, changed_snapshots)
