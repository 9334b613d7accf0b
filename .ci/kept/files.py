"""Checks of files that are no store, or cannot be written."""
import contextlib
import lzma
import pathlib
import subprocess

from kept import orders
from kept.commands import EVERY_COMMAND
from kept.program import KEEPER_FAULT, NO_MAPPING, expect
from kept.stores import contents, opened, sum_again

# Vaults of the example `orders`, with its three windows and a snapshot, as the programs of older releases left them: the
# files of each, and those that have them packed.
OLDER = {
    "1.0.0": {"vault.db": "release-1.0.0.db.xz"},
    "1.1.0": {"vault.db": "release-1.1.0.db.xz", "vault.db-wal": "release-1.1.0.db-wal.xz"},
}


def each_command_faults(vault, what):
    """Each command is a keeper fault, and the bytes of the file stay."""
    path = vault.file("vault.db")
    before = path.read_bytes()
    for words in EVERY_COMMAND:
        vault.says(*words, **KEEPER_FAULT)
        expect(f"the bytes of {what} after {words[0]}", before, path.read_bytes())


def a_text_in_its_place(bench):
    """a vault.db that is a text is a keeper fault, and stays as it is"""
    for text in ("no,database\n1,2\n", "x" * 5000, "SQLite format 3\0" + "x" * 5000):
        vault = bench.example("orders")
        vault.write("vault.db", text)
        each_command_faults(vault, "a text")


def an_empty_file_in_its_place(bench):
    """a vault.db without bytes is a store without a mapping, as an absent one is"""
    vault = bench.example("orders")
    vault.write("vault.db", "")
    for words in EVERY_COMMAND[1:]:
        vault.says(*words, **NO_MAPPING)
    vault.says("init", err="init: Stored")
    vault.says("load", "w1.toml", err=orders.line_of("w1.toml"))


def a_folder_in_its_place(bench):
    """a vault.db that is a folder is a keeper fault"""
    vault = bench.example("orders")
    vault.file("vault.db").mkdir()
    for words in EVERY_COMMAND:
        vault.says(*words, **KEEPER_FAULT)
    expect("what is in the folder", [], list(vault.file("vault.db").iterdir()))


def in_one_file(vault):
    """Puts the log of a store into its file."""
    with opened(vault.file("vault.db")) as connection:
        connection.execute("PRAGMA wal_checkpoint(TRUNCATE)")
    expect("files of the store", ["vault.db"], sorted(vault.store_bytes()))


def a_truncated_file(bench):
    """a store that was cut is a keeper fault, wherever it was cut, and stays as it is"""
    vault = orders.kept(bench, 3)
    in_one_file(vault)
    whole = vault.file("vault.db").read_bytes()
    for size in (100, 4096, 10_000, len(whole) // 2 // 4096 * 4096, len(whole) - 4096, len(whole) - 1):
        vault.write("vault.db", whole[:size])
        each_command_faults(vault, f"the first {size} of {len(whole)} bytes")
        for name in ("vault.db-wal", "vault.db-journal"):
            vault.file(name).unlink(missing_ok=True)
    vault.write("vault.db", whole)
    vault.says("windows", out=orders.windows_text(3))


def a_foreign_table(bench):
    """a table of somebody else beside ours stays as it is"""
    vault = orders.kept(bench, 2)
    with opened(vault.file("vault.db")) as connection:
        connection.execute("CREATE TABLE people (name TEXT)")
        connection.execute("INSERT INTO people VALUES ('Ann')")
        connection.execute("PRAGMA wal_checkpoint(TRUNCATE)")
    sum_again(vault.file("vault.db"))
    vault.says("load", "w3.toml", err=orders.line_of("w3.toml"))
    vault.says("windows", out=orders.windows_text(3))
    expect("the other table", [("Ann",)], contents(vault)["people"])


def a_database_of_another_program(bench):
    """a vault.db that another program made is a keeper fault, and keeps what it has alone"""
    for mode in ("DELETE", "WAL"):
        vault = bench.example("orders")
        with opened(vault.file("vault.db")) as connection:
            connection.execute(f"PRAGMA journal_mode = {mode}")
            connection.execute("CREATE TABLE people (name TEXT)")
            connection.execute("INSERT INTO people VALUES ('Ann')")
        before = contents(vault)
        for words in EVERY_COMMAND:
            vault.says(*words, **KEEPER_FAULT)
            expect(f"what the other program's file has after {words[0]}", before, contents(vault))


def copied_by_sqlite(vault, of):
    """Makes a database as SQLite's own shell does of a dump of a store."""
    with opened(of.file("vault.db")) as connection, opened(vault.file("vault.db")) as other:
        other.executescript("\n".join(connection.iterdump()))


# What makes a database of tables with the names of a vault's, by what is changed in one.
NOT_OURS = (
    "UPDATE vault SET program = 'ledger'",
    "UPDATE vault SET format = 1",
    "UPDATE vault SET format = 3",
    "UPDATE vault SET generation = 1",
    "DELETE FROM vault",
    "DROP TABLE vault; CREATE TABLE vault (number INTEGER PRIMARY KEY, program TEXT, format INTEGER, generation INTEGER);"
    "INSERT INTO vault VALUES (1, 'vaultdesk', 2, 0)",
    "DROP TABLE vault",
    "DROP TABLE stage; CREATE TABLE stage (number INTEGER PRIMARY KEY, content BLOB NOT NULL) STRICT",
    "DROP TABLE windows; CREATE TABLE windows (place INTEGER PRIMARY KEY, load_date TEXT NOT NULL, feeds TEXT NOT NULL) STRICT",
    "DROP TABLE snapshots; CREATE VIEW snapshots AS SELECT * FROM windows",
)


def a_database_with_our_names(bench):
    """a database with tables of a vault's names that is not one is a keeper fault, and keeps what it has alone"""
    ours = orders.kept(bench, 2)
    for sql in NOT_OURS:
        vault = bench.example("orders")
        copied_by_sqlite(vault, ours)
        with opened(vault.file("vault.db")) as connection:
            connection.executescript(sql)
        before = contents(vault)
        for words in EVERY_COMMAND:
            vault.says(*words, **KEEPER_FAULT)
        expect(f"what the file has after {sql}", before, contents(vault))
        bench.drop(vault)


def a_row_table_of_another_form(bench):
    """rows are put into no table of another form than the program makes"""
    vault = orders.kept(bench, 0)
    with opened(vault.file("vault.db")) as connection:
        connection.execute("CREATE TABLE rows_of_hub_0 (number INTEGER PRIMARY KEY, hash_key BLOB, load_date TEXT, "
                           "record_source TEXT, part_1 TEXT)")
        connection.execute("PRAGMA wal_checkpoint(TRUNCATE)")
    sum_again(vault.file("vault.db"))
    vault.says("load", "w1.toml", **KEEPER_FAULT)
    with opened(vault.file("vault.db")) as connection:
        expect("rows in that table", [(0,)], connection.execute("SELECT count(*) FROM rows_of_hub_0").fetchall())


def a_copy_without_sums(bench):
    """a vault that was copied by a dump, and so has no sums, goes on"""
    vault = bench.example("orders")
    copied_by_sqlite(vault, orders.kept(bench, 2))
    vault.says("load", "w3.toml", err=orders.line_of("w3.toml"))
    expect("all texts", orders.texts(orders.kept(bench, 3)), orders.texts(vault))


def left_by(bench, release):
    """The vault that the program of an older release left."""
    vault = bench.example("orders")
    for name, packed in OLDER[release].items():
        vault.write(name, lzma.decompress(pathlib.Path(__file__).with_name(packed).read_bytes()))
    return vault


def a_file_of_an_older_release(bench):
    """a vault of the releases 1.0.0 and 1.1.0 is a keeper fault and stays as it is, with its log and without"""
    for release in OLDER:
        vault = left_by(bench, release)
        kept = contents(vault)
        expect(f"windows and snapshots of the release {release}", (3, 1), (len(kept["windows"]), len(kept["snapshots"])))
        each_command_faults(vault, f"the vault of the release {release}")
        expect(f"what the vault of the release {release} has", kept, contents(vault))
        in_one_file(vault)
        each_command_faults(vault, f"the vault of the release {release} in one file")
        with opened(vault.file("vault.db")) as connection:
            connection.execute("PRAGMA journal_mode = DELETE")
            connection.execute("DROP VIEW hub_customer")
        each_command_faults(vault, f"the vault of the release {release} without a log")


@contextlib.contextmanager
def read_only(vault):
    """The store as a file that nobody may write; tells whether that can be had."""
    path = str(vault.file("vault.db"))
    ways = ((["chattr", "+i", path], ["chattr", "-i", path]), (["mount", "--bind", path, path], ["umount", path]))
    for number, (make, undo) in enumerate(ways):
        try:
            is_made = subprocess.run(make, capture_output=True).returncode == 0
        except OSError:
            is_made = False
        if is_made:
            if number == 1:
                subprocess.run(["mount", "-o", "remount,bind,ro", path], check=True)
            try:
                yield True
            finally:
                subprocess.run(undo, check=True)
            return
    yield False


def a_read_only_file(bench):
    """a store that may not be written is a keeper fault for a load, and stays as it is"""
    vault = orders.kept(bench, 1)
    in_one_file(vault)
    before = vault.file("vault.db").read_bytes()
    with read_only(vault) as is_so:
        if not is_so:
            return bench.leave_out("a read-only store: neither chattr nor mount can be had here")
        for words in EVERY_COMMAND + (("load", "w2.toml"),):
            vault.says(*words, **KEEPER_FAULT)
    expect("the bytes of the read-only file", before, vault.file("vault.db").read_bytes())
    vault.says("load", "w2.toml", err=orders.line_of("w2.toml"))


CHECKS = (a_text_in_its_place, an_empty_file_in_its_place, a_folder_in_its_place, a_truncated_file,
          a_foreign_table, a_database_of_another_program, a_database_with_our_names, a_row_table_of_another_form,
          a_copy_without_sums, a_file_of_an_older_release, a_read_only_file)
