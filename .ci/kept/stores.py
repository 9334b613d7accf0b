"""The store as SQLite sees it: read in a copy, changed in place, and held against the program."""
import array
import contextlib
import sqlite3
import tempfile
import tomllib
from typing import NamedTuple

from kept.program import CheckFailed, expect

# What the mapping declares a raw table as, by the beginning of its name.
DECLARED = {"hub": "hub", "link": "link", "sat": "feed", "msat": "feed", "status": "feed", "eff": "feed", "pit": "hub",
            "bridge": "path"}


@contextlib.contextmanager
def opened(path):
    """A connection, without a transaction of its own; it waits for nobody."""
    connection = sqlite3.connect(path, timeout=0, isolation_level=None)
    try:
        yield connection
    finally:
        connection.close()


@contextlib.contextmanager
def opened_copy(vault):
    """A connection to a copy of the store, so that its own files stay as they are."""
    with tempfile.TemporaryDirectory(dir=vault.bench.folder) as folder:
        copied = vault.bench.folder.joinpath(folder)
        vault.copy_store(copied)
        with opened(copied / "vault.db") as connection:
            yield connection


def contents(vault):
    """All that SQLite finds in the store: what makes its tables, and their rows."""
    with opened_copy(vault) as connection:
        made = connection.execute("SELECT type, name, sql FROM sqlite_master ORDER BY type, name").fetchall()
        tables = [name for kind, name, _ in made if kind == "table"]
        return {"": made, **{name: connection.execute(f'SELECT * FROM "{name}"').fetchall() for name in tables}}


def is_whole(connection):
    """Fails where SQLite finds a fault in the file."""
    expect("pragma integrity_check", [("ok",)], connection.execute("PRAGMA integrity_check").fetchall())


def sum_of(page):
    """The sum that SQLite's extension cksumvfs writes behind a page."""
    one = other = 0
    words = array.array("I", page)
    for at in range(0, len(words), 2):
        one = (one + words[at] + other) & 0xFFFFFFFF
        other = (other + words[at + 1] + one) & 0xFFFFFFFF
    return array.array("I", (one, other)).tobytes()


def sum_again(path):
    """Writes the sums of a file's pages anew, as a SQLite that has the extension does."""
    data = bytearray(path.read_bytes())
    size = int.from_bytes(data[16:18], "big")
    expect("bytes for a sum in each page", 8, data[20])
    for at in range(0, len(data), size):
        data[at + size - 8:at + size] = sum_of(data[at:at + size - 8])
    path.write_bytes(data)


def change_unsummed(vault, sql, *values, rows=1):
    """Changes so many rows of the store, and puts all into the one file, as SQLite's own shell does. The sums stay."""
    with opened(vault.file("vault.db")) as connection:
        changed = connection.execute(sql, values).rowcount
        connection.execute("PRAGMA wal_checkpoint(TRUNCATE)")
    expect(f"rows changed by {sql}", rows, changed)


def change(vault, sql, *values, rows=1):
    """The same, and writes the sums anew."""
    change_unsummed(vault, sql, *values, rows=rows)
    sum_again(vault.file("vault.db"))


class Line(NamedTuple):
    """Where the rows of a table stand: the file's table, the number of the first one, and how many there are."""

    rows_in: str
    first: int
    count: int


def line_of(connection, table, date=""):
    """Where the rows of a raw table stand, or of a stored `pit_H` or `bridge_P` at a date."""
    beginning, _, name = table.partition("_")
    [(mapping,)] = connection.execute("SELECT content FROM mapping").fetchall()
    declared = tomllib.loads(mapping.decode()).get(DECLARED[beginning], [])
    rows_in = f"rows_of_{beginning}_{[entry['name'] for entry in declared].index(name)}"
    found = connection.execute("SELECT first_row, row_count FROM directory WHERE generation = 0 AND rows_in = ? AND snapshot_date = ?",
                               (rows_in, date)).fetchall()
    return Line(rows_in, *found[0]) if found else Line(rows_in, 1, 0)


def rows_of(connection, table, date=""):
    """The rows of a table as the file has them, behind their numbers."""
    line = line_of(connection, table, date)
    if line.count == 0:
        return
    sql = f"SELECT * FROM {line.rows_in} WHERE number BETWEEN ? AND ? ORDER BY number"
    found = connection.execute(sql, (line.first, line.first + line.count - 1)).fetchall()
    expect(f"rows of {table} in {line.rows_in}", line.count, len(found))
    yield from (row[1:] for row in found)


def row_of(vault, table, number):
    """The values of a raw table's row, from 1, as the program prints them, by their columns. None has a comma in it."""
    header, *rows = vault.text("table", table).decode().splitlines()
    return dict(zip(header.split(","), rows[number - 1].split(",")))


def change_row(vault, table, number, column, value):
    """Changes a column of a raw table's row, from 1, in the file."""
    row = row_of(vault, table, number)
    with opened_copy(vault) as connection:
        rows = line_of(connection, table).rows_in
    where = "hash_key = ? AND load_date = ? AND record_source = ?"
    change(vault, f'UPDATE {rows} SET "{column}" = ? WHERE {where}', value, bytes.fromhex(row["hash_key"]),
           row["load_date"], row["record_source"])


def shown_rows(rows):
    """Rows as the program writes those of a table: digests as hexadecimal, and quotes where they are needed."""
    return "".join(",".join(map(shown_field, row)) + "\n" for row in rows).encode()


def shown_field(value):
    if isinstance(value, bytes):
        return value.hex()
    if value is None:
        return ""
    if any(letter in value for letter in ',"\r\n'):
        return '"' + value.replace('"', '""') + '"'
    return value


def without_header(text):
    """The lines of a text that the program wrote, without the first one."""
    return text.partition(b"\n")[2]
