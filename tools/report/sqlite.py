"""A report in a SQLite file. A new one is written beside the file and renamed at the end; later load dates come in one
transaction."""
import contextlib
import hashlib
import os
import pathlib
import sqlite3

from report import names, taken
from report.names import literal, quoted
from report.texts import RowsDigest
from report.trouble import DIFFERS, NOT_READ, NOT_WRITTEN, Trouble
from report.views import Views

# How long a run with --since waits for those who read the report.
SECONDS_TO_WAIT = 60
# What a report has besides: who it is of, the windows, the snapshots, and what tables and columns hold.
OWN_TABLES = """
CREATE TABLE report_about (name TEXT PRIMARY KEY, value TEXT NOT NULL);
CREATE TABLE report_windows (load_date TEXT PRIMARY KEY, feeds TEXT NOT NULL);
CREATE TABLE report_snapshots (snapshot TEXT PRIMARY KEY);
CREATE TABLE report_comments (table_name TEXT NOT NULL, column_name TEXT NOT NULL, comment TEXT NOT NULL,
  PRIMARY KEY (table_name, column_name));
"""


def report_file(out):
    """The file of a report; in a folder it is report.db."""
    return out / "report.db" if out.is_dir() else out


def views_of(mapping):
    """The words of SQLite for the later and the earlier of texts are max and min."""
    return Views(mapping, "max", "min")


def listed(columns):
    return ", ".join(map(quoted, columns))


class Schema:
    """What a report of a mapping has in SQLite, as statements."""

    def __init__(self, mapping):
        self.tables, self.snapshots = list(mapping.tables()), list(taken.snapshot_tables(mapping))
        self.views = list(views_of(mapping).all())
        columns = {each.name: each.columns for each in (*self.tables, *self.snapshots, *self.views)}
        names.refuse(columns, False, {table.name for table in self.tables})

    def digest(self):
        """Tells this schema from another."""
        return hashlib.sha256("\n".join([*self.before(), *self.after()]).encode()).hexdigest()

    def before(self):
        """The tables."""
        for table in self.tables:
            columns = ", ".join(f"{quoted(column)} TEXT NOT NULL" for column in table.columns)
            refers = f", FOREIGN KEY (hash_key) REFERENCES {quoted(table.refers_to)} (hash_key)" if table.refers_to else ""
            yield f"CREATE TABLE {quoted(table.name)} ({columns}, PRIMARY KEY ({listed(table.key)}){refers}) WITHOUT ROWID"
        for table in self.snapshots:
            columns = ", ".join(f"{quoted(column)} TEXT NOT NULL" for column in table.columns)
            yield f"CREATE TABLE {quoted(table.name)} ({columns}, PRIMARY KEY ({listed(table.key)})) WITHOUT ROWID"

    def after(self):
        """Indexes, views, and what tables and columns hold."""
        for table in self.tables:
            for column in index_columns(table):
                name = quoted(f"{table.name} by {column[0]}")
                yield f"CREATE INDEX {name} ON {quoted(table.name)} ({listed(column)})"
        for view in self.views:
            yield f"CREATE VIEW {quoted(view.name)} ({listed(view.columns)}) AS{view.query}"
        for name, column, comment in self.comments():
            yield f"INSERT INTO report_comments VALUES ({literal(name)}, {literal(column)}, {literal(comment)})"

    def comments(self):
        for table in self.tables:
            yield table.name, "", table.comment
            yield from ((table.name, column, comment) for column, comment in taken.column_comments(table).items())
        yield from ((view.name, "", view.comment) for view in self.views)


def index_columns(table):
    """The columns of each index besides the primary key: the key of a hub, each hub of a link."""
    if table.name.startswith("hub_"):
        yield table.columns[3:]
    if table.name.startswith("link_"):
        yield from ((column,) for column in table.columns[3:])


class SqliteReport:
    """A report that is written: anew, or with the load dates past one."""

    def __init__(self, mapping, out, since):
        self.schema, self.since, self.file = Schema(mapping), since, report_file(out)
        self.part = self.file if since else self.file.with_name(self.file.name + ".part")
        self.database = None

    def name(self):
        return str(self.file)

    @contextlib.contextmanager
    def written(self):
        """Begins, and ends with all or nothing."""
        try:
            self.begin()
            yield
        except sqlite3.Error as error:
            raise Trouble(f"{self.part}: {error}", NOT_WRITTEN) from error
        finally:
            self.abandon()

    def begin(self):
        """Opens the file, and makes the tables of a new one."""
        if self.since and not self.file.exists():
            raise Trouble(f"{self.file}: there is no report yet; write one without --since first", NOT_READ)
        if not self.since:
            self.part.unlink(missing_ok=True)
        self.database = sqlite3.connect(self.part, timeout=SECONDS_TO_WAIT, isolation_level=None)
        if self.since:
            self.is_same_schema()
            self.database.execute("BEGIN IMMEDIATE")
            return
        for pragma in ("journal_mode = OFF", "synchronous = OFF", "cache_size = -200000"):
            self.database.execute(f"PRAGMA {pragma}")
        self.database.execute("BEGIN")
        for statement in (*OWN_TABLES.strip().split(";\n"), *self.schema.before()):
            self.database.execute(statement)

    def is_same_schema(self):
        """Ends where the file has a report of another mapping, or none."""
        try:
            if not self.database.execute("SELECT 1 FROM sqlite_schema WHERE name = 'report_about'").fetchone():
                raise Trouble(f"{self.file}: this is no report", NOT_READ)
        except sqlite3.OperationalError:
            raise
        except sqlite3.DatabaseError as error:
            raise Trouble(f"{self.file}: this is no report: {error}", NOT_READ) from error
        found = dict(self.database.execute("SELECT name, value FROM report_about"))
        if found.get("schema") != self.schema.digest():
            raise Trouble(f"{self.file}: this report is of another mapping, or of another release; write it anew without --since",
                          DIFFERS)

    def take(self, table, rows):
        """Takes a raw table's rows; of those up to the date of --since the number and the digest are compared."""
        if self.since:
            rows = self.later(table, rows)
        self.insert(table, rows)

    def later(self, table, rows):
        """Gives the rows past the date, when those before are compared."""
        digest, is_compared = RowsDigest(), False
        for row in rows:
            if row[1] <= self.since:
                digest.add(row)
                continue
            if not is_compared:
                self.holds(table, digest.told())
                is_compared = True
            yield row
        if not is_compared:
            self.holds(table, digest.told())

    def holds(self, table, expected):
        """Ends where the rows up to the date are not those of the vault; removes those that are later."""
        name, digest = quoted(table.name), RowsDigest()
        for row in self.database.execute(f"SELECT * FROM {name} WHERE load_date <= ?", [self.since]):
            digest.add(row)
        if digest.told() != expected:
            raise Trouble(f"{self.file}: {table.name} has {digest.told()[0]} rows up to {self.since} which are not the "
                          f"{expected[0]} of the vault; write the report anew without --since", DIFFERS)
        self.database.execute(f"DELETE FROM {name} WHERE load_date > ?", [self.since])

    def known_snapshots(self):
        """The dates of the snapshots that the report has, which stay."""
        return {date for date, in self.database.execute("SELECT snapshot FROM report_snapshots")}

    def insert(self, table, rows):
        marks = ", ".join("?" * len(table.columns))
        self.database.executemany(f"INSERT INTO {quoted(table.name)} VALUES ({marks})", rows)

    def take_snapshot(self, table, rows):
        self.insert(table, rows)

    def finish(self, windows, dates):
        """Writes what comes at the end, and makes it the report."""
        run = self.database.execute
        run("DELETE FROM report_windows")
        self.database.executemany("INSERT INTO report_windows VALUES (?, ?)", [(load, " ".join(feeds)) for load, feeds in windows])
        self.database.executemany("INSERT INTO report_snapshots VALUES (?)", [(date,) for date in dates])
        if not self.since:
            for statement in self.schema.after():
                run(statement)
            run("INSERT INTO report_about VALUES ('schema', ?)", [self.schema.digest()])
            run("PRAGMA analysis_limit = 1000")
            run("ANALYZE")
        run("COMMIT")
        self.database.close()
        self.database = None
        if not self.since:
            put_in_place(self.part, self.file)

    def abandon(self):
        """Leaves nothing of a run that did not finish."""
        if self.database:
            self.database.close()
            if not self.since:
                self.part.unlink(missing_ok=True)


def put_in_place(part, file):
    """Renames a file that is whole on the disk over another."""
    for path in (part, part.parent):
        descriptor = os.open(path, os.O_RDONLY)
        if path is not part:
            os.replace(part, file)
        os.fsync(descriptor)
        os.close(descriptor)


class SqliteReader:
    """A report that is read: rows of its tables and marts."""

    def __init__(self, mapping, file):
        self.file, self.views = report_file(pathlib.Path(file)), views_of(mapping)
        self.schema = Schema(mapping)

    @contextlib.contextmanager
    def opened(self):
        """Opens the file for reading alone."""
        if not self.file.is_file():
            raise Trouble(f"{self.file}: there is no report", NOT_READ)
        try:
            with contextlib.closing(sqlite3.connect(f"{self.file.resolve().as_uri()}?mode=ro", uri=True)) as self.database:
                yield self
        except sqlite3.Error as error:
            raise Trouble(f"{self.file}: this report cannot be read: {error}", NOT_READ) from error

    def table(self, name, columns, order, where=None):
        """The rows of a table in an order; where a column is given with a value, those that have it."""
        condition = f" WHERE {quoted(where[0])} = {literal(where[1])}" if where else ""
        return self.database.execute(f"SELECT {listed(columns)} FROM {quoted(name)}{condition} ORDER BY {listed(order)}")

    def mart_at(self, history, date):
        """The rows of a mart at a date, in its order: those of its history, under the condition that a report writer gives."""
        begin, end = quoted(history.begin), quoted(history.end)
        yield self.database.execute(f"SELECT {listed(history.mart_columns)} FROM {quoted(history.view.name)} "
                                     f"WHERE {begin} <= :at AND :at < {end} ORDER BY {listed(history.order)}", {"at": date})
