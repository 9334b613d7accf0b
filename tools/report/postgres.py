"""A report in a schema of PostgreSQL, in one transaction: by psql, or as a script for it."""
import contextlib
import hashlib
import itertools
import pathlib

from report import names, taken
from report.names import literal, quoted
from report.psql import Script, copied, session
from report.sqlite import index_columns, listed, put_in_place
from report.texts import RowsDigest
from report.trouble import DIFFERS, NOT_READ, Trouble
from report.views import Views

SETTINGS = ("BEGIN", "SET LOCAL client_min_messages TO warning", "SET LOCAL standard_conforming_strings TO on",
            "SET LOCAL client_encoding TO 'UTF8'")
STAMP = "to_char($1, 'YYYY-MM-DD\"T\"HH24:MI:SS')"
OWN_TABLES = """
CREATE TABLE report_about (name text PRIMARY KEY, value text NOT NULL);
CREATE TABLE report_windows (load_date text COLLATE "C" PRIMARY KEY, feeds text NOT NULL);
CREATE TABLE report_snapshots (snapshot text COLLATE "C" PRIMARY KEY);
"""
# Ends the transaction where a text is not the expected one.
EXPECT = """
CREATE FUNCTION pg_temp.expect(got text, expected text, said text) RETURNS text LANGUAGE plpgsql AS $expect$
BEGIN
  IF got IS DISTINCT FROM expected THEN RAISE EXCEPTION 'vaultdesk-report: %', said; END IF;
  RETURN NULL;
END $expect$;
"""


def views_of(mapping):
    """The words of PostgreSQL for the later and the earlier of texts are greatest and least."""
    return Views(mapping, "greatest", "least")


class Schema:
    """What a report of a mapping has in PostgreSQL, as statements."""

    def __init__(self, mapping, views=None):
        self.mapping, self.views_of = mapping, views or views_of(mapping)
        self.tables, self.snapshots = list(mapping.tables()), list(taken.snapshot_tables(mapping))
        self.views = list(self.views_of.all())
        columns = {each.name: each.columns for each in (*self.tables, *self.snapshots, *self.views)}
        names.refuse(columns, True, {table.name for table in (*self.tables, *self.snapshots)})

    def digest(self):
        """Tells this schema from another."""
        return hashlib.sha256("\n".join([*self.before(), *self.after()]).encode()).hexdigest()

    def before(self):
        """The tables."""
        for table in (*self.tables, *self.snapshots):
            columns = ", ".join(f'{quoted(column)} text COLLATE "C" NOT NULL' for column in table.columns)
            yield f"CREATE TABLE {quoted(table.name)} ({columns})"

    def keys(self):
        """Primary keys and indexes."""
        for table in (*self.tables, *self.snapshots):
            yield f"ALTER TABLE {quoted(table.name)} ADD PRIMARY KEY ({listed(table.key)})"
        for table in self.tables:
            yield from (f"CREATE INDEX ON {quoted(table.name)} ({listed(columns)})" for columns in index_columns(table))

    def after(self):
        """Primary keys, indexes, views, functions and comments."""
        yield from self.keys()
        yield from map(view_statement, self.views)
        for history in self.views_of.histories():
            yield from self.function(history)
        yield from self.comments()

    def references(self):
        """The references of raw tables: added behind the rows, which is faster."""
        for table in self.tables:
            if table.refers_to:
                yield (f"ALTER TABLE {quoted(table.name)} ADD CONSTRAINT of_parent FOREIGN KEY (hash_key) "
                       f"REFERENCES {quoted(table.refers_to)} (hash_key)")

    def without_references(self):
        for table in self.tables:
            if table.refers_to:
                yield f"ALTER TABLE {quoted(table.name)} DROP CONSTRAINT of_parent"

    def function(self, history, setting=""):
        """A function that gives a mart at a date, under a setting."""
        name = quoted(history.now_name)
        query = self.views_of.mart_query(history, f"{{0}} <= (SELECT {STAMP}) AND (SELECT {STAMP}) < {{1}}")
        yield (f"CREATE FUNCTION {name}(timestamp) RETURNS SETOF {name} LANGUAGE sql STABLE PARALLEL SAFE {setting} "
               f"BEGIN ATOMIC {query}; END")
        yield f"COMMENT ON FUNCTION {name}(timestamp) IS {literal(f'the mart {history.mart} at a date')}"

    def comments(self):
        for table in self.tables:
            yield f"COMMENT ON TABLE {quoted(table.name)} IS {literal(table.comment)}"
            for column, comment in taken.column_comments(table).items():
                yield f"COMMENT ON COLUMN {quoted(table.name)}.{quoted(column)} IS {literal(comment)}"


def view_statement(view):
    """The statements that make a view."""
    return (f"CREATE VIEW {quoted(view.name)} ({listed(view.columns)}) AS{view.query};\n"
            f"COMMENT ON VIEW {quoted(view.name)} IS {literal(view.comment)}")


def about(asked, name):
    """What a session finds of a report in a schema; none where there is no such schema."""
    schema = quoted(name)
    (there, report), = asked.rows(f"SELECT to_regnamespace({literal(schema)}) IS NOT NULL, "
                                  f"to_regclass({literal(schema + '.report_about')}) IS NOT NULL")
    if there != "t":
        return None
    if report != "t":
        raise Trouble(f"the schema {name} is there and has no report; name another by --schema", DIFFERS)
    return dict(asked.rows(f"SELECT name, value FROM {schema}.report_about"))


def own_rows(windows, dates):
    """Statements that write which windows and snapshots a report has."""
    yield "DELETE FROM report_windows"
    yield from (f"INSERT INTO report_windows VALUES ({literal(load)}, {literal(' '.join(feeds))})" for load, feeds in windows)
    yield from (f"INSERT INTO report_snapshots VALUES ({literal(date)})" for date in dates)


def without_zero(piece, table):
    """The same rows; ends where a text has a zero byte."""
    if "\0" in piece:
        raise Trouble(f"{table.name}: a text has a zero byte, which PostgreSQL does not take", DIFFERS)
    return piece


def rows_digest(table):
    """The expression of the number and the digest of a table's rows, as RowsDigest tells it."""
    packed = " || ".join(f"octet_length({quoted(column)}) || ':' || {quoted(column)}" for column in table.columns)
    return (f"(SELECT count(*) || ' ' || md5(coalesce(string_agg(s.sum, '' ORDER BY s.sum COLLATE \"C\"), '')) "
            f"FROM (SELECT md5({packed}) AS sum FROM {quoted(table.name)}) s)")


class ScriptFile:
    """A script that is written to a file, which is there when it is whole."""

    def __init__(self, path):
        self.path, self.part = path, path.with_name(path.name + ".part")
        self.file = open(self.part, "w", encoding="utf-8", newline="")

    def write(self, text):
        self.file.write(text)

    def close(self):
        self.file.close()
        put_in_place(self.part, self.path)

    def abandon(self):
        self.file.close()
        self.part.unlink(missing_ok=True)


class PostgresReport:
    """A report that is written: anew, again in the tables that are there, or with the load dates past one."""

    def __init__(self, mapping, options):
        self.schema, self.since, self.database = Schema(mapping), options.since, options.database
        self.name_of_schema, self.out = options.schema, options.out
        self.script, self.is_there, self.known = None, False, set()

    def name(self):
        return str(self.out or f"schema {self.name_of_schema}")

    @contextlib.contextmanager
    def written(self):
        """Begins, and ends with all or nothing."""
        if not self.out:
            self.look()
        self.script = ScriptFile(pathlib.Path(self.out)) if self.out else Script(self.database)
        try:
            self.begin()
            yield
        finally:
            if self.script:
                self.script.abandon()

    def look(self):
        """Looks what the schema has: nothing, or a report of this mapping."""
        with session(self.database) as asked:
            found = about(asked, self.name_of_schema)
            self.is_there = found is not None
            if self.since and not self.is_there:
                raise Trouble(f"there is no report in a schema {self.name_of_schema} yet; write one without --since first",
                              NOT_READ)
            if self.is_there and found.get("schema") != self.schema.digest():
                raise Trouble(f"the report in the schema {self.name_of_schema} is of another mapping, or of another release; name "
                              "another schema by --schema, or drop it", DIFFERS)
            if self.since:
                rows = asked.rows(f"SELECT snapshot FROM {quoted(self.name_of_schema)}.report_snapshots")
                self.known = {date for date, in rows}

    def run(self, *statements):
        for statement in statements:
            self.script.write(f"{statement.strip().rstrip(';')};\n")

    def begin(self):
        """Writes what stands before the rows."""
        self.run(*SETTINGS)
        schema = quoted(self.name_of_schema)
        if not self.is_there:
            self.run(f"CREATE SCHEMA {schema}", f"COMMENT ON SCHEMA {schema} IS 'a report of vaultdesk'",
                     f"SET LOCAL search_path TO {schema}", *OWN_TABLES.strip().split("\n"), *self.schema.before())
            return
        everything = [*self.schema.tables, *self.schema.snapshots]
        self.run(f"SET LOCAL search_path TO {schema}", "LOCK TABLE report_about IN EXCLUSIVE MODE", EXPECT,
                 "SELECT pg_temp.expect((SELECT value FROM report_about WHERE name = 'schema'), "
                 f"{literal(self.schema.digest())}, 'another run has changed the report')")
        if self.since:
            # Rows that refer to others go first.
            self.run(*(f"DELETE FROM {quoted(table.name)} WHERE load_date > {literal(self.since)}"
                       for table in reversed(self.schema.tables)))
        else:
            self.run(*self.schema.without_references(),
                     f"TRUNCATE report_snapshots, {', '.join(quoted(each.name) for each in everything)}")

    def take(self, table, rows):
        """Takes a raw table's rows; of those up to the date of --since the number and the digest are compared."""
        if self.since:
            before, rows = self.parted(rows)
            digest = f"{before[0]} {before[1]}"
            said = (f"{table.name} has rows up to {self.since} which are not the {before[0]} of the vault; "
                    "write the report anew without --since")
            self.run(f"SELECT pg_temp.expect({rows_digest(table)}, {literal(digest)}, {literal(said)})")
        self.copy(table, rows)

    def parted(self, rows):
        """The number and the digest of the rows up to the date, and the rows past it, which come behind."""
        digest, rows = RowsDigest(), iter(rows)
        for row in rows:
            if row[1] > self.since:
                return digest.told(), itertools.chain([row], rows)
            digest.add(row)
        return digest.told(), iter(())

    def copy(self, table, rows):
        self.script.write(f"COPY {quoted(table.name)} FROM STDIN;\n")
        for piece in pieces(rows):
            self.script.write(without_zero(piece, table))
        self.script.write("\\.\n")

    def known_snapshots(self):
        """The dates of the snapshots that the report has, which stay."""
        return self.known

    def take_snapshot(self, table, rows):
        self.copy(table, rows)

    def finish(self, windows, dates):
        """Writes what comes at the end, and makes it the report."""
        self.run(*own_rows(windows, dates))
        if not self.is_there:
            self.run(*self.schema.after(), f"INSERT INTO report_about VALUES ('schema', {literal(self.schema.digest())})")
        if not self.since:
            self.run(*self.schema.references(), *(f"ANALYZE {quoted(table.name)}" for table in self.schema.tables))
        self.run("COMMIT")
        script, self.script = self.script, None
        script.close()


def pieces(rows):
    """Rows as COPY takes them, some thousands at a time."""
    rows = iter(rows)
    while some := "".join(map(copied, itertools.islice(rows, 4096))):
        yield some


class PostgresReader:
    """A report that is read: rows of its tables and marts."""

    def __init__(self, mapping, options):
        self.schema, self.views = Schema(mapping), views_of(mapping)
        self.name_of_schema, self.database, self.asked = options.schema, options.database, None

    @contextlib.contextmanager
    def opened(self):
        with session(self.database) as self.asked:
            there, = self.asked.rows(f"SELECT to_regclass({literal(quoted(self.name_of_schema) + '.report_about')}) IS NOT NULL")
            if there != ["t"]:
                raise Trouble(f"there is no report in a schema {self.name_of_schema}", NOT_READ)
            yield self

    def called(self, name):
        return f"{quoted(self.name_of_schema)}.{quoted(name)}"

    def ordered(self, columns):
        return ", ".join(f'{quoted(column)} COLLATE "C"' for column in columns)

    def table(self, name, columns, order, where=None):
        """The rows of a table in an order; where a column is given with a value, those that have it."""
        condition = f" WHERE {quoted(where[0])} = {literal(where[1])}" if where else ""
        return self.asked.rows(f"SELECT {listed(columns)} FROM {self.called(name)}{condition} ORDER BY {self.ordered(order)}")

    def mart_at(self, history, date):
        """The rows of a mart at a date, in its order: by its function and, where that does not take it, by its history."""
        columns, order = listed(history.mart_columns), self.ordered(history.order)
        yield self.asked.rows(f"SELECT {columns} FROM {self.called(history.now_name)}({literal(date)}) ORDER BY {order}")
        if history.mart.startswith(("hub:", "path:")):
            begin, end, at = quoted(history.begin), quoted(history.end), literal(date)
            yield self.asked.rows(f"SELECT {columns} FROM {self.called(history.view.name)} "
                                  f"WHERE {begin} <= {at} AND {at} < {end} ORDER BY {order}")
