"""A report over several servers: rows live on the server that their hash key names, so a hub or a link, its satellites and
its statuses are together there. The keys of hubs to which links refer are on each server, as they are in the rows of feeds.
A first server has no rows, and asks the others by postgres_fdw.

Each run makes schemas of its own on the servers of the rows, called NAME#1, NAME#2 and so on, and then turns the first server
to them in one transaction. So a run that breaks off leaves the report as it was; what it left over is removed by the next.
"""
import bisect
import contextlib
import hashlib
import itertools
import re
import shutil
import tempfile

from report import postgres
from report.mapping import OPEN_END
from report.names import literal, quoted
from report.postgres import OWN_TABLES
from report.psql import Script, copied, session
from report.sqlite import listed
from report.trouble import DIFFERS, USAGE, Trouble
from report.views import View, Views, alias

SETTING = re.compile(r"(\w+)\s*=\s*('(?:[^'\\]|\\.)*'|\S+)\s*")
OF_USER = ("user", "password")
AT_ONCE = 4096


def settings_of(connection):
    """The settings of a connection such as `host=a port=5432 dbname=b user=c`."""
    found = {name: re.sub(r"\\(.)", r"\1", value.strip("'")) for name, value in SETTING.findall(connection)}
    if not found or SETTING.sub("", connection):
        raise Trouble(f"--shards takes settings such as host=db1 dbname=vault user=report: {connection}", USAGE)
    return found


def bounds_of(count):
    """The least hash key of each server but the first: hash keys are spread evenly, so each has an equal share."""
    return [f"{number * 65536 // count:04x}" for number in range(1, count)]


def options_of(settings):
    return ", ".join(f"{name} {literal(value)}" for name, value in settings.items())


class SpreadViews(Views):
    """Views over rows that are spread. What a feed of a link has is worked out where the link's rows are, with the keys of
    hubs that each server has; a path then joins what its feeds have."""

    # postgres_fdw sends no `=` with a constant to a server, where the columns have a collation of their own.
    is_open = "{1} >= '" + OPEN_END + "'"

    def __init__(self, mapping):
        super().__init__(mapping, "greatest", "least")

    def keys_table(self, hub):
        return quoted(f"keys_{hub}")

    def key_of_link(self, hash_key):
        return hash_key

    def steps(self):
        """What each feed of a path has: the hash keys and the keys' parts of its hubs, from when to when."""
        for name in dict.fromkeys(feed for path in self.mapping.paths.values() for feed in path.feeds):
            yield self.step(self.mapping.feeds[name])

    def step(self, feed):
        shown, names, joins = ["p.hash_key"], ["hash_key"], []
        for at, hub in enumerate(feed.hubs):
            joins.append(f"JOIN {self.keys_table(hub)} h{at} ON h{at}.hash_key = l.{quoted(hub)}")
            shown += [f"h{at}.{each}" for each in ("hash_key", *self.mapping.parts_of(hub))]
            names += [f"{hub}.hash_key", *(f"{hub}.{number}" for number in range(1, self.mapping.hubs[hub] + 1))]
        shown, names = [*shown, 'p."begin"', 'p."end"'], [*names, "begin", "end"]
        query = (f"\nSELECT {', '.join(map(alias, shown, names))}\nFROM {quoted('present_' + feed.name)} p\n"
                 f"JOIN {quoted(feed.parent)} l ON l.hash_key = p.hash_key\n" + "\n".join(joins))
        return View(f"step_{feed.name}", tuple(names), query,
                    f"all keys that the feed {feed.name} ever had with no reference missing, from when to when", "hash_key")

    def path_query(self, path, conditions, more):
        columns, values, joins = [], [], []
        for at, label in enumerate(path.labels):
            feed = self.mapping.feeds[path.feeds[at]]
            joins.append(f"{quoted('step_' + feed.name)} p{at}")
            if at:
                via = quoted(f"{path.via[at - 1]}.hash_key")
                joins[-1] = f"JOIN {joins[-1]} ON p{at}.{via} = p{at - 1}.{via}"
            names = [f"{hub}.{number}" for hub in feed.hubs for number in range(1, self.mapping.hubs[hub] + 1)]
            columns += [f"{label}.{name}" for name in names]
            values += [f"p{at}.{quoted(name)}" for name in names]
        where = f"\nWHERE {' AND '.join(conditions)}" if conditions else ""
        shown = ", ".join([*map(alias, values, columns), *more])
        return columns, f"\nSELECT {shown}\nFROM {chr(10).join(joins)}{where}"


class Layout:
    """What stands where: on the servers of the rows, and on the first one."""

    def __init__(self, schema, connections, name):
        self.schema, self.connections, self.name = schema, connections, name
        self.settings, self.bounds = [settings_of(each) for each in connections], bounds_of(len(connections))
        self.local = [view for view in schema.views if view.of_key]
        self.marts = [view for view in schema.views if not view.of_key]
        self.known_keys = sorted({hub for hubs in schema.mapping.links.values() for hub in hubs})

    def digest(self):
        """Tells this report from one of another mapping or other servers."""
        told = [*self.before(), *self.schema.after(), *map(str, self.settings)]
        return hashlib.sha256("\n".join(told).encode()).hexdigest()

    def parted(self):
        """Each table that is over all servers: its name, its columns, and the one of the hash key."""
        for table in self.schema.tables:
            yield table.name, table.columns, "hash_key"
        for table in self.schema.snapshots:
            yield table.name, table.columns, table.columns[0 if table.command == "pit" else 1]
        for view in self.local:
            yield view.name, view.columns, view.of_key

    def before(self):
        """Statements of a server of rows, before the rows: the tables."""
        yield from self.schema.before()
        for hub in self.known_keys:
            parts = ", ".join(f'{part} text COLLATE "C" NOT NULL' for part in self.schema.mapping.parts_of(hub))
            yield f'CREATE TABLE {quoted("keys_" + hub)} (hash_key text COLLATE "C" NOT NULL, {parts})'

    def of_rows(self):
        """Statements of a server of rows, behind the rows: keys, indexes, references, and the views of one hash key."""
        yield from self.schema.keys()
        yield from (f"ALTER TABLE {quoted('keys_' + hub)} ADD PRIMARY KEY (hash_key)" for hub in self.known_keys)
        for view in self.local:
            yield f"CREATE VIEW {quoted(view.name)} ({listed(view.columns)}) AS{view.query}"
        yield from self.schema.references()
        yield from (f"ANALYZE {quoted(name)}" for name in (*(table.name for table in self.schema.tables),
                                                           *(f"keys_{hub}" for hub in self.known_keys)))

    def server(self, number):
        return quoted(f"{self.name}#{number + 1}")

    def of_first(self, rows_schema):
        """Statements of the first server: the others, tables over all of them, and the marts."""
        for number, settings in enumerate(self.settings):
            of_server = {name: value for name, value in settings.items() if name not in OF_USER}
            of_user = {name: value for name, value in settings.items() if name in OF_USER}
            yield (f"CREATE SERVER {self.server(number)} FOREIGN DATA WRAPPER postgres_fdw OPTIONS ({options_of(of_server)}"
                   f"{', ' if of_server else ''}fetch_size '10000', async_capable 'true', use_remote_estimate 'true')")
            yield f"CREATE USER MAPPING FOR CURRENT_USER SERVER {self.server(number)} OPTIONS ({options_of(of_user)})"
        for name, columns, key in self.parted():
            shown = ", ".join(f'{quoted(column)} text COLLATE "C"' for column in columns)
            yield f"CREATE TABLE {quoted(name)} ({shown}) PARTITION BY RANGE ({quoted(key)})"
            for number in range(len(self.connections)):
                least = literal(self.bounds[number - 1]) if number else "MINVALUE"
                most = literal(self.bounds[number]) if number < len(self.bounds) else "MAXVALUE"
                yield (f"CREATE FOREIGN TABLE {self.part(name, number)} PARTITION OF {quoted(name)} "
                       f"FOR VALUES FROM ({least}) TO ({most}) SERVER {self.server(number)} "
                       f"OPTIONS (schema_name {literal(rows_schema)}, table_name {literal(name)})")
        yield from map(postgres.view_statement, self.marts)
        for history in self.schema.views_of.histories():
            yield from self.schema.function(history, "SET enable_partitionwise_join TO on")
        yield from self.schema.comments()

    def part(self, name, number):
        return quoted(f"{name}#{number + 1}")

    def turned(self, rows_schema):
        """Statements that turn the tables of the first server to other schemas of the rows."""
        for name, _, _ in self.parted():
            for number in range(len(self.connections)):
                yield f"ALTER FOREIGN TABLE {self.part(name, number)} OPTIONS (SET schema_name {literal(rows_schema)})"


class ShardedReport:
    """A report over several servers that is written."""

    def __init__(self, mapping, options):
        if options.since or options.out:
            raise Trouble("--shards goes with neither --since nor --out: over several servers a report is written anew", USAGE)
        self.schema = postgres.Schema(mapping, SpreadViews(mapping))
        self.database, self.name_of_schema = options.database, options.schema
        self.layout = Layout(self.schema, options.shards, options.schema)
        self.is_there, self.run_number, self.scripts = False, 1, []

    def name(self):
        return f"schema {self.name_of_schema} over {len(self.layout.connections)} servers"

    def rows_schema(self, number):
        return f"{self.name_of_schema}#{number}"

    @contextlib.contextmanager
    def written(self):
        """Begins, and ends with all or nothing."""
        self.look()
        try:
            self.begin()
            yield
        finally:
            for script in self.scripts:
                script.abandon()

    def look(self):
        """Looks what the first server has: nothing, or a report of this mapping over these servers."""
        with session(self.database) as asked:
            found = postgres.about(asked, self.name_of_schema)
        self.is_there = found is not None
        if self.is_there and found.get("schema") != self.layout.digest():
            raise Trouble(f"the report in the schema {self.name_of_schema} is of another mapping, of other servers, or of another "
                          "release; name another schema by --schema, or drop it", DIFFERS)
        self.run_number = int(found["run"]) + 1 if found else 1

    def begin(self):
        """Begins on each server of rows, without what other runs left over; the schema that is in use stays."""
        for connection in self.layout.connections:
            with session(connection) as asked:
                left = [name for name, in asked.rows("SELECT nspname FROM pg_namespace")
                        if name.rpartition("#")[0] == self.name_of_schema and name != self.rows_schema(self.run_number - 1)]
            script = Script(connection)
            self.scripts.append(script)
            run(script, *postgres.SETTINGS, *(f"DROP SCHEMA {quoted(name)} CASCADE" for name in left),
                f"CREATE SCHEMA {quoted(self.rows_schema(self.run_number))}",
                f"SET LOCAL search_path TO {quoted(self.rows_schema(self.run_number))}", *self.layout.before())

    def take(self, table, rows):
        if table.name in {f"hub_{hub}" for hub in self.layout.known_keys}:
            self.copy_hub(table, rows)
        else:
            self.copy(table, rows, 0)

    def copy_hub(self, table, rows):
        """Sends a hub's rows, and their keys to each server."""
        with tempfile.TemporaryFile("w+", encoding="utf-8", newline="") as keys:
            self.copy(table, noted(rows, keys), 0)
            for script in self.scripts:
                keys.seek(0)
                script.write(f"COPY {quoted('keys_' + table.name.removeprefix('hub_'))} FROM STDIN;\n")
                shutil.copyfileobj(keys, script)
                script.write("\\.\n")

    def copy(self, table, rows, key):
        """Sends each row to the server that its hash key names. Takes the place of the hash key in a row."""
        for script in self.scripts:
            script.write(f"COPY {quoted(table.name)} FROM STDIN;\n")
        rows, bounds = iter(rows), self.layout.bounds
        while some := list(itertools.islice(rows, AT_ONCE)):
            parts = [[] for _ in self.scripts]
            for row in some:
                parts[bisect.bisect_right(bounds, row[key])].append(copied(row))
            for script, part in zip(self.scripts, parts):
                script.write(postgres.without_zero("".join(part), table))
        for script in self.scripts:
            script.write("\\.\n")

    def known_snapshots(self):
        return set()

    def take_snapshot(self, table, rows):
        self.copy(table, rows, 0 if table.command == "pit" else 1)

    def finish(self, windows, dates):
        """Ends on the servers of the rows, and then turns the first one to them."""
        for script in self.scripts:
            run(script, *self.layout.of_rows(), "COMMIT")
        while self.scripts:
            self.scripts.pop().close()
        script = Script(self.database)
        self.scripts.append(script)
        schema, rows_schema = quoted(self.name_of_schema), self.rows_schema(self.run_number)
        run(script, *postgres.SETTINGS)
        if self.is_there:
            run(script, f"SET LOCAL search_path TO {schema}", "LOCK TABLE report_about IN EXCLUSIVE MODE",
                *self.layout.turned(rows_schema))
        else:
            run(script, "CREATE EXTENSION IF NOT EXISTS postgres_fdw", f"CREATE SCHEMA {schema}",
                f"SET LOCAL search_path TO {schema}, public", *OWN_TABLES.strip().split("\n"), *self.layout.of_first(rows_schema))
        run(script, "DELETE FROM report_about", "DELETE FROM report_snapshots",
            f"INSERT INTO report_about VALUES ('schema', {literal(self.layout.digest())}), ('run', '{self.run_number}')",
            *postgres.own_rows(windows, dates), "COMMIT")
        self.scripts.pop().close()


def noted(rows, keys):
    """The same rows of a hub, of which hash keys and keys' parts are written to a file as COPY takes them."""
    for row in rows:
        keys.write(copied((row[0], *row[3:])))
        yield row


def run(script, *statements):
    for statement in statements:
        script.write(f"{statement.strip().rstrip(';')};\n")


