"""Several reports of one PostgreSQL database as one warehouse: a schema of views, in which each hub and each link has one row
for each hash key, and all else has the rows of all vaults, each with the name of its schema. The same business key has the
same hash key in each vault, so it is one row of the hub, and on the same server."""
import collections

from report import postgres
from report.names import free_name, literal, quoted
from report.psql import Script, session
from report.sqlite import listed
from report.trouble import DIFFERS, NOT_READ, USAGE, Trouble

COMMENT = "a warehouse of vaultdesk over "
# What has columns of each feed of a hub.
OF_HUB = ("history_hub_", "mart_hub_", "pit_")
# What is in a report, and which of it a warehouse has: no partition, and none of the tables of the report itself.
RELATIONS = """
SELECT c.relname, a.attname FROM pg_class c JOIN pg_attribute a ON a.attrelid = c.oid
WHERE c.relnamespace = to_regnamespace({}) AND c.relkind IN ('r', 'v', 'p') AND NOT c.relispartition
  AND a.attnum > 0 AND NOT a.attisdropped AND c.relname NOT LIKE 'report\\_%' ORDER BY c.relname, a.attnum"""


def relations(asked, schema):
    """The tables and views of a report, each with its columns."""
    if postgres.about(asked, schema) is None:
        raise Trouble(f"there is no report in a schema {schema}", NOT_READ)
    found = collections.defaultdict(list)
    for name, column in asked.rows(RELATIONS.format(literal(quoted(schema)))):
        found[name].append(column)
    return {name: tuple(columns) for name, columns in found.items()}


def of_all(by_schema):
    """Each name that a report has: its columns, and those of each schema that has it. What is of a hub has the columns of all
    feeds; ends where something else has other columns in two schemas."""
    found = {}
    for schema, named in by_schema.items():
        for name, columns in named.items():
            known, by_vault = found.setdefault(name, (list(columns), {}))
            if list(columns) != known and not name.startswith(OF_HUB):
                raise Trouble(f"{name} has other columns in {schema} than in {next(iter(by_vault))}: give the feeds other names",
                              DIFFERS)
            known += [column for column in columns if column not in known]
            by_vault[schema] = columns
    return found


def union(name, columns, by_vault, call=""):
    """The rows of all schemas, each with the name of its schema. What a vault has no feed for is NULL."""
    return "\nUNION ALL ".join(
        f"SELECT {literal(schema)}::text, {', '.join(quoted(each) if each in known else 'NULL::text' for each in columns)} "
        f"FROM {quoted(schema)}.{quoted(name)}{call}" for schema, known in by_vault.items())


def statements(found):
    """The views of a warehouse, and the functions that give marts at a date."""
    for name, (columns, by_vault) in sorted(found.items()):
        if name.startswith(("hub_", "link_")):
            every = "\nUNION ALL ".join(f"SELECT {listed(columns)} FROM {quoted(schema)}.{quoted(name)}" for schema in by_vault)
            yield (f"CREATE VIEW {quoted(name)} AS SELECT DISTINCT ON (hash_key) * FROM ({every}) u "
                   "ORDER BY hash_key, load_date, record_source")
            continue
        vault = free_name("vault", columns)
        yield f"CREATE VIEW {quoted(name)} ({listed((vault, *columns))}) AS {union(name, columns, by_vault)}"
        if name.startswith("mart_"):
            yield (f"CREATE FUNCTION {quoted(name)}(timestamp) RETURNS SETOF {quoted(name)} LANGUAGE sql STABLE "
                   f"BEGIN ATOMIC {union(name, columns, by_vault, '($1)')}; END")


def write(options):
    """Writes the views, in place of those that were there. Gives the line that says what is in it."""
    if len(options.vaults) != len(set(options.vaults)) or options.schema in options.vaults:
        raise Trouble("each schema is named once, and the warehouse has another one", USAGE)
    schema = quoted(options.schema)
    with session(options.database) as asked:
        found = of_all({vault: relations(asked, vault) for vault in options.vaults})
        (comment,), = asked.rows(f"SELECT coalesce(obj_description(to_regnamespace({literal(schema)}), 'pg_namespace'), "
                                 f"CASE WHEN to_regnamespace({literal(schema)}) IS NULL THEN '{COMMENT}' ELSE '' END)")
    if not comment.startswith(COMMENT):
        raise Trouble(f"the schema {options.schema} is there and has no warehouse; name another by --schema", DIFFERS)
    script = Script(options.database)
    try:
        for statement in (*postgres.SETTINGS, f"DROP SCHEMA IF EXISTS {schema} CASCADE", f"CREATE SCHEMA {schema}",
                          f"COMMENT ON SCHEMA {schema} IS {literal(COMMENT + ', '.join(options.vaults))}",
                          f"SET LOCAL search_path TO {schema}", *statements(found), "COMMIT"):
            script.write(f"{statement};\n")
    except BaseException:
        script.abandon()
        raise
    script.close()
    return f"schema {options.schema}: {len(found)} tables and views over {len(options.vaults)} vaults"
