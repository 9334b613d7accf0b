"""The words of the command line."""
import argparse
import pathlib
import re

DATE = re.compile(r"\d{4}-\d\d-\d\dT\d\d:\d\d:\d\d")


def date(text):
    """A date in the program's form."""
    if not DATE.fullmatch(text):
        raise argparse.ArgumentTypeError("a date such as 2024-03-01T02:00:00 is needed")
    return text


def schema(text):
    """The name of a schema. Names that are made of it are longer, and PostgreSQL has 63 bytes."""
    if not 0 < len(text.encode()) <= 50 or "\0" in text:
        raise argparse.ArgumentTypeError("a name of at most 50 bytes is needed")
    return text


def add_common(reader):
    """The words of every command that asks a vault."""
    reader.add_argument("--snapshot", type=date, action="append", default=[], metavar="DATE",
                        help="a snapshot that is stored at another date than a load date")
    reader.add_argument("--program", metavar="PATH", help="another program than the script vaultdesk of the checkout")


def add_server(reader):
    """The words of every command that asks PostgreSQL."""
    reader.add_argument("--schema", type=schema, default="vault", metavar="NAME", help="the schema of the report (vault)")
    reader.add_argument("--database", default="", metavar="CONNECTION",
                        help="the database, as psql takes it; else that of the environment, such as PGHOST")


def read_words(words):
    """The options of the words."""
    reader = argparse.ArgumentParser(prog="vaultdesk-report", description="Hands the vault of this folder over to a database, "
                                     "and compares it.")
    commands = reader.add_subparsers(dest="command", required=True, metavar="sqlite|postgres|compare|warehouse")
    sqlite = commands.add_parser("sqlite", help="writes a report in a SQLite file")
    sqlite.add_argument("--out", type=pathlib.Path, required=True, metavar="FILE", help="the file, or a folder for report.db")
    postgres = commands.add_parser("postgres", help="writes a report in a schema of PostgreSQL")
    postgres.add_argument("--out", type=pathlib.Path, metavar="FILE", help="writes a script for psql, and asks no server")
    for each in (sqlite, postgres):
        each.add_argument("--since", type=date, metavar="DATE",
                          help="brings only later load dates; the rows up to it are compared; not with --shards")
    compare = commands.add_parser("compare", help="compares a report with the vault")
    compare.add_argument("--sqlite", type=pathlib.Path, metavar="FILE", help="a report in SQLite; else one in PostgreSQL")
    compare.add_argument("--at", type=date, action="append", default=[], metavar="DATE",
                         help="compares marts at this date only; may be given again")
    warehouse = commands.add_parser("warehouse", help="makes views over several reports of one PostgreSQL database")
    warehouse.add_argument("vaults", nargs="+", metavar="SCHEMA", help="the schema of each report")
    for each in (postgres, compare, warehouse):
        add_server(each)
    postgres.add_argument("--shards", action="append", default=[], metavar="CONNECTION",
                          help="a server of the rows, such as 'host=db1 dbname=vault user=report'; given once for each. The report "
                               "is written anew each time: no transaction is over several servers, so --since could be half done")
    for each in (sqlite, postgres, compare):
        add_common(each)
    return reader.parse_args(words)
