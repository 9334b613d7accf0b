"""The commands: a report that is written, and one that is compared."""
import contextlib
import pathlib
import sys

from report import postgres, shards, sqlite, taken, warehouse
from report.compare import Comparison
from report.mapping import read_mapping
from report.names import RefusedNames
from report.trouble import MEMORY, NOT_WRITTEN, Trouble, printed
from report.vault import Vault, found_program
from report.words import read_words


def write(taking, report, named):
    """Writes a report whole, or leaves all as it was. Gives the line that says what is in it."""
    with contextlib.ExitStack() as writing:
        with taking.desk() as desk:
            writing.enter_context(report.written())
            for table in report.schema.tables:
                report.take(table, taking.rows(desk, table))
            known = report.known_snapshots()
            dates = [date for date in taking.snapshot_dates(desk, named) if date not in known]
            for _, table, rows in taking.pits(desk, dates):
                report.take_snapshot(table, rows)
        for _, table, rows in taking.bridges(dates):
            report.take_snapshot(table, rows)
        report.finish(taking.windows, dates)
    tables = len(report.schema.tables)
    return f"{report.name()}: {tables} tables up to {taking.last() or 'no window'}, {len(known) + len(dates)} snapshots"


def done(options):
    """Runs the command of the words, and gives the line that it ends with."""
    if options.command == "warehouse":
        return warehouse.write(options)
    taking = taken.Taking(Vault(found_program(options.program)), read_mapping(pathlib.Path()))
    if options.command == "compare":
        reader = (sqlite.SqliteReader(taking.mapping, options.sqlite) if options.sqlite
                  else postgres.PostgresReader(taking.mapping, options))
        return Comparison(taking, reader, options.at, options.snapshot).run()
    return write(taking, new_report(taking.mapping, options), options.snapshot)


def new_report(mapping, options):
    """The report that the words ask for."""
    if options.command == "sqlite":
        return sqlite.SqliteReport(mapping, options.out, options.since)
    return (shards.ShardedReport if options.shards else postgres.PostgresReport)(mapping, options)


def main(words):
    """Runs the words, and gives the exit status."""
    options = read_words(words)
    try:
        print(printed(done(options)))
        sys.stdout.flush()
        return 0
    except RefusedNames as refused:
        lines, status = [*refused.faults, str(refused)], refused.status
    except Trouble as trouble:
        lines, status = [str(trouble)], trouble.status
    except OSError as error:
        lines, status = [str(error)], NOT_WRITTEN
    except MemoryError:
        lines, status = ["out of memory"], MEMORY
    except KeyboardInterrupt:
        return 130
    for line in lines:
        print(f"vaultdesk-report: {printed(line)}", file=sys.stderr)
    return status
