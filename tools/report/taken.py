"""What a run takes out of a vault: each raw table's rows up to the last sealed window, and the stored snapshots."""
import contextlib
import itertools

from report.mapping import FRONT_COMMENTS
from report.texts import rows_of
from report.trouble import DIFFERS, MAPPING, Trouble
from report.vault import OTHER_MAPPING, NotThere


class SnapshotTable:
    """A table of snapshots: its name, the program's command and word for it, and its columns, as the report has them and
    as they are printed. A path that takes a feed twice prints two columns of one name."""

    def __init__(self, command, of, columns, printed=None):
        self.name, self.command, self.of = f"{command}_{of}", command, of
        self.columns, self.printed = tuple(columns), tuple(printed or columns)
        # A way along a path is told by the date and its links.
        self.key = self.columns[:2] if command == "pit" else self.columns[:1 + sum("." not in each for each in columns[1:])]


def snapshot_tables(mapping):
    """The tables of a snapshot."""
    for hub in mapping.hubs:
        cells = [f"{feed.name}.{what}" for feed in mapping.feeds_of_hub(hub) for what in ("load", "present")]
        yield SnapshotTable("pit", hub, ("hash_key", "snapshot", *cells))
    for path in mapping.paths.values():
        columns = [["snapshot", *names, *(f"{name}.{hub}" for name, feed in zip(names, path.feeds)
                                          for hub in mapping.feeds[feed].hubs)] for names in (path.labels, path.feeds)]
        yield SnapshotTable("bridge", path.name, *columns)


def held_to(name, expected, got):
    """Ends where a header is another one than the mapping has."""
    if list(expected) != got:
        raise Trouble(f"{OTHER_MAPPING}: {name} has other columns", MAPPING)


def column_comments(table):
    """What each column of a raw table holds."""
    return FRONT_COMMENTS | table.column_comments


def table_rows(desk, table, last_sealed):
    """The rows of a raw table in the order in which they are printed. Where a window is open, its rows are left out: takes
    the last sealed date then, and else nothing."""
    try:
        header, rows = rows_of(desk.table(table.name))
    except NotThere as error:
        raise Trouble(f"{OTHER_MAPPING}: there is no {table.name}", MAPPING) from error
    held_to(table.name, table.columns, header)
    if last_sealed is None:
        return rows
    # Rows come in the order of their load dates.
    return itertools.takewhile(lambda row: row[1] <= last_sealed, rows)


def text_rows(table, text):
    """The rows of a snapshot's table, of what the program prints."""
    header, rows = rows_of(text)
    held_to(table.name, table.printed, header)
    return list(rows)


class Taking:
    """A run's look at a vault: the desk is asked first, and other commands when it has ended."""

    def __init__(self, vault, mapping):
        self.vault, self.mapping, self.windows, self.is_open = vault, mapping, [], False

    def last(self):
        """The load date of the last sealed window; an empty text where there is none."""
        return self.windows[-1][0] if self.windows else ""

    @contextlib.contextmanager
    def desk(self):
        """A desk of the vault; when it has ended, the mapping is held to the one that is stored."""
        self.vault.is_there()
        with self.vault.desk() as desk:
            self.windows, self.is_open = desk.windows()
            yield desk
        self.vault.holds_mapping()

    def rows(self, desk, table):
        """The rows of a raw table that sealed windows brought."""
        return table_rows(desk, table, self.last() if self.is_open else None)

    def snapshot_dates(self, desk, named):
        """The dates at which snapshots are stored: of load dates those that have one, and those that are named."""
        hub = next(iter(self.mapping.hubs), None)
        for date in sorted({*named, *(load for load, _ in self.windows)}) if hub else ():
            try:
                desk.pit(hub, date).close()
                yield date
            except NotThere as error:
                if date in named:
                    raise Trouble(f"vaultdesk: Q5 NoSnapshot date={date}", DIFFERS) from error

    def pits(self, desk, dates):
        """Each stored point-in-time table: the date, the table and its rows."""
        for table in snapshot_tables(self.mapping):
            for date in dates if table.command == "pit" else ():
                with desk.pit(table.of, date) as file:
                    yield date, table, text_rows(table, file)

    def bridges(self, dates):
        """Each stored bridge, by the command, which a desk does not have: the date, the table and its rows."""
        for table in snapshot_tables(self.mapping):
            for date in dates if table.command == "bridge" else ():
                with self.vault.file("bridge", table.of, date) as file:
                    yield date, table, text_rows(table, file)
