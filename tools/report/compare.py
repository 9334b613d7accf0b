"""Holds a report to the vault: its windows, each raw table, each stored snapshot, and each mart now, at each load date, a
second before and after it, before the first and after the last, byte for byte as CSV."""
import datetime

from report.texts import line, rows_of
from report.trouble import DIFFERS, Trouble
from report.vault import Refused

FIRST_DATE, LAST_DATE = "1900-01-01T00:00:00", "9998-12-31T23:59:59"


class Differs(Trouble):
    """A text of the report is not that of the vault."""

    def __init__(self, said):
        super().__init__(said, DIFFERS)


def moved(date, seconds):
    """A date so many seconds later, in the same form."""
    return (datetime.datetime.fromisoformat(date) + datetime.timedelta(seconds=seconds)).isoformat()


def dates_of(windows):
    """The dates at which marts are compared."""
    near = {moved(load, seconds) for load, _ in windows for seconds in (-1, 0, 1)}
    return sorted(near | {FIRST_DATE, LAST_DATE})


def shown(row):
    return "not there" if row is None else line(row).rstrip("\n")


def first_difference(what, ours, theirs):
    """Ends with the first row that is not the same in the vault and in the report; gives how many there are."""
    ours, theirs, count = iter(ours), iter(theirs), 0
    while True:
        one, other = next(ours, None), next(theirs, None)
        if one is None and other is None:
            return count
        count += 1
        if one is None or other is None or list(one) != list(other):
            raise Differs(f"{what}: row {count} is {shown(one)} in the vault, and {shown(other)} in the report")


def hold_text(what, header, file, rows):
    """Ends with the first difference between the vault's text in a file and a header with rows of the report."""
    rows = list(rows)
    if all(file.read(len(text)) == text for text in (line(row).encode() for row in (header, *rows))) and not file.read(1):
        return
    file.seek(0)
    got, ours = rows_of(file)
    if got != list(header):
        raise Differs(f"{what}: the columns are {shown(got)} in the vault, and {shown(header)} in the report")
    first_difference(what, ours, rows)
    raise Differs(f"{what}: the texts are not the same")


class Comparison:
    """Compares what a reader has with the vault. The dates are all, or those that are named."""

    def __init__(self, taking, reader, dates, snapshots):
        self.taking, self.reader, self.dates, self.snapshots = taking, reader, dates, snapshots
        self.histories = list(reader.views.histories())
        self.marts = self.refused = 0

    def run(self):
        """Ends with the first difference; else gives a line of what is equal."""
        with self.reader.opened():
            with self.taking.desk() as desk:
                self.hold_windows()
                rows = self.hold_tables(desk)
                dates = list(self.taking.snapshot_dates(desk, self.snapshots))
                for date, table, rows_of_pit in self.taking.pits(desk, dates):
                    self.hold_snapshot(date, table, rows_of_pit)
                self.hold_marts(desk, self.dates or dates_of(self.taking.windows))
            for date, table, rows_of_bridge in self.taking.bridges(dates):
                self.hold_snapshot(date, table, rows_of_bridge)
        tables = len(self.reader.schema.tables)
        refused = f", {self.refused} refused by the program" if self.refused else ""
        return f"equal: {tables} tables with {rows} rows, {self.marts} marts{refused}, {len(dates)} snapshots"

    def hold_windows(self):
        ours = [(load, " ".join(feeds)) for load, feeds in self.taking.windows]
        theirs = self.reader.table("report_windows", ("load_date", "feeds"), ("load_date",))
        first_difference("the windows", ours, theirs)

    def hold_tables(self, desk):
        """How many rows the raw tables have."""
        return sum(first_difference(f"table {table.name}", self.taking.rows(desk, table), self.reader.table(
            table.name, table.columns, ("load_date", "hash_key", *table.key[2:]))) for table in self.reader.schema.tables)

    def hold_snapshot(self, date, table, rows):
        order = ("hash_key",) if table.command == "pit" else table.columns
        theirs = self.reader.table(table.name, table.columns, order, ("snapshot", date))
        first_difference(f"{table.command} {table.of} {date}", rows, theirs)

    def hold_marts(self, desk, dates):
        for history in self.histories:
            for date in dates:
                self.hold_mart(desk, history, date, self.reader.mart_at(history, date))
            now = self.reader.table(history.now_name, history.mart_columns, history.order)
            self.hold_mart(desk, history, LAST_DATE, [now])

    def hold_mart(self, desk, history, date, ways):
        """Holds each way in which the report gives a mart to that of the program."""
        try:
            file = desk.mart(history.mart, date)
        except Refused:
            self.refused += 1  # A path with too many rows: the program has no text of it.
            return
        with file:
            for rows in ways:
                hold_text(f"mart {history.mart} {date}", history.printed, file, rows)
                file.seek(0)
        self.marts += 1
