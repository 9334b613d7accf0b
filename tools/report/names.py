"""Which names of a report a database cannot take."""
from report.trouble import DIFFERS, Trouble

LONGEST_IN_POSTGRES = 63  # bytes
# Columns that each table of PostgreSQL has already.
TAKEN_IN_POSTGRES = {"tableoid", "cmax", "xmax", "cmin", "xmin", "ctid"}


class RefusedNames(Trouble):
    """Names that the database cannot take, each with the reason."""

    def __init__(self, faults):
        super().__init__(f"{len(faults)} of the names cannot be taken", DIFFERS)
        self.faults = faults


def twice(columns, as_one):
    """Columns that the database takes for an earlier one of the same table."""
    seen = {}
    for column in columns:
        if as_one(column) in seen:
            yield column, seen[as_one(column)]
        seen.setdefault(as_one(column), column)


def lower_ascii(name):
    return "".join(letter.lower() if letter.isascii() else letter for letter in name)


def faults_of(columns_by_name, is_postgres, tables):
    """Each name that cannot be taken: takes the columns of each table or view, and which of these are tables."""
    for name, columns in columns_by_name.items():
        for column, other in twice(columns, str if is_postgres else lower_ascii):
            yield f"{name}: the columns {other} and {column} have one name" + (
                "" if other == column else " up to the letters' size")
        for column in columns:
            if "\x00" in column:
                yield f"{name}: the column {column} has a zero byte"
            if is_postgres and len(column.encode()) > LONGEST_IN_POSTGRES:
                yield f"{name}: the column {column} has {len(column.encode())} bytes, where PostgreSQL takes 63"
            if is_postgres and name in tables and column in TAKEN_IN_POSTGRES:
                yield f"{name}: the column {column} has a name that PostgreSQL keeps for itself"


def refuse(columns_by_name, is_postgres, tables):
    """Ends with a list where a name cannot be taken."""
    faults = list(faults_of(columns_by_name, is_postgres, tables))
    if faults:
        raise RefusedNames(faults)


def free_name(wanted, taken):
    """A name that is not taken, whatever the letters' size: the wanted one, with as many `_` as it needs."""
    used = {lower_ascii(name) for name in taken}
    while wanted in used:
        wanted += "_"
    return wanted


def quoted(name):
    """A name in quotes, as SQL has it."""
    return '"' + name.replace('"', '""') + '"'


def literal(text):
    """A text as a literal of SQL."""
    return "'" + text.replace("'", "''") + "'"
