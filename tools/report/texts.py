"""CSV as the program writes it, and digests of rows."""
import csv
import hashlib
import io


def rows_of(file):
    """The header and the rows of a file of CSV in bytes, each a list of texts."""
    csv.field_size_limit(1_000_000)
    reader = csv.reader(io.TextIOWrapper(file, encoding="utf-8", newline=""))
    return next(reader), reader


def field(text):
    """A field as the program writes it: in quotes only if it has a comma, a quote or a line end."""
    if '"' in text or "," in text or "\n" in text or "\r" in text:
        return '"' + text.replace('"', '""') + '"'
    return text


def line(row):
    """A row of texts as a line of CSV."""
    joined = ",".join(row)
    if joined.count(",") == len(row) - 1 and '"' not in joined and "\n" not in joined and "\r" not in joined:
        return (joined or '""') + "\n"
    return ",".join(map(field, row)) + "\n"


def text(header, rows):
    """The text of a header and rows."""
    return line(header) + "".join(map(line, rows))


class RowsDigest:
    """The number and a digest of rows, whose order does not matter."""

    def __init__(self):
        self.sums = []

    def add(self, row):
        packed = "".join(f"{len(each.encode())}:{each}" for each in row)
        self.sums.append(hashlib.md5(packed.encode()).hexdigest())

    def told(self):
        """The number of rows and the MD5 of their sums in order."""
        return len(self.sums), hashlib.md5("".join(sorted(self.sums)).encode()).hexdigest()
