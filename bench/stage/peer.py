"""What `stage` does, in Python. Stages standard input three times, and prints each time as peer.rs does."""
import csv
import io
import itertools
import sys
import time

KEYS, ATTRS = ["CUST_NO"], ["NAME", "CITY", "NOTE"]
BLANKS = " \t\r\n"
ROUNDS = 3
MOST = 200_000


def places(names):
    if len(set(names)) != len(names):
        raise ValueError("ColumnTwice")
    if not set(names) <= set(KEYS + ATTRS):
        raise ValueError("UnmappedColumn")
    return [names.index(column) for column in KEYS], [names.index(column) for column in ATTRS]


def raised(text):
    """ASCII letters alone are raised, which `str.upper` doesn't keep to."""
    return text.upper() if text.isascii() else text.encode().upper().decode()


def stage(data):
    reader = csv.reader(io.StringIO(data.decode(), newline=""))
    names = [name.strip(BLANKS) for name in next(reader)]
    keys, attrs = places(names)
    rows = []
    for record in reader:
        if not record:
            continue
        if len(record) != len(names):
            raise ValueError(f"Ragged row_no={len(rows) + 1}")
        if max(map(len, record)) > 1024 and max(len(field.encode()) for field in record) > 4096:
            raise ValueError(f"FieldLong row_no={len(rows) + 1}")
        fields = [field.strip(BLANKS) for field in record]
        key = [raised(fields[place]) for place in keys]
        if not any(key):
            raise ValueError(f"EmptyKey row_no={len(rows) + 1}")
        rows.append((key, [fields[place] for place in attrs]))
    if len(rows) > MOST:
        raise ValueError("TooManyRows")
    distinct = [row for row, _ in itertools.groupby(sorted(rows))]
    if any(row[0] == other[0] for row, other in itertools.pairwise(distinct)):
        raise ValueError("TwoRows")
    return distinct, len(rows)


def check_sum(rows):
    total = 0
    for keys, attrs in rows:
        for field in keys + attrs:
            for byte in field.encode() + b"\xff":
                total = (31 * total + byte) & 0xFFFF_FFFF_FFFF_FFFF
    return total


def main():
    data = sys.stdin.buffer.read()
    total = None
    for _ in range(ROUNDS):
        start = time.perf_counter_ns()
        rows, records = stage(data)
        taken = time.perf_counter_ns() - start
        total = check_sum(rows) if total is None else total
        print("python", records, taken, len(rows), total)


main()
