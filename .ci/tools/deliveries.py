"""Manifests and extracts with planted faults, over the mapping without a fault of `tools.mappings`. What the program has to
say of each, and where it stands, is known from the planting."""
import random
import re

from tools.mappings import Planter, feed_entry
from tools.places import Marks

# The columns of each feed's extracts: keys, what tells rows apart, attributes.
COLUMNS = {
    "customers": (["Kcustomer_0"], [], ["NAME", "CITY"]),
    "phones": (["Kcustomer_0"], ["KIND"], ["PHONE"]),
    "placements": (["Kcustomer_0", "Ksales_order_0"], [], []),
    "lines": (["Ksales_order_0", "Kproduct_0"], [], ["QTY"]),
    "assignments": (["Kemployee_0", "Ksite_0", "Ksite_1"], [], []),
    "sites": (["Ksite_0", "Ksite_1"], [], ["NAME"]),
}
DATES = ("2024-03-01T02:00:00", "2024-04-01T02:00:00", "2024-05-01T02:00:00")
MARK = b"\xef\xbb\xbf"


def clean_mapping():
    """The mapping, as text."""
    planter = Planter(0)
    planter.put(feed_entry("sites", hub="site", attrs='["NAME"]'))
    return planter.text()[0]


def place_in(data, offset):
    """The line and the column, from 1, of an offset of a file."""
    front = data[:offset].removeprefix(MARK).decode("utf-8", "surrogateescape")
    lines = front.replace("\r\n", "\n").replace("\r", "\n").split("\n")
    return len(lines), len(lines[-1]) + 1


class Name(bytes):
    """A name in a header, which is told from another one that is equal."""


class Extract:
    """An extract of a feed. A field is its bytes as they are written; one of them may have the place of a fault, as the
    offset within the field."""

    def __init__(self, pick, feed, file):
        self.pick, self.feed, self.file = pick, feed, file
        self.key_names, subs, self.attributes = COLUMNS[feed]
        self.names = [*self.key_names, *subs, *self.attributes]
        if feed == "customers" and pick.random() < 0.5:
            self.names.append("CLERK")
        pick.shuffle(self.names)
        self.header = [Name(name.encode()) for name in self.names]
        self.records, self.planted, self.count, self.whole = [], [], 0, None
        for _ in range(pick.randint(1, 25)):
            self.records.append(self.new_record())

    def new_record(self, **given):
        """A record with keys that no other has."""
        self.count += 1
        return [given[name].encode() if name in given else self.value(name) for name in self.names]

    def value(self, name):
        if name in self.key_names:
            text = f"{self.pick.choice('kK')}{self.feed[0]}{self.count}"
            return self.pick.choice((text, f" {text}", f'"{text}"')).encode()
        return self.pick.choice((b"", b"x", b' "odd', b'"a, b"', b'"say ""so"""', b'"two\nlines"', b'"a"b', b'd"e"',
                                 "Bod\u00f8".encode()))

    def put(self, record):
        """Puts a record anywhere, and answers it."""
        self.records.insert(self.pick.randint(0, len(self.records)), record)
        return record

    def plant(self, said, record, field, offset=0):
        """Notes a fault: at the place of a field of a record, or at its end; or, without a record, at a name of the header,
        or at its beginning."""
        self.planted.append((said, record, field, offset))

    def column(self, name, place, written=None):
        """Puts a column at a place; answers its name in the header."""
        self.names.insert(place, name)
        self.header.insert(place, Name(name.encode() if written is None else written))
        for record in self.records:
            record.insert(place, b"y")
        return self.header[place]

    def anywhere(self):
        return self.pick.randint(0, len(self.names))

    def write(self):
        """The bytes of the file, and what has to be said of it."""
        if self.whole is not None:
            return self.whole, [(self.file, (1, 1), f"W7 NoHeader feed={self.feed}")]
        end = self.pick.choice((b"\n", b"\n", b"\r\n", b"\r"))
        pieces, length, starts = [self.pick.choice((b"", b"", MARK))], 0, {}
        length = len(pieces[0])
        for number, record in enumerate([self.header, *self.records]):
            blank = self.pick.choice((b"", b"", b"", end))
            pieces.append(blank)
            length += len(blank)
            for place, field in enumerate(record):
                starts[id(record), place] = length
                pieces.append(field + (b"," if place + 1 < len(record) else b""))
                length += len(pieces[-1])
            starts[id(record), None] = length
            is_last = number == len(self.records)
            pieces.append(b"" if is_last and self.pick.random() < 0.3 else end)
            length += len(pieces[-1])
        data = b"".join(pieces)
        expected = []
        for said, record, field, offset in self.planted:
            if record is None:
                field = next((place for place, name in enumerate(self.header) if name is field), 0)
            start = starts[id(self.header if record is None else record), field]
            expected.append((self.file, place_in(data, start + offset), self.said(said, record)))
        return data, expected

    def said(self, text, record):
        """A text with the numbers of records put in."""
        numbers = {id(other): str(number) for number, other in enumerate(self.records, 1)}
        text = text.replace("{n}", numbers.get(id(record), "")).replace("{feed}", self.feed)
        return re.sub(r"\{(\d+)\}", lambda found: numbers[int(found[1])], text)

    def keys(self):
        return [place for place, name in enumerate(self.names) if name in self.key_names]


# The kinds of faults of an extract. Each takes one and plants a fault, where it can.


def surplus(extract):
    record = extract.put(extract.new_record())
    record += [b"more", b"x"][:extract.pick.randint(1, 2)]
    extract.plant("W12 Ragged feed={feed} row_no={n}", record, len(extract.names))


def lacking(extract):
    if len(extract.names) > 1:
        record = extract.put(extract.new_record())
        del record[-1]
        record[0] = record[0] or b"x"  # one empty field alone would be a blank line
        extract.plant("W12 Ragged feed={feed} row_no={n}", record, None)


def not_utf8(extract):
    record = extract.put(extract.new_record())
    place = extract.pick.randrange(len(record))
    record[place] = b"J\xf8rn"
    extract.plant("W13 NotUtf8 feed={feed} row_no={n}", record, place, 1)


def long_field(extract):
    record = extract.put(extract.new_record())
    place = extract.pick.randrange(len(record))
    record[place] = b"x" * 4097
    extract.plant("W14 FieldLong feed={feed} row_no={n}", record, place)


def empty_key(extract):
    record = extract.put(extract.new_record())
    for place in extract.keys():
        record[place] = extract.pick.choice((b"", b" ", b'""', b"\t"))
    extract.plant("W15 EmptyKey feed={feed} row_no={n}", record, min(extract.keys()))


def two_rows(extract):
    """Two records of one key, the later with other attributes."""
    attributes = [place for place, name in enumerate(extract.names) if name in extract.attributes]
    if not attributes:
        return
    first = extract.put(extract.new_record())
    place = next(n for n, other in enumerate(extract.records) if other is first)
    later = list(first)
    later[attributes[0]] = b"another value"
    for key in extract.keys():
        later[key] = b" " + first[key].strip(b' "').lower()
    extract.records.insert(extract.pick.randint(place + 1, len(extract.records)), later)
    extract.plant(f"W16 TwoRows feed={{feed}} earlier={{{id(first)}}} later={{n}}", later, 0)


def two_drivers(extract):
    if extract.feed != "assignments":
        return
    first = extract.put(extract.new_record())
    place = next(n for n, other in enumerate(extract.records) if other is first)
    driver = extract.names.index("Kemployee_0")
    later = extract.new_record()
    later[driver] = first[driver]
    extract.records.insert(extract.pick.randint(place + 1, len(extract.records)), later)
    shown = first[driver].strip(b' "').upper().decode()
    extract.plant(f"W18 TwoDrivers feed={{feed}} driver=[{shown}]", later, 0)


def collision(extract):
    """Two keys of one hash key; the later record is the place."""
    if extract.feed != "sites":
        return
    one = extract.new_record(Ksite_0=f"u{extract.count};b", Ksite_1="c")
    other = extract.new_record(Ksite_0=f"U{extract.count - 1}", Ksite_1="B;C")
    pair = [one, other]
    extract.pick.shuffle(pair)
    first = extract.put(pair[0])
    place = next(n for n, known in enumerate(extract.records) if known is first)
    extract.records.insert(extract.pick.randint(place + 1, len(extract.records)), pair[1])
    key = f"U{extract.count - 2}"
    extract.plant(f"W20 Collision table=hub_site first=[{key}][B;C] second=[{key};B][C]", pair[1], 0)


def bad_name(extract):
    name = extract.column("bad", extract.anywhere(), b"B\xd6D")
    extract.plant("W8 HeaderNotUtf8 feed={feed}", None, name, 1)


def column_twice(extract):
    name = extract.pick.choice(extract.key_names + extract.attributes)
    if name not in extract.names or f"{name} again" in extract.names:
        return
    written = extract.column(f"{name} again", len(extract.names), f" {name}".encode())
    extract.plant(f"W9 ColumnTwice feed={{feed}} name={name}", None, written)


def unmapped(extract):
    name = f"COL {len(extract.names)}"
    written = extract.column(name, extract.anywhere())
    extract.plant(f"W10 UnmappedColumn feed={{feed}} name={name}", None, written)


def missing(extract):
    """An attribute is not in the header."""
    if len(extract.attributes) < 2 or f"{extract.attributes[0]} again" in extract.names:
        return
    place = extract.names.index(extract.attributes[0])
    for record in [extract.names, extract.header, *extract.records]:
        del record[place]
    extract.plant(f"W11 MissingColumn feed={{feed}} name={extract.attributes[0]}", None, None)


def nothing(extract):
    extract.whole = extract.pick.choice((b"", b"\n", b"\r\n\n", MARK))


HEADER_FAULTS = (column_twice, unmapped, missing)
RECORD_FAULTS = (surplus, lacking, not_utf8, long_field, empty_key, two_rows, two_drivers, collision)


def plant_extract(extract, count):
    """Plants so many faults into an extract: the header's first, since they change all records."""
    pick = extract.pick
    if count and pick.random() < 0.03:
        nothing(extract)
        return
    for fault in pick.sample(HEADER_FAULTS, min(count, pick.choice((0, 0, 1, 2)))):
        fault(extract)
        count -= 1
    if count and pick.random() < 0.1 and not any("W11" in said for said, *_ in extract.planted):
        bad_name(extract)
        count -= 1
    for _ in range(count):
        pick.choice(RECORD_FAULTS)(extract)


class Deliveries:
    """Windows with planted faults: their files, and what has to be said of them."""

    def __init__(self, seed, most):
        self.pick = random.Random(seed)
        self.files, self.expected, self.marks = {}, [], Marks()
        self.manifests, self.count = [], 0
        self.left = self.pick.randint(1, most)
        self.files["mapping.toml"] = clean_mapping().encode()
        self.windows = [self.new_window(date) for date in DATES[:self.pick.randint(1, 3)]]
        self.plant_order()
        for number, window in enumerate(self.windows, 1):
            self.write(f"w{number}.toml", window)

    def take(self, most):
        """How many of the faults that are left are planted here."""
        count = min(self.left, self.pick.randint(0, most))
        self.left -= count
        return count

    def new_window(self, date):
        window = {"date": date, "entries": [], "faults": 0, "lines": [], "is_loaded": True}
        feeds = self.pick.sample([*COLUMNS], self.pick.randint(1, 4))
        for feed in feeds:
            self.count += 1
            extract = Extract(self.pick, feed, f"e{self.count}_{feed}.csv")
            planted = self.take(8)
            plant_extract(extract, planted)
            window["faults"] += planted
            data, expected = extract.write()
            self.files[extract.file] = data
            self.expected += expected
            window["entries"].append({"feed": f'"{feed}"', "file": f'"{extract.file}"'})
        for _ in range(self.take(3)):
            self.pick.choice(MANIFEST_FAULTS)(self, window)
        return window

    def plant(self, window, said, place_mark):
        window.setdefault("planted", []).append((said, place_mark))
        window["faults"] += 1

    def plant_order(self):
        """Puts a window in that comes too late, behind one that is loaded."""
        if self.left and self.windows[0]["is_loaded"] and self.pick.random() < 0.4:
            late = {"date": "2024-01-01T02:00:00", "entries": [], "faults": 0, "lines": [], "is_loaded": True, "is_late": True}
            extract = Extract(self.pick, "sites", "late.csv")
            self.files["late.csv"] = extract.write()[0]
            late["entries"].append({"feed": '"sites"', "file": '"late.csv"'})
            self.windows.insert(self.pick.randint(1, len(self.windows)), late)

    def write(self, name, window):
        """Writes a manifest, and notes what has to be said of it."""
        mark = self.marks.new()
        lines = [] if window["date"] is None else [f'load = {mark}{window.get("load", chr(34) + window["date"] + chr(34))}']
        lines += window["lines"]
        for entry in window["entries"]:
            lines += [f"{entry.get('', '')}[[extract]]"] + [f"{key} = {value}" for key, value in entry.items() if key] + [""]
        text = "\n".join(lines) + "\n"
        planted = list(window.get("planted", ()))
        if window.get("is_late"):
            planted.append(("W4 Late", mark))
        self.expected += [(name, self.marks.place(text, own) if own else (1, 1), said) for said, own in planted]
        self.files[name] = self.marks.cleared(text).encode()
        self.manifests.append(name)


# The kinds of faults of a manifest.


def no_toml(deliveries, window):
    if window["lines"]:
        return
    mark = deliveries.marks.new()
    key = f"note_{deliveries.marks.count}"
    line = deliveries.pick.choice((f'{key} = {mark}"x', f"{key} = [1, {mark}x]", f"{key} {mark}1", f"{key} = {mark}[1, 2"))
    window["lines"].append(line)
    deliveries.plant(window, "W0 Manifest place=text", mark)


def bad_load(deliveries, window):
    if "load" in window:
        return
    window["is_loaded"] = False
    mark = deliveries.marks.new()
    window["load"] = mark + deliveries.pick.choice(("2024-03-01T02:00:00", '"2024-03-01"', '"2024-03-01 02:00:00"', "7",
                                                    '"2024-02-30T00:00:00"'))
    deliveries.plant(window, "W0 Manifest place=load", mark)


def lacks(deliveries, window):
    """An entry without a file, or without a feed."""
    mark, kept = deliveries.marks.new(), deliveries.pick.choice(("feed", "file"))
    entry = {"": mark, kept: '"sites"'}
    window["entries"].append(entry)
    other = "file" if kept == "feed" else "feed"
    deliveries.plant(window, f"W0 Manifest place=extract {len(window['entries'])} {other}", mark)


def unknown_feed(deliveries, window):
    mark, name = deliveries.marks.new(), f"nowhere_{deliveries.marks.count}"
    window["entries"].append({"feed": f'{mark}"{name}"', "file": window["entries"][0]["file"]})
    deliveries.plant(window, f"W2 UnknownFeed name={name}", mark)


def feed_twice(deliveries, window):
    mark, first = deliveries.marks.new(), window["entries"][0]
    file = f"again{deliveries.marks.count}.csv"
    feed = first["feed"].strip('"')
    deliveries.files[file] = Extract(deliveries.pick, feed, file).write()[0]
    window["entries"].append({"feed": f'{mark}"{feed}"', "file": f'"{file}"'})
    deliveries.plant(window, f"W3 FeedTwice feed={feed}", mark)


MANIFEST_FAULTS = (no_toml, bad_load, lacks, unknown_feed, feed_twice)
