"""Mappings with planted faults. Each fault stands in an entry of its own, so that none hides another or follows from it;
what the program has to say of it, and where it stands, is known from the planting."""
import random
from typing import NamedTuple

from tools.places import Marks

# The names and columns that a mapping has before anything is planted.
HUBS = {"customer": 1, "site": 2, "product": 1, "sales_order": 1, "employee": 1, "region": 3}
LINKS = {"placed": ["customer", "sales_order"], "contains": ["sales_order", "product"], "works": ["employee", "site"]}


class Entry(NamedTuple):
    """An entry of a kind, with what stands at each key, as TOML writes it."""

    kind: str
    keys: dict


def listed(names):
    return "[" + ", ".join(f'"{name}"' for name in names) + "]"


def key_lists(lists):
    return "[" + ", ".join(map(listed, lists)) + "]"


def key_columns(hubs, front):
    return [[f"{front}{hub}_{part}" for part in range(HUBS[hub])] for hub in hubs]


def feed_entry(name, hub=None, link=None, **others):
    """A feed of a hub or of a link, with the key columns that it needs."""
    hubs = [hub] if hub else LINKS[link]
    parent = {"hub": f'"{hub}"'} if hub else {"link": f'"{link}"'}
    keys = {"name": f'"{name}"', "source": '"crm"', **parent, "keys": key_lists(key_columns(hubs, "K"))}
    return Entry("feed", {**keys, **others})


def clean_entries():
    """A mapping without a fault."""
    entries = [Entry("hub", {"name": f'"{name}"', "parts": str(parts)}) for name, parts in HUBS.items()]
    entries += [Entry("link", {"name": f'"{name}"', "hubs": listed(hubs)}) for name, hubs in LINKS.items()]
    entries += [feed_entry("customers", hub="customer", attrs=listed(["NAME", "CITY"]), ignore=listed(["CLERK"])),
                feed_entry("phones", hub="customer", sub=listed(["KIND"]), attrs=listed(["PHONE"])),
                feed_entry("placements", link="placed"), feed_entry("lines", link="contains", attrs=listed(["QTY"])),
                feed_entry("assignments", link="works", driver=listed(["employee"]))]
    sold = {"name": '"sold"', "feeds": listed(["placements", "lines"]), "via": listed(["sales_order"])}
    return entries + [Entry("path", sold)]


class Planter:
    """Plants faults into a mapping."""

    def __init__(self, seed):
        self.pick = random.Random(seed)
        self.marks = Marks()
        self.entries = clean_entries()
        self.planted, self.count = [], 0

    def name(self):
        self.count += 1
        return f"planted_{self.count}"

    def plant(self, said, entry, at=None):
        """Puts an entry with a fault somewhere among the others; `at` is the key whose front is the place, or else the entry
        is. `{n}` in what is said is the number of the entry."""
        mark = self.marks.new()
        if at is None:
            entry = Entry(entry.kind, {"": mark, **entry.keys})
        elif mark and at:
            entry = Entry(entry.kind, {key: mark + value if key == at else value for key, value in entry.keys.items()})
        self.put(entry)
        self.planted.append((mark, said, entry))

    def put(self, entry):
        last = max(n for n, other in enumerate(self.entries) if other.kind == entry.kind)
        first = min(n for n, other in enumerate(self.entries) if other.kind == entry.kind)
        self.entries.insert(self.pick.randint(first, last + 1), entry)

    def plant_marked(self, said, entry):
        """The same, where a value has the sign `@` at the place."""
        mark = self.marks.new()
        keys = {key.replace("@", mark): value and value.replace("@", mark) for key, value in entry.keys.items()}
        entry = Entry(entry.kind, keys)
        self.put(entry)
        self.planted.append((mark, said, entry))

    def some(self, count):
        """Plants so many faults, of kinds that are drawn."""
        for _ in range(count):
            self.pick.choice(FAULTS)(self)

    def text(self):
        """The text of the mapping, and what has to be said of it: lines, columns and texts."""
        pieces = []
        for entry in self.entries:
            lines = [f"{entry.keys.get('', '')}[[{entry.kind}]]{self.pick.choice(('', '', ' # an entry'))}"]
            for key, value in entry.keys.items():
                lines += [self.line(key, value)] if key else []
                lines += self.pick.choice(([], [], [], [""], ["# a comment with [[feed]] and name = 1"]))
            pieces.append("\n".join(lines) + self.pick.choice(("\n", "\n\n")))
        text = "".join(pieces)
        if self.pick.random() < 0.3:
            text = text.replace("\n", "\r\n")
        expected = [(self.marks.place(text, mark), f"mapping {self.numbered(said, entry)}") for mark, said, entry in self.planted]
        return self.marks.cleared(text), expected

    def line(self, key, value):
        if value is None:
            return key
        if value.startswith("[") and value.endswith("]") and self.pick.random() < 0.2:
            value = value.replace(", ", ",\n  ")
        return f"{key} = {value}" if self.pick.random() < 0.9 else f"  {key}={value}"

    def numbered(self, said, entry):
        alike = [other for other in self.entries if other.kind == entry.kind]
        return said.replace("{n}", str(1 + next(n for n, other in enumerate(alike) if other is entry)))


# The kinds of faults. Each takes a planter and plants one.


def bad_parts(planter):
    value = planter.pick.choice(("5", "0", "-1", '"1"', "1.0", "true", "[1]"))
    planter.plant("2 Shape place=hub {n} parts", Entry("hub", {"name": f'"{planter.name()}"', "parts": value}), "parts")


def no_parts(planter):
    planter.plant("2 Shape place=hub {n} parts", Entry("hub", {"name": f'"{planter.name()}"'}))


def unknown_key(planter):
    feed = feed_entry(planter.name(), hub="product")
    key = planter.pick.choice(("atrs", "note", '"a b"', "Keys"))
    planter.plant_marked("2 Shape place=feed {n} " + key.strip('"'), Entry("feed", {**feed.keys, "@" + key: '["X"]'}))


def bad_source(planter):
    feed = feed_entry(planter.name(), hub="product")
    feed.keys["source"] = planter.pick.choice(("7", '["crm"]', "2024-03-01"))
    planter.plant("2 Shape place=feed {n} source", feed, "source")


def flat_keys(planter):
    feed = feed_entry(planter.name(), hub="product", attrs=listed(["A"]))
    feed.keys["keys"] = '[@"K"]'
    planter.plant_marked("2 Shape place=feed {n} keys", feed)


def bad_column(planter):
    key = planter.pick.choice(("attrs", "ignore"))
    column = planter.pick.choice(('"B "', '""', '" B"', "5", '"' + "x" * 201 + '"', '"B\\t"'))
    feed = feed_entry(planter.name(), hub="product", **{key: f'["A", @{column}, "C"]'})
    planter.plant_marked(f"2 Shape place=feed {{n}} {key}", feed)


def no_list(planter):
    key = planter.pick.choice(("attrs", "sub", "ignore", "driver"))
    planter.plant(f"2 Shape place=feed {{n}} {key}", feed_entry(planter.name(), hub="product", **{key: '"A"'}), key)


def two_parents(planter):
    feed = feed_entry(planter.name(), hub="product")
    keys = {**feed.keys, "@link": '"placed"'}
    planter.plant_marked("2 Shape place=feed {n} hub", Entry("feed", keys))


def no_parent(planter):
    feed = feed_entry(planter.name(), hub="product")
    del feed.keys["hub"]
    planter.plant("2 Shape place=feed {n} hub", feed)


def no_via(planter):
    planter.plant("2 Shape place=path {n} via", Entry("path", {"name": f'"{planter.name()}"', "feeds": listed(["lines"])}))


def name_twice(planter):
    hub = planter.pick.choice([*HUBS])
    entry = Entry("hub", {"name": f'"{hub}"', "parts": str(HUBS[hub])})
    mark = planter.marks.new()
    entry.keys["name"] = mark + entry.keys["name"]
    last = max(n for n, other in enumerate(planter.entries) if other.kind == "hub")
    planter.entries.insert(last + 1, entry)
    planter.planted.append((mark, f"3 NameTwice name={hub}", entry))


def hub_twice(planter):
    link = Entry("link", {"name": f'"{planter.name()}"', "hubs": '["product", "site", @"product"]'})
    planter.plant_marked("3 NameTwice name=product", link)


def unknown_hub(planter):
    name = planter.name()
    hubs = planter.pick.choice(('["product", @"{0}"]', '[@"{0}", "product"]')).format(name)
    planter.plant_marked(f"4 UnknownHub name={name}", Entry("link", {"name": f'"{planter.name()}"', "hubs": hubs}))


def unknown_parent(planter):
    name, kind = planter.name(), planter.pick.choice(("hub", "link"))
    number, rule = (4, "UnknownHub") if kind == "hub" else (5, "UnknownLink")
    feed = feed_entry(planter.name(), hub="product")
    del feed.keys["hub"]
    planter.plant(f"{number} {rule} name={name}", Entry("feed", {**feed.keys, kind: f'"{name}"'}), kind)


def key_count(planter):
    name = planter.name()
    feed = feed_entry(name, link="placed")
    feed.keys["keys"] = planter.pick.choice(('[["A"]]', '[["A", "B"], ["C"]]', '[["A"], ["B"], ["C"]]', "[]", '[["A"], []]'))
    planter.plant(f"6 KeyCount feed={name}", feed, "keys")


def no_key(planter):
    name = planter.name()
    hubs = planter.pick.choice(("[]", '["site"]'))
    planter.plant(f"7 NoKey name={name}", Entry("link", {"name": f'"{name}"', "hubs": hubs}), "hubs")


def column_twice(planter):
    name, key = planter.name(), planter.pick.choice(("attrs", "ignore"))
    feed = feed_entry(name, hub="product", **{key: '["A", @"Kproduct_0", "B"]'})
    planter.plant_marked(f"8 ColumnTwice feed={name} name=Kproduct_0", feed)


def sub_without_attrs(planter):
    name = planter.name()
    feed = feed_entry(name, hub="product")
    planter.plant_marked(f"9 SubWithoutAttrs feed={name}", Entry("feed", {**feed.keys, "@sub": '["S"]'}))


def bad_driver(planter):
    name = planter.name()
    driver = planter.pick.choice(('[@"Kcustomer_0"]', '["customer", @"customer"]', '@["customer", "sales_order"]', '["customer", @"site"]'))
    planter.plant_marked(f"10 DriverNotInLink feed={name}", feed_entry(name, link="placed", driver=driver))


def driver_of_hub(planter):
    name = planter.name()
    feed = feed_entry(name, hub="product")
    planter.plant_marked(f"10 DriverNotInLink feed={name}", Entry("feed", {**feed.keys, "@driver": '["product"]'}))


def driver_with_sub(planter):
    name = planter.name()
    feed = feed_entry(name, link="placed", sub=listed(["S"]), attrs=listed(["A"]))
    planter.plant_marked(f"11 DriverWithSub feed={name}", Entry("feed", {**feed.keys, "@driver": '["customer"]'}))


def path_broken(planter):
    name = planter.name()
    feeds, via = planter.pick.choice((
        ('[@"customers"]', "[]"), ('["lines", @"nowhere"]', '["product"]'), ('["placements", "lines"]', '[@"customer"]'),
        ('["placements", "lines"]', "@[]"), ("@[]", "[]"), ('["lines"]', '@["product"]')))
    planter.plant_marked(f"12 PathBroken path={name}", Entry("path", {"name": f'"{name}"', "feeds": feeds, "via": via}))


def too_many(planter):
    name, kind = planter.name(), planter.pick.choice(("references", "columns", "ignored", "steps"))
    if kind == "references":
        entry = Entry("link", {"name": f'"{name}"', "hubs": '["customer", "site", "product", "region", @"employee"]'})
    elif kind == "steps":
        via = listed(["sales_order"] * 4)
        entry = Entry("path", {"name": f'"{name}"', "feeds": '["lines", "lines", "lines", "lines", @"lines"]', "via": via})
    elif kind == "columns":
        columns = ", ".join(f'"A{n}"' for n in range(31))
        entry = feed_entry(name, hub="product", attrs=f'[{columns}, @"B"]')
    else:
        columns = ", ".join(f'"A{n}"' for n in range(64))
        entry = feed_entry(name, hub="product", ignore=f'[{columns}, @"B"]')
    planter.plant_marked(f"13 TooMany kind={kind}", entry)


def name_form(planter):
    planter.name()
    bad = planter.pick.choice(("CRM{0}", "c r m{0}", "c-rm{0}", "c\u00f8{0}", "x" * 38 + "{0}")).format(planter.count + 100)
    if planter.pick.random() < 0.5:
        feed = feed_entry(planter.name(), hub="product")
        feed.keys["source"] = f'"{bad}"'
        planter.plant(f"14 NameForm name={bad}", feed, "source")
    else:
        planter.plant(f"14 NameForm name={bad}", feed_entry(bad, hub="product"), "name")


def no_toml(planter):
    """A statement of an entry that no other needs is no TOML."""
    feed = feed_entry(planter.name(), hub="product")
    key, value = planter.pick.choice((("source", '@"crm'), ("source", '"c@\\qrm"'), ("attrs", '@["A", "B"'), ("attrs", '["A", @B]'),
                                      ("attrs", '["A" @"B"]'), ("ignore", '@[["A"]'), ("attrs", '["A"]@]'), ("source", "@crm"),
                                      ("source", '"crm" @"erp"'), ("source", "@2024-02-30"), ("attrs", '["A",\n  @B,\n  "C"]')))
    keys = {own: text for own, text in feed.keys.items() if own != key}
    planter.plant_marked("1 Text", Entry("feed", {**keys, key: value}))


def key_again(planter):
    """A statement stands twice in an entry."""
    feed = feed_entry(planter.name(), hub="product")
    planter.plant_marked("1 Text", Entry("feed", {**feed.keys, '@"source"': '"crm"'}))


def no_statement(planter):
    feed = feed_entry(planter.name(), hub="product")
    line = planter.pick.choice(("attrs @[]", "at@trs: []", "@?", "attrs@", "attrs = @"))
    line = line if line != "at@trs: []" else "attrs@: []"
    planter.plant_marked("1 Text", Entry("feed", {**feed.keys, line: None}))


FAULTS = (bad_parts, no_parts, unknown_key, bad_source, flat_keys, bad_column, no_list, two_parents, no_parent, no_via, name_twice,
          hub_twice, unknown_hub, unknown_parent, key_count, no_key, column_twice, sub_without_attrs, bad_driver, driver_of_hub,
          driver_with_sub, path_broken, too_many, name_form, no_toml, key_again, no_statement)
