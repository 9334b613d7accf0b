"""Makes a folder of dated full extracts of one hub: mapping.toml, wK.toml and the CSV files that they name.

Usage: python3 bench/marts/windows.py FOLDER --customers N --windows W

N is the number of records of `customers`. `accounts` has N/2, of which nine in ten are customers, and `phones` up to
three records of N/5 customers. From one window to the next 5% of the keys of each feed change an attribute, 2% vanish
and as many are new; every third window has no extract of `accounts`. 5% of the keys are spelled in lower case and 2%
with spaces round them, 10% of the names have a comma and 1% quotes, 3% of the cities are blank, and the records come in
no order. Equal arguments give equal bytes.
"""
import argparse
import datetime
import pathlib
import random
import sys

sys.path.insert(0, str(pathlib.Path(__file__).resolve().parent.parent / "kept"))
import extracts  # noqa: E402

TIERS = "gold silver tin copper".split()
KINDS = "fax home mobile work".split()

MAPPING = """
hub = [{ name = "customer", parts = 1 }]

[[feed]]
name = "customers"
source = "crm"
hub = "customer"
keys = [["CUST_NO"]]
attrs = ["NAME", "CITY"]

[[feed]]
name = "accounts"
source = "shop"
hub = "customer"
keys = [["ACCOUNT"]]
attrs = ["TIER"]

[[feed]]
name = "phones"
source = "crm"
hub = "customer"
keys = [["CUST_NO"]]
sub = ["KIND"]
attrs = ["PHONE"]
"""
HEADERS = {"customers": ["CUST_NO", "NAME", "CITY"], "accounts": ["ACCOUNT", "TIER"], "phones": ["CUST_NO", "KIND", "PHONE"]}


class Feed:
    """What a source has of each key: one list of attributes, or several."""

    def __init__(self, pick, make, keys):
        self.pick, self.make = pick, make
        self.rows = {key: make() for key in keys}

    def go_on(self, fresh):
        """5% change, 2% vanish, and as many of the fresh keys come."""
        keys = sorted(self.rows)
        count = max(1, len(keys) // 50)
        for key in self.pick.sample(keys, max(1, len(keys) // 20)):
            self.rows[key] = self.make()
        for key in self.pick.sample(keys, count):
            del self.rows[key]
        for _ in range(count):
            self.rows.setdefault(next(fresh), self.make())


class Sources:
    """What the sources have at a date."""

    def __init__(self, customers):
        self.pick = random.Random(1)
        self.names = extracts.Source(10)
        keys = [f"C{number:08d}" for number in range(customers)]
        accounts = keys[: customers * 9 // 20] + [f"S{number:08d}" for number in range(customers // 20)]
        self.feeds = {
            "customers": Feed(self.pick, self.new_customer, keys),
            "accounts": Feed(self.pick, lambda: [[self.pick.choice(TIERS)]], accounts),
            "phones": Feed(self.pick, self.new_phones, keys[::5]),
        }
        self.fresh = {
            "customers": self.numbered("C", customers),
            "accounts": self.numbered("C", customers // 2),
            "phones": self.numbered("C", customers * 3 // 4),
        }

    def numbered(self, letter, start):
        while True:
            yield f"{letter}{start:08d}"
            start += 1

    def new_customer(self):
        city = "" if self.pick.random() < 0.03 else self.pick.choice(extracts.CITIES)
        return [[self.names.new_name(), city]]

    def new_phones(self):
        kinds = self.pick.sample(KINDS, self.pick.randrange(1, 4))
        return [[kind, str(self.pick.randrange(20_000_000, 100_000_000))] for kind in kinds]

    def spelled(self, key):
        kind = self.pick.random()
        if kind < 0.05:
            return key.lower()
        return f" {key} " if kind < 0.07 else key

    def records(self, feed):
        rows = [[self.spelled(key), *row] for key, rows in sorted(self.feeds[feed].rows.items()) for row in rows]
        self.pick.shuffle(rows)
        return rows

    def go_on(self, feeds):
        for name in feeds:
            self.feeds[name].go_on(self.fresh[name])


def write_window(folder, sources, number, feeds, load):
    manifest = [f'load = "{load}T02:00:00"']
    for feed in feeds:
        lines = [",".join(map(extracts.quoted, record)) for record in [HEADERS[feed], *sources.records(feed)]]
        (folder / f"w{number}_{feed}.csv").write_text("\n".join(lines) + "\n")
        manifest += ["[[extract]]", f'feed = "{feed}"', f'file = "w{number}_{feed}.csv"']
    (folder / f"w{number}.toml").write_text("\n".join(manifest) + "\n")


def write(folder, customers, windows):
    folder.mkdir(parents=True)
    (folder / "mapping.toml").write_text(MAPPING)
    sources = Sources(customers)
    for number in range(1, windows + 1):
        feeds = [feed for feed in HEADERS if feed != "accounts" or number % 3]
        if number > 1:
            sources.go_on(feeds)
        write_window(folder, sources, number, feeds, datetime.date(2024, 3, number))


if __name__ == "__main__":
    parser = argparse.ArgumentParser()
    parser.add_argument("folder", type=pathlib.Path)
    parser.add_argument("--customers", type=int, required=True)
    parser.add_argument("--windows", type=int, default=4)
    given = parser.parse_args()
    write(given.folder, given.customers, given.windows)
