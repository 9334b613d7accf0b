"""Makes a folder of dated full extracts: mapping.toml, wK.toml and the CSV files that they name.

Usage: python3 bench/kept/extracts.py FOLDER --customers N --windows W

N is the number of customer records of a window. Orders and placements are N/4 each and lines N/2, so a window has 2N
records at most. From one window to the next 5% of the rows change an attribute (never those of placements, which have
none), 2% vanish and as many are new; a quarter of the new ones are keys that vanished in an earlier window and come
back. In every window also: 5% of the keys are spelled in lower case and 2% with spaces round them, 1% of the attributes
have spaces round them, 10% of the names have a comma and 1% quotes, 1% of the placements name no customer, 1% of the
lines no product, 1% of the new orders reach `placements` and `lines` one window before `orders`, one row in 1,000
stands twice, `placements` has an ignored column, and the records come in no order. Equal arguments give equal bytes.
"""
import argparse
import datetime
import pathlib
import random

FIRST = ("Ann Bo Carl Dag Eva Finn Gro Hans Ida Jon Kari Lars Mona Nils Ola Per Rita Siv Tor Una Vera Åse Øyvind "
         "José").split()
LAST = "Roe Lee Berg Dahl Eide Foss Gran Holm Iversen Juel Krogh Lund Moen Nygård Olsen Rønning Strand Tveit Vik".split()
CITIES = "Oslo Bergen Trondheim Stavanger Drammen Tromsø Bodø Ålesund Molde Hamar Skien Moss Larvik Narvik".split()
STATES = "new paid packed sent returned closed".split()
MONEY = "NOK SEK DKK EUR".split()

MAPPING = """
hub = [{ name = "customer", parts = 1 }, { name = "sales_order", parts = 1 }, { name = "product", parts = 1 }]
link = [
  { name = "placed", hubs = ["customer", "sales_order"] },
  { name = "contains", hubs = ["sales_order", "product"] },
]

[[feed]]
name = "customers"
source = "crm"
hub = "customer"
keys = [["CUST_NO"]]
attrs = ["NAME", "CITY", "SINCE"]

[[feed]]
name = "orders"
source = "shop"
hub = "sales_order"
keys = [["ORDER_NO"]]
attrs = ["STATE", "TOTAL_CENTS", "CURRENCY"]

[[feed]]
name = "placements"
source = "shop"
link = "placed"
keys = [["CUST_NO"], ["ORDER_NO"]]
ignore = ["CLERK"]

[[feed]]
name = "lines"
source = "shop"
link = "contains"
keys = [["ORDER_NO"], ["PRODUCT_NO"]]
attrs = ["QTY"]
"""


class Pool:
    """Rows by number; those alive are delivered."""

    def __init__(self, pick, make):
        self.pick, self.make, self.rows, self.alive, self.gone = pick, make, [], [], []

    def add(self, count):
        for _ in range(count):
            self.alive.append(len(self.rows))
            self.rows.append(self.make())

    def go_on(self):
        """2% vanish and as many are new, a quarter of them such as vanished before."""
        count = max(1, len(self.alive) * 2 // 100)
        picked = set(self.pick.sample(range(len(self.alive)), count))
        vanished = [self.alive[at] for at in sorted(picked)]
        self.alive = [number for at, number in enumerate(self.alive) if at not in picked]
        back = min(count // 4, len(self.gone))
        for _ in range(back):
            self.alive.append(self.gone.pop(self.pick.randrange(len(self.gone))))
        self.gone += vanished
        self.add(count - back)

    def changed(self):
        return self.pick.sample(self.alive, max(1, len(self.alive) * 5 // 100))


class Source:
    """What the systems have at a date."""

    def __init__(self, customers, seed=1):
        self.pick = random.Random(seed)
        self.products = max(10, customers // 20)
        self.window = 1
        self.double = customers // 1000
        self.customers = Pool(self.pick, self.new_customer)
        self.customers.add(customers - self.double)
        self.orders = Pool(self.pick, self.new_order)
        self.orders.add(max(2, customers // 4 - self.double))

    def new_name(self):
        kind, first, last = self.pick.random(), self.pick.choice(FIRST), self.pick.choice(LAST)
        if kind < 0.10:
            return f"{last}, {first}"
        if kind < 0.11:
            return f'{first} "{self.pick.choice(FIRST)}" {last}'
        return f"{first} {last}"

    def new_customer(self):
        return [self.new_name(), self.pick.choice(CITIES), str(self.pick.randrange(1990, 2024))]

    def new_state(self):
        return [self.pick.choice(STATES), str(self.pick.randrange(100, 1_000_000)), self.pick.choice(MONEY)]

    def new_order(self):
        who = self.pick.choice(self.customers.alive) if self.pick.random() >= 0.01 else None
        products = self.pick.sample(range(self.products), 2)
        if self.pick.random() < 0.02:
            products[1] = None
        lines = [[product, self.pick.randrange(1, 10)] for product in products]
        is_late = self.window > 1 and self.pick.random() < 0.01
        return {"attrs": self.new_state(), "who": who, "lines": lines, "since": self.window + 1 if is_late else 0}

    def go_on(self):
        self.window += 1
        self.customers.go_on()
        for number in self.customers.changed():
            at = self.pick.randrange(3)
            self.customers.rows[number][at] = self.new_customer()[at]
        self.orders.go_on()
        for number in self.orders.changed():
            at = self.pick.randrange(3)
            self.orders.rows[number]["attrs"][at] = self.new_state()[at]
        for number in self.orders.changed():
            for line in self.orders.rows[number]["lines"]:
                line[1] = self.pick.randrange(1, 10)

    def key(self, text):
        """A key as a source spells it."""
        kind = self.pick.random()
        if kind < 0.05:
            return text.lower()
        return f" {text}  " if kind < 0.07 else text

    def field(self, text):
        """An attribute as a source spells it."""
        return f"  {text} " if self.pick.random() < 0.01 else text

    def customer_records(self):
        rows = self.customers.rows
        return [[self.key(f"C{at:08d}"), *map(self.field, rows[at])] for at in self.customers.alive]

    def order_records(self):
        for at in self.orders.alive:
            row = self.orders.rows[at]
            if row["since"] <= self.window:
                yield [self.key(f"O-{at:09d}"), *map(self.field, row["attrs"])]

    def placement_records(self):
        for at in self.orders.alive:
            who = self.orders.rows[at]["who"]
            customer = "" if who is None else self.key(f"C{who:08d}")
            yield [customer, f"k{self.pick.randrange(100)}", self.key(f"O-{at:09d}")]

    def line_records(self):
        for at in self.orders.alive:
            for product, count in self.orders.rows[at]["lines"]:
                named = "" if product is None else self.key(f"P{product:06d}")
                yield [self.key(f"O-{at:09d}"), named, self.field(str(count))]

    def extracts(self):
        yield "customers", ["CUST_NO", "NAME", "CITY", "SINCE"], self.customer_records(), "\r\n"
        yield "orders", ["ORDER_NO", "STATE", "TOTAL_CENTS", "CURRENCY"], list(self.order_records()), "\n"
        yield "placements", ["CUST_NO", "CLERK", "ORDER_NO"], list(self.placement_records()), "\n"
        yield "lines", ["ORDER_NO", "PRODUCT_NO", "QTY"], list(self.line_records()), "\n"


def quoted(text):
    return '"' + text.replace('"', '""') + '"' if "," in text or '"' in text else text


def write_window(folder, source, load):
    number, pick = source.window, source.pick
    manifest = [f'load = "{load}T02:00:00"']
    for feed, header, records, end in source.extracts():
        for _ in range(source.double * (2 if feed == "lines" else 1)):
            records.append(records[pick.randrange(len(records))])
        pick.shuffle(records)
        lines = [",".join(header), *(",".join(map(quoted, record)) for record in records)]
        (folder / f"w{number}_{feed}.csv").write_bytes((end.join(lines) + end).encode())
        manifest += ["[[extract]]", f'feed = "{feed}"', f'file = "w{number}_{feed}.csv"']
    (folder / f"w{number}.toml").write_text("\n".join(manifest) + "\n")


def write(folder, customers, windows):
    folder.mkdir(parents=True)
    (folder / "mapping.toml").write_text(MAPPING)
    source = Source(customers)
    for number in range(windows):
        if number:
            source.go_on()
        write_window(folder, source, datetime.date(2024, 3, 1) + datetime.timedelta(number))


if __name__ == "__main__":
    parser = argparse.ArgumentParser()
    parser.add_argument("folder", type=pathlib.Path)
    parser.add_argument("--customers", type=int, required=True)
    parser.add_argument("--windows", type=int, default=4)
    given = parser.parse_args()
    write(given.folder, given.customers, given.windows)
