"""Makes a folder of dated full extracts of three links: mapping.toml, wK.toml and the CSV files that they name.

Usage: python3 bench/marts/path_windows.py FOLDER --lines N --windows W

N is the number of records of `lines`: orders have one to three of them, of N/20 products. `placements` has a record for
each order, of N/10 customers, of which one in a hundred has no customer; `stocks` has one or two sites of each product.
From one window to the next 5% of the orders get another customer, 5% of the lines another product and 5% of the stocks
another site; 2% of each vanish and as many are new. Every third window has no extract of `stocks`. 5% of the keys are
spelled in lower case and 2% with spaces round them, and the records come in no order. Equal arguments give equal bytes.
"""
import argparse
import datetime
import pathlib
import random

SITES = 40

MAPPING = """
hub = [
  { name = "customer", parts = 1 },
  { name = "sales_order", parts = 1 },
  { name = "product", parts = 1 },
  { name = "site", parts = 1 },
]
link = [
  { name = "placed", hubs = ["customer", "sales_order"] },
  { name = "contains", hubs = ["sales_order", "product"] },
  { name = "has", hubs = ["product", "site"] },
]
feed = [
  { name = "placements", source = "shop", link = "placed", keys = [["CUST_NO"], ["ORDER_NO"]] },
  { name = "lines", source = "shop", link = "contains", keys = [["ORDER_NO"], ["PRODUCT_NO"]] },
  { name = "stocks", source = "erp", link = "has", keys = [["PRODUCT_NO"], ["SITE"]] },
]
path = [
  { name = "sold", feeds = ["placements", "lines"], via = ["sales_order"] },
  { name = "served", feeds = ["placements", "lines", "stocks"], via = ["sales_order", "product"] },
]
"""
HEADERS = {"placements": ["CUST_NO", "ORDER_NO"], "lines": ["ORDER_NO", "PRODUCT_NO"], "stocks": ["PRODUCT_NO", "SITE"]}


class Sources:
    """What the sources have at a date: pairs of keys, as many as at the beginning."""

    def __init__(self, lines):
        self.pick = random.Random(1)
        self.customers = [f"C{number:08d}" for number in range(lines // 10)]
        self.products = [f"P{number:08d}" for number in range(lines // 20)]
        self.sites = [f"S{number:03d}" for number in range(SITES)]
        self.orders = 0
        self.pairs = {"placements": {}, "lines": {}, "stocks": {}}
        while len(self.pairs["lines"]) < lines:
            self.enter_order(lines)
        for product in self.products:
            for site in self.pick.sample(self.sites, self.pick.choice((1, 1, 2))):
                self.pairs["stocks"][product, site] = None

    def new_customer(self):
        return "" if self.pick.random() < 0.01 else self.pick.choice(self.customers)

    def enter_order(self, most):
        """An order of a customer, with as many lines as there is room for."""
        order = f"O{self.orders:08d}"
        self.orders += 1
        self.pairs["placements"][self.new_customer(), order] = None
        for product in self.pick.sample(self.products, self.pick.randrange(1, 4))[: most - len(self.pairs["lines"])]:
            self.pairs["lines"][order, product] = None

    def change(self, feed, another):
        """5% of the pairs get another key, and 2% vanish."""
        pairs = self.pairs[feed]
        kept = sorted(pairs)
        for pair in self.pick.sample(kept, max(1, len(kept) // 20)):
            del pairs[pair]
            pairs[another(pair)] = None
        kept = sorted(pairs)
        for pair in self.pick.sample(kept, max(1, len(kept) // 50)):
            del pairs[pair]

    def go_on(self, feeds):
        most = len(self.pairs["lines"])
        self.change("placements", lambda pair: (self.new_customer(), pair[1]))
        self.change("lines", lambda pair: (pair[0], self.pick.choice(self.products)))
        while len(self.pairs["lines"]) < most:
            self.enter_order(most)
        if "stocks" in feeds:
            most = len(self.pairs["stocks"])
            self.change("stocks", lambda pair: (pair[0], self.pick.choice(self.sites)))
            while len(self.pairs["stocks"]) < most:
                self.pairs["stocks"][self.pick.choice(self.products), self.pick.choice(self.sites)] = None

    def spelled(self, key):
        kind = self.pick.random()
        if kind < 0.05:
            return key.lower()
        return f" {key} " if kind < 0.07 else key

    def records(self, feed):
        rows = [[self.spelled(key) for key in pair] for pair in sorted(self.pairs[feed])]
        self.pick.shuffle(rows)
        return rows


def write_window(folder, sources, number, feeds, load):
    manifest = [f'load = "{load}T02:00:00"']
    for feed in feeds:
        lines = [",".join(record) for record in [HEADERS[feed], *sources.records(feed)]]
        (folder / f"w{number}_{feed}.csv").write_text("\n".join(lines) + "\n")
        manifest += ["[[extract]]", f'feed = "{feed}"', f'file = "w{number}_{feed}.csv"']
    (folder / f"w{number}.toml").write_text("\n".join(manifest) + "\n")


def write(folder, lines, windows):
    folder.mkdir(parents=True)
    (folder / "mapping.toml").write_text(MAPPING)
    sources = Sources(lines)
    for number in range(1, windows + 1):
        feeds = [feed for feed in HEADERS if feed != "stocks" or number % 3]
        if number > 1:
            sources.go_on(feeds)
        write_window(folder, sources, number, feeds, datetime.date(2024, 3, number))


if __name__ == "__main__":
    parser = argparse.ArgumentParser()
    parser.add_argument("folder", type=pathlib.Path)
    parser.add_argument("--lines", type=int, required=True)
    parser.add_argument("--windows", type=int, default=4)
    given = parser.parse_args()
    write(given.folder, given.lines, given.windows)
