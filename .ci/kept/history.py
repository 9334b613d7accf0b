"""Three windows of some hundred customers, made from a seed, with tables of all kinds; and what a run of them leaves
that nothing breaks off."""
import csv
import random
import statistics
import time
from typing import NamedTuple

from kept.program import CheckFailed, expect
from kept.stores import is_whole, opened, opened_copy, rows_of
from kept.vaults import Vault

CUSTOMERS = 300
MANIFESTS = ("w1.toml", "w2.toml", "w3.toml")
DATES = ("2024-03-01T02:00:00", "2024-04-01T02:00:00", "2024-05-01T02:00:00")
FEEDS = "customers phones visits care"
HEADER = "load_date,state,feeds\n"

MAPPING = """
hub = [{ name = "customer", parts = 1 }, { name = "site", parts = 2 }, { name = "clerk", parts = 1 }]
link = [{ name = "visit", hubs = ["customer", "site"] }, { name = "care", hubs = ["customer", "clerk"] }]
feed = [
  { name = "customers", source = "crm", hub = "customer", keys = [["CUST_NO"]], attrs = ["NAME", "CITY"] },
  { name = "phones", source = "crm", hub = "customer", keys = [["CUST_NO"]], sub = ["KIND"], attrs = ["PHONE"] },
  { name = "visits", source = "erp", link = "visit", keys = [["CUST_NO"], ["REGION", "SITE"]], attrs = ["PURPOSE"] },
  { name = "care", source = "hr", link = "care", keys = [["CUST_NO"], ["CLERK"]], driver = ["customer"] },
]
path = [
  { name = "served", feeds = ["care", "visits"], via = ["customer"] },
  { name = "met", feeds = ["visits", "visits"], via = ["site"] },
]
"""

PATHS = ("served", "met")

# In table order.
TABLES = ("hub_customer", "hub_site", "hub_clerk", "link_visit", "link_care", "sat_customers", "status_customers",
          "msat_phones", "status_phones", "sat_visits", "status_visits", "status_care", "eff_care")

CITIES = ("Oslo", "Bergen", "Molde", "Hamar", "Bodø", "Skien")
PURPOSES = ("sales", "repair", "advice, free", 'a "look"')


class Source:
    """What the systems have at a date."""

    def __init__(self, seed, size=CUSTOMERS):
        self.random, self.size = random.Random(seed), size
        self.new_number = 0
        self.customers, self.phones, self.visits, self.care = {}, {}, {}, {}
        self.enter(size)

    def enter(self, count):
        for _ in range(count):
            self.new_number += 1
            self.describe(f"c{self.new_number:05d}")

    def describe(self, customer):
        pick = self.random
        self.customers[customer] = (f"Name {pick.randrange(500)}", pick.choice(CITIES))
        kinds = pick.sample(("home", "work", "fax"), pick.randint(1, 3))
        self.phones[customer] = {kind: str(pick.randrange(10_000)) for kind in kinds}
        sites = [(pick.choice(("north", "south")), str(pick.randrange(20))) for _ in range(pick.randint(0, 3))]
        self.visits[customer] = {site: pick.choice(PURPOSES) for site in sites}
        self.care[customer] = f"k{pick.randrange(25)}"

    def go_on(self):
        """Some customers change, some are gone, and as many are new."""
        for customer in self.random.sample(sorted(self.customers), self.size // 5):
            self.describe(customer)
        for customer in self.random.sample(sorted(self.customers), self.size // 20):
            for rows in (self.customers, self.phones, self.visits, self.care):
                del rows[customer]
        self.enter(self.size // 20)

    def extracts(self):
        yield "customers", ("CUST_NO", "NAME", "CITY"), [(key, *row) for key, row in self.customers.items()]
        phones = [(key, kind, phone) for key, rows in self.phones.items() for kind, phone in rows.items()]
        yield "phones", ("CUST_NO", "KIND", "PHONE"), phones
        visits = [(key, *site, purpose) for key, rows in self.visits.items() for site, purpose in rows.items()]
        yield "visits", ("CUST_NO", "REGION", "SITE", "PURPOSE"), visits
        yield "care", ("CUST_NO", "CLERK"), list(self.care.items())


def write_window(vault, source, manifest, date):
    entries = ""
    for feed, header, rows in source.extracts():
        name = f"{manifest}_{feed}.csv"
        source.random.shuffle(rows)
        with open(vault.file(name), "w", encoding="utf-8", newline="") as file:
            csv.writer(file).writerows([header, *rows])
        entries += f'[[extract]]\nfeed = "{feed}"\nfile = "{name}"\n'
    vault.write(manifest, f'load = "{date}"\n{entries}')


def inputs(bench, source=None):
    """A vault with the mapping and the windows, and no store."""
    vault, source = bench.empty(), source or Source(seed=7)
    vault.write("mapping.toml", MAPPING)
    for manifest, date in zip(MANIFESTS, DATES):
        write_window(vault, source, manifest, date)
        source.go_on()
    return vault


def windows_text(count, is_next_open=False):
    """What `windows` writes after so many loads."""
    lines = [f"{date},sealed,{FEEDS}\n" for date in DATES[:count]]
    return HEADER + "".join(lines) + (f"{DATES[count]},open,{FEEDS}\n" if is_next_open else "")


def text_words():
    """The commands that write all texts: the windows, each raw table, and each mart at each load date."""
    yield ("windows",)
    yield from (("table", table) for table in TABLES)
    words = [*(f"feed:{feed}" for feed in FEEDS.split()), "period:care", *(f"path:{path}" for path in PATHS)]
    yield from (("mart", word, date) for word in words for date in DATES)


def texts(vault):
    return {" ".join(words): vault.text(*words) for words in text_words()}


def second_rows(connection):
    """How many rows of the second window each raw table has, in table order."""
    return [sum(row[1] == DATES[1] for row in rows_of(connection, table)) for table in TABLES]


class Unbroken(NamedTuple):
    """A run that nothing broke off: the vault after its first window, how many rows each window added, the rows of the
    second one in each raw table, all texts at the end; and the seconds of the second load."""

    after_first: Vault
    added: list
    second_rows: list
    texts: dict
    seconds: float


def seconds_of_second_load(after_first):
    taken = []
    for _ in range(5):
        vault = after_first.twin()
        begun = time.perf_counter()
        vault.loaded("w2.toml")
        taken.append(time.perf_counter() - begun)
        vault.bench.drop(vault)
    return statistics.median(taken)


def make(bench, source=None):
    """A run that nothing breaks off."""
    after_first = inputs(bench, source)
    after_first.says("init", err="init: Stored")
    added = after_first.loaded("w1.toml")
    vault = after_first.twin()
    added += vault.loaded("w2.toml")
    with opened_copy(vault) as connection:
        rows = second_rows(connection)
    expect("rows that the second load says", sum(rows), added[1])
    added += vault.loaded("w3.toml")
    return Unbroken(after_first, added, rows, texts(vault), seconds_of_second_load(after_first))


def unbroken_as_tried(bench):
    """a larger history has the tables and marts that `try` writes of it"""
    made = make(bench)
    for words in text_words():
        if words[0] == "windows":
            continue
        what, date = words[1:] if words[0] == "mart" else (f"table:{words[1]}", DATES[-1])
        tried = made.after_first.run("try", what, date, *MANIFESTS)
        expect(f"try {what} {date}: exit status", 0, tried.status)
        expect(" ".join(words), tried.out, made.texts[" ".join(words)])


def goes_on_as_unbroken(made, vault):
    """Loads the third window of a vault with two, and holds all texts against those of the unbroken run."""
    vault.says("load", "w3.toml", err=f"w3.toml: Loaded {made.added[2]}")
    for command, text in made.texts.items():
        expect(f"{command} after a break", text, vault.text(*command.split()))
    with opened(vault.file("vault.db")) as connection:
        is_whole(connection)


def state_after_break(made, vault):
    """Whether the second window is `absent`, `open` or `sealed` after its load broke off; fails where it is none."""
    states = {windows_text(1): "absent", windows_text(1, is_next_open=True): "open", windows_text(2): "sealed"}
    text = vault.text("windows").decode()
    if text not in states:
        raise CheckFailed(f"windows after a break\n    expected: one of {list(states)}\n    got:      {text!r}")
    return states[text]


def is_in_order(made, vault):
    """Fails where SQLite finds a fault, or where the tables that have rows of the second window are not the first ones,
    each with all of them."""
    with opened_copy(vault) as connection:
        is_whole(connection)
        rows = second_rows(connection)
    count = max((at for at, number in enumerate(rows, 1) if number), default=0)
    in_order = made.second_rows[:count] + [0] * (len(rows) - count)
    expect("rows of the window in each table, in table order", in_order, rows)


def complete(made, vault, state, by_resume):
    """Brings the second window to its end, and holds what is said against the unbroken run."""
    if state == "open" and by_resume:
        vault.says("resume", err=f"resume: Loaded {made.added[1]}")
    elif state == "sealed":
        vault.says("load", "w2.toml", err="w2.toml: Repeated")
    else:
        vault.says("load", "w2.toml", err=f"w2.toml: Loaded {made.added[1]}")
    vault.says("windows", out=windows_text(2))


CHECKS = (unbroken_as_tried,)
