"""The histories of which requests for memory are refused: their files, and what each command says by the formats."""
from typing import NamedTuple

FIRST, SECOND = "2024-03-01T02:00:00", "2024-03-02T02:00:00"


LOADING = ("load", "try")  # commands that take workers
WORTH_WORKERS = 16_384  # bytes of a window's extracts, from which on it is loaded by more than one


class Step(NamedTuple):
    """A command that ends with status 0: its words, its line, its line where all was done before, and its text. Where it
    loads a window, `rows` is how many rows that adds."""

    words: str
    line: str = ""
    again: str = ""
    text: str = ""
    rows: int = 0

    def has_workers(self):
        """Whether it loads windows, with as many workers as it is told."""
        return self.words.split()[0] in LOADING


class History(NamedTuple):
    """Commands, one after another, over files, and the commands by which what they leave is compared."""

    files: dict
    steps: tuple
    texts: tuple = ()

    def write(self, vault):
        for name, text in self.files.items():
            vault.write(name, text)

    def by(self, options):
        """The same, whose windows are loaded with options of workers. Blank lines, which are no records, stand behind each
        extract, so that it is worth more than one."""
        blank = "\n" * WORTH_WORKERS
        files = {name: text + blank if name.endswith(".csv") else text for name, text in self.files.items()}
        steps = (step._replace(words=f"{step.words} {options}") if step.has_workers() else step for step in self.steps)
        return self._replace(files=files, steps=tuple(steps))


def manifest(load, *feeds):
    """A window of feeds, each with the extract of its own name and the window's day."""
    extracts = "".join(f'[[extract]]\nfeed = "{feed}"\nfile = "{feed}{load[9]}.csv"\n' for feed in feeds)
    return f'load = "{load}"\n{extracts}'


def load(number, rows):
    """The load of the n-th window."""
    name = f"w{number}.toml"
    return Step(f"load {name}", f"{name}: Loaded {rows}", f"{name}: Repeated", rows=rows)


def texts(tables, marts, dates):
    """The commands for the list of windows, for raw tables, and for marts at dates."""
    return ("windows", *(f"table {table}" for table in tables.split()),
            *(f"mart {mart} {date}" for mart in marts.split() for date in dates))


CUSTOMER = '[[hub]]\nname = "customer"\nparts = 1\n'
CUSTOMERS = '[[feed]]\nname = "customers"\nsource = "crm"\nhub = "customer"\nkeys = [["CUST_NO"]]\n'
NAMED = CUSTOMER + CUSTOMERS + 'attrs = ["NAME"]\n'
ACCOUNTS = '[[feed]]\nname = "accounts"\nsource = "shop"\nhub = "customer"\nkeys = [["ACCOUNT"]]\nattrs = ["TIER"]\n'
ORDERS = CUSTOMER + """
[[hub]]
name = "sales_order"
parts = 1
[[hub]]
name = "product"
parts = 1
[[link]]
name = "placed"
hubs = ["customer", "sales_order"]
[[link]]
name = "contains"
hubs = ["sales_order", "product"]
[[feed]]
name = "placements"
source = "shop"
link = "placed"
keys = [["CUST"], ["ORD"]]
[[feed]]
name = "lines"
source = "shop"
link = "contains"
keys = [["ORD"], ["PROD"]]
attrs = ["QTY"]
[[path]]
name = "sold"
feeds = ["placements", "lines"]
via = ["sales_order"]
"""

INIT = Step("init", "init: Stored", "init: Kept")
SOLD = ("placements.customer.1,placements.sales_order.1,lines.sales_order.1,lines.product.1\n"
        "1,O1,O1,P1\n1,O1,O1,P2\n")
# The hash keys are those of MD5, of `1`, `2` and `3`.
PRESENT = (
    "hash_key,snapshot,customers.load,customers.present,accounts.load,accounts.present\n"
    f"c4ca4238a0b923820dcc509a6f75849b,{SECOND},{FIRST},Y,,N\n"
    f"c81e728d9d4c2f636f067f89cc14862c,{SECOND},{FIRST},Y,{FIRST},Y\n"
    f"eccbc87e4b5ce2fe28308fd9f2a7baf3,{SECOND},,N,{FIRST},N\n")

HISTORIES = {
    "tried": History(
        {"mapping.toml": CUSTOMER + CUSTOMERS, "w1.toml": manifest(FIRST, "customers"),
         "customers1.csv": "CUST_NO\na1\n A2 \n"},
        (Step(f"try feed:customers {FIRST} w1.toml", "w1.toml: Loaded 4", text="CUST_NO\nA1\nA2\n"),)),
    "kept": History(
        {"mapping.toml": NAMED, "w1.toml": manifest(FIRST, "customers"), "customers1.csv": "CUST_NO,NAME\n1,abc\n"},
        (INIT, load(1, 3)),
        texts("hub_customer sat_customers status_customers", "feed:customers hub:customer", [FIRST])),
    "joined": History(
        {"mapping.toml": ORDERS, "w1.toml": manifest(FIRST, "placements", "lines"),
         "placements1.csv": "CUST,ORD\n1,O1\n,O2\n", "lines1.csv": "ORD,PROD,QTY\nO1,P1,3\nO2,P2,1\nO1,P2,2\n"},
        (Step(f"try feed:placements {FIRST} w1.toml", "w1.toml: Loaded 18", text="CUST,ORD\n,O2\n1,O1\n"),
         Step(f"try path:sold {FIRST} w1.toml", "w1.toml: Loaded 18", text=SOLD),
         INIT, load(1, 18)),
        texts("hub_customer hub_sales_order hub_product link_placed link_contains status_placements sat_lines status_lines",
              "feed:placements feed:lines hub:customer hub:sales_order hub:product path:sold", [FIRST])),
    "stored": History(
        {"mapping.toml": NAMED + ACCOUNTS, "w1.toml": manifest(FIRST, "customers", "accounts"),
         "w2.toml": manifest(SECOND, "accounts"), "customers1.csv": "CUST_NO,NAME\n1,abc\n2,x\n",
         "accounts1.csv": "ACCOUNT,TIER\n2,gold\n3,tin\n", "accounts2.csv": "ACCOUNT,TIER\n2,gold\n"},
        (INIT, load(1, 11), load(2, 1), Step(f"snapshot {SECOND}", "snapshot: Stored 3", "snapshot: Repeated"),
         Step(f"pit customer {SECOND}", text=PRESENT)),
        (*texts("hub_customer sat_customers status_customers sat_accounts status_accounts",
                "feed:customers feed:accounts hub:customer", [FIRST, SECOND]), f"pit customer {SECOND}")),
}
