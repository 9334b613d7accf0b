"""Checks of paths: their marts and bridges, worked out of the extracts apart from the program, and Q3."""
from kept import history, joins, orders, worlds
from kept.orders import DATES, MANIFESTS, MART_DATES
from kept.points import mapping_of, windows_of
from kept.program import expect
from kept.snapshots import not_stored, stored, table_text

WORLDS = 40
BETWEEN = "2024-04-15T12:00:00"
BEFORE = "2024-02-29T00:00:00"


def marts_of_paths(bench):
    """the mart of each path, by mart and by try, is that of the extracts at each date"""
    vault = orders.kept(bench, 3)
    mapping, windows = mapping_of(vault), windows_of(vault)
    for date in MART_DATES:
        text = joins.path_text(mapping, windows, "sold", date)
        vault.says("mart", "path:sold", date, out=text)
        expect(f"try path:sold {date}", text, vault.run("try", "path:sold", date, *MANIFESTS).out)
    made = history.make(bench)
    mapping, windows = mapping_of(made.after_first), windows_of(made.after_first)
    for path in history.PATHS:
        text = joins.path_text(mapping, windows, path, history.DATES[0])
        expect(f"mart path:{path} of a larger history", text, made.texts[f"mart path:{path} {history.DATES[0]}"])


def kept_world(bench, seed):
    """A vault that has loaded a random world, with a snapshot at each of its dates."""
    world, vault = worlds.World(seed), bench.empty()
    world.write(vault)
    vault.says("init", err="init: Stored")
    for manifest, date in zip(worlds.MANIFESTS, worlds.DATES):
        vault.loaded(manifest)
        if date != worlds.DATES[1]:
            stored(vault, date)
    stored(vault, BETWEEN)
    return vault


def random_paths(bench):
    """marts and bridges of random paths over random windows are those of the extracts, whoever writes them"""
    joined = 0
    for seed in range(WORLDS):
        vault = kept_world(bench, seed)
        mapping, windows = mapping_of(vault), windows_of(vault)
        for path in joins.paths_of(mapping):
            for date in (BEFORE, *worlds.DATES, BETWEEN):
                mart = joins.path_text(mapping, windows, path, date)
                bridge = joins.bridge_text(mapping, windows, path, date)
                what = f"of {path} at {date} in the world {seed}"
                expect(f"the mart {what}", mart, vault.text("mart", f"path:{path}", date))
                for word, text in (("path", mart), ("bridge", bridge)):
                    tried = vault.run("try", f"{word}:{path}", date, *worlds.MANIFESTS)
                    expect(f"try {word} {what}", (0, text), (tried.status, tried.out))
                if date in (BEFORE, worlds.DATES[1]):
                    vault.says("bridge", path, date, **not_stored(date))
                else:
                    expect(f"the bridge {what}", bridge, vault.text("bridge", path, date))
                joined += mart.count(b"\n") - 1
        bench.drop(vault)
    expect("whether the random paths have rows", True, joined > 40 * WORLDS)


STOCKS = """
hub = [
  { name = "customer", parts = 1 },
  { name = "sales_order", parts = 1 },
  { name = "product", parts = 1 },
  { name = "site", parts = 1 },
]
link = [
  { name = "placed", hubs = ["customer", "sales_order"] },
  { name = "contains", hubs = ["sales_order", "product"] },
  { name = "has", hubs = ["product", "site"] },
]
feed = [
  { name = "placements", source = "shop", link = "placed", keys = [["CUST"], ["ORD"]] },
  { name = "lines", source = "shop", link = "contains", keys = [["ORD"], ["PROD"]], attrs = ["QTY"] },
  { name = "stocks", source = "erp", link = "has", keys = [["PROD"], ["SITE"]] },
]
path = [
  { name = "placed", feeds = ["placements"], via = [] },
  { name = "sold", feeds = ["placements", "lines"], via = ["sales_order"] },
  { name = "served", feeds = ["placements", "lines", "stocks"], via = ["sales_order", "product"] },
]
"""


def many_rows(bench, customers, products):
    """A vault of an order of so many customers and products, of which one stands at a site."""
    vault = bench.empty()
    vault.write("mapping.toml", STOCKS)
    vault.write("p1.csv", "CUST,ORD\n" + "".join(f"C{n:04},O1\n" for n in range(customers)))
    vault.write("l1.csv", "ORD,PROD,QTY\n" + "".join(f"O1,P{n:04},1\n" for n in range(products)))
    vault.write("s1.csv", "PROD,SITE\nP0001,S1\n")
    files = (("placements", "p1.csv"), ("lines", "l1.csv"), ("stocks", "s1.csv"))
    entries = "".join(f'[[extract]]\nfeed = "{feed}"\nfile = "{file}"\n' for feed, file in files)
    vault.write("w1.toml", f'load = "{DATES[0]}"\n{entries}')
    vault.says("init", err="init: Stored")
    return vault


def too_large(path):
    return {"status": 1, "err": f"vaultdesk: Q3 TooLarge path={path}"}


def paths_that_are_too_large(bench):
    """a path with more than 1,000,000 rows is Q3 for each command, also where its last feeds leave few of them"""
    vault = many_rows(bench, 1001, 1000)
    added = 1001 + 1 + 1000 + 1 + 2 * (1001 + 1000 + 1) + 1000
    vault.says("load", "w1.toml", err=f"w1.toml: Loaded {added}")
    for path in ("sold", "served"):
        vault.says("mart", f"path:{path}", DATES[0], **too_large(path))
        for word in ("path", "bridge"):
            said = f"w1.toml: Loaded {added}\nvaultdesk: Q3 TooLarge path={path}"
            vault.says("try", f"{word}:{path}", DATES[0], "w1.toml", status=1, err=said)
            vault.says("try", f"{word}:{path}", BEFORE, "w1.toml", err=f"w1.toml: Loaded {added}",
                       out=table_or_mart(vault, word, path, BEFORE))
    vault.says("snapshot", DATES[0], **too_large("sold"))
    vault.says("bridge", "placed", DATES[0], **not_stored(DATES[0]))
    vault.says("snapshot", DATES[1], status=1, err=f"vaultdesk: Q4 Future last={DATES[0]}")
    stored(vault, BEFORE)
    vault.says("snapshot", BEFORE, err="snapshot: Repeated")
    vault.says("mart", "path:placed", DATES[0], out=table_or_mart(vault, "path", "placed", DATES[0]))


def table_or_mart(vault, word, path, date):
    if word == "bridge":
        return table_text(vault, word, path, date)
    return joins.path_text(mapping_of(vault), windows_of(vault), path, date)


def paths_at_the_limit(bench):
    """a path mart of 1,000,000 rows is written, and a snapshot of so many rows of bridges is Q7"""
    vault = many_rows(bench, 1000, 1000)
    vault.loaded("w1.toml")
    expect("mart path:sold", table_or_mart(vault, "path", "sold", DATES[0]), vault.text("mart", "path:sold", DATES[0]))
    expect("mart path:served", table_or_mart(vault, "path", "served", DATES[0]), vault.text("mart", "path:served", DATES[0]))
    # A row without cells, and rows of two, five and eight hash keys behind the first one.
    keys, placed, sold, served = 1000 + 1 + 1000 + 1, 1000, 1_000_000, 1000
    weight = 128 * (keys + placed + sold + served) + 32 * (2 * placed + 5 * sold + 8 * served)
    vault.says("snapshot", DATES[0], status=1, err=f"vaultdesk: Q7 SnapshotsFull weight={weight}")
    vault.says("bridge", "sold", DATES[0], **not_stored(DATES[0]))


CHECKS = (marts_of_paths, random_paths, paths_that_are_too_large, paths_at_the_limit)
