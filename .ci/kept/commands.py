"""Checks of each command over files: what it says, and what it leaves."""
import collections

from kept import orders
from kept.orders import DATES, HEADER, LAST_DATE, MANIFESTS, MART_DATES, MARTS, TABLES
from kept.program import NO_MAPPING, USAGE, expect, with_limits
from kept.readmes import added_rows, block, loaded_rows

EVERY_COMMAND = (("init",), ("load", "w1.toml"), ("resume",), ("mart", "feed:customers", DATES[0]),
                 ("table", "hub_customer"), ("windows",), ("snapshot", DATES[0]), ("pit", "customer", DATES[0]),
                 ("bridge", "sold", DATES[0]))


def store_the_mapping(bench):
    """init stores the mapping once, and keeps it where the file says the same"""
    vault = bench.example("orders")
    vault.says("init", err="init: Stored")
    vault.says("windows", out=HEADER)
    vault.says("init", err="init: Kept")
    text = vault.file("mapping.toml").read_text()
    vault.write("mapping.toml", "# Another comment.\n" + text)
    vault.says("init", err="init: Kept")
    vault.loaded("w1.toml")
    vault.says("init", err="init: Kept")
    vault.says("windows", out=orders.windows_text(1))


def store_another_mapping(bench):
    """init refuses a mapping that differs from the stored one, which stays"""
    vault = orders.kept(bench, 1)
    text = vault.file("mapping.toml").read_text()
    vault.write("mapping.toml", text.replace('attrs = ["QTY"]', 'attrs = ["QTY"]\nignore = ["NOTE"]'))
    before = orders.texts(vault)
    vault.says("init", status=3, err="vaultdesk: mapping differs")
    expect("all texts after a mapping that differs", before, orders.texts(vault))
    vault.says("load", "w2.toml", err=orders.line_of("w2.toml"))
    vault.write("mapping.toml", text)
    vault.says("init", err="init: Kept")


def store_a_broken_mapping(bench):
    """init refuses a mapping that is absent, no file, no TOML or broken, and stores none"""
    vault = bench.example("orders")
    text = vault.file("mapping.toml").read_text()
    vault.file("mapping.toml").unlink()
    vault.says("init", status=4, err="vaultdesk: absent mapping.toml")
    vault.file("mapping.toml").mkdir()
    vault.says("init", status=4, err="vaultdesk: read fault mapping.toml")
    vault.file("mapping.toml").rmdir()
    vault.write("mapping.toml", "hub = [")
    vault.says("init", status=3, err="vaultdesk: mapping 1 Text")
    vault.write("mapping.toml", text.replace('hub = "product"', 'hub = "article"'))
    vault.says("init", status=3, err="vaultdesk: mapping 4 UnknownHub name=article")
    vault.says("windows", **NO_MAPPING)
    vault.write("mapping.toml", text)
    vault.says("init", err="init: Stored")


def commands_before_init(bench):
    """before init each command says that there is no mapping, whatever its other words are"""
    vault = bench.example("orders")
    for words in EVERY_COMMAND[1:]:
        vault.says(*words, **NO_MAPPING)
    for words in (("load", "nothing.toml"), ("mart", "nothing", "never"), ("table", "nothing"), ("snapshot", "never"),
                  ("pit", "nothing", "never"), ("bridge", "nothing", "never")):
        vault.says(*words, **NO_MAPPING)
    vault.says("init", err="init: Stored")


def loads_and_windows(bench):
    """each load says how many rows it added, and windows lists what was loaded"""
    vault = bench.example("orders")
    vault.says("init", err="init: Stored")
    for count, manifest in enumerate(MANIFESTS, 1):
        vault.says("load", manifest, err=orders.line_of(manifest))
        vault.says("windows", out=orders.windows_text(count))


def rows_of_each_window(bench):
    """each raw table has as many rows of each window as the example's README says"""
    for example, rows in ((name, added_rows(name)) for name in ("orders", "phones", "assignments")):
        manifests = tuple(loaded_rows(example))
        vault = bench.kept_example(example, *manifests)
        dates = [line.split(",")[0] for line in vault.text("windows").decode().splitlines()[1:]]
        for table, counts in rows.items():
            lines = vault.text("table", table).decode().splitlines()[1:]
            found = collections.Counter(line.split(",")[1] for line in lines)
            expect(f"{example}: rows of {table} by load date", counts, [found[date] for date in dates])


def tables_and_marts_as_tried(bench):
    """each raw table, and each mart at several dates, is what `try` writes of the same windows"""
    vault = orders.kept(bench, 3)
    for table in TABLES:
        tried = vault.run("try", f"table:{table}", LAST_DATE, *MANIFESTS)
        vault.says("table", table, out=tried.out)
    for mart in MARTS:
        for date in MART_DATES:
            tried = vault.run("try", mart, date, *MANIFESTS)
            vault.says("mart", mart, date, out=tried.out)


SOLD = "placements.customer.1,placements.sales_order.1,lines.sales_order.1,lines.product.1"


def texts_before_a_load(bench):
    """before the first load tables and marts have their headers alone"""
    vault = bench.kept_example("phones")
    vault.says("windows", out=HEADER)
    vault.says("mart", "feed:phones", DATES[0], out="CUST_NO,KIND,PHONE\n")
    vault.says("table", "hub_customer", out="hash_key,load_date,record_source,part_1\n")
    vault.says("table", "msat_phones", out="hash_key,load_date,record_source,hash_diff,KIND,PHONE\n")
    vault.says("table", "status_phones", out="hash_key,load_date,record_source,status\n")
    vault = bench.kept_example("assignments")
    vault.says("mart", "period:assignments", DATES[0], out="EMP,DEPT,begin,end\n")
    vault.says("table", "link_works", out="hash_key,load_date,record_source,employee,department\n")
    vault.says("table", "sat_employees", out="hash_key,load_date,record_source,hash_diff,NAME\n")
    vault.says("table", "eff_assignments", out="hash_key,load_date,record_source,begin,end\n")
    vault = bench.kept_example("orders")
    vault.says("mart", "path:sold", DATES[0], out=f"{SOLD}\n")


def marts_after_each_load(bench):
    """after each load the marts at the last date are what `try` writes of the windows so far"""
    vault = bench.kept_example("orders")
    for count, manifest in enumerate(MANIFESTS, 1):
        vault.loaded(manifest)
        for mart in MARTS:
            tried = vault.run("try", mart, LAST_DATE, *MANIFESTS[:count])
            vault.says("mart", mart, LAST_DATE, out=tried.out)


def texts_of_the_readmes(bench):
    """the texts of `try` that the examples' READMEs show come from kept vaults too"""
    vault = orders.kept(bench, 3)
    customers = "CUST_NO,NAME,CITY"
    vault.says("mart", "feed:customers", DATES[1], out=block("orders", customers))
    vault.says("mart", "feed:customers", LAST_DATE, out=block("orders", customers, 1))
    vault.says("mart", "feed:lines", "2024-03-15T12:00:00", out=block("orders", "ORDER_NO,PRODUCT_NO,QTY"))
    vault.says("table", "status_customers", out=block("orders", "hash_key,load_date,record_source,status"))
    for at, date in enumerate((LAST_DATE, "2024-03-15T12:00:00")):
        vault.says("mart", "path:sold", date, out=block("orders", SOLD, at))
    vault = bench.kept_example("phones", *loaded_rows("phones"))
    vault.says("mart", "feed:phones", "2024-04-01T02:00:00", out=block("phones", "CUST_NO,KIND,PHONE"))
    vault.says("table", "msat_phones", out=block("phones", "hash_key,load_date,record_source,hash_diff,KIND,PHONE"))
    vault = bench.kept_example("assignments", *loaded_rows("assignments"))
    periods = "EMP,DEPT,begin,end"
    vault.says("mart", "period:assignments", "2024-06-01T02:00:00", out=block("assignments", periods))
    vault.says("mart", "period:assignments", "2024-05-15T00:00:00", out=block("assignments", periods, 1))
    vault.says("table", "eff_assignments", out=block("assignments", "hash_key,load_date,record_source,begin,end"))
    vault.says("load", "w5.toml", status=1, err="w5.toml: W18 TwoDrivers feed=assignments driver=[E1]")


def repeated_loads(bench):
    """a window again is Repeated, also with its records and columns in another order, and adds nothing"""
    vault = orders.kept(bench, 3)
    before = orders.texts(vault)
    for manifest in MANIFESTS + MANIFESTS:
        vault.says("load", manifest, err=f"{manifest}: Repeated")
    header, *records = vault.file("w1_lines.csv").read_text().splitlines()
    turned = [",".join(reversed(line.split(","))) for line in [header, *reversed(records), records[0]]]
    vault.write("w1_lines.csv", "\r\n".join(turned))
    vault.says("load", "w1.toml", err="w1.toml: Repeated")
    expect("all texts after repeated loads", before, orders.texts(vault))


def extract(feed, file):
    """An extract of a manifest."""
    return f'[[extract]]\nfeed = "{feed}"\nfile = "{file}"\n'


def window(load, *extracts):
    """A manifest."""
    return f'load = "{load}"\n' + "".join(extract(feed, file) for feed, file in extracts)


def windows_that_differ(bench):
    """a loaded date with another row, or with a feed less or more, is refused as W19"""
    vault = orders.kept(bench, 3)
    before = orders.texts(vault)
    vault.write("other.csv", vault.file("w3_lines.csv").read_text().replace("O3,P1,3", "O3,P1,4"))
    vault.write("row.toml", window(LAST_DATE, ("customers", "w3_customers.csv"), ("lines", "other.csv")))
    vault.write("less.toml", window(LAST_DATE, ("lines", "w3_lines.csv")))
    vault.write("more.toml", vault.file("w3.toml").read_text() + extract("orders", "w2_orders.csv"))
    for name in ("row.toml", "less.toml", "more.toml"):
        vault.says("load", name, status=1, err=f"{name}: W19 Differs load={LAST_DATE}")
    expect("all texts after windows that differ", before, orders.texts(vault))


def late_windows(bench):
    """a date not later than the last one that is none of theirs is refused as W4"""
    vault = orders.kept(bench, 3)
    before = orders.texts(vault)
    for name, date in (("first.toml", "2024-02-29T00:00:00"), ("between.toml", "2024-04-15T00:00:00")):
        vault.write(name, window(date, ("lines", "w3_lines.csv")))
        vault.says("load", name, status=1, err=f"{name}: W4 Late last={LAST_DATE}")
    expect("all texts after late windows", before, orders.texts(vault))
    vault.write("next.toml", window("2024-05-01T02:00:01", ("lines", "w3_lines.csv")))
    vault.says("load", "next.toml", err="next.toml: Loaded 0")
    vault.says("windows", out=orders.windows_text(3) + "2024-05-01T02:00:01,sealed,lines\n")


REFUSED_EXTRACTS = (
    ("ORDER_NO,PRODUCT_NO,QTY\nO1,P1\n", "W12 Ragged feed=lines row_no=1"),
    ("ORDER_NO,PRODUCT_NO,QTY\nO1,P1,1\n , ,2\n", "W15 EmptyKey feed=lines row_no=2"),
    ("ORDER_NO,PRODUCT_NO,QTY\nO1,P1,1\no1,P1,2\n", "W16 TwoRows feed=lines earlier=1 later=2"),
    ("ORDER_NO,PRODUCT_NO,QTY,NOTE\n", "W10 UnmappedColumn feed=lines name=NOTE"),
    ("ORDER_NO,QTY\n", "W11 MissingColumn feed=lines name=PRODUCT_NO"),
    ("", "W7 NoHeader feed=lines"),
)


def refused_windows(bench):
    """windows that break other rules are refused by their line, and leave no trace"""
    vault = orders.kept(bench, 1)
    before = orders.texts(vault)
    lines = ("lines", "given.csv")
    refused = [
        ("load = 1\n", "W0 Manifest place=load"),
        (f'load = "{DATES[1]}"\n', "W1 NoExtracts"),
        (window(DATES[1], ("stock", "given.csv")), "W2 UnknownFeed name=stock"),
        (window(DATES[1], lines, lines), "W3 FeedTwice feed=lines"),
    ]
    vault.write("given.csv", "ORDER_NO,PRODUCT_NO,QTY\n")
    for text, line in refused:
        vault.write("given.toml", text)
        vault.says("load", "given.toml", status=1, err=f"given.toml: {line}")
    vault.write("given.toml", window(DATES[1], lines))
    for text, line in REFUSED_EXTRACTS:
        vault.write("given.csv", text)
        vault.says("load", "given.toml", status=1, err=f"given.toml: {line}")
    expect("all texts after refused windows", before, orders.texts(vault))
    vault.says("load", "w2.toml", err=orders.line_of("w2.toml"))


def absent_files(bench):
    """a manifest or an extract that is absent, or cannot be read, ends a load with its line"""
    vault = orders.kept(bench, 1)
    before = orders.texts(vault)
    vault.file("folder").mkdir()
    vault.write("no_file.toml", window(DATES[1], ("lines", "none.csv")))
    vault.write("no_text.toml", window(DATES[1], ("lines", "folder")))
    vault.says("load", "none.toml", status=4, err="vaultdesk: absent none.toml")
    vault.says("load", "", status=4, err="vaultdesk: absent ")
    vault.says("load", "folder", status=4, err="vaultdesk: read fault folder")
    vault.says("load", "no_file.toml", status=4, err="vaultdesk: absent none.csv")
    vault.says("load", "no_text.toml", status=4, err="vaultdesk: read fault folder")
    expect("all texts after files that are not there", before, orders.texts(vault))


NO_MARTS = ("feed:customer", "period:customers", "table:hub_customer", "hub:customers", "pit:customer", "path:placed",
            "path:", "bridge:sold", "customers", "")


def refused_queries(bench):
    """words that name no mart, no date or no table, and resume where nothing is open, are refused by their rule"""
    vault = orders.kept(bench, 2)
    for word in NO_MARTS:
        for date in (DATES[0], "never"):
            vault.says("mart", word, date, status=1, err=f"vaultdesk: Q1 UnknownMart name={word}")
    for date in ("2024-02-30T00:00:00", "2024-03-01", "9999-12-31T23:59:59", ""):
        vault.says("mart", "feed:customers", date, status=1, err=f"vaultdesk: Q2 BadDate text={date}")
    for name in ("hub_customers", "customer", "windows", "mapping", "table:hub_customer", "sat_placements", ""):
        vault.says("table", name, status=1, err=f"vaultdesk: Q6 UnknownTable name={name}")
    vault.says("resume", status=1, err="vaultdesk: Q8 NothingOpen")
    vault.says("windows", out=orders.windows_text(2))


USAGE_WORDS = (
    "", "help", "--help", "-h", "-- windows", "Windows", "windows now", "windows -v", "windows -- now",
    "init mapping.toml", "init --force", "init -- --", "resume w1.toml",
    "load", "load --", "load w1.toml w2.toml", "load -- w1.toml w2.toml", "load -w1.toml", "load - w1.toml",
    "mart", "mart feed:customers", "mart -- feed:customers", "mart feed:customers 2024-03-01T02:00:00 w1.toml",
    "table", "table hub_customer hub_product", "try", "try feed:customers 2024-03-01T02:00:00",
    "snapshot", "snapshot customer 2024-03-01T02:00:00", "snapshot -- -1 2", "pit customer",
    "pit customer 2024-03-01T02:00:00 w1.toml", "bridge", "bridge sold", "bridge sold 2024-03-01T02:00:00 w1.toml",
    "bridge -sold 2024-03-01T02:00:00", "exercise", "serve", "serve 0", "serve 08080", "serve 65536", "serve 8080 4",
    "serve --workers 4 8080",
)


def words_that_are_no_command(bench):
    """words that are no command are usage, with and without a store, which they leave as it is"""
    vault = bench.example("orders")
    for words in USAGE_WORDS:
        vault.says(*words.split(), **USAGE)
    expect("files of the store after words that are no command", {}, vault.store_bytes())
    vault = orders.kept(bench, 1)
    before = vault.store_bytes()
    for words in USAGE_WORDS:
        vault.says(*words.split(), **USAGE)
    expect("the store after words that are no command", before, vault.store_bytes())


def words_behind_two_dashes(bench):
    """words behind the first -- are taken as they are, also those that begin with -"""
    vault = bench.example("orders")
    vault.write("-w1.toml", vault.file("w1.toml").read_text())
    vault.write("--", vault.file("w1.toml").read_text())
    vault.says("init", "--", err="init: Stored")
    vault.says("load", "--", "-w1.toml", err=f"-{orders.line_of('w1.toml')}")
    vault.says("load", "--", "--", err="--: Repeated")
    vault.says("load", "w1.toml", "--", err="w1.toml: Repeated")
    vault.says("windows", "--", out=orders.windows_text(1))
    vault.says("resume", "--", status=1, err="vaultdesk: Q8 NothingOpen")
    vault.says("table", "--", "-hub", status=1, err="vaultdesk: Q6 UnknownTable name=-hub")
    words = ["feed:customers", DATES[0]]
    text = vault.text("mart", *words)
    for at in range(3):
        vault.says("mart", *words[:at], "--", *words[at:], out=text)


def sinks_that_are_full(bench):
    """a text or a line that cannot be written gives status 6, and a window whose line is lost stays loaded"""
    vault = orders.kept(bench, 1)
    with open("/dev/full", "wb") as full:
        for words in (("windows",), ("table", "hub_customer"), ("mart", "feed:customers", DATES[0])):
            vault.says(*words, status=6, out_to=full)
        vault.says("load", "w2.toml", status=6, err_to=full)
        vault.says("resume", status=6, err_to=full)
        vault.says("init", status=6, err_to=full)
        vault.says("nothing", status=6, err_to=full)
    vault.says("windows", out=orders.windows_text(2))
    vault.says("load", "w2.toml", err="w2.toml: Repeated")


ONE_FEED = """
hub = [{ name = "customer", parts = 1 }]
feed = [{ name = "customers", source = "crm", hub = "customer", keys = [["NO"]], attrs = ["NAME"] }]
"""


def want_of_memory(bench):
    """a load that memory does not suffice for says so, and the same window is loaded with more"""
    vault = bench.empty()
    vault.write("mapping.toml", ONE_FEED)
    vault.write("customers.csv", "NO,NAME\n" + "".join(f"customer {n},{'x' * 100}\n" for n in range(190_000)))
    vault.write("w1.toml", window(DATES[0], ("customers", "customers.csv")))
    vault.says("init", err="init: Stored")
    vault.says("load", "w1.toml", status=7, err="vaultdesk: out of memory", limits=with_limits(memory=100_000 * 1024))
    vault.says("windows", out=HEADER)
    vault.says("load", "w1.toml", err="w1.toml: Loaded 570000")


def without_the_mapping_file(bench):
    """after init no command reads the mapping's file"""
    vault = bench.kept_example("orders")
    vault.write("mapping.toml", "hub = [")
    vault.loaded("w1.toml")
    vault.file("mapping.toml").unlink()
    vault.says("load", "w2.toml", err=orders.line_of("w2.toml"))
    vault.says("windows", out=orders.windows_text(2))
    vault.says("mart", "feed:customers", DATES[1], out=block("orders", "CUST_NO,NAME,CITY"))
    vault.says("table", "nothing", status=1, err="vaultdesk: Q6 UnknownTable name=nothing")


def in_another_folder(bench):
    """a store that is copied into another folder has all that it had, and takes the next window"""
    vault = orders.kept(bench, 2)
    other = bench.empty()
    vault.copy_store(other.folder)
    expect("all texts in another folder", orders.texts(vault), orders.texts(other))
    twin = vault.twin()
    twin.says("load", "w3.toml", err=orders.line_of("w3.toml"))
    twin.says("windows", out=orders.windows_text(3))
    vault.says("windows", out=orders.windows_text(2))


def tried_beside_a_store(bench):
    """try takes its windows alone, and leaves the store beside it"""
    vault = orders.kept(bench, 1)
    before = vault.store_bytes()
    lines = "\n".join(map(orders.line_of, MANIFESTS[:2]))
    text = block("orders", "CUST_NO,NAME,CITY")
    vault.says("try", "feed:customers", DATES[1], "--", *MANIFESTS[:2], out=text, err=lines)
    expect("the store after try", before, vault.store_bytes())


CHECKS = (
    store_the_mapping, store_another_mapping, store_a_broken_mapping, commands_before_init, loads_and_windows,
    rows_of_each_window, texts_before_a_load, tables_and_marts_as_tried, marts_after_each_load, texts_of_the_readmes,
    repeated_loads, windows_that_differ, late_windows, refused_windows, absent_files, refused_queries,
    words_that_are_no_command, words_behind_two_dashes, sinks_that_are_full, want_of_memory, without_the_mapping_file,
    in_another_folder, tried_beside_a_store,
)
