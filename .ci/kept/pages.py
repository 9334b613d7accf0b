"""Checks of what the file gives back: more rows than are put or read together, from several loads, and values that SQL
could take for something else."""
import csv
import io

from kept import snapshots, stores
from kept.commands import window
from kept.program import CheckFailed, expect, with_limits
from kept.stores import change, opened_copy, shown_rows, without_header

PAGE = 1000  # rows that are read together; 64 are put together
DATES = ("2024-03-01T02:00:00", "2024-04-01T02:00:00", "2024-05-01T02:00:00", "2024-06-01T02:00:00")
MANIFESTS = ("w1.toml", "w2.toml", "w3.toml", "w4.toml")
ODD = ("", "it's \"so\"; --", "Åse 東京", "NULL", "a text of more bytes than a short one has in its place", "x'00'", "?1",
       "two\nlines", "\\", "1e3", "y" * 300)


def numbered(front, count):
    return [f"{front}{n}" for n in range(count)]


# Two tables of each kind at least, feeds of as many columns as there may be, and a bridge of as many hash keys.
HEAD = """
# it's "so"; -- Åse 東京 NULL
hub = [
  { name = "customer", parts = 1 }, { name = "place", parts = 4 },
  { name = "clerk", parts = 1 }, { name = "item", parts = 1 },
]
link = [
  { name = "stay", hubs = ["customer", "place"] },
  { name = "deal", hubs = ["customer", "place", "clerk", "item"] },
]
path = [
  { name = "both", feeds = ["stays", "deals"], via = ["customer"] },
  { name = "wide", feeds = ["deals", "deals", "deals", "deals"], via = ["customer", "item", "clerk"] },
]
"""
PLACE = numbered("P", 4)
# What each feed is of, and its columns.
FEEDS = {
    "customers": {"hub": "customer", "keys": [["C"]], "attrs": numbered("A", 5)},
    "phones": {"hub": "customer", "keys": [["C"]], "sub": ["KIND"], "attrs": ["NUMBER"]},
    "faxes": {"hub": "customer", "keys": [["C"]], "sub": numbered("S", 15), "attrs": numbered("A", 16)},
    "members": {"hub": "customer", "keys": [["C"]]},
    "places": {"hub": "place", "keys": [PLACE], "attrs": numbered("A", 28)},
    "stays": {"link": "stay", "keys": [["C"], PLACE], "driver": ["customer"]},
    "deals": {"link": "deal", "keys": [["C"], PLACE, ["K"], ["I"]], "attrs": ["QTY"], "driver": ["item"]},
}

HUBS, LINKS, PATHS = ("customer", "place", "clerk", "item"), ("stay", "deal"), ("both", "wide")
TABLES = (*(f"hub_{hub}" for hub in HUBS), *(f"link_{link}" for link in LINKS), *(f"status_{feed}" for feed in FEEDS),
          "sat_customers", "sat_places", "sat_deals", "msat_phones", "msat_faxes", "eff_stays", "eff_deals")
MARTS = (*(f"feed:{feed}" for feed in FEEDS), *(f"hub:{hub}" for hub in HUBS), *(f"path:{path}" for path in PATHS),
         "period:stays", "period:deals")


def mapping():
    """The mapping's text. Python writes texts and lists as TOML does."""
    lines = [HEAD]
    for name, feed in FEEDS.items():
        lines.append(f'[[feed]]\nname = "{name}"\nsource = "s"')
        lines += [f"{key} = {value!r}" for key, value in feed.items()]
    return "\n".join(lines) + "\n"


def columns(feed):
    return [*sum(feed["keys"], []), *feed.get("sub", []), *feed.get("attrs", [])]


def odd(number):
    return ODD[number % len(ODD)]


def odds(number, count):
    return [odd(number + n) for n in range(count)]


def customer(number):
    return f"c{number} {odd(number)}"


def place(number):
    return [f"p{number}", odd(number), "", odd(number + 1)]


# How many customers, customers with phones, faxes, places and deals there are in each window.
SIZES = ((700, 500, 3, 64, 900), (700, 500, 3, 64, 900), (701, 500, 4, 65, 900), (1400, 801, 7, 128, 1100))


def extracted(number):
    """What each feed brings in a window: in the second one the same as in the first."""
    customers, phones, faxes, places, deals = SIZES[number]
    move = max(number - 1, 0)
    yield "customers", [[customer(n), *odds(n, 5)] for n in range(customers)]
    yield "phones", [[customer(n), odd(n + kind), odd(kind)] for n in range(phones) for kind in range(2)]
    yield "faxes", [[customer(n // 2), *odds(n, 31)] for n in range(faxes)]
    yield "members", []
    yield "places", [[*place(n), *odds(n, 28)] for n in range(places)]
    yield "stays", [[customer(n), *(place((n + move) % 64) if n else [""] * 4)] for n in range(customers)]
    yield "deals", [[customer(n), *place(n % 64), f"k{n}", f"i{n}", odd(n)] for n in range(deals)]


def as_csv(rows):
    text = io.StringIO()
    csv.writer(text).writerows(rows)
    return text.getvalue()


def inputs(bench):
    """A vault with the mapping and the windows, and no store."""
    vault = bench.empty()
    vault.write("mapping.toml", mapping().replace("\n", "\r\n"))
    for number, (manifest, date) in enumerate(zip(MANIFESTS, DATES)):
        files = [(feed, f"{manifest}_{feed}.csv") for feed in FEEDS]
        for (feed, rows), (_, file) in zip(extracted(number), files):
            vault.write(file, as_csv([columns(FEEDS[feed]), *rows]))
        vault.write(manifest, window(date, *files))
    return vault


def kept(bench):
    """The same, with all windows loaded."""
    vault = inputs(bench)
    vault.says("init", err="init: Stored")
    expect("rows of the second window", 0, vault.loaded(*MANIFESTS)[1])
    return vault


def row_count(text):
    return sum(1 for _ in csv.reader(io.StringIO(text.decode(), newline=""))) - 1


def is_as_tried(vault, command, what, date, text):
    tried = vault.run("try", what, date, *MANIFESTS)
    expect(f"try {what} {date}: exit status", 0, tried.status)
    expect(f"{command} {what} {date}", tried.out, text)


def rows_in_pages(bench):
    """more rows than a page of each kind come back in their tables and marts as `try` writes them, and stand in the file"""
    vault = kept(bench)
    most = {}
    with opened_copy(vault) as connection:
        for table in TABLES:
            text = vault.text("table", table)
            is_as_tried(vault, "table", f"table:{table}", DATES[-1], text)
            expect(f"the rows of {table}", without_header(text), shown_rows(stores.rows_of(connection, table)))
            kind = table.partition("_")[0]
            most[kind] = max(most.get(kind, 0), row_count(text))
    expect("whether each of six kinds has more rows than a page", [True] * 6, [rows > PAGE for rows in most.values()])
    for mart in MARTS:
        is_as_tried(vault, "mart", mart, DATES[-1], vault.text("mart", mart, DATES[-1]))
    for manifest in MANIFESTS:
        vault.says("load", manifest, err=f"{manifest}: Repeated")


def first_rows(vault, date, texts):
    """Holds the first rows of stored tables, as many as the snapshot's head is made to say, against whole texts."""
    for rows in (5_000_000_000, PAGE + 1, PAGE, PAGE - 1, 64, 1):
        change(vault, "UPDATE snapshots SET row_count = ? WHERE snapshot_date = ?", rows, date)
        for table, text in texts.items():
            wanted = b"".join(text.splitlines(keepends=True)[:rows + 1])
            expect(f"the first {rows} rows of {' '.join(table)}", wanted, vault.text(*table, date))


def snapshots_in_pages(bench):
    """more rows than a page of point-in-time tables and bridges come back by date, the later of which is stored first,
    and as many as their snapshots say"""
    vault, dates = kept(bench), (DATES[0], DATES[-1])
    stored = {date: vault.run("snapshot", date).err for date in dates[::-1]}
    texts = {date: snapshots.texts(vault, date) for date in dates}
    for date in dates:
        snapshots.is_as_delivered(vault, date)
        rows = sum(map(row_count, texts[date].values()))
        expect(f"snapshot {date}", f"snapshot: Stored {rows}\n".encode(), stored[date])
    with opened_copy(vault) as connection:
        for table in (*(("pit", hub) for hub in HUBS), ("bridge", "both")):
            printed = without_header(snapshots.printed_tables(vault, table, dates))
            expect(f"the rows of {'_'.join(table)}", printed, snapshots.shown_tables(connection, table, dates))
    first_rows(vault, dates[1], {table: texts[dates[1]][table] for table in (("pit", "customer"), ("bridge", "wide"))})


def sizes_of_tables(bench):
    """tables of as many rows as are put or read together, and of one less or more, come back"""
    for size in (1, 63, 64, 65, 128, 129, PAGE - 1, PAGE, PAGE + 1, 2 * PAGE):
        vault = bench.empty()
        vault.write("mapping.toml", """
            hub = [{ name = "customer", parts = 1 }]
            feed = [{ name = "customers", source = "s", hub = "customer", keys = [["C"]], attrs = ["A"] }]""")
        vault.write("c.csv", as_csv([["C", "A"], *([customer(n), odd(n)] for n in range(size))]))
        vault.write("w1.toml", window(DATES[0], ("customers", "c.csv")))
        vault.says("init", err="init: Stored")
        vault.says("load", "w1.toml", err=f"w1.toml: Loaded {3 * size}")
        vault.says("load", "w1.toml", err="w1.toml: Repeated")
        for table in ("hub_customer", "sat_customers", "status_customers"):
            tried = vault.run("try", f"table:{table}", DATES[0], "w1.toml")
            vault.says("table", table, out=tried.out)
        snapshots.stored(vault, DATES[0])
        snapshots.is_as_delivered(vault, DATES[0])
        bench.drop(vault)


def broken_off(vault, manifest):
    """A twin of a vault in which the load of a window broke off, since its files could not grow to its end."""
    unbroken = vault.twin()
    unbroken.loaded(manifest)
    too_small, enough = 0, unbroken.store_size()
    while enough - too_small > 1:
        size = (too_small + enough) // 2
        broken = vault.twin()
        got = broken.run("load", manifest, limits=with_limits(file_size=size))
        if b",open," in broken.text("windows"):
            return broken
        too_small, enough = (too_small, size) if got.status == 0 else (size, enough)
        vault.bench.drop(broken)
    raise CheckFailed(f"loads of {manifest}\n    expected: one that breaks off leaves its window open\n    got:      none does")


def open_windows(bench):
    """open windows with such values come back, by resume and by the same load, also one behind sealed ones"""
    unbroken, vault = inputs(bench), inputs(bench)
    for each in (unbroken, vault):
        each.says("init", err="init: Stored")
    counts = unbroken.loaded(*MANIFESTS)
    vault = broken_off(vault, "w1.toml")
    vault.says("resume", err=f"resume: Loaded {counts[0]}")
    vault.loaded(*MANIFESTS[1:3])
    vault = broken_off(vault, "w4.toml")
    vault.says("load", "w4.toml", err=f"w4.toml: Loaded {counts[3]}")
    for words in (("windows",), *(("table", table) for table in TABLES)):
        expect(" ".join(words), unbroken.text(*words), vault.text(*words))


def the_mapping_as_it_is(bench):
    """the stored mapping has the bytes of its file"""
    vault = inputs(bench)
    vault.says("init", err="init: Stored")
    with opened_copy(vault) as connection:
        stored = connection.execute("SELECT content FROM mapping").fetchall()
    expect("the stored mapping", [(vault.file("mapping.toml").read_bytes(),)], stored)


CHECKS = (rows_in_pages, snapshots_in_pages, sizes_of_tables, open_windows, the_mapping_as_it_is)
