"""The example `orders` with a kept vault, and what the formats say of it."""
from kept.readmes import added_rows, loaded_rows

MANIFESTS = ("w1.toml", "w2.toml", "w3.toml")
DATES = ("2024-03-01T02:00:00", "2024-04-01T02:00:00", "2024-05-01T02:00:00")
FEEDS = ("customers", "orders", "products", "placements", "lines")
MARTS = (*(f"feed:{feed}" for feed in FEEDS), "path:sold")
TABLES = tuple(added_rows("orders"))
LAST_DATE = DATES[-1]

# A second before each load date and the date itself, one between two, and the last one that there is.
MART_DATES = ("2024-03-01T01:59:59", DATES[0], "2024-03-15T12:00:00", "2024-04-01T01:59:59", DATES[1], LAST_DATE,
              "9998-12-31T23:59:59")

HEADER = "load_date,state,feeds\n"
SEALED = (
    "2024-03-01T02:00:00,sealed,customers orders products placements lines\n",
    "2024-04-01T02:00:00,sealed,customers orders placements lines\n",
    "2024-05-01T02:00:00,sealed,customers lines\n",
)
SECOND_OPEN = SEALED[1].replace("sealed", "open")


def windows_text(count):
    """What `windows` writes after so many loads."""
    return HEADER + "".join(SEALED[:count])


def line_of(manifest):
    return f"{manifest}: Loaded {loaded_rows('orders')[manifest]}"


def kept(bench, count):
    """A vault of the example with so many windows loaded."""
    return bench.kept_example("orders", *MANIFESTS[:count])


def texts(vault):
    """The windows, all raw tables and the marts at all load dates."""
    words = [("windows",)] + [("table", name) for name in TABLES]
    words += [("mart", mart, date) for mart in MARTS for date in DATES]
    return {" ".join(each): vault.text(*each) for each in words}
