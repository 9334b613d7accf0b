"""Point-in-time tables worked out from a mapping, manifests and extracts, apart from the program: in Python, with whole
extracts in memory. Mappings here have no keys of hubs that are links' alone but in references, and plain extracts."""
import csv
import functools
import hashlib
import tomllib

BLANKS = " \t\r\n"


def as_list(value):
    return value or []


def windows_of(vault):
    """The load date of each window that the vault has loaded, with its extracts by feed: a header and records."""
    listed = vault.text("windows").decode().splitlines()[1:]
    dates = {line.split(",")[0] for line in listed if line.split(",")[1] == "sealed"}
    found = []
    for path in sorted(vault.folder.glob("w*.toml")):
        manifest = tomllib.loads(path.read_text(encoding="utf-8"))
        if manifest["load"] in dates:
            found.append((manifest["load"], {each["feed"]: records(vault, each["file"]) for each in manifest["extract"]}))
    return sorted(found, key=lambda window: window[0])


@functools.lru_cache(maxsize=64)
def records_at(path):
    with open(path, encoding="utf-8-sig", newline="") as file:
        header, *rows = [row for row in csv.reader(file) if row]
    return [dict(zip(header, row)) for row in rows]


def records(vault, name):
    return records_at(str(vault.file(name).resolve()))


def mapping_of(vault):
    return tomllib.loads(vault.file("mapping.toml").read_text(encoding="utf-8"))


def entry(mapping, kind, name):
    """The hub, link, feed or path with a name."""
    return next(each for each in mapping[kind] if each["name"] == name)


def hubs_of(vault):
    """The names of all hubs, in declared order."""
    return [hub["name"] for hub in mapping_of(vault)["hub"]]


def key_part(text):
    """A key part in its normal form: of letters those of ASCII alone are raised."""
    return text.strip(BLANKS).encode().upper().decode()


def key_of(record, columns):
    return tuple(key_part(record[column]) for column in columns)


def hash_of(key):
    return hashlib.md5(";".join(key).encode()).hexdigest()


def references(mapping, feed):
    """The hubs of a feed's references, in order."""
    if "hub" in feed:
        return [feed["hub"]]
    return entry(mapping, "link", feed["link"])["hubs"]


def delivered_keys(mapping, windows, hub):
    """The keys of a hub that windows bring, of its feeds and of the references of links."""
    for _, extracts in windows:
        for feed in mapping["feed"]:
            places = [at for at, name in enumerate(references(mapping, feed)) if name == hub]
            for record in extracts.get(feed["name"], []):
                yield from (key_of(record, feed["keys"][at]) for at in places)


def rows_of(feed, extract):
    """What an extract says of each key: the set of its sub columns and attributes."""
    columns = [*as_list(feed.get("sub")), *as_list(feed.get("attrs"))]
    said = {}
    for record in extract:
        values = tuple(record[column].strip(BLANKS) for column in columns)
        said.setdefault(key_of(record, feed["keys"][0]), set()).add(values)
    return said


def told(feed, windows):
    """What each extract of a feed says, with its load date."""
    return [(date, rows_of(feed, extracts[feed["name"]])) for date, extracts in windows if feed["name"] in extracts]


def cell(feed, said, key):
    """The load date of the last change of what the feed says of a key, and whether its last extract has the key."""
    load, last, present = "", None, "N"
    for date, rows_by_key in said:
        rows = rows_by_key.get(key)
        present = "N" if rows is None else "Y"
        if rows is not None and rows != last:
            load, last = date, rows
    return (load if as_list(feed.get("attrs")) else "", present)


def pit_text(vault, hub, date):
    """The text of a hub's point-in-time table at a date."""
    mapping = mapping_of(vault)
    windows = [window for window in windows_of(vault) if window[0] <= date]
    feeds = [(feed, told(feed, windows)) for feed in mapping["feed"] if feed.get("hub") == hub]
    keys = {key for key in delivered_keys(mapping, windows, hub) if any(key)}
    header = ["hash_key", "snapshot", *(f"{feed['name']}.{what}" for feed, _ in feeds for what in ("load", "present"))]
    lines = [",".join(header)]
    for key in sorted(keys, key=hash_of):
        cells = [value for feed, said in feeds for value in cell(feed, said, key)]
        lines.append(",".join([hash_of(key), date, *cells]))
    return "".join(line + "\n" for line in lines).encode()
