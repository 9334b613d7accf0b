"""Path marts and bridges worked out from a mapping and windows, apart from the program: each choice of one reference
list from the last extract of each feed, in which none is missing and neighbours have the same key of the hub that they
share. In Python, with whole extracts in memory; of the hubs' keys alone, as the mart has them."""
import collections
import csv
import io

from kept.points import entry, hash_of, key_of, references


def paths_of(mapping):
    """The names of all paths, in declared order."""
    return [path["name"] for path in mapping.get("path", [])]


def whole_lists(mapping, windows, name):
    """The reference lists of a feed's last extract of which no key is missing, each once."""
    feed = entry(mapping, "feed", name)
    last = next((extracts[name] for _, extracts in reversed(windows) if name in extracts), [])
    lists = {tuple(key_of(record, columns) for columns in feed["keys"]) for record in last}
    return [keys for keys in lists if all(map(any, keys))]


def path_rows(mapping, windows, name, date):
    """The rows of a path's mart at a date, in order: of each the reference list of each feed."""
    path = entry(mapping, "path", name)
    windows = [window for window in windows if window[0] <= date]
    hubs = {feed: references(mapping, entry(mapping, "feed", feed)) for feed in path["feeds"]}
    rows = [(keys,) for keys in whole_lists(mapping, windows, path["feeds"][0])]
    for before, feed, hub in zip(path["feeds"], path["feeds"][1:], path["via"]):
        by_key = collections.defaultdict(list)
        for keys in whole_lists(mapping, windows, feed):
            by_key[keys[hubs[feed].index(hub)]].append(keys)
        rows = [(*row, keys) for row in rows for keys in by_key[row[-1][hubs[before].index(hub)]]]
    return sorted(rows)


def columns(mapping, path):
    """The name of each feed and each hub of it, with a dot between them, and how many parts the hub's keys have."""
    for feed in path["feeds"]:
        for hub in references(mapping, entry(mapping, "feed", feed)):
            yield f"{feed}.{hub}", entry(mapping, "hub", hub)["parts"]


def written(header, rows):
    text = io.StringIO()
    csv.writer(text, lineterminator="\n").writerows([header, *rows])
    return text.getvalue().encode()


def path_text(mapping, windows, name, date):
    """The text of a path's mart at a date."""
    path = entry(mapping, "path", name)
    header = [f"{column}.{part}" for column, parts in columns(mapping, path) for part in range(1, parts + 1)]
    rows = path_rows(mapping, windows, name, date)
    return written(header, [[part for keys in row for key in keys for part in key] for row in rows])


def bridge_header(mapping, name):
    """The columns of a bridge."""
    path = entry(mapping, "path", name)
    return ["snapshot", *path["feeds"], *(column for column, _ in columns(mapping, path))]


def bridge_rows(mapping, windows, name, date):
    """The rows of a path's bridge at a date, in order: the hash keys of the links, and those of all hubs."""
    rows = path_rows(mapping, windows, name, date)
    return sorted(([hash_of(sum(keys, ())) for keys in row], [hash_of(key) for keys in row for key in keys]) for row in rows)


def bridge_text(mapping, windows, name, date):
    """The text of a path's bridge at a date."""
    rows = [[date, *links, *hubs] for links, hubs in bridge_rows(mapping, windows, name, date)]
    return written(bridge_header(mapping, name), rows)
