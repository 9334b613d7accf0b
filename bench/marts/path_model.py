"""The marts and bridges of paths by walking the extracts themselves, in plain Python: what they mean, and no vault."""
import collections
import csv
import hashlib
import tomllib

from model import lines_of

# The feeds of each path with the hubs of their links. A feed's second hub is the first one of the next.
HUBS = {"placements": ["customer", "sales_order"], "lines": ["sales_order", "product"], "stocks": ["product", "site"]}
PATHS = {"sold": ["placements", "lines"], "served": ["placements", "lines", "stocks"]}


def digest(*keys):
    return hashlib.md5(";".join(keys).encode()).hexdigest()


class PathModel:
    """What windows up to a date delivered: of each feed the pairs of its last extract that miss no key."""

    def __init__(self, data, manifests):
        self.windows = [tomllib.loads((data / manifest).read_text()) for manifest in manifests]
        self.extracts = [{entry["feed"]: self.read(data / entry["file"]) for entry in window["extract"]} for window in self.windows]

    @staticmethod
    def read(path):
        with open(path, encoding="utf-8", newline="") as file:
            pairs = {tuple(key.strip().upper() for key in record) for record in list(csv.reader(file))[1:]}
        return {pair for pair in pairs if all(pair)}

    def rows(self, path, date):
        """Each way along a path at a date."""
        last = {feed: set() for feed in HUBS}
        for window, extracts in zip(self.windows, self.extracts):
            if window["load"] <= date:
                last |= extracts
        first, *others = PATHS[path]
        rows = [(pair,) for pair in last[first]]
        for feed in others:
            behind = collections.defaultdict(list)
            for pair in last[feed]:
                behind[pair[0]].append(pair)
            rows = [(*row, pair) for row in rows for pair in behind[row[-1][1]]]
        return sorted(rows)

    def mart(self, path, date):
        header = [f"{feed}.{hub}.1" for feed in PATHS[path] for hub in HUBS[feed]]
        return lines_of(header, ([key for pair in row for key in pair] for row in self.rows(path, date)))

    def bridge(self, path, date):
        header = ["snapshot", *PATHS[path], *(f"{feed}.{hub}" for feed in PATHS[path] for hub in HUBS[feed])]
        rows = ([date, *(digest(*pair) for pair in row), *(digest(key) for pair in row for key in pair)] for row in self.rows(path, date))
        return lines_of(header, sorted(rows))

    def told(self, query, date):
        kind, _, path = query.rpartition("_")
        return self.bridge(path, date) if kind == "bridge" else self.mart(path, date)
