"""Random histories of sources, from a seed: a mapping with feeds of all kinds, and the extracts of each window as a source may
spell them. Columns can be added to it, left out and renamed, by which the same history is told under another mapping."""
import copy
import csv
import random

from kept.points import key_part
from kept.worlds import as_toml

DATES = tuple(f"2024-0{month}-01T02:00:00" for month in range(3, 8))
KEYS = ("a", "b ", " 9", "10", "x y", "é", 'q"', "u,v", "A", "c\nd")
VALUES = ("", "x", " y ", "é", 'say "yes"', '"', "u,v", "two\nlines", "'", "cr\rlf", "end", ";")


class Feed:
    """A feed: its parent, and its columns by their use."""

    def __init__(self, name, parent, hubs, keys):
        self.name, self.parent, self.hubs, self.keys = name, parent, hubs, keys
        self.sub, self.attrs, self.ignore, self.driver = [], [], [], []

    def columns(self):
        return [*sum(self.keys, []), *self.sub, *self.attrs, *self.ignore]

    def toml(self):
        kind, name = self.parent
        lines = ["[[feed]]", f'name = "{self.name}"', 'source = "s"', f'{kind} = "{name}"', f"keys = {quoted(self.keys)}"]
        lines += [f"{key} = {quoted(getattr(self, key))}" for key in ("sub", "attrs", "ignore", "driver") if getattr(self, key)]
        return "\n".join(lines)


def quoted(names):
    """A list of names, or of lists of names, as TOML has it."""
    return as_toml(names) if not any('"' in str(name) for name in names) else str(names).replace("'", "'''")


class History:
    """A mapping, and of each window the records by feed, each a table from column to value."""

    def __init__(self, seed):
        self.pick = random.Random(seed)
        self.hubs = {f"h{n}": self.pick.choice((1, 1, 2)) for n in range(3)}
        self.links = {"l0": ["h0", "h1"], "l1": self.pick.sample([*self.hubs], 3)}
        self.feeds = {}
        for kind in ("plain", "plain", "several", "bare"):
            self.add_feed(("hub", self.pick.choice([*self.hubs])), kind)
        for kind in ("plain", "driven", "several", self.pick.choice(("bare", "driven"))):
            self.add_feed(("link", self.pick.choice([*self.links])), kind)
        of_links = [name for name, feed in self.feeds.items() if feed.parent[0] == "link"]
        self.paths = {"p0": ([of_links[0], of_links[1]], ["h0"]), "p1": ([of_links[2]], [])}
        self.windows = [(date, self.new_window()) for date in DATES]

    def add_feed(self, parent, kind):
        name, hubs = f"f{len(self.feeds)}", [parent[1]] if parent[0] == "hub" else self.links[parent[1]]
        feed = Feed(name, parent, hubs, [[f"K{at}_{part}" for part in range(self.hubs[hub])] for at, hub in enumerate(hubs)])
        feed.attrs = [] if kind == "bare" else ["NAME", "A, B"]
        feed.sub = ["KIND"] if kind == "several" else []
        feed.driver = [hubs[0]] if kind == "driven" else []
        feed.ignore = self.pick.choice(([], ["CLERK"]))
        self.feeds[name] = feed

    def new_window(self):
        names = [name for name in self.feeds if self.pick.random() < 0.7] or ["f0"]
        return {name: self.new_rows(self.feeds[name]) for name in names}

    def new_rows(self, feed):
        """Records of which no two have the same key and `sub`, or the same driver; none without a key."""
        rows = {}
        for _ in range(self.pick.choice((0, 4, 9, 9))):
            keys = [[self.pick.choice(KEYS) for _ in key] for key in feed.keys]
            if not feed.driver and len(keys) > 1 and self.pick.random() < 0.2:
                keys[-1] = [""] * len(keys[-1])
            row = dict(zip(sum(feed.keys, []), sum(keys, [])))
            row |= {column: self.pick.choice("12") for column in feed.sub}
            row |= {column: self.pick.choice(VALUES) for column in [*feed.attrs, *feed.ignore]}
            parts = [key_part(value) for value in (keys[0] if feed.driver else sum(keys, []))]
            rows[(*parts, *(row[column] for column in feed.sub))] = row
        return [*rows.values()]

    def mapping(self):
        lines = [f'[[hub]]\nname = "{name}"\nparts = {parts}' for name, parts in self.hubs.items()]
        lines += [f'[[link]]\nname = "{name}"\nhubs = {as_toml(hubs)}' for name, hubs in self.links.items()]
        lines += [feed.toml() for feed in self.feeds.values()]
        lines += [f'[[path]]\nname = "{name}"\nfeeds = {as_toml(feeds)}\nvia = {as_toml(via)}'
                  for name, (feeds, via) in self.paths.items()]
        return "\n".join(lines) + "\n"

    def is_valid(self):
        return all(hub in self.feeds[feed].hubs for feeds, via in self.paths.values() for at, hub in enumerate(via)
                   for feed in feeds[at:at + 2])

    def write(self, vault):
        """Writes the mapping, the manifests and the extracts into a folder; the names of the manifests."""
        vault.write("mapping.toml", self.mapping())
        names = []
        for number, (date, extracts) in enumerate(self.windows):
            lines = [f'load = "{date}"']
            for name, rows in extracts.items():
                file = f"{number}-{name}.csv"
                with open(vault.file(file), "w", encoding="utf-8", newline="") as out:
                    writer = csv.DictWriter(out, self.feeds[name].columns(), restval="", extrasaction="ignore", lineterminator="\r\n")
                    writer.writeheader()
                    writer.writerows(rows)
                lines.append(f'[[extract]]\nfeed = "{name}"\nfile = "{file}"')
            names.append(f"w{number}.toml")
            vault.write(names[-1], "\n".join(lines) + "\n")
        return names

    def changed(self, change):
        """The history after a change, which is done on a copy."""
        other = copy.deepcopy(self)
        change(other)
        return other


def history(seed):
    """The first history from a seed on whose path joins."""
    found = History(seed)
    while not found.is_valid():
        seed += 1000
        found = History(seed)
    return found


def rename(feed, old, new):
    """A change of a history: a column of a feed has another name."""
    def change(told):
        own = told.feeds[feed]
        own.keys = [[new if name == old else name for name in key] for key in own.keys]
        for key in ("sub", "attrs"):
            setattr(own, key, [new if name == old else name for name in getattr(own, key)])
        for _, extracts in told.windows:
            for row in extracts.get(feed, []):
                row[new] = row.pop(old)
    return change
