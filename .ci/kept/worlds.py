"""Random mappings with paths, and windows of them, from a seed: few keys, so that much is joined, with references that
are missing, keys of two parts, links of two and three hubs, and feeds that a path takes more than once."""
import csv
import random

from kept.points import key_part

DATES = ("2024-03-01T02:00:00", "2024-04-01T02:00:00", "2024-05-01T02:00:00", "2024-06-01T02:00:00")
MANIFESTS = ("w1.toml", "w2.toml", "w3.toml", "w4.toml")
PARTS = ("a", "b", "9", "10", "x y", "é", 'q"', "u,v", "")


class World:
    """A mapping, and of each window what its extracts have: a header and records by feed."""

    def __init__(self, seed):
        self.pick = random.Random(seed)
        self.hubs = {f"h{n}": self.pick.choice((1, 1, 2)) for n in range(self.pick.randint(2, 4))}
        self.keys = {hub: [self.pick.choices(PARTS, k=parts) for _ in range(5)] for hub, parts in self.hubs.items()}
        self.links = {f"l{n}": self.some_hubs() for n in range(self.pick.randint(1, 3))}
        self.feeds = {f"f{n}": self.new_feed(link) for n, link in enumerate([*self.links, *self.pick.choices([*self.links], k=2)])}
        self.paths = {f"p{n}": self.new_path() for n in range(self.pick.randint(1, 4))}
        self.windows = [self.new_window() for _ in DATES]

    def some_hubs(self):
        return self.pick.sample([*self.hubs], self.pick.randint(2, min(3, len(self.hubs))))

    def new_feed(self, link):
        """The link, the key columns of each reference, and how many columns of `sub` and attributes there are."""
        keys = [[f"K{at}_{part}" for part in range(self.hubs[hub])] for at, hub in enumerate(self.links[link])]
        subs, attributes = self.pick.choice(((0, 0), (0, 1), (1, 1), (0, 2)))
        return link, keys, [f"S{n}" for n in range(subs)], [f"A{n}" for n in range(attributes)]

    def hubs_of(self, feed):
        return self.links[self.feeds[feed][0]]

    def new_path(self):
        feeds, via = [self.pick.choice([*self.feeds])], []
        for _ in range(self.pick.randint(0, 3)):
            hub = self.pick.choice(self.hubs_of(feeds[-1]))
            feeds.append(self.pick.choice([feed for feed in self.feeds if hub in self.hubs_of(feed)]))
            via.append(hub)
        return feeds, via

    def mapping(self):
        """The text of mapping.toml."""
        lines = [f'[[hub]]\nname = "{name}"\nparts = {parts}' for name, parts in self.hubs.items()]
        lines += [f'[[link]]\nname = "{name}"\nhubs = {as_toml(hubs)}' for name, hubs in self.links.items()]
        for name, (link, keys, subs, attributes) in self.feeds.items():
            lines.append(f'[[feed]]\nname = "{name}"\nsource = "s"\nlink = "{link}"\nkeys = {as_toml(keys)}')
            lines.append(f"sub = {as_toml(subs)}\nattrs = {as_toml(attributes)}")
        for name, (feeds, via) in self.paths.items():
            lines.append(f'[[path]]\nname = "{name}"\nfeeds = {as_toml(feeds)}\nvia = {as_toml(via)}')
        return "\n".join(lines) + "\n"

    def new_key(self, hub):
        """One of a hub's keys, which may be missing, as a source may spell it."""
        key = self.pick.choice(self.keys[hub]) if self.pick.random() < 0.9 else [""] * self.hubs[hub]
        return [self.pick.choice(("", " ")) + (part.upper() if self.pick.random() < 0.2 and part.isascii() else part) for part in key]

    def new_window(self):
        present = [feed for feed in self.feeds if self.pick.random() < 0.7] or [self.pick.choice([*self.feeds])]
        return {feed: self.new_extract(feed) for feed in present}

    def new_extract(self, feed):
        """A header and its records, of which no two have the same references and `sub`, and none has no reference."""
        _, keys, subs, attributes = self.feeds[feed]
        rows = {}
        for _ in range(self.pick.randint(0, 14)):
            references = sum(map(self.new_key, self.hubs_of(feed)), [])
            sub = [self.pick.choice("12") for _ in subs]
            alike = (*map(key_part, references), *sub)
            if any(alike[:len(references)]):
                rows[alike] = [*references, *sub, *(self.pick.choice("xy") for _ in attributes)]
        return [*sum(keys, []), *subs, *attributes], list(rows.values())

    def write(self, vault):
        """Writes the mapping, the manifests and the extracts into a vault's folder."""
        vault.write("mapping.toml", self.mapping())
        for manifest, date, extracts in zip(MANIFESTS, DATES, self.windows):
            entries = ""
            for feed, (header, rows) in extracts.items():
                with open(vault.file(f"{manifest}_{feed}.csv"), "w", encoding="utf-8", newline="") as file:
                    csv.writer(file).writerows([header, *rows])
                entries += f'[[extract]]\nfeed = "{feed}"\nfile = "{manifest}_{feed}.csv"\n'
            vault.write(manifest, f'load = "{date}"\n{entries}')


def as_toml(names):
    """A list of names, or of lists of names, as TOML has it."""
    return "[" + ", ".join(f'"{name}"' if isinstance(name, str) else as_toml(name) for name in names) + "]"
