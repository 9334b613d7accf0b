"""The mapping as what a report has of it: raw tables with their columns and keys, and what each of them means."""
import tomllib
from typing import NamedTuple

from report.trouble import MAPPING, NOT_READ, Trouble

FRONT = ("hash_key", "load_date", "record_source")
OPEN_END = "9999-12-31T23:59:59"


class Feed(NamedTuple):
    """A feed: its name and source, the raw table and the name of its parent, the hubs of its references, and columns."""

    name: str
    source: str
    parent: str
    of: str
    hubs: tuple
    keys: tuple
    sub: tuple
    attrs: tuple
    has_driver: bool

    @property
    def is_of_hub(self):
        return self.parent.startswith("hub_")

    @property
    def key_columns(self):
        return tuple(column for columns in self.keys for column in columns)

    @property
    def columns(self):
        """The columns of the feed's mart."""
        return (*self.key_columns, *self.sub, *self.attrs)

    @property
    def described_by(self):
        """The raw table of its attributes, if it has any."""
        return f"msat_{self.name}" if self.sub else f"sat_{self.name}" if self.attrs else None


class Path(NamedTuple):
    """A path: its name, its feeds, and the hub shared by each and the next."""

    name: str
    feeds: tuple
    via: tuple

    @property
    def labels(self):
        """What columns call each feed: one that the path takes again has the number of the time behind a `#`."""
        times = [self.feeds[:at].count(feed) + 1 for at, feed in enumerate(self.feeds)]
        return [feed if time == 1 else f"{feed}#{time}" for feed, time in zip(self.feeds, times)]


class Table(NamedTuple):
    """A raw table: its columns as they are printed, those of its primary key, the table to whose hash keys its own refer,
    what it holds, and what the columns past the first three hold."""

    name: str
    columns: tuple
    key: tuple
    refers_to: str
    comment: str
    column_comments: dict


class Mapping:
    """What a mapping file declares, in its order."""

    def __init__(self, text):
        told = tomllib.loads(text)
        self.hubs = {hub["name"]: hub["parts"] for hub in told.get("hub", [])}
        self.links = {link["name"]: tuple(link["hubs"]) for link in told.get("link", [])}
        self.feeds = {feed["name"]: self.read_feed(feed) for feed in told.get("feed", [])}
        self.paths = {path["name"]: Path(path["name"], tuple(path["feeds"]), tuple(path.get("via", ())))
                      for path in told.get("path", [])}

    def read_feed(self, feed):
        hub, link = feed.get("hub"), feed.get("link")
        return Feed(feed["name"], feed["source"], f"hub_{hub}" if hub else f"link_{link}", hub or link,
                    (hub,) if hub else self.links[link], tuple(map(tuple, feed["keys"])), tuple(feed.get("sub", ())),
                    tuple(feed.get("attrs", ())), bool(feed.get("driver")))

    def feeds_of_hub(self, hub):
        return [feed for feed in self.feeds.values() if feed.parent == f"hub_{hub}"]

    def parts_of(self, hub):
        return [f"part_{number}" for number in range(1, self.hubs[hub] + 1)]

    def marts(self):
        """The words for all marts, in the order of the mapping."""
        yield from (f"feed:{name}" for name in self.feeds)
        yield from (f"hub:{name}" for name in self.hubs)
        yield from (f"path:{name}" for name in self.paths)
        yield from (f"period:{feed.name}" for feed in self.feeds.values() if feed.has_driver)

    def tables(self):
        """The raw tables, in the order in which a window is written to them."""
        yield from map(self.hub_table, self.hubs)
        yield from map(self.link_table, self.links)
        for feed in self.feeds.values():
            yield from feed_tables(feed)

    def hub_table(self, hub):
        columns = {}
        for number, part in enumerate(self.parts_of(hub)):
            named = [f"{feed.keys[at][number]} of {feed.name}" for feed in self.feeds.values()
                     for at, each in enumerate(feed.hubs) if each == hub]
            columns[part] = f"part {number + 1} of the key: {', '.join(named)}" if named else f"part {number + 1} of the key"
        return Table(f"hub_{hub}", (*FRONT, *columns), ("hash_key",), "",
                     f"hub {hub}: each key that was ever delivered", columns)

    def link_table(self, link):
        columns = {hub: f"hash key of hub_{hub}; 32 zeros where the reference is missing" for hub in self.links[link]}
        return Table(f"link_{link}", (*FRONT, *columns), ("hash_key",), "",
                     f"link {link}: each combination of {', '.join(self.links[link])} that was ever delivered", columns)


def feed_tables(feed):
    """The raw tables of a feed."""
    told = f"feed {feed.name} of {feed.source}, whose hash keys are those of {feed.parent}"
    if feed.described_by:
        columns = {"hash_diff": "MD5 of the attributes, joined by ;"}
        columns |= {column: "column of the extract that tells rows of one key apart" for column in feed.sub}
        columns |= {column: "attribute, as the extract has it" for column in feed.attrs}
        kind = "multi-active satellite" if feed.sub else "satellite"
        yield Table(feed.described_by, (*FRONT, "hash_diff", *feed.sub, *feed.attrs), ("hash_key", "load_date", *feed.sub),
                    feed.parent, f"{kind} of the {told}: what described a key from the load date on", columns)
    yield Table(f"status_{feed.name}", (*FRONT, "status"), ("hash_key", "load_date"), feed.parent,
                f"status of the {told}: when a key appeared or vanished", {"status": "I: it appeared; D: it vanished"})
    if feed.has_driver:
        columns = {"begin": "the load date of the first extract that has it", "end": "that of the first extract without it"}
        yield Table(f"eff_{feed.name}", (*FRONT, "begin", "end"), ("hash_key", "load_date"), feed.parent,
                    f"effectivity of the {told}: from when to when it was in force, as it was known at the load date", columns)


FRONT_COMMENTS = {
    "hash_key": "MD5 of the key parts, joined by ;",
    "load_date": "load date of the window that brought the row",
    "record_source": "source and feed that brought the row",
}


def read_mapping(folder):
    """The mapping of a folder's mapping.toml."""
    try:
        data = (folder / "mapping.toml").read_bytes()
    except OSError as error:
        raise Trouble(f"mapping.toml: {error.strerror}", NOT_READ) from error
    try:
        return Mapping(data.decode())
    except (ValueError, KeyError, TypeError, AttributeError) as error:
        raise Trouble("mapping.toml is not the mapping that the vault has stored", MAPPING) from error
