"""The SQL of what a report writer asks for, of raw tables: common to SQLite and PostgreSQL.

Names begin with a word that no raw table begins with, so no two are the same. Columns of a mart are called as the program
prints them; columns besides get a `_` at the end where a mart has such a column.
"""
from typing import NamedTuple

from report.mapping import OPEN_END
from report.names import free_name, quoted


class View(NamedTuple):
    """A view: its name, its columns, its query, what it is, and the column of the hash key where a row of the view is made of
    rows of one hash key alone."""

    name: str
    columns: tuple
    query: str
    comment: str
    of_key: str = ""


class History(NamedTuple):
    """A view with all rows that a mart ever had: the mart's word, its columns and the header that the program prints, the
    names of the columns that say from when to when a row is in it, and the columns of the mart's order."""

    view: View
    mart: str
    mart_columns: tuple
    printed: tuple
    begin: str
    end: str
    order: tuple

    @property
    def now_name(self):
        """The name of the view of the mart after the last window."""
        return self.view.name.replace("history_", "mart_", 1)


def alias(column, name):
    return f"{column} AS {quoted(name)}"


class Views:
    """The views over a mapping's raw tables. Takes the mapping, and the words of the database for the later and the
    earlier of two texts."""

    # The condition that a row is in a mart after the last window.
    is_open = "{1} = '" + OPEN_END + "'"

    def __init__(self, mapping, later, earlier):
        self.mapping, self.later, self.earlier = mapping, later, earlier

    def all(self):
        """All views, each after those on which it stands."""
        feeds = self.mapping.feeds.values()
        yield from map(self.present, feeds)
        yield from map(self.now_status, feeds)
        yield from (self.rows(feed) for feed in feeds if feed.described_by)
        yield from self.steps()
        for history in self.histories():
            yield history.view
        for history in self.histories():
            yield self.now_view(history)

    def histories(self):
        """The histories of all marts, those of feeds before those of hubs."""
        yield from map(self.feed_history, self.mapping.feeds.values())
        yield from map(self.hub_history, self.mapping.hubs)
        yield from map(self.path_history, self.mapping.paths.values())
        yield from (self.period_history(feed) for feed in self.mapping.feeds.values() if feed.has_driver)

    def now_view(self, history):
        """The mart after the last window."""
        return View(history.now_name, history.mart_columns, self.mart_query(history, self.is_open),
                    f"the mart {history.mart} after the last window")

    def mart_query(self, history, condition):
        """A query of a mart under a condition on the begin and the end of rows, for which it has `{0}` and `{1}`."""
        kind, _, name = history.mart.partition(":")
        if kind == "hub":
            return self.hub_query(name, condition)
        if kind == "path":
            return self.path_at(self.mapping.paths[name], condition)
        columns = ", ".join(f"m.{quoted(column)}" for column in history.mart_columns)
        where = condition.format(f"m.{quoted(history.begin)}", f"m.{quoted(history.end)}")
        return f"\nSELECT {columns}\nFROM {quoted(history.view.name)} m\nWHERE {where}"

    def steps(self):
        """Views on which the marts of paths stand, if there are such."""
        return ()

    # ---- keys

    def keys_table(self, hub):
        """The table that has the key's parts of each hash key of a hub to which a link refers."""
        return quoted(f"hub_{hub}")

    def key_of_link(self, hash_key):
        """The column of a link's hash key, where a row is made of rows of one hash key and of the keys of hubs."""
        return ""

    def present(self, feed):
        """From when to when each key was in a feed."""
        query = f"""
SELECT s.hash_key, s.load_date AS "begin", s.following AS "end"
FROM (SELECT t.hash_key, t.load_date, t.status,
             lead(t.load_date, 1, '{OPEN_END}') OVER (PARTITION BY t.hash_key ORDER BY t.load_date) AS following
      FROM {quoted('status_' + feed.name)} t) s
WHERE s.status = 'I'"""
        return View(f"present_{feed.name}", ("hash_key", "begin", "end"), query,
                    f"from when to when each key was in the feed {feed.name}", "hash_key")

    def now_status(self, feed):
        """The last status of each key of a feed."""
        query = f"""
SELECT t.hash_key, t.load_date, t.record_source, t.status
FROM {quoted('status_' + feed.name)} t
JOIN (SELECT hash_key, max(load_date) AS load_date FROM {quoted('status_' + feed.name)} GROUP BY hash_key) l
  ON l.hash_key = t.hash_key AND l.load_date = t.load_date"""
        return View(f"now_status_{feed.name}", ("hash_key", "load_date", "record_source", "status"), query,
                    f"the last status of each key that the feed {feed.name} ever had", "hash_key")

    def keys_of(self, feed, hash_key):
        """The joins that give the parts of a feed's keys, and these parts, in order."""
        if feed.is_of_hub:
            return f"JOIN {quoted(feed.parent)} h0 ON h0.hash_key = {hash_key}", [
                f"h0.{part}" for part in self.mapping.parts_of(feed.of)]
        joins, parts = [f"JOIN {quoted(feed.parent)} k ON k.hash_key = {hash_key}"], []
        for at, hub in enumerate(feed.hubs):
            joins.append(f"LEFT JOIN {self.keys_table(hub)} h{at} ON h{at}.hash_key = k.{quoted(hub)}")
            parts += [f"coalesce(h{at}.{part}, '')" for part in self.mapping.parts_of(hub)]
        return "\n".join(joins), parts

    # ---- feeds

    def feed_history(self, feed):
        """All rows that a feed ever had, with begin and end."""
        hash_key, begin, end = (free_name(name, feed.columns) for name in ("hash_key", "begin", "end"))
        source, values, names = quoted(f"present_{feed.name}"), [], ("hash_key", "begin", "end")
        if feed.described_by:
            rows = self.rows(feed)
            source, values = quoted(rows.name), [f"r.{quoted(column)}" for column in rows.columns[1:-2]]
            names = (rows.columns[0], *rows.columns[-2:])
        key, since, until = (f"r.{quoted(name)}" for name in names)
        joins, parts = self.keys_of(feed, key)
        columns = [alias(key, hash_key), *map(alias, [*parts, *values], feed.columns), alias(since, begin), alias(until, end)]
        query = f"\nSELECT {', '.join(columns)}\nFROM {source} r\n{joins}"
        view = View(f"history_feed_{feed.name}", (hash_key, *feed.columns, begin, end), query,
                    f"all rows that the feed {feed.name} ever had, each from when to when",
                    hash_key if feed.is_of_hub else self.key_of_link(hash_key))
        return History(view, f"feed:{feed.name}", feed.columns, feed.columns, begin, end, feed.columns)

    def rows(self, feed):
        """What described each hash key of a feed, from when to when."""
        table, described = quoted(feed.described_by), (*feed.sub, *feed.attrs)
        hash_key, begin, end = (free_name(name, described) for name in ("hash_key", "begin", "end"))
        named = ", ".join(f"t.{quoted(column)} AS c{number}" for number, column in enumerate(described))
        following = (f"lead({{0}}.load_date, 1, '{OPEN_END}') "
                     "OVER (PARTITION BY {0}.hash_key ORDER BY {0}.load_date) AS following")
        rows = f"(SELECT t.hash_key, t.load_date, {following.format('t')}, {named}\n      FROM {table} t)"
        if feed.sub:
            rows = f"""(SELECT t.hash_key, t.load_date, v.following, {named}
      FROM (SELECT d.hash_key, d.load_date, {following.format('d')}
            FROM (SELECT DISTINCT hash_key, load_date FROM {table}) d) v
      JOIN {table} t ON t.hash_key = v.hash_key AND t.load_date = v.load_date)"""
        columns = [alias("p.hash_key", hash_key), *(alias(f"s.c{number}", column) for number, column in enumerate(described)),
                   alias(f'{self.later}(p."begin", s.load_date)', begin), alias(f'{self.earlier}(p."end", s.following)', end)]
        query = f"""
SELECT {', '.join(columns)}
FROM {quoted('present_' + feed.name)} p
JOIN {rows} s
  ON s.hash_key = p.hash_key AND s.load_date < p."end" AND p."begin" < s.following"""
        return View(f"rows_{feed.name}", (hash_key, *described, begin, end), query,
                    f"what described each hash key of the feed {feed.name}, from when to when", hash_key)

    # ---- hubs

    def hub_history(self, hub):
        """All rows that the mart of a hub ever had, with begin and end."""
        columns, values, joins, known = self.said_of_hub(hub, "m.hash_key", "{} <= m.since AND m.since < {}")
        hash_key, begin, end = (free_name(name, columns) for name in ("hash_key", "begin", "end"))
        shown = [alias("m.hash_key", hash_key), *map(alias, values, columns), alias("m.since", begin), alias("m.following", end)]
        source = f"{self.moments(self.mapping.feeds_of_hub(hub))} m\nJOIN {quoted('hub_' + hub)} h ON h.hash_key = m.hash_key"
        query = "\n".join([f"\nSELECT {', '.join(shown)}", f"FROM {source}", *joins, f"WHERE {known}"])
        view = View(f"history_hub_{hub}", (hash_key, *columns, begin, end), query,
                    f"all rows that the mart of the hub {hub} ever had, each from when to when", hash_key)
        keys = columns[:self.mapping.hubs[hub]]
        return History(view, f"hub:{hub}", tuple(columns), tuple(columns), begin, end, tuple(keys))

    def hub_query(self, hub, condition):
        """A query of the mart of a hub under a condition on the begin and the end of what its feeds say."""
        columns, values, joins, known = self.said_of_hub(hub, "h.hash_key", condition)
        source = f"{quoted('hub_' + hub)} h"
        return "\n".join([f"\nSELECT {', '.join(map(alias, values, columns))}", f"FROM {source}", *joins, f"WHERE {known}"])

    def said_of_hub(self, hub, hash_key, condition):
        """What the feeds of a hub say of a hash key: the mart's columns, their values, the joins that give them, and whether
        any feed has the key."""
        columns = [f"{hub}.{number}" for number in range(1, self.mapping.hubs[hub] + 1)]
        values, joins, known = [f"h.{part}" for part in self.mapping.parts_of(hub)], [], []
        for at, feed in enumerate(self.mapping.feeds_of_hub(hub)):
            source, names = self.said_of_key(feed)
            key, begin, end = (f"f{at}.{quoted(name)}" for name in names)
            joins.append(f"LEFT JOIN {quoted(source)} f{at} ON {key} = {hash_key} AND {condition.format(begin, end)}")
            known.append(f"{key} IS NOT NULL")
            columns.append(feed.name)
            values.append(f"CASE WHEN {known[-1]} THEN 'Y' ELSE 'N' END")
            if not feed.sub:
                columns += [f"{feed.name}.{column}" for column in feed.attrs]
                values += [f"coalesce(f{at}.{quoted(column)}, '')" for column in feed.attrs]
        return columns, values, joins, " OR ".join(known) or "1 = 0"

    def said_of_key(self, feed):
        """The view of what the mart of a hub has of a feed, and its columns of the hash key, of begin and of end."""
        if feed.sub or not feed.attrs:
            return f"present_{feed.name}", ("hash_key", "begin", "end")
        columns = self.rows(feed).columns
        return f"rows_{feed.name}", (columns[0], *columns[-2:])

    def moments(self, feeds):
        """When something changed in what feeds say of a key, and when the next such change is."""
        changes = []
        for feed in feeds:
            source, names = self.said_of_key(feed)
            hash_key, begin, end = map(quoted, names)
            changes.append(f"SELECT f.{hash_key} AS hash_key, f.{begin} AS since FROM {quoted(source)} f")
            changes.append(f"SELECT f.{hash_key}, f.{end} FROM {quoted(source)} f WHERE f.{end} < '{OPEN_END}'")
        none = "SELECT '' AS hash_key, '' AS since WHERE 1 = 0"
        return f"""(SELECT c.hash_key, c.since,
             lead(c.since, 1, '{OPEN_END}') OVER (PARTITION BY c.hash_key ORDER BY c.since) AS following
      FROM ({(chr(10) + '            UNION ').join(changes) or none}) c)"""

    # ---- paths

    def path_history(self, path):
        """All rows that the mart of a path ever had, with begin and end: its feeds had them at the same time."""
        steps = range(len(path.feeds))
        meets = [f'p{one}."begin" < p{other}."end" AND p{other}."begin" < p{one}."end"'
                 for other in steps for one in steps if one < other]
        begins, ends = ([f'p{at}."{word}"' for at in steps] for word in ("begin", "end"))
        columns, query = self.path_query(path, meets, [
            alias(self.of_all(self.later, begins), "begin"), alias(self.of_all(self.earlier, ends), "end")])
        view = View(f"history_path_{path.name}", (*columns, "begin", "end"), query,
                    f"all rows that the mart of the path {path.name} ever had, each from when to when")
        printed = [f"{feed}.{hub}.{part}" for feed in path.feeds for hub in self.mapping.feeds[feed].hubs
                   for part in range(1, self.mapping.hubs[hub] + 1)]
        return History(view, f"path:{path.name}", tuple(columns), tuple(printed), "begin", "end", tuple(columns))

    def of_all(self, word, values):
        return f"{word}({', '.join(values)})" if len(values) > 1 else values[0]

    def path_at(self, path, condition):
        """A query of the mart of a path under a condition on the begin and the end of what its feeds have."""
        conditions = [condition.format(f'p{at}."begin"', f'p{at}."end"') for at in range(len(path.feeds))]
        return self.path_query(path, conditions, [])[1]

    def path_query(self, path, conditions, more):
        """The columns of a path's mart, and a query of them under conditions on what its feeds have, with more columns."""
        columns, values, joins = [], [], []
        for at, label in enumerate(path.labels):
            feed = self.mapping.feeds[path.feeds[at]]
            present, link = quoted(f"present_{feed.name}"), quoted(feed.parent)
            joins.append(f"{present} p{at} JOIN {link} l{at} ON l{at}.hash_key = p{at}.hash_key")
            if at:
                via = quoted(path.via[at - 1])
                joins[-1] = f"JOIN ({joins[-1]}) ON l{at}.{via} = l{at - 1}.{via}"
            for number, hub in enumerate(feed.hubs):
                name = f"h{at}_{number}"
                joins.append(f"JOIN {quoted('hub_' + hub)} {name} ON {name}.hash_key = l{at}.{quoted(hub)}")
                columns += [f"{label}.{hub}.{part}" for part in range(1, self.mapping.hubs[hub] + 1)]
                values += [f"{name}.{part}" for part in self.mapping.parts_of(hub)]
        where = f"\nWHERE {' AND '.join(conditions)}" if conditions else ""
        shown = ", ".join([*map(alias, values, columns), *more])
        return columns, f"\nSELECT {shown}\nFROM {chr(10).join(joins)}{where}"

    # ---- periods

    def period_history(self, feed):
        """All periods of a feed, as they were known from when to when."""
        columns = (*feed.key_columns, "begin", "end")
        hash_key, known, until = (free_name(name, columns) for name in ("hash_key", "known_begin", "known_end"))
        joins, parts = self.keys_of(feed, "e.hash_key")
        shown = [alias("e.hash_key", hash_key), *map(alias, parts, feed.key_columns), alias('e."begin"', "begin"),
                 alias('e."end"', "end"), alias("e.load_date", known), alias("e.following", until)]
        query = f"""
SELECT {', '.join(shown)}
FROM (SELECT t.hash_key, t.load_date, t."begin", t."end",
             lead(t.load_date, 1, '{OPEN_END}') OVER (PARTITION BY t.hash_key, t."begin" ORDER BY t.load_date) AS following
      FROM {quoted('eff_' + feed.name)} t) e
{joins}"""
        view = View(f"history_period_{feed.name}", (hash_key, *columns, known, until), query,
                    f"all periods of the feed {feed.name}, as they were known from when to when", self.key_of_link(hash_key))
        return History(view, f"period:{feed.name}", columns, columns, known, until, columns)
