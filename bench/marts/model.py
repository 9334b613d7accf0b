"""The same answers by walking the extracts themselves, in plain Python: for each query, what it means, and no vault."""
import csv
import hashlib
import io
import tomllib

FEEDS = {"customers": 2, "accounts": 1, "phones": 1}


def lines_of(header, rows):
    text = io.StringIO()
    csv.writer(text, lineterminator="\n").writerows([header, *rows])
    return text.getvalue().encode()


class Model:
    """What windows up to a date delivered: of each feed its last extract, and since when each key has its rows."""

    def __init__(self, data, manifests):
        self.windows = [tomllib.loads((data / manifest).read_text()) for manifest in manifests]
        self.extracts = [{entry["feed"]: self.read(data / entry["file"]) for entry in window["extract"]} for window in self.windows]

    @staticmethod
    def read(path):
        """The rows of each key, without blanks round the fields and with keys in capitals."""
        found = {}
        with open(path, encoding="utf-8", newline="") as file:
            for key, *fields in list(csv.reader(file))[1:]:
                found.setdefault(key.strip().upper(), []).append([field.strip() for field in fields])
        return {key: sorted(rows) for key, rows in found.items()}

    def told(self, query, date):
        """What the extracts say to a query."""
        by_name = {"hub": self.hub, "pit": self.pit}
        return by_name[query](date) if query in by_name else self.feed(query, date)

    def contents(self, date):
        """The last extract of each feed that is not later than a date."""
        last = {feed: {} for feed in FEEDS}
        for window, extracts in zip(self.windows, self.extracts):
            if window["load"] <= date:
                last |= extracts
        return last

    def feed(self, name, date):
        header = {"customers": ["CUST_NO", "NAME", "CITY"], "accounts": ["ACCOUNT", "TIER"], "phones": ["CUST_NO", "KIND", "PHONE"]}[name]
        content = self.contents(date)[name]
        return lines_of(header, ([key, *row] for key in sorted(content) for row in content[key]))

    def hub(self, date):
        contents = self.contents(date)
        header = ["customer.1", "customers", "customers.NAME", "customers.CITY", "accounts", "accounts.TIER", "phones"]
        keys = sorted({key for content in contents.values() for key in content})
        return lines_of(header, ([key, *self.cell(contents["customers"].get(key), 2), *self.cell(contents["accounts"].get(key), 1),
                                  "Y" if key in contents["phones"] else "N"] for key in keys))

    @staticmethod
    def cell(rows, attributes):
        return ["Y", *rows[0]] if rows else ["N", *[""] * attributes]

    def pit(self, date):
        since = {feed: {} for feed in FEEDS}
        for window, extracts in zip(self.windows, self.extracts):
            if window["load"] <= date:
                for feed, content in extracts.items():
                    self.take(since[feed], content, window["load"])
        contents = self.contents(date)
        keys = {key for known in since.values() for key in known}
        header = ["hash_key", "snapshot", *(f"{feed}.{column}" for feed in FEEDS for column in ("load", "present"))]
        rows = ([hashlib.md5(key.encode()).hexdigest(), date,
                 *(cell for feed in FEEDS for cell in (since[feed].get(key, ("",))[0], "Y" if key in contents[feed] else "N"))]
                for key in keys)
        return lines_of(header, sorted(rows))

    @staticmethod
    def take(known, content, load):
        """The load date of each key is that since when it has its rows, whether or not it was away meanwhile."""
        for key, rows in content.items():
            if key not in known or known[key][1] != rows:
                known[key] = (load, rows)
