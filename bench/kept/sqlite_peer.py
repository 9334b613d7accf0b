"""A plain loader in Python over sqlite3: CSV and MD5 in Python, rows put by executemany, the rules in SQL.

Usage: python3 bench/kept/sqlite_peer.py DATA OUT WINDOWS [--tables]

DATA has w1.toml and so on. Makes OUT/peer.db (WAL, synchronous FULL, one transaction a window), and prints the seconds
of each window and of the mart at the last date, OUT/mart.csv. With --tables it writes the text of each table, too.
"""
import csv
import hashlib
import pathlib
import sqlite3
import sys
import time
import tomllib

BLANK = " \t\r\n"
RAISED = {letter: letter - 32 for letter in range(ord("a"), ord("z") + 1)}


def raised(text):
    return text.strip(BLANK).upper() if text.isascii() else text.strip(BLANK).translate(RAISED)


def md5(text, digest=hashlib.md5):
    return digest(text.encode()).digest()


def hub_key(key):
    return md5(key) if key else bytes(16)


class Feed:
    def __init__(self, entry, links):
        self.name, self.source = entry["name"], f"{entry['source']}.{entry['name']}"
        self.is_hub = "hub" in entry
        self.parent = entry["hub"] if self.is_hub else entry["link"]
        self.hubs = [self.parent] if self.is_hub else links[self.parent]
        self.keys, self.attrs = [key[0] for key in entry["keys"]], entry.get("attrs", [])

    def create(self, db):
        hashes = [] if self.is_hub else [f"h{n}" for n in range(len(self.keys))]
        columns = hashes + [f"k{n}" for n in range(len(self.keys))] + [f"a{n}" for n in range(len(self.attrs))]
        db.execute(f"CREATE TEMP TABLE stg_{self.name} (hash_key BLOB PRIMARY KEY, {', '.join(columns)}) WITHOUT ROWID")
        self.put = f"INSERT INTO stg_{self.name} VALUES (?{', ?' * len(columns)})"
        front = "hash_key BLOB NOT NULL, load_date TEXT NOT NULL, record_source TEXT NOT NULL"
        key = "PRIMARY KEY (hash_key, load_date)) WITHOUT ROWID"
        if self.attrs:
            attrs = "".join(f", {name} TEXT NOT NULL" for name in self.attrs)
            db.execute(f"CREATE TABLE sat_{self.name} ({front}, hash_diff BLOB NOT NULL{attrs}, {key}")
        db.execute(f"CREATE TABLE status_{self.name} ({front}, status TEXT NOT NULL, {key}")

    def read(self, path):
        """The distinct rows as the staging table has them."""
        count, seen, rows = len(self.keys), {}, []
        with open(path, encoding="utf-8-sig", newline="") as file:
            reader = csv.reader(file)
            header = [name.strip(BLANK) for name in next(reader)]
            places = [header.index(name) for name in self.keys + self.attrs]
            for record in reader:
                fields = [record[place] for place in places]
                refs, attrs = tuple(map(raised, fields[:count])), tuple(field.strip(BLANK) for field in fields[count:])
                if refs in seen:
                    if seen[refs] != attrs:
                        sys.exit(f"two rows of {refs} in {path}")
                    continue
                seen[refs] = attrs
                hashes = () if self.is_hub else tuple(map(hub_key, refs))
                rows.append((md5(";".join(refs)),) + hashes + refs + attrs)
        rows.sort()
        return rows

    def load_satellite(self, db, load):
        if not self.attrs:
            return
        staged = [f"s.a{n}" for n in range(len(self.attrs))]
        differs = " OR ".join(f"t.{name} <> {column}" for name, column in zip(self.attrs, staged))
        joined = " || ';' || ".join(staged)
        db.execute(f"""INSERT INTO sat_{self.name} SELECT s.hash_key, ?1, ?2, md5({joined}), {', '.join(staged)}
            FROM stg_{self.name} s LEFT JOIN sat_{self.name} t ON t.hash_key = s.hash_key
                AND t.load_date = (SELECT max(load_date) FROM sat_{self.name} WHERE hash_key = s.hash_key)
            WHERE t.hash_key IS NULL OR {differs} ORDER BY s.hash_key""", (load, self.source))

    def load_status(self, db, load):
        table, stage = f"status_{self.name}", f"stg_{self.name}"
        last = f"(SELECT status FROM {table} t WHERE t.hash_key = s.hash_key ORDER BY load_date DESC LIMIT 1)"
        db.execute(f"""INSERT INTO {table} SELECT hash_key, ?1, ?2, code FROM (
                SELECT hash_key, 'I' AS code FROM {stage} s WHERE {last} IS NOT 'I'
                UNION ALL
                SELECT hash_key, 'D' FROM (SELECT hash_key, status, max(load_date) FROM {table} GROUP BY hash_key)
                WHERE status = 'I' AND hash_key NOT IN (SELECT hash_key FROM {stage}))
            ORDER BY hash_key""", (load, self.source))


class Loader:
    def __init__(self, data, path):
        mapping = tomllib.loads((data / "mapping.toml").read_text())
        self.data = data
        self.hubs = [hub["name"] for hub in mapping["hub"]]
        self.links = {link["name"]: link["hubs"] for link in mapping["link"]}
        self.feeds = [Feed(entry, self.links) for entry in mapping["feed"]]
        self.db = sqlite3.connect(path, isolation_level=None)
        self.db.create_function("md5", 1, md5, deterministic=True)
        for pragma in ("journal_mode=WAL", "synchronous=FULL", "cache_size=-262144", "temp_store=MEMORY"):
            self.db.execute(f"PRAGMA {pragma}")
        front = "hash_key BLOB PRIMARY KEY, load_date TEXT NOT NULL, record_source TEXT NOT NULL"
        for hub in self.hubs:
            self.db.execute(f"CREATE TABLE hub_{hub} ({front}, part_1 TEXT NOT NULL) WITHOUT ROWID")
        for link, hubs in self.links.items():
            columns = "".join(f", {hub} BLOB NOT NULL" for hub in hubs)
            self.db.execute(f"CREATE TABLE link_{link} ({front}{columns}) WITHOUT ROWID")
        for feed in self.feeds:
            feed.create(self.db)

    def load_hub(self, hub, load):
        for feed in self.feeds:
            for at in (at for at, name in enumerate(feed.hubs) if name == hub):
                key = "hash_key" if feed.is_hub else f"h{at}"
                self.db.execute(f"""INSERT INTO hub_{hub} SELECT DISTINCT {key}, ?1, ?2, k{at} FROM stg_{feed.name} s
                    WHERE k{at} <> '' AND NOT EXISTS (SELECT 1 FROM hub_{hub} t WHERE t.hash_key = s.{key})
                    ORDER BY {key}""", (load, feed.source))

    def load_link(self, link, hubs, load):
        keys = ", ".join(f"h{at}" for at in range(len(hubs)))
        for feed in self.feeds:
            if feed.parent == link and not feed.is_hub:
                self.db.execute(f"""INSERT INTO link_{link} SELECT hash_key, ?1, ?2, {keys} FROM stg_{feed.name} s
                    WHERE NOT EXISTS (SELECT 1 FROM link_{link} t WHERE t.hash_key = s.hash_key)
                    ORDER BY hash_key""", (load, feed.source))

    def load(self, manifest):
        window = tomllib.loads((self.data / manifest).read_text())
        files = {extract["feed"]: self.data / extract["file"] for extract in window["extract"]}
        self.db.execute("BEGIN")
        for feed in self.feeds:
            self.db.execute(f"DELETE FROM stg_{feed.name}")
            self.db.executemany(feed.put, feed.read(files[feed.name]))
        for hub in self.hubs:
            self.load_hub(hub, window["load"])
        for link, hubs in self.links.items():
            self.load_link(link, hubs, window["load"])
        for feed in self.feeds:
            feed.load_satellite(self.db, window["load"])
            feed.load_status(self.db, window["load"])
        self.db.execute("COMMIT")
        return window["load"]

    def mart(self, date):
        feed = self.feeds[0]
        return self.db.execute(f"""SELECT h.part_1 AS CUST_NO, {', '.join(f't.{name}' for name in feed.attrs)} FROM
            (SELECT hash_key, status, max(load_date) FROM status_{feed.name} WHERE load_date <= ?1 GROUP BY hash_key) c
            JOIN hub_{feed.parent} h ON h.hash_key = c.hash_key
            JOIN sat_{feed.name} t ON t.hash_key = c.hash_key AND t.load_date =
                (SELECT max(load_date) FROM sat_{feed.name} WHERE hash_key = c.hash_key AND load_date <= ?1)
            WHERE c.status = 'I' ORDER BY h.part_1""", (date,))

    def tables(self):
        found = self.db.execute("SELECT name FROM sqlite_master WHERE type = 'table'").fetchall()
        return {name: self.db.execute(f"SELECT * FROM {name} ORDER BY load_date, hash_key") for name, in found}


def write(path, found):
    with open(path, "w", encoding="utf-8", newline="") as out:
        writer = csv.writer(out, lineterminator="\n")
        writer.writerow([column[0] for column in found.description])
        writer.writerows([value.hex() if isinstance(value, bytes) else value for value in row] for row in found)


def main(data, out, windows, *more):
    data, out = pathlib.Path(data), pathlib.Path(out)
    loader = Loader(data, out / "peer.db")
    for number in range(1, int(windows) + 1):
        begun = time.perf_counter()
        date = loader.load(f"w{number}.toml")
        print(f"window {time.perf_counter() - begun:.6f}", flush=True)
    begun = time.perf_counter()
    write(out / "mart.csv", loader.mart(date))
    print(f"mart {time.perf_counter() - begun:.6f}", flush=True)
    if "--tables" in more:
        for name, found in loader.tables().items():
            write(out / f"{name}.csv", found)
    loader.db.close()


if __name__ == "__main__":
    main(*sys.argv[1:])
