"""What vaultdesk-night does: which windows it loads, holds back and refuses, what it backs up and says, by commands and by a desk.
Which keys vanish is counted by what the program's status tables have of the same window."""
import csv
import fcntl
import hashlib
import io
import json
import shutil
import sqlite3

from handover import vaults
from handover.refusals import forge, interrupted
from handover.sources import history
from handover.vaults import all_texts, expect_answer, expect_texts, kept, run_tool
from kept.program import expect, with_limits
from kept.stores import opened

MAPPING = """hub = [{ name = "customer", parts = 1 }]
feed = [{ name = "customers", source = "crm", hub = "customer", keys = [["CUST_NO"]], attrs = ["NAME"] }]
"""
DAYS = ("2024-03-01", "2024-03-02", "2024-03-03", "2024-03-04", "2024-03-05")


def customers(count, name="x"):
    return "CUST_NO,NAME\n" + "".join(f"c{number},{name}\n" for number in range(count))


def arrived(bench, *counts):
    """A vault with an empty history, and manifests with extracts of so many customers that have arrived."""
    vault = bench.empty()
    vault.write("mapping.toml", MAPPING)
    vault.says("init", err="init: Stored")
    vault.file("in").mkdir()
    for day, count in zip(DAYS, counts):
        deliver(vault, day, count)
    return vault


def deliver(vault, day, count):
    vault.write(f"in/{day}.toml", f'load = "{day}T02:00:00"\nextract = [{{ feed = "customers", file = "in/{day}.csv" }}]\n')
    vault.write(f"in/{day}.csv", customers(count, day) if isinstance(count, int) else count)


def night(bench, vault, status, *words, **how):
    """Runs a night, which ends with a status; what its line of JSON says, and the lines for people."""
    got = run_tool(bench, "vaultdesk-night", vault.folder, *words, **how)
    expect_answer(f"night {' '.join(map(str, words))}", got, status)
    expect("how many lines standard output has", 1, got.out.count(b"\n"))
    done = json.loads(got.out)
    expect("the status in JSON", status, done["status"])
    expect("whether a line says why", status != 0, done["said"] is not None)
    lines = got.err.decode()
    expect("the last line", f"vaultdesk-night: {done['said']}" if status else None, lines.splitlines()[-1] if status else None)
    return done, lines


def names(days):
    return [f"in/{day}.toml" for day in days]


def one_refused(bench):
    """of five windows that wait the third is refused: two are loaded, three wait, by commands and by a desk alike, and all when it is
    mended"""
    found = []
    for words in (("--desk", "0"), ("--desk", "1"), ()):
        vault = arrived(bench, 3, 4, "CUST_NO,NAME\nc1\n", 5, 6)
        done, lines = night(bench, vault, 1, *words)
        said = "W12 Ragged feed=customers row_no=1"
        expect("the refused window", {"manifest": "in/2024-03-03.toml", "load": "2024-03-03T02:00:00", "said": said}, done["refused"])
        # A customer has a row of the hub, of the satellite and of the status; a changed name has one of the satellite.
        expect("rows that were loaded", [(name, rows) for name, rows in zip(names(DAYS), (9, 6))],
               [(one["manifest"], one["rows"]) for one in done["loaded"]])
        expect("what waits", names(DAYS[2:]), done["waiting"])
        expect("lines for people", "in/2024-03-01.toml: Loaded 9\nin/2024-03-02.toml: Loaded 6\n"
               f"vaultdesk-night: in/2024-03-03.toml: {said}\n", lines)
        again, _ = night(bench, vault, 1, *words)
        expect("the night after it", ([], names(DAYS[2:])), (again["loaded"], again["waiting"]))
        deliver(vault, DAYS[2], 4)
        mended, _ = night(bench, vault, 0, *words)
        expect("the night in which it is mended", names(DAYS[2:]), [one["manifest"] for one in mended["loaded"]])
        quiet, lines = night(bench, vault, 0, *words)
        expect("a night in which nothing has arrived", ([], [], ""), (quiet["loaded"], quiet["waiting"], lines))
        found.append((done, again, mended, all_texts(vault)))
    for other in found[1:]:
        expect("by a desk and by commands", found[0][:3], other[:3])
        expect_texts("by a desk and by commands", found[0][3], other[3])


def orders(bench):
    """manifests are loaded in the order of their dates, whatever their names; two of one date, and one without, end the night"""
    vault = arrived(bench)
    for name, day in (("z", DAYS[0]), ("b", DAYS[1]), ("a", DAYS[2])):
        deliver(vault, day, 2)
        vault.file(f"in/{day}.toml").rename(vault.file(f"in/{name}.toml"))
    done, _ = night(bench, vault, 0)
    expect("the order", names("zba"), [one["manifest"] for one in done["loaded"]])
    deliver(vault, DAYS[3], 2)
    vault.write("in/twin.toml", vault.file(f"in/{DAYS[3]}.toml").read_bytes())
    done, _ = night(bench, vault, 1)
    expect("two of one date", "in/twin.toml has the same load date", done["refused"]["said"])
    vault.file("in/twin.toml").unlink()
    vault.write("in/odd.toml", "load = \n")
    done, _ = night(bench, vault, 1)
    expect("one without a date", "W0 Manifest place=text", done["refused"]["said"])
    vault.file("in/odd.toml").unlink()
    deliver(vault, "2024-02-01", 2)
    done, _ = night(bench, vault, 1)
    expect("a late one", "W4 Late last=2024-03-03T02:00:00", done["refused"]["said"])


def held_back(bench):
    """a window in which more than so many percent of a feed's keys vanish is held back until its date is accepted, and none with fewer"""
    for desk in ("0", "1"):
        vault = arrived(bench, 10, 8, 7, 0, 3)
        words = ("--desk", desk, "--most-vanished", "20%")
        done, lines = night(bench, vault, 0, *words[:2], "--most-vanished", "100%")
        vault = arrived(bench, 10, 8, 6, 0, 3)
        done, lines = night(bench, vault, 9, *words)
        expect("what is loaded", names(DAYS[:2]), [one["manifest"] for one in done["loaded"]])
        expect("what is held back", {"manifest": "in/2024-03-03.toml", "load": "2024-03-03T02:00:00",
                                     "feeds": [{"feed": "customers", "vanished": 2, "of": 8}]}, done["held"])
        expect("what waits", names(DAYS[2:]), done["waiting"])
        done, _ = night(bench, vault, 9, *words, "--accept", "2024-03-03T02:00:00")
        expect("what is accepted", names(DAYS[2:3]), [one["manifest"] for one in done["loaded"]])
        expect("the next that is held back", {"feed": "customers", "vanished": 6, "of": 6}, done["held"]["feeds"][0])
        done, _ = night(bench, vault, 0, *words, "--most-vanished", "customers=100%")
        expect("what a feed of its own lets in", names(DAYS[3:]), [one["manifest"] for one in done["loaded"]])
    vault = arrived(bench, 3, "CUST_NO;NAME\n")
    done, _ = night(bench, vault, 1, "--most-vanished", "20%")
    expect("one that is refused", "W10 UnmappedColumn feed=customers name=CUST_NO;NAME", done["refused"]["said"])


def counted_as_the_program_does(bench):
    """the keys that vanish in a window are those of which the program's status table says so, for random histories"""
    for seed in range(20 if bench.is_all else 3):
        told = history(seed)
        direct = kept(bench, told)
        mapping = vaults.mapping_of(direct)
        with vaults.served(direct) as get:
            statuses = {feed["name"]: rows_of(get(f"/tables/status_{feed['name']}")) for feed in mapping["feed"]}
        vault = bench.empty()
        vault.file("in").mkdir()
        for path in direct.folder.glob("w*.toml"):
            vault.write(f"in/{path.name}", path.read_bytes())
        for path in direct.folder.glob("*.csv"):
            shutil.copy(path, vault.folder)
        vault.write("mapping.toml", direct.file("mapping.toml").read_bytes())
        vault.says("init", err="init: Stored")
        accepted = []
        for date, extracts in told.windows:
            gone = {name: sum(row[1:] == [date, f"s.{name}", "D"] for row in statuses[name]) for name in extracts}
            held = night(bench, vault, 9 if any(gone.values()) else 0, "--most-vanished", "0%", *accepted)[0]["held"] if any(gone.values()) else None
            if held:
                expect("the window that is held back", date, held["load"])
                expect("the keys that vanish", {name: count for name, count in gone.items() if count},
                       {one["feed"]: one["vanished"] for one in held["feeds"]})
            accepted += ["--accept", date]
        night(bench, vault, 0, "--most-vanished", "0%", *accepted)
        expect_texts("after all nights", all_texts(direct), all_texts(vault))
        bench.drop(vault, direct)


def rows_of(text):
    return list(csv.reader(io.StringIO(text.decode(), newline="")))[1:]


def backups(bench):
    """a backup is one file that is a whole vault with the same texts, with its sum, and the last ones are kept"""
    vault = arrived(bench)
    for number, day in enumerate(DAYS[:4]):
        deliver(vault, day, number + 2)
        done, _ = night(bench, vault, 0, "--backup", "safe", "--keep", "2")
        path = vault.file(done["backup"])
        expect("its name", f"vault-{day}T02-00-00.db", path.name)
        expect("its sum", f"{hashlib.sha256(path.read_bytes()).hexdigest()}  {path.name}\n", path.with_name(f"{path.name}.sha256").read_text())
        other = bench.empty()
        shutil.copy(path, other.file("vault.db"))
        other.write("mapping.toml", MAPPING)
        expect_texts("the backup", all_texts(vault), all_texts(other))
    kept_names = sorted(path.name for path in vault.file("safe").iterdir())
    expect("what is kept", [f"vault-{day}T02-00-00.db{end}" for day in DAYS[2:4] for end in ("", ".sha256")], kept_names)
    vaults.store(vault, f"{DAYS[0]}T02:00:00")
    done, _ = night(bench, vault, 0, "--backup", "safe", "--keep", "2")
    shutil.copy(vault.file(done["backup"]), other.file("vault.db"))
    expect("a snapshot in the backup", vault.text("pit", "customer", f"{DAYS[0]}T02:00:00"), other.text("pit", "customer", f"{DAYS[0]}T02:00:00"))
    deliver(vault, DAYS[4], "CUST_NO,NAME\nc1\n")
    done, _ = night(bench, vault, 1, "--backup", "safe")
    expect("a backup although a window is refused", f"safe/vault-{DAYS[3]}T02-00-00.db", done["backup"])
    nothing = arrived(bench)
    expect("a backup of nothing", None, night(bench, nothing, 0, "--backup", "safe")[0]["backup"])


def statuses(bench):
    """each status of a night: wrong words, no vault, another mapping, an absent file, a busy vault, a second night, damage, no program"""
    vault = arrived(bench, 2)
    for given in (["--none"], ["--most-vanished", "20"], ["--most-vanished", "101%"], ["--keep", "0"], ["--accept", "now"], ["--desk", "x"]):
        expect_answer(" ".join(given), run_tool(bench, "vaultdesk-night", vault.folder, *given), 2)
    night(bench, vault, 2, "--most-vanished", "others=1%")
    for given in (["--program", "/nowhere"], ["--program", "/etc/hostname"], ["--manifests", "none"]):
        night(bench, vault, 4, *given)
    night(bench, vaults.vault_at(bench, bench.folder / "none"), 4)
    night(bench, bench.empty(), 3)
    with opened(vault.file("vault.db")) as connection:
        connection.execute("BEGIN EXCLUSIVE")
        expect("a busy vault", "keeper fault", night(bench, vault, 5)[0]["said"])
        connection.execute("ROLLBACK")
    with open(vault.file("night.lock"), "w", encoding="ascii") as lock:
        fcntl.flock(lock, fcntl.LOCK_EX)
        expect("a second night", "the last night is still going on", night(bench, vault, 5)[0]["said"])
    vault.write("mapping.toml", MAPPING.replace("crm", "erp"))
    night(bench, vault, 3, "--most-vanished", "20%")
    expect("without a threshold", names(DAYS[:1]), [one["manifest"] for one in night(bench, vault, 0)[0]["loaded"]])
    got = run_tool(bench, "vaultdesk-night", vault.folder, out_to=open("/dev/full", "wb"))
    expect_answer("standard output is full", got, 6)
    deliver(vault, DAYS[1], 2)
    vault.file(f"in/{DAYS[1]}.csv").unlink()
    for desk in ("0", "1"):
        expect("an absent file", f"absent in/{DAYS[1]}.csv", night(bench, vault, 4, "--desk", desk)[0]["said"])
    forge(vault)
    night(bench, vault, 8)


def interrupted_loads(bench):
    """a load that broke off is completed, and the windows behind it are loaded in the same night; a full disk ends one with status 5"""
    vault = interrupted(bench)
    vault.file("in").mkdir()
    vault.write("in/2.toml", 'load = "2024-04-01T02:00:00"\nextract = [{ feed = "f", file = "c.csv" }]\n')
    done, lines = night(bench, vault, 0)
    expect("the line", "resume: Loaded 15000\nin/2.toml: Loaded 0\n", lines)
    expect("rows that were completed", 15_000, done["resumed"])
    for desk in ("0", "1"):
        vault = arrived(bench, 5, 5_000)
        for size in (1, 60_000, 200_000, 700_000):
            got = run_tool(bench, "vaultdesk-night", vault.folder, "--desk", desk, "--backup", "safe", limits=with_limits(file_size=size))
            expect_answer(f"files of {size} bytes at most", got, got.status if got.status in (0, 4, 5) else -1)
        done, _ = night(bench, vault, 0, "--desk", desk, "--backup", "safe")
        direct = arrived(bench, 5, 5_000)
        night(bench, direct, 0)
        expect_texts("after full disks", all_texts(direct), all_texts(vault))
        with sqlite3.connect(f"file:{vault.file(done['backup'])}?mode=ro", uri=True) as file:
            expect("windows of the backup", 2, file.execute("SELECT count(*) FROM windows").fetchone()[0])


def odd_manifests(bench):
    """a window that no request can say is loaded by the command in the midst of a desk, with its own line"""
    vault = arrived(bench, 2, 3, 4, 5)
    vault.write(f"in/{DAYS[1]}.csv", b"CUST_NO,NAME\nc1,\xff\n")
    expect("no UTF-8", "W13 NotUtf8 feed=customers row_no=1", night(bench, vault, 1, "--desk", "1")[0]["refused"]["said"])
    # A value of more than 32 MiB as JSON, since each quote takes two bytes there.
    text = "CUST_NO,NAME\n" + "".join(f"c{number},a{'q' * 150}\n" for number in range(1000))
    vault.write(f"in/{DAYS[1]}.csv", text)
    vault.write(f"in/{DAYS[2]}.toml", f"load = '{DAYS[2]}T02:00:00'\n[[extract]]\nfeed = 'customers'\nfile = 'in/{DAYS[2]}.csv'\nnote = '''\n'''\n")
    expect("all of them", names(DAYS[1:4]), [one["manifest"] for one in night(bench, vault, 0, "--desk", "1")[0]["loaded"]])


CHECKS = [one_refused, orders, held_back, counted_as_the_program_does, backups, statuses, interrupted_loads, odd_manifests]
LARGE = []
