"""Checks of loads with workers: whatever their number and the order of their tasks are, what is printed and kept is the same,
also where a load of several workers is killed; and the words by which workers are asked for."""
import _thread
import collections
import csv
import fcntl
import hashlib
import os
import pathlib
import resource
import shutil
import time

from kept import breaks, history, orders
from kept.desks import get, heads, loaded, post, serving, text, window_of
from kept.program import LONGEST_RUN, USAGE, expect, run
from kept.stores import contents, is_whole, opened_copy

NUMBERS = ("1", "3", "4", "64")
ORDERS = ("declared", "reverse")
SIZE = 500
# The program works through a window on one thread whose extracts have fewer bytes together.
SMALL_WINDOW = 16_384
# Of each feed the customers whose numbers this divides are left out, so that every feed brings keys first.
LEFT_OUT = {"customers": 2, "phones": 3, "visits": 5, "care": 7}
KILLS_BY_SIZE, KILLS_BY_TIME, LEAST = 20, 6, 3
NOBODY = 65534
PAGE = 4096
# How the system writes that a process waits in a write to its standard error.
WRITES_A_LINE = "1 0x2 "
# A thread has a stack of more kB than this.
LEAST_STACK = 1024


class Shared(history.Source):
    """Windows in which no feed has all customers, and whose extracts come in the reverse of the order in which the feeds are
    declared."""

    def extracts(self):
        for feed, header, rows in reversed([*super().extracts()]):
            yield feed, header, [row for row in rows if int(row[0][1:]) % LEFT_OUT[feed]]


def shared():
    return Shared(seed=12, size=SIZE)


def records(vault, manifest, feed):
    with open(vault.file(f"{manifest}_{feed}.csv"), encoding="utf-8", newline="") as file:
        return list(csv.DictReader(file))


def hub_rows(vault, columns):
    """The text of a hub's table by the format, given the columns of its key in each feed that has it, in declared order: each
    key once, with the first window that has it, and of the feeds of that window the first one."""
    rows, known = [], set()
    for manifest, date in zip(history.MANIFESTS, history.DATES):
        firsts = {}
        for source, feed, names in columns:
            for record in records(vault, manifest, feed):
                firsts.setdefault(tuple(record[name].upper() for name in names), f"{source}.{feed}")
        added = [(hashlib.md5(";".join(key).encode()).hexdigest(), date, source, *key) for key, source in firsts.items() if key not in known]
        rows += sorted(added)
        known |= set(firsts)
    header = ["hash_key", "load_date", "record_source", *(f"part_{at}" for at in range(1, len(columns[0][2]) + 1))]
    return "".join(",".join(row) + "\n" for row in [header, *rows]).encode()


HUBS = {
    "customer": (("crm", "customers", ["CUST_NO"]), ("crm", "phones", ["CUST_NO"]), ("erp", "visits", ["CUST_NO"]), ("hr", "care", ["CUST_NO"])),
    "site": (("erp", "visits", ["REGION", "SITE"]),),
    "clerk": (("hr", "care", ["CLERK"]),),
}


def texts_of(vault):
    """All texts: the windows, each raw table, and each mart at the last date."""
    words = [("windows",), *(("table", table) for table in history.TABLES)]
    marts = (*(f"feed:{feed}" for feed in history.FEEDS.split()), *(f"hub:{hub}" for hub in HUBS), "period:care",
             *(f"path:{path}" for path in history.PATHS))
    words += [("mart", mart, history.DATES[-1]) for mart in marts]
    return {" ".join(each): vault.text(*each) for each in words}


def option_words(number, order):
    """Options of a load, in each of their forms and places, by turns: those before and those behind the manifest."""
    return {
        ("declared", 0): (["--workers", number, "--order", order], []),
        ("declared", 1): ([], [f"--workers={number}"]),
        ("reverse", 0): ([f"--order={order}"], ["--workers", number]),
        ("reverse", 1): (["--order", order, f"--workers={number}", "--"], []),
    }[order, NUMBERS.index(number) % 2]


def load_all(vault, before, behind, added):
    """Stores the mapping and loads the windows, each of which adds so many rows."""
    vault.says("init", err="init: Stored")
    for manifest, rows in zip(history.MANIFESTS, added):
        vault.says("load", *before, manifest, *behind, err=f"{manifest}: Loaded {rows}")
    vault.says("load", *before, manifest, *behind, err=f"{manifest}: Repeated")


def each_number_and_order(bench):
    """loads with 1, 3, 4 and 64 workers and in both orders leave the vault, every table, every mart and the windows that loads
    without options leave; a key of a hub has the first feed in declared order that brought it"""
    plain = history.inputs(bench, shared())
    for manifest in history.MANIFESTS:
        size = sum(path.stat().st_size for path in plain.folder.glob(f"{manifest}_*.csv"))
        expect(f"whether the extracts of {manifest} are large enough for workers", True, size > 2 * SMALL_WINDOW)
    vaults = {(number, order): plain.twin() for number in NUMBERS for order in ORDERS}
    plain.says("init", err="init: Stored")
    added = plain.loaded(*history.MANIFESTS)
    expected = texts_of(plain)
    expect("windows", history.windows_text(3).encode(), expected["windows"])
    for hub, columns in HUBS.items():
        expect(f"table hub_{hub}", hub_rows(plain, columns), expected[f"table hub_{hub}"])
    for (number, order), vault in vaults.items():
        load_all(vault, *option_words(number, order), added)
        for words, one in texts_of(vault).items():
            expect(f"{words} of {number} workers in {order} order", expected[words], one)
        expect(f"all that SQLite finds of {number} workers in {order} order", contents(plain), contents(vault))
        bench.drop(vault)


def tried_with_each_number(bench):
    """try with each number and order writes what it writes without options, at each place of the options"""
    vault = history.inputs(bench, shared())
    for what in ("feed:phones", "hub:customer", "table:hub_customer"):
        plain = vault.run("try", what, history.DATES[-1], *history.MANIFESTS)
        expect(f"try {what}: exit status", 0, plain.status)
        for number in NUMBERS:
            for order in ORDERS:
                before, behind = option_words(number, order)
                told = vault.run("try", *before, what, history.DATES[-1], *history.MANIFESTS, *behind)
                expect(f"try {what} of {number} workers in {order} order", plain, told)


TWO_FEEDS = """
hub = [{ name = "item", parts = 1 }]
feed = [
  { name = "left", source = "gen", hub = "item", keys = [["K"]] },
  { name = "right", source = "gen", hub = "item", keys = [["K"]] },
]
"""
TWO_EXTRACTS = """
load = "2024-03-01T02:00:00"
extract = [{ feed = "left", file = "left.csv" }, { feed = "right", file = "right.csv" }]
"""


def windows_just_large_enough(bench):
    """a window whose extracts have 16 KiB together, or a byte more or fewer, is the same for one worker and for 64"""
    vault = bench.empty()
    vault.write("mapping.toml", TWO_FEEDS)
    vault.write("w1.toml", TWO_EXTRACTS)
    left, right = [str(key) for key in range(10_000, 11_300)], [str(key) for key in range(11_000, 12_000)]
    vault.write("left.csv", "\n".join(["K", *left]) + "\n")
    for size in (SMALL_WINDOW - 1, SMALL_WINDOW, SMALL_WINDOW + 1):
        lacking = size - vault.file("left.csv").stat().st_size - len("K\n") - 6 * len(right) - 1
        keys = [*right, "9" * lacking]
        vault.write("right.csv", "\n".join(["K", *keys]) + "\n")
        expect("bytes of both extracts", size, sum(vault.file(name).stat().st_size for name in ("left.csv", "right.csv")))
        added = len({*left, *keys}) + len(left) + len(keys)
        for number in ("1", "64"):
            vault.says("try", "--workers", number, "feed:right", history.DATES[0], "w1.toml", err=f"w1.toml: Loaded {added}",
                       out="\n".join(["K", *sorted(keys)]) + "\n")


def desks_with_workers(bench):
    """a desk with 1, 4 or 64 workers answers and keeps what one without the option does"""
    inputs = history.inputs(bench, shared())
    plain = inputs.twin()
    plain.says("init", err="init: Stored")
    added, expected = plain.loaded(*history.MANIFESTS), texts_of(plain)
    targets = {f"/marts/feed:phones?at={history.DATES[-1]}": f"mart feed:phones {history.DATES[-1]}",
               "/tables/hub_customer": "table hub_customer", "/tables/eff_care": "table eff_care"}
    for options in (["--workers", "1"], ["--workers=4"], ["--workers", "64"], ["--workers=64"]):
        vault = inputs.twin()
        vault.says("init", err="init: Stored")
        with serving(vault, options=options) as desk:
            for manifest, rows in zip(history.MANIFESTS, added):
                desk.says(f"{manifest} posted to serve {options}", [loaded(rows)], post(window_of(vault, manifest)))
            for target, words in targets.items():
                desk.says(f"{target} of serve {options}", [text(expected[words])], get(target))
            desk.says(f"windows of serve {options}", [heads(history.windows_text(3).encode())], get("/windows"))
        expect(f"all that SQLite finds behind serve {options}", contents(plain), contents(vault))
        bench.drop(vault)


def most_room(vault, *words):
    """The most address space that a command had, in kB: asked while it waits to write its line into a pipe that is full, when
    it has done its work and not ended."""
    reads, writes = os.pipe()
    fcntl.fcntl(writes, fcntl.F_SETPIPE_SZ, PAGE)
    os.write(writes, bytes(PAGE))
    process = vault.begin(*words, err_to=writes)
    os.close(writes)
    of_process, ended = pathlib.Path(f"/proc/{process.pid}"), time.monotonic() + LONGEST_RUN
    while not (of_process / "syscall").read_text().startswith(WRITES_A_LINE):
        expect(f"whether {' '.join(words)} comes to its line", (None, True), (process.poll(), time.monotonic() < ended))
    lines = (of_process / "status").read_text().splitlines()
    os.read(reads, PAGE)
    expect(f"how {' '.join(words)} ends", 0, process.wait())
    os.close(reads)
    return next(int(line.split()[1]) for line in lines if line.startswith("VmPeak:"))


def threads_that_are_made(bench):
    """a load takes room for the threads of its workers, and a small window none"""
    plain, small = history.inputs(bench, shared()), orders.kept(bench, 1)
    plain.says("init", err="init: Stored")
    for vault, manifest, grows in ((plain, "w1.toml", True), (small, "w2.toml", False)):
        one, four = (most_room(vault.twin(), "load", "--workers", number, manifest) for number in ("1", "4"))
        expect(f"whether {manifest} takes room for threads: {one} kB and {four} kB", grows, four - one > LEAST_STACK)


def without_threads():
    """What a process does first that can make no thread. The limit doesn't hold for root, so that becomes somebody else."""
    if os.geteuid() == 0:
        os.setgroups([])
        os.setgid(NOBODY)
        os.setuid(NOBODY)
    resource.setrlimit(resource.RLIMIT_NPROC, (0, 0))


def can_refuse_threads(folder):
    """Whether a process can make no thread then, and reach a folder, tried in one of its own."""
    child = os.fork()
    if child == 0:
        status = 1
        try:
            without_threads()
            os.chdir(folder)
            _thread.start_new_thread(int, ())
        except RuntimeError:
            status = 0
        finally:
            os._exit(status)
    return os.waitstatus_to_exitcode(os.waitpid(child, 0)[1]) == 0


def give_away(folder):
    """Lets everybody read a folder, and write into it and into the store there."""
    folder.chmod(0o777)
    for path in folder.iterdir():
        if not path.is_symlink():
            path.chmod(0o666)


def threads_that_are_refused(bench):
    """where the system gives no thread, load and try with many workers do what they do with threads"""
    bench.folder.chmod(0o711)
    if not can_refuse_threads(bench.folder):
        return bench.leave_out("threads that are refused: this machine refuses none, or lets nobody else into the checks' folder")
    plain = history.inputs(bench, shared())
    program = shutil.copy(bench.program, bench.folder / "program")
    vault = plain.twin()
    for each in (plain, vault):
        each.says("init", err="init: Stored")
    added = plain.loaded(*history.MANIFESTS)
    give_away(plain.folder)
    give_away(vault.folder)
    for manifest, rows in zip(history.MANIFESTS, added):
        got = run(program, vault.folder, ("load", "--workers", "64", manifest), limits=without_threads)
        expect(f"load {manifest} without threads", (0, b"", f"{manifest}: Loaded {rows}\n".encode()), got)
    expect("all that SQLite finds of loads without threads", contents(plain), contents(vault))
    words = ("try", "--workers=8", "hub:customer", history.DATES[-1], *history.MANIFESTS)
    expect("try without threads", plain.run(*words), run(program, vault.folder, words, limits=without_threads))


NO_NUMBERS = ("0", "65", "100", "04", "+4", "-4", "4.0", "4 ", "0x4", "four", "", "٤", "4,4", "18446744073709551620")
NO_ORDERS = ("Declared", "DECLARED", "backwards", "", "declared ", "reversed", "-reverse", "1")
# Options that are none, and those that come twice, without a value or behind `--`.
BROKEN = (
    ["--workers"], ["--order"], ["--workers", "--order", "declared"], ["--workers="], ["--order="], ["--workers", "2", "--workers", "2"],
    ["--workers=2", "--workers=2"], ["--workers=2", "--workers", "3"], ["--order", "declared", "--order=declared"],
    ["--order=reverse", "--order", "declared"], ["--worker", "2"], ["--Workers", "2"], ["--workers2"], ["-workers", "2"], ["-w", "2"], ["-w2"],
    ["--orders=declared"], ["--threads", "2"], ["--workers:2"], ["--workers", "2", "-x"], ["--", "--workers", "2"], ["--", "--workers=2"],
    ["--", "--order=reverse"],
)
WITHOUT_OPTIONS = (["init"], ["resume"], ["windows"], ["table", "hub_customer"], ["mart", "feed:customers", orders.DATES[0]],
                   ["snapshot", orders.DATES[0]], ["pit", "customer", orders.DATES[0]], ["bridge", "sold", orders.DATES[0]])


def broken_options():
    """Words that are usage, because of an option."""
    forms = [form for number in NO_NUMBERS for form in (["--workers", number], [f"--workers={number}"])]
    forms += [form for order in NO_ORDERS for form in (["--order", order], [f"--order={order}"])]
    for words in (["load", "w2.toml"], ["exercise", "4"]):
        yield from ([*words, *form] for form in (*forms, *BROKEN))
        yield from ([words[0], *form, words[1]] for form in forms)
    tried = ["try", "feed:customers", orders.DATES[0], "w1.toml"]
    yield from ([*tried, *form] for form in forms[:4])
    yield from ([*tried[:at], "--workers=0", *tried[at:]] for at in range(2, 5))
    yield ["try", "--workers", "2", *tried[1:3]]
    yield ["--workers", "2", "load", "w2.toml"]
    for words in WITHOUT_OPTIONS:
        yield from ([*words, *form] for form in (["--workers", "2"], ["--order=declared"]))
    for form in (["--workers"], ["--workers", "2", "--workers", "2"], ["--workers=2", "--workers=2"], ["--order", "declared"],
                 ["--order=reverse"], ["--", "--workers", "2"], ["--workers", "2", "8080"]):
        yield ["serve", "8080", *form]
    yield from (["serve", "8080", *form] for form in forms[:2 * len(NO_NUMBERS)])
    yield from (["serve", "--workers", "2", "8080"], ["serve", "--workers=2", "8080"], ["serve", "--workers=2"])


def options_that_are_none(bench):
    """options that are broken, come twice, have no value or are another command's are usage, and leave the store as it is"""
    vault = orders.kept(bench, 1)
    before = vault.store_bytes()
    for words in broken_options():
        vault.says(*words, **USAGE)
    expect("the store after options that are none", before, vault.store_bytes())


def words_like_options(bench):
    """behind the first -- a word that looks like an option is a manifest"""
    vault = orders.kept(bench, 1)
    for name, manifest in (("--workers=2", "w2.toml"), ("--order", "w3.toml")):
        vault.write(name, vault.file(manifest).read_text())
        line = orders.line_of(manifest).replace(manifest, name)
        vault.says("load", "--workers=2", "--", name, err=line)
        vault.says("load", "--", name, err=f"{name}: Repeated")
    vault.says("load", "--workers", "2", "--", "--workers=9", status=4, err="vaultdesk: absent --workers=9")
    vault.says("windows", out=orders.windows_text(3))


def generated_loads(bench):
    """exercise writes the counts of the generated load for each number of workers and both orders, and leaves no file"""
    vault = bench.empty()
    for number in (1, 2, 3, 4, 7, 50, 1000):
        for options in ([], ["--workers", "1"], ["--workers=64", "--order", "reverse"], ["--order=reverse", "--"]):
            vault.says("exercise", *options, str(number), out=generated_counts(number))
    for words in ([], ["0"], ["04"], ["+4"], ["50001"], ["-4"], ["--", "-4"], ["4", "4"], ["four"], [""]):
        vault.says("exercise", *words, **USAGE)
    expect("files that exercise left", [], sorted(path.name for path in vault.folder.iterdir()))


def added_by(windows):
    """Of a feed's windows, each a dict of attributes by keys: the rows of its satellite and of its status table."""
    last, present, satellite, status = {}, set(), 0, 0
    for window in windows:
        satellite += sum(last.get(key) != value for key, value in window.items())
        status += len(present ^ set(window))
        last.update(window)
        present = set(window)
    return satellite, status


def generated_counts(number):
    """What `exercise` writes, by the format of the generated load."""
    left = [{i: (i + j // 2) % 3 for i in range(number) if (i + j) % 4} for j in range(4)]
    right = [{i: i % 5 for i in range(0, number, 2)} for _ in range(2)]
    keys = len(set().union(*left, *right))
    counts = [keys, *added_by(left), *added_by(right)]
    named = zip(("hub_item", "sat_left", "status_left", "sat_right", "status_right"), counts)
    lines = [("windows", 4), ("rows", sum(counts)), *named, ("feed:left", len(left[-1])), ("feed:right", len(right[-1]))]
    return "".join(f"{name} {count}\n" for name, count in lines)


def complete(made, vault, state, options, by_resume):
    """Brings the second window to its end, and holds what is said against the unbroken run."""
    if state == "open" and by_resume:
        vault.says("resume", err=f"resume: Loaded {made.added[1]}")
    else:
        said = "Repeated" if state == "sealed" else f"Loaded {made.added[1]}"
        vault.says("load", *options, "w2.toml", err=f"w2.toml: {said}")


def killed_loads(bench):
    """a load with 4 workers that is killed, at 20 sizes of its files and at some moments, leaves its window absent, open or
    sealed; resume or the same load makes the vault that of an unbroken load, and the next window is loaded"""
    made = history.make(bench, shared())
    unbroken = made.after_first.twin()
    unbroken.loaded("w2.toml")
    second = contents(unbroken)
    unbroken.loaded("w3.toml")
    third = contents(unbroken)
    words = ("load", "--workers", "4", "w2.toml")
    states = {breaks.killed_by_size: collections.Counter(), breaks.killed_by_time: collections.Counter()}
    moments = breaks.moments(made.after_first, made.seconds, KILLS_BY_TIME, KILLS_BY_SIZE, *words)
    for at, (kill, moment) in enumerate(moments):
        vault = made.after_first.twin()
        options = ["--workers", "4", "--order", ORDERS[at % 2]]
        kill(vault, moment, "load", *options, "w2.toml")
        history.is_in_order(made, vault)
        state = history.state_after_break(made, vault)
        complete(made, vault, state, options, by_resume=states[kill][state] % 2 == 0)
        states[kill][state] += 1
        expect(f"all that SQLite finds after a break that left the window {state}", second, contents(vault))
        vault.says("load", *options, "w3.toml", err=f"w3.toml: Loaded {made.added[2]}")
        expect("all that SQLite finds after the next window", third, contents(vault))
        with opened_copy(vault) as connection:
            is_whole(connection)
        bench.drop(vault)
    for state in ("absent", "open"):
        is_enough = states[breaks.killed_by_size][state] >= LEAST
        expect(f"whether {LEAST} kills at a size at least left the window {state}", True, is_enough)


CHECKS = (each_number_and_order, tried_with_each_number, windows_just_large_enough, desks_with_workers, threads_that_are_made,
          threads_that_are_refused, options_that_are_none, words_like_options, generated_loads, killed_loads)
