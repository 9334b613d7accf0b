"""Asks a desk for a while, of which its vault grows in the beginning alone, and looks at its memory and open files."""
import concurrent.futures
import random
import statistics
import time
from typing import NamedTuple

from asked import Asked, asked_of, load_of, new_window, texts
from clients import Clients
from kept import history
from kept.desks import serving, text
from kept.program import CheckFailed, expect
from runs import head, row

THREADS = 4
GROWING = 60  # seconds at most
LEAST_WINDOWS, MOST_WINDOWS = 3, 60
MOST_VISITS = 10_000_000
EVERY = 1  # seconds from one look at the desk to the next
FEW = 60  # looks at either end, whose middle is compared
LEAST_LOOKS = 4
GROWTH = 1024  # kB by which the memory may grow
LONG = 1_000_000  # bytes of a connection that is long
# How often, of a hundred visits: one that is cut off, a loaded window again, and what is long.
CUTS, AGAIN, LONG_ONES = 15, 10, 1


class Sample(NamedTuple):
    """What the desk has, at a second since the run began."""

    second: float
    memory: int
    files: int


def grow(clients, posted, ends):
    """Posts new windows, as long as time is, and asks for others between them. How many rows each added."""
    source, rows = history.Source(seed=11), []
    while len(rows) < MOST_WINDOWS and not clients.is_over.is_set() and (len(rows) < LEAST_WINDOWS or time.monotonic() < ends):
        sent = new_window(source, len(rows))
        told = clients.ask(Asked("new window", sent, (200,), b'"Loaded"'), is_settled=False)
        rows.append(int(told.rpartition(b":")[2].rstrip(b"}")))
        posted.append(Asked("window again", sent, (200,), b'"Repeated"'))
    return rows


def ask_while_growing(clients, given, posted, seed):
    """What a client does meanwhile, once there is a window: it asks for what changes, and for what doesn't."""
    pick = random.Random(seed)
    for _ in range(MOST_VISITS):
        if clients.is_over.is_set():
            return
        if posted:
            clients.ask(pick.choice(given), is_settled=False)
        else:
            time.sleep(0.01)


def ask_on(clients, given, posted, ends, seed):
    """What a client does from then on: visits of all kinds."""
    pick = random.Random(seed)
    short = [each for each in given if len(each.sent) < LONG]
    long = [each for each in given if len(each.sent) >= LONG]
    for _ in range(MOST_VISITS):
        if time.monotonic() > ends or clients.is_over.is_set():
            return
        number = pick.randrange(100)
        if number < CUTS:
            asked = pick.choice(short + posted)
            clients.cut(asked, pick.randint(0, len(asked.sent)), pick.random() < 0.5)
        else:
            of = posted if number < CUTS + AGAIN else long if number < CUTS + AGAIN + LONG_ONES else short
            clients.ask(pick.choice(of))


def samples_until(clients, ends):
    """Looks at the desk a second after the last look, so long."""
    begun = time.monotonic()
    while time.monotonic() + EVERY < ends and not clients.is_over.is_set():
        time.sleep(EVERY)
        yield Sample(time.monotonic() - begun, *clients.sample())


def guarded(clients, task, *given):
    """What a client does; where it fails, all is over for the others too."""
    try:
        task(clients, *given)
    except BaseException:
        clients.is_over.set()
        raise


def side_by_side(clients, tasks, looking):
    """Runs tasks in threads of their own, and something here meanwhile, whose result it gives; fails where one failed."""
    clients.is_over.clear()
    with concurrent.futures.ThreadPoolExecutor(THREADS) as pool:
        done = [pool.submit(guarded, clients, *task) for task in tasks]
        try:
            found = looking()
        finally:
            clients.is_over.set()
        for each in done:
            each.result()
    return found


def growing(clients, posted, seconds):
    """The beginning: the vault grows, and clients ask meanwhile; then each visit comes once. What is asked from then on,
    and the rows of each window."""
    ends = time.monotonic() + seconds
    short = [each for each in asked_of(1) if len(each.sent) < LONG]
    tasks = [(ask_while_growing, short, posted, seed) for seed in range(1, THREADS)]
    rows = side_by_side(clients, tasks, lambda: grow(clients, posted, ends))
    given = asked_of(len(posted))
    for asked in [*given, *posted]:
        clients.ask(asked)
        clients.cut(asked, len(asked.sent) // 2, by_reset=False)
        clients.cut(asked, len(asked.sent), by_reset=True)
    return given, rows


def run(bench, minutes):
    """Serves a vault for so many minutes, and prints what was seen. What is wrong with it."""
    vault = bench.empty()
    vault.write("mapping.toml", history.MAPPING)
    vault.says("init", err="init: Stored")
    begun, seconds = time.monotonic(), minutes * 60
    with serving(vault) as desk:
        clients, posted = Clients(desk), []
        given, rows = growing(clients, posted, min(GROWING, seconds / 3) * 5 / 6)
        grown, ends = time.monotonic() - begun, max(begun + seconds, time.monotonic() + seconds / 3)
        tasks = [(ask_on, given, posted, ends, THREADS + seed) for seed in range(THREADS)]
        found = side_by_side(clients, tasks, lambda: list(samples_until(clients, ends)))
        taken = time.monotonic() - begun
        told = {words: clients.ask(Asked(words[0], sent, (200,))) for words, sent in texts(len(posted))}
        processor, size = desk.work()[1], vault.store_size()
    show_visits(clients)
    print(f"\n{taken:.0f} seconds, of which the desk took {processor:.0f} of a processor; in the first {grown:.0f} the vault "
          f"grew to {len(rows)} windows of {sum(rows):,} rows, {size / 1e6:.1f} MB of files")
    compare_with_commands(vault, told, rows)
    return judged(found)


def compare_with_commands(vault, told, rows):
    """Fails where a text of the desk is not that of the command, or where the tables have not the rows that it said."""
    count = 0
    for words, reply in told.items():
        if words[0] != "windows":
            said = vault.text(*words)
            expect(f"what the desk said of {' '.join(words)}", text(said).bytes(), reply)
            count += said.count(b"\n") - 1 if words[0] == "table" else 0
    expect("rows of all tables, of those that the desk said it loaded", sum(rows), count)
    expect("the last window", True, load_of(len(rows) - 1) in vault.text("windows").decode().splitlines()[-1])


def show_visits(clients):
    """A row for each kind of visit: how many there were, and the statuses of their replies."""
    head(["kind", "visits", "replies by status"])
    for kind, count in sorted(clients.counts.items()):
        statuses = ", ".join(f"{status}: {number:,}" for status, number in sorted(clients.statuses[kind].items()))
        row([kind, f"{count:,}", statuses])
    print(f"\n{clients.counts.total():,} visits, each of whose replies had the status that was asked for")


def judged(found):
    """Prints what was seen of memory and open files, and gives what is wrong with it."""
    if len(found) < LEAST_LOOKS:
        raise CheckFailed(f"{len(found)} looks at the desk are too few: take more minutes")
    few = min(FEW, len(found) // 2)
    first, last = (statistics.median(each.memory for each in part) for part in (found[:few], found[-few:]))
    slope = statistics.linear_regression([each.second for each in found], [each.memory for each in found]).slope
    length, memory = found[-1].second - found[0].second, [each.memory for each in found]
    files = sorted({each.files for each in found})
    print(f"{len(found)} looks in {length:.0f} seconds, once the vault was grown: memory {first:.0f} kB in the beginning, "
          f"{last:.0f} kB at the end, from {min(memory)} to {max(memory)} kB; its trend is {slope * 60:+.2f} kB a minute, "
          f"{slope * length:+.0f} kB in all; open files: {', '.join(map(str, files))}")
    wrong = []
    if last - first > GROWTH:
        wrong.append(f"the memory grew by {last - first:.0f} kB, and {GROWTH} are allowed")
    if len(files) > 1:
        wrong.append(f"the number of open files was not always the same: {files}")
    return wrong
