"""Posts windows of ten records into one vault, up to as many as it may have, and times them."""
import itertools
import json
import pathlib
import time
from typing import NamedTuple

from asked import load_of
from asking import Link
from kept.desks import loaded, post, refused, serving, window
from kept.program import CheckFailed, expect
from runs import head, row

MAPPING = """
hub = [{ name = "customer", parts = 1 }]
feed = [{ name = "customers", source = "crm", hub = "customer", keys = [["CUST_NO"]], attrs = ["NAME"] }]
"""
RECORDS, NEW = 10, 5  # of a window: its records, and those of new customers
SPAN = 100  # windows whose seconds are compared
TIMES = 1.3  # how much longer the last of them may take than the second ones
MOST = 10_000  # windows of a vault
REQUESTS = 1_000  # of a connection


class Spent(NamedTuple):
    """What the windows from one to another took: seconds, and seconds of a processor by the desk."""

    first: int
    last: int
    seconds: float
    processor: float
    memory: int
    size: int


def small_window(number):
    """The n-th window: half of its customers are new, and one of the others has another name. So behind the first one
    each adds a row of the hub and one of the satellite for each new customer, one for the other name, and two of the
    status table for each new one and each that is gone."""
    customers = range(number * NEW, number * NEW + RECORDS)
    records = "".join(f"C{at:08d},name {number if at == number * NEW else 0}\n" for at in customers)
    return window(load_of(number), [("customers", f"CUST_NO,NAME\n{records}")])


def rows_of(number):
    """How many rows the n-th window adds."""
    return 3 * RECORDS if number == 0 else 4 * NEW + 1


def processor_of(desk):
    """The seconds of a processor that a desk took so far."""
    return int(pathlib.Path(f"/proc/{desk.process.pid}/schedstat").read_text().split()[0]) / 1e9


def post_all(desk, vault, count):
    """Posts so many windows; what each hundred of them took, and the one that is not whole at the end."""
    link, numbers = None, iter(range(count))
    while part := list(itertools.islice(numbers, SPAN)):
        if link is None or part[0] % REQUESTS == 0:
            link = Link(desk)
        requests = [(post(small_window(number)), loaded(rows_of(number)).bytes()) for number in part]
        begun, before = time.perf_counter(), processor_of(desk)
        replies = [link.reply(sent) for sent, _ in requests]
        seconds, after = time.perf_counter() - begun, processor_of(desk)
        for (_, expected), reply in zip(requests, replies):
            expect("the reply to a new window", expected, reply)
        if (part[-1] + 1) % REQUESTS == 0 or part[-1] + 1 == count:
            link.close()
        yield Spent(part[0] + 1, part[-1] + 1, seconds, after - before, desk.status_of("VmRSS"), vault.store_size())


def show(spent):
    """A row for what some windows took."""
    count = spent.last - spent.first + 1
    row([f"{spent.first:,} to {spent.last:,}", f"{spent.seconds:.2f}", f"{spent.seconds / count * 1e3:.2f}",
         f"{spent.processor / count * 1e3:.2f}", f"{spent.memory * 1024 / 1e6:.1f}", f"{spent.size / 1e6:.1f}"])


def what_is_there(desk, count):
    """Fails where the list has not each window, or where a full vault takes one more."""
    link = Link(desk)
    listed = link.reply(b"GET /windows HTTP/1.1\r\n\r\n").partition(b"\r\n\r\n")[2]
    link.close()
    loads = [each["load"] for each in json.loads(listed)["windows"]]
    expect("the load dates of all windows", [load_of(number) for number in range(count)], loads)
    if count == MOST:
        told = desk.told(post(small_window(count)))
        weight = told.partition(b"weight=")[2].partition(b" ")[0].decode()
        expect("one window more", refused(422, f"W21 VaultFull weight={weight} windows={MOST}").bytes(), told)


def run(bench, count):
    """Posts so many windows, and prints what they took. What is wrong with it."""
    vault = bench.empty()
    vault.write("mapping.toml", MAPPING)
    vault.says("init", err="init: Stored")
    head(["windows", "seconds", "ms a window", "ms of a processor a window", "MB of memory", "MB of files"])
    with serving(vault) as desk:
        hundreds = []
        for spent in post_all(desk, vault, count):
            hundreds.append(spent)
            if spent.last in (SPAN, 2 * SPAN, count) or spent.last % REQUESTS == 0:
                show(spent)
        what_is_there(desk, count)
    begun = time.perf_counter()
    listed = vault.text("windows")
    print(f"\nthe command `windows` over that vault: {time.perf_counter() - begun:.2f} seconds")
    expect("windows that it lists", count, listed.count(b"\n") - 1)
    return judged(hundreds)


def judged(hundreds):
    """Compares the last hundred windows with the second one; what is wrong with them."""
    second, last = hundreds[1], hundreds[-1]
    if last.last - last.first + 1 != SPAN or last == second:
        raise CheckFailed(f"{last.last} windows: take some hundreds, and {3 * SPAN} at least")
    times, processor = last.seconds / second.seconds, last.processor / second.processor
    print(f"the last {SPAN} windows took {times:.2f} times the seconds of the second {SPAN}, and {processor:.2f} times those of "
          "a processor")
    return [f"the last windows took {times:.2f} times the seconds, and {TIMES} are allowed"] if times > TIMES else []
