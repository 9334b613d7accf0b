"""Checks of other processes that hold the file."""
import contextlib
import os
import sqlite3
import time

from kept import history, orders
from kept.commands import EVERY_COMMAND
from kept.orders import DATES
from kept.program import KEEPER_FAULT, LONGEST_RUN, expect
from kept.readmes import block
from kept.stores import opened

# The system call and the first argument of a process that writes its standard error, as /proc shows them.
WRITE, STANDARD_ERROR = "1", "0x2"


def held_by_sqlite(bench):
    """while another process holds the file each command is a keeper fault, nothing is lost, and all goes on after"""
    vault = orders.kept(bench, 1)
    before = orders.texts(vault)
    with opened(vault.file("vault.db")) as connection:
        connection.execute("BEGIN EXCLUSIVE")
        for words in EVERY_COMMAND + (("load", "w2.toml"),):
            vault.says(*words, **KEEPER_FAULT)
        tried = ("try", "feed:customers", DATES[1], "w1.toml", "w2.toml")
        lines = "\n".join(map(orders.line_of, tried[3:]))
        vault.says(*tried, out=block("orders", "CUST_NO,NAME,CITY"), err=lines)
        connection.execute("ROLLBACK")
    expect("all texts after the file was held", before, orders.texts(vault))
    vault.says("load", "w2.toml", err=orders.line_of("w2.toml"))
    vault.says("windows", out=orders.windows_text(2))


def held_by_a_reader(bench):
    """while SQLite reads the file a command answers as ever or is a keeper fault, and nothing is lost"""
    vault = orders.kept(bench, 1)
    with opened(vault.file("vault.db")) as connection:
        connection.execute("BEGIN")
        connection.execute("SELECT count(*) FROM rows_of_hub_0").fetchone()
        got = vault.run("load", "w2.toml")
        answers = {0: f"{orders.line_of('w2.toml')}\n", 5: f"{KEEPER_FAULT['err']}\n"}
        expect("load while SQLite reads: its line", answers.get(got.status), got.err.decode())
        connection.execute("ROLLBACK")
    vault.says("load", "w2.toml", err="w2.toml: Repeated" if got.status == 0 else orders.line_of("w2.toml"))
    expect("all texts after a reader", orders.texts(orders.kept(bench, 2)), orders.texts(vault))


def full_pipe():
    """A pipe that takes no more bytes: where it is read, and where it is written."""
    read, written = os.pipe()
    os.set_blocking(written, False)
    with contextlib.suppress(BlockingIOError):
        while os.write(written, bytes(4096)):
            pass
    os.set_blocking(written, True)
    return open(read, "rb"), written


def await_write(process):
    """Waits until a process waits to write its standard error."""
    ended = time.monotonic() + LONGEST_RUN
    while process.poll() is None and time.monotonic() < ended:
        with contextlib.suppress(OSError), open(f"/proc/{process.pid}/syscall") as call:
            if call.read().split()[:2] == [WRITE, STANDARD_ERROR]:
                return
        time.sleep(0.01)
    expect("whether the load waits to write its line", True, False)


def holding_load(made):
    """A vault of the history, and a load of its second window that holds the file, since nobody reads its line: the
    process, and where the line is read."""
    vault = made.after_first.twin()
    lines, written = full_pipe()
    process = vault.begin("load", "w2.toml", err_to=written)
    os.close(written)
    await_write(process)
    return vault, process, lines


def refusal_of_sqlite(vault):
    """Why SQLite does not read the store; none where it does."""
    try:
        with opened(vault.file("vault.db")) as connection:
            connection.execute("SELECT count(*) FROM windows").fetchone()
    except sqlite3.OperationalError as refusal:
        return str(refusal)
    return None


def held_by_a_load(bench):
    """while a load holds the file each other command is a keeper fault, and the load ends as if alone"""
    made = history.make(bench)
    vault, process, lines = holding_load(made)
    for words in EVERY_COMMAND + (("load", "w2.toml"), ("load", "w3.toml")):
        vault.says(*words, **KEEPER_FAULT)
    expect("what SQLite says while a load holds the file", "database is locked", refusal_of_sqlite(vault))
    with lines:
        err = lines.read().lstrip(b"\0")
    status = process.wait(timeout=LONGEST_RUN)
    expect("the load that waited", (0, f"w2.toml: Loaded {made.added[1]}\n".encode()), (status, err))
    history.goes_on_as_unbroken(made, vault)


CHECKS = (held_by_sqlite, held_by_a_reader, held_by_a_load)
