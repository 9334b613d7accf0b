"""Checks of commands that are killed: where they write past a certain byte, and after a while.

A command writes its log from 0 on, or behind what a killed one left, and puts it into the file at the end. So a limit to the
size of files kills at a certain place of a command, however fast the machine is. Where a kill after a while comes, nobody can
say, and no check asks.
"""
import collections
import signal
import time

from kept import history
from kept.program import CheckFailed, expect, killed_past
from kept.stores import is_whole, opened_copy

KILLS_BY_TIME = 40
KILLS_BY_SIZE = 60
LEAST = 10
PAGE = 4096


def killed_by_time(vault, seconds, *words):
    """Kills a command after a while. One that has ended by then is not killed."""
    process = vault.begin(*words)
    time.sleep(seconds)
    process.kill()
    process.wait()


def killed_by_size(vault, size, *words):
    """Has a command killed as it writes a file past so many bytes."""
    expect(f"how {' '.join(words)} ends that may write {size} bytes", -signal.SIGXFSZ, end_by_size(vault, size, *words))


def end_by_size(vault, size, *words):
    """The exit status of a command that is killed where it writes a file past so many bytes."""
    return vault.run(*words, limits=killed_past(size)).status


def last_size(vault, *words):
    """How many bytes of a file a command may write and is killed all the same, by few more it would not be. The vault stays
    as it is."""

    def is_killed(size):
        tried = vault.twin()
        status = end_by_size(tried, size, *words)
        vault.bench.drop(tried)
        return status == -signal.SIGXFSZ

    killed, ended = 0, PAGE
    while is_killed(ended):
        killed, ended = ended, 2 * ended
    while ended - killed > PAGE // 8:
        middle = (killed + ended) // 2
        killed, ended = (middle, ended) if is_killed(middle) else (killed, middle)
    return killed


def spread(first, last, count):
    """Values from one to another, so many."""
    return [first + (last - first) * n / max(1, count - 1) for n in range(count)]


def sizes(vault, count, *words):
    """Sizes of files at which a command is killed, so many: from where the log ends now to the last ones. The vault stays as
    it is."""
    return [round(size) for size in spread(log_size(vault), last_size(vault, *words), count)]


def log_size(vault):
    log = vault.file("vault.db-wal")
    return log.stat().st_size if log.exists() else 0


def moments(vault, seconds, by_time, by_size, *words):
    """What kills a command, which takes so long: some kills after a while, and some at a size. The vault stays as it is."""
    for after in spread(0, 1.1 * seconds, by_time):
        yield killed_by_time, after
    for size in sizes(vault, by_size, *words):
        yield killed_by_size, size


def broken_and_completed(made, kill, moment, by_resume):
    """Kills the load of the second window, completes it, and goes on; the state in which the kill left it."""
    vault = made.after_first.twin()
    kill(vault, moment, "load", "w2.toml")
    history.is_in_order(made, vault)
    state = history.state_after_break(made, vault)
    history.complete(made, vault, state, by_resume)
    history.goes_on_as_unbroken(made, vault)
    vault.bench.drop(vault)
    return state


def killed_loads(bench):
    """a load that is killed, at a hundred moments, leaves its window absent, open or sealed, and ends as unbroken"""
    made = history.make(bench)
    counts = {killed_by_time: collections.Counter(), killed_by_size: collections.Counter()}
    for kill, moment in moments(made.after_first, made.seconds, KILLS_BY_TIME, KILLS_BY_SIZE, "load", "w2.toml"):
        by_resume = counts[kill]["open"] % 2 == 0
        counts[kill][broken_and_completed(made, kill, moment, by_resume)] += 1
    for kill, name in ((killed_by_time, "after a while"), (killed_by_size, "at a size")):
        states = counts[kill]
        print(f"kept checks: {states.total()} kills of a load {name}: {states['absent']} before its window was open, "
              f"{states['open']} while it was, {states['sealed']} after", flush=True)
    for state in ("absent", "open"):
        is_enough = counts[killed_by_size][state] >= LEAST
        expect(f"whether {LEAST} kills at a size at least left the window {state}", True, is_enough)


def an_open_window(made):
    """A vault whose second window a kill left open, with some of its rows, and which no command has opened since."""
    for size in sizes(made.after_first, KILLS_BY_SIZE, "load", "w2.toml"):
        vault = made.after_first.twin()
        killed_by_size(vault, size, "load", "w2.toml")
        opened = vault.twin()
        state = history.state_after_break(made, opened)
        vault.bench.drop(opened)
        if state == "open":
            return vault
        vault.bench.drop(vault)
    raise CheckFailed("kills of a load at a size\n    expected: one leaves the window open\n    got:      none did")


def killed_resumes(bench):
    """a resume that is killed, at twenty moments, is completed by another"""
    made = history.make(bench)
    with_open = an_open_window(made)
    for at, (kill, moment) in enumerate(moments(with_open, made.seconds, 10, 10, "resume")):
        vault = with_open.twin()
        kill(vault, moment, "resume")
        history.is_in_order(made, vault)
        state = history.state_after_break(made, vault)
        history.complete(made, vault, state, by_resume=at % 2 == 0)
        history.goes_on_as_unbroken(made, vault)
        bench.drop(vault)


def killed_inits(bench):
    """an init that is killed, at twenty moments, has stored the mapping or not, and the next one says which"""
    # A kill may leave the file half made, which SQLite itself calls no database. The next command makes the rest.
    inputs = history.inputs(bench)
    unbroken = inputs.twin()
    begun = time.perf_counter()
    unbroken.says("init", err="init: Stored")
    for kill, moment in moments(inputs, time.perf_counter() - begun, 10, 10, "init"):
        vault = inputs.twin()
        kill(vault, moment, "init")
        is_stored = vault.run("windows").status == 0
        with opened_copy(vault) as connection:
            is_whole(connection)
        vault.says("init", err="init: Kept" if is_stored else "init: Stored")
        vault.says("windows", out=history.HEADER)
        bench.drop(vault)


CHECKS = (killed_loads, killed_resumes, killed_inits)
