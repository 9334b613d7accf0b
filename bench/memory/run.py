#!/usr/bin/env python3
"""Refuses the program memory: each request of a command in turn, once, over some small histories.

Usage: python3 bench/memory/run.py [--program FILE] [--history NAME [--command N [--nth N[-M]]]] [--every K] [--lasting]
                                   [--workers N [--order ORDER]] [--minutes N]

FILE, or what the environment's VAULTDESK names, is a built vaultdesk; where none is named, the script vaultdesk builds the
repository's. Each command has to end with status 7 and the line `vaultdesk: out of memory`, or as it does where nothing is
refused; and then the same command, and `resume` where a window may be open, has to complete the vault, whose tables and
marts are those of a run without a refusal. Prints a row for each command, and what went wrong with the words that repeat
it; the exit status is 1 where something did. Where no compiler of C is there, all is left out.
"""
import argparse
import itertools
import os
import pathlib
import sys
import tempfile
import time
from typing import NamedTuple

TOP = pathlib.Path(__file__).resolve().parent.parent.parent
for each in (TOP / "bench", TOP / ".ci"):
    sys.path.insert(0, str(each))
sys.dont_write_bytecode = True
from histories import HISTORIES  # noqa: E402
from kept.program import CheckFailed  # noqa: E402
from kept.vaults import Bench  # noqa: E402
from refusing import Refusing, built_library  # noqa: E402
from runs import built_program, head, row  # noqa: E402
from trials import MEMORY, OTHER, OWN, Trial  # noqa: E402

# A command waits for the disk several times, of which nothing is asked here.
IN_MEMORY = pathlib.Path("/dev/shm")
SHOWN = 40  # what went wrong, at most
MOST_WORKERS = 64
COLUMNS = ["history", "command", "requests", "refused", "status 7", "as without", "other", "stores left", "seconds"]


class Wrong(NamedTuple):
    """What went wrong, and the first and the last request of those that were refused one after another so."""

    what: str
    first: int
    last: int


def tried(given, trial):
    """What comes of the requests that are refused one after another: one alone, and each of several workers, whose threads a
    copy has not, in a process of its own; and else each in a copy of one process."""
    first, last = given.nth or (1, trial.asked)
    numbers = range(first, last + 1, given.every)
    if given.workers or first == last:
        return itertools.chain.from_iterable(map(trial.one, numbers))
    return trial.each(numbers)


def told(answer):
    """An answer as a line shows it."""
    said = answer.err.decode(errors="replace").rstrip("\n").replace("\n", " / ")
    return f"status {answer.status}, {said!r}" + (f", {len(answer.out)} bytes of text" if answer.out else "")


def try_all(trial, given, ends):
    """Refuses each request: how often the command ended how, what went wrong, and where time was up, or none."""
    counts, wrong, number = dict.fromkeys((MEMORY, OWN, OTHER), 0), [], 0
    try:
        for number, how, answer, fault in tried(given, trial):
            counts[how] += 1
            for what in (told(answer) if how == OTHER else None, fault):
                if what:
                    note(wrong, what, number, given.every)
            if time.monotonic() > ends:
                return counts, wrong, number + given.every
    except CheckFailed as found:
        note(wrong, str(found), number, given.every)
    return counts, wrong, None


def note(wrong, what, number, step):
    """Adds what went wrong, or makes the last entry longer."""
    if wrong and wrong[-1].what == what and wrong[-1].last + step == number:
        wrong[-1] = wrong[-1]._replace(last=number)
    else:
        wrong.append(Wrong(what, number, number))


def options_of(given):
    """The words by which workers are asked for; none where none are."""
    return f"--workers {given.workers} --order {given.order}" if given.workers else ""


def history_of(name, given):
    """A history, of which the windows are loaded by workers where some are asked for."""
    return HISTORIES[name].by(options_of(given)) if given.workers else HISTORIES[name]


def show_trial(name, number, given, made, refusing, ends):
    """Tries a command, and prints its row; what went wrong, and whether time was up."""
    begun = time.monotonic()
    trial = Trial(made, refusing, history_of(name, given), number, given.lasting)
    if not trial.asked:
        raise SystemExit("the program asks the C library for no memory: nothing can be refused it so")
    counts, wrong, left = try_all(trial, given, ends)
    stores = len({key for key, _ in trial.faults})
    row([name, f"{number} `{trial.step.words}`", f"{trial.asked:,}", f"{sum(counts.values()):,}",
         *(f"{count:,}" for count in counts.values()), str(stores), f"{time.monotonic() - begun:.0f}"])
    sys.stdout.flush()
    made.drop(trial.vault, trial.after)
    again = " ".join(filter(None, [f"--history {name} --command {number}", options_of(given), "--lasting" * given.lasting, "--nth"]))
    found = [f"{each.what}\n  at {each.first} to {each.last}; repeat the first: {again} {each.first}" for each in wrong]
    if left is not None and left <= trial.asked:
        found.append(f"time was up: go on by {again} {left}-{trial.asked}")
    return found, left is not None


def chosen(given):
    """The histories and their commands that are tried: where workers are asked for, those that have them."""
    for name in [given.history] if given.history else HISTORIES:
        for number, step in enumerate(HISTORIES[name].steps, 1):
            if given.command in (None, number) and (step.has_workers() or not given.workers):
                yield name, number


def span(text):
    first, _, last = text.partition("-")
    return int(first), int(last or first)


def arguments():
    parser = argparse.ArgumentParser(description=__doc__, formatter_class=argparse.RawDescriptionHelpFormatter)
    parser.add_argument("--program", type=pathlib.Path, default=os.environ.get("VAULTDESK"))
    parser.add_argument("--history", choices=HISTORIES, help="this one alone")
    parser.add_argument("--command", type=int, help="this command of it alone, from 1 on")
    parser.add_argument("--nth", type=span, help="this request of it alone, or those from one to another")
    parser.add_argument("--every", type=int, default=1, help="each K-th request alone")
    parser.add_argument("--lasting", action="store_true", help="all requests behind a refused one are refused too")
    parser.add_argument("--workers", type=int, help="windows are loaded by so many, and their commands alone are tried")
    parser.add_argument("--order", choices=("declared", "reverse"), default="declared", help="that in which they begin tasks")
    parser.add_argument("--minutes", type=float, default=600, help="at most so long")
    given = parser.parse_args()
    if given.command and not given.history or given.nth and not given.command or given.every < 1:
        parser.error("a command needs a history, and a request needs both; --every is 1 at least")
    if given.workers is not None and not 1 <= given.workers <= MOST_WORKERS:
        parser.error(f"--workers is 1 to {MOST_WORKERS}")
    if given.command and not 1 <= given.command <= len(HISTORIES[given.history].steps):
        parser.error(f"{given.history} has commands from 1 to {len(HISTORIES[given.history].steps)}")
    return given


def main():
    given = arguments()
    program = pathlib.Path(given.program).resolve() if given.program else built_program()
    ends, wrong, is_up = time.monotonic() + given.minutes * 60, [], False
    with tempfile.TemporaryDirectory(dir=IN_MEMORY if IN_MEMORY.is_dir() else None) as folder:
        folder = pathlib.Path(folder)
        library = built_library(folder)
        if library is None:
            return print("refused memory: left out, since no compiler of C is here")
        refusing, made = Refusing(library, folder), Bench(program, folder)
        head(COLUMNS)
        for name, number in chosen(given):
            if not is_up:
                found, is_up = show_trial(name, number, given, made, refusing, ends)
                wrong += found
    for each in wrong[:SHOWN]:
        print(f"\n{each}")
    if wrong:
        raise SystemExit(f"\nrefused memory: {len(wrong)} things are wrong")
    print("\nrefused memory: all as it has to be")


main()
