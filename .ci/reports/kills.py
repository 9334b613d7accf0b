"""Checks that a run that is killed at any of its steps leaves the report as it was or whole, and that the same run again
does all."""
import pathlib
import signal
import subprocess
import sys

from kept.program import Answer, all_end, expect
from reports.bench import LONGEST_RUN
from reports.refused import contents

KILL_AT = pathlib.Path(__file__).resolve().parent / "kill_at.py"
FEW = 4
BEFORE, AFTER = "2024-03-01T02:00:00", "2024-04-01T02:00:00"


def killed(vault, step, words):
    """Runs the tool, and kills it at a step. Its desk ends with it."""
    process = subprocess.Popen([sys.executable, str(KILL_AT), str(step), *words], cwd=vault.folder, stdin=subprocess.DEVNULL,
                               stdout=subprocess.PIPE, stderr=subprocess.PIPE, start_new_session=True)
    out, err = process.communicate(timeout=LONGEST_RUN)
    all_end(process.pid)
    return Answer(process.returncode, out, err)


def steps_of(bench, vault, words):
    """At which steps a run is killed: at a few from the first to the last, or at the first and the last of each place in the
    code."""
    count, *placed = map(int, killed(vault, 0, words).err.split())
    return placed if bench.is_all else sorted({1 + at * (count - 1) // (FEW - 1) for at in range(FEW)})


def kill_each(bench, vault, target, words, old):
    """Kills runs at steps. `old` puts the report back that was there, and gives its contents."""
    old()
    steps = steps_of(bench, vault, words)
    whole = contents(target)
    for step in steps:
        before = old()
        expect(f"status of a run that is killed at step {step}", -signal.SIGKILL, killed(vault, step, words).status)
        if contents(target) not in (before, whole):
            expect(f"the report after a kill at step {step}", before, contents(target))
        bench.done(vault, *words)
        expect(f"the report of the same run again, after step {step}", whole, contents(target))
    bench.is_equal(vault, target)


def new_reports(bench):
    """a new report that is killed at its steps is not there or whole, and the same run again writes it"""
    vault = bench.kept_example("visits", "w1.toml", "w2.toml")
    vault.run("snapshot", BEFORE)
    for target in bench.targets():
        def old(target=target):
            if target.kind == "sqlite":
                target.place.unlink(missing_ok=True)
                return ""
            target.server.ask(f'DROP SCHEMA IF EXISTS "{target.place}" CASCADE')
            return ""
        kill_each(bench, vault, target, target.words(), old)


def later_windows(bench):
    """a run with --since that is killed at its steps leaves the report as it was or whole, and the same run again does all"""
    vault = bench.kept_example("visits", "w1.toml")
    targets = list(bench.targets())
    for target in targets:
        bench.done(vault, *target.words())
    kept = {target.kind: target.place.read_bytes() for target in targets if target.kind == "sqlite"}
    vault.loaded("w2.toml")
    vault.run("snapshot", AFTER)
    for target in targets:
        def old(target=target):
            if target.kind == "sqlite":
                target.place.write_bytes(kept["sqlite"])
            else:
                take_back(target)
            return contents(target)
        kill_each(bench, vault, target, (*target.words(), "--since", BEFORE), old)


def take_back(target):
    """Takes the second window and its snapshot out of a report in PostgreSQL again."""
    tables = ("sat_customers", "status_customers", "status_visits", "link_visit", "hub_customer", "hub_site")
    statements = [f'DELETE FROM "{target.place}".{table} WHERE load_date = \'{AFTER}\'' for table in (*tables, "report_windows")]
    statements += [f'DELETE FROM "{target.place}".{table}' for table in ("pit_customer", "pit_site", "report_snapshots")]
    target.server.ask("; ".join(statements))


CHECKS = (new_reports, later_windows)
