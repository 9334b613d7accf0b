"""Both programs, killed before each of their changes of the world and at drawn moments: then the same words have the same end."""
import json
import os
import random
import signal
import subprocess
import sys
import time

from handover import nights, vaults
from handover.sources import DATES, history
from handover.vaults import LONGEST_RUN, all_texts, expect_answer, expect_texts, kept, run_tool
from kept.program import TOP, all_end, expect

KILLED = TOP / ".ci/handover/killed.py"
SNAPSHOTS = (DATES[1],)
# How a program is begun that is to be killed: with a session of its own, by which what it begins is known.
APART = {"stdin": subprocess.DEVNULL, "stdout": subprocess.DEVNULL, "stderr": subprocess.DEVNULL, "start_new_session": True}


def changes(bench, name, *words):
    """How many changes of the world a program makes, which runs to its end."""
    counts = bench.folder / "changes"
    done = subprocess.run([sys.executable, KILLED, "0", TOP / "tools" / name, *map(str, words)], capture_output=True, check=False,
                          env={**os.environ, "CHANGES": str(counts)})
    expect(f"{name}: status", (0, b""), (done.returncode, done.stderr if done.returncode else b""))
    return int(counts.read_text())


def killed(bench, name, number, *words):
    """Runs a program, which is killed before a change of the world; its status."""
    process = subprocess.Popen([sys.executable, KILLED, str(number), TOP / "tools" / name, *map(str, words)], **APART,
                               env={**os.environ, "CHANGES": str(bench.folder / "changes")})
    process.wait(LONGEST_RUN)
    all_end(process.pid)
    return process.returncode


def places(bench, count, few):
    """The numbers of changes before which a program is killed: all, or some that are spread, with the first and the last ones."""
    if bench.is_all or count <= few:
        return range(1, count + 1)
    return sorted({*range(1, count, max(1, count // (few - 6))), *range(count - 5, count + 1)})


def replay_at_each_change(bench):
    """vaultdesk-replay, killed before each change, has by the same words the same vault, and nothing beside it"""
    vault = kept(bench, history(1), SNAPSHOTS)
    reference = bench.folder / "reference"
    count = changes(bench, "vaultdesk-replay", vault.folder, reference, "--yes", "--without", DATES[2])
    expected = all_texts(vaults.vault_at(bench, reference), SNAPSHOTS)
    before = vault.store_bytes()
    for number in places(bench, count, 16):
        folder = bench.folder / f"killed{number}"
        words = (vault.folder, folder, "--yes", "--without", DATES[2])
        expect(f"killed before change {number}", -signal.SIGKILL, killed(bench, "vaultdesk-replay", number, *words))
        expect_answer(f"after a kill before change {number}", run_tool(bench, "vaultdesk-replay", *words), 0)
        expect("what is left beside it", False, (bench.folder / f"killed{number}.replay").exists())
        expect("windows", expected["windows",], vaults.vault_at(bench, folder).text("windows"))
        if bench.is_all or number % 4 == 0:
            expect_texts(f"after a kill before change {number}", expected, all_texts(vaults.vault_at(bench, folder), SNAPSHOTS))
        bench.drop(vaults.vault_at(bench, folder))
    expect("the old vault's bytes", before, vault.store_bytes())


def night_at_each_change(bench):
    """vaultdesk-night, killed before each change, has by the same words the same vault and the same backup"""
    words = ("--backup", "safe", "--most-vanished", "50%", "--keep", "1")
    for desk in ("0", "1"):
        reference = nights.arrived(bench, 3, 4, 3)
        count = changes(bench, "vaultdesk-night", reference.folder, "--desk", desk, *words)
        expected = all_texts(reference)
        for number in places(bench, count, 13):
            vault = nights.arrived(bench, 3, 4, 3)
            got = killed(bench, "vaultdesk-night", number, vault.folder, "--desk", desk, *words)
            expect(f"killed before change {number}", -signal.SIGKILL, got)
            expect_same_end(bench, vault, expected, "--desk", desk, *words)
            bench.drop(vault)


def expect_same_end(bench, vault, expected, *words):
    got = run_tool(bench, "vaultdesk-night", vault.folder, *words)
    expect_answer("the night after a kill", got, 0)
    expect_texts("after a kill", expected, all_texts(vault))
    backup = vault.file(json.loads(got.out)["backup"])
    expect("what the folder of backups has", [backup.name, f"{backup.name}.sha256"], sorted(os.listdir(backup.parent)))
    other = bench.empty()
    other.write("vault.db", backup.read_bytes())
    other.write("mapping.toml", vault.file("mapping.toml").read_bytes())
    expect_texts("the backup after a kill", expected, all_texts(other))
    bench.drop(other)


def killed_after(seconds, name, *words):
    process = subprocess.Popen([sys.executable, TOP / "tools" / name, *map(str, words)], **APART)
    time.sleep(seconds)
    process.kill()
    process.wait()
    all_end(process.pid)


def at_drawn_moments(bench):
    """both programs, killed at drawn moments with what they have begun, have by the same words at once the same end"""
    pick = random.Random(1)
    vault = kept(bench, history(1), SNAPSHOTS)
    expected = all_texts(vault, SNAPSHOTS)
    begun = time.monotonic()
    expect_answer("before", run_tool(bench, "vaultdesk-replay", vault.folder, bench.folder / "first", "--yes"), 0)
    longest = time.monotonic() - begun
    for number in range(20 if bench.is_all else 4):
        folder = bench.folder / f"drawn{number}"
        for _ in range(2):
            killed_after(pick.uniform(0, longest), "vaultdesk-replay", vault.folder, folder, "--yes")
        expect_answer("replay after kills", run_tool(bench, "vaultdesk-replay", vault.folder, folder, "--yes"), 0)
        expect_texts("after kills", expected, all_texts(vaults.vault_at(bench, folder), SNAPSHOTS))
    reference = nights.arrived(bench, 300, 400, 300)
    words = ("--desk", "1", "--backup", "safe", "--keep", "1")
    begun = time.monotonic()
    expect_answer("before", run_tool(bench, "vaultdesk-night", reference.folder, *words), 0)
    longest = time.monotonic() - begun
    expected = all_texts(reference)
    for number in range(20 if bench.is_all else 4):
        vault = nights.arrived(bench, 300, 400, 300)
        killed_after(pick.uniform(0, longest), "vaultdesk-night", vault.folder, *words[2:], "--desk", str(number % 2))
        expect_same_end(bench, vault, expected, *words)


CHECKS = [replay_at_each_change, night_at_each_change, at_drawn_moments]
LARGE = []
