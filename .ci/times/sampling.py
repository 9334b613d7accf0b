"""What a gate's processes are, and how they are sampled.

The toolchain's program `rattle` makes each check. It forks copies of itself for jobs, whose time it has once it waited
for them; so the time of a check is that of its first process, and of the copies that still run.
"""
import os
import select
import time
from typing import NamedTuple

from times.processes import command_of, descendants, memory_of, processes

PROOF, BUILT, TESTS, EDITS, OTHER = "proof", "built", "tests", "edits", "other"
# With these a check begins with what an earlier one kept, or takes a part of the crate.
IN_PART = {"--incremental", "--only", "--allow-holes", "--start"}
# A check that goes on is written so often, in seconds, for the case that the sampling is killed.
WRITTEN_EVERY = 60


class Check(NamedTuple):
    """What a command line of `rattle` does: for which crate, what, and which of the steps that this takes."""

    crate: str
    kind: str
    step: str


def check_of(words, folder):
    """The check that a process makes, by its words and its folder; None where it is no `rattle`.

    A program is proved by a check, and is then built of what that proved, by each compiler.
    """
    if not words or os.path.basename(words[0]) != "rattle":
        return None
    verb = words[1] if len(words) > 1 else ""
    crate = value_of("--crate-name", words)
    if verb not in ("build", "check") or not crate:
        return Check(crate or "", OTHER, verb)
    if any(part.startswith("rt-edit-") for part in folder.split("/")):
        return Check(crate, EDITS, verb)
    if IN_PART & set(words):
        return Check(crate, OTHER, verb)
    if "--crate-checked" in words:
        return Check(crate, BUILT, f"{verb} by {value_of('--backend', words)}")
    return Check(crate, TESTS if "--test" in words else PROOF, verb)


def value_of(flag, words):
    """The word behind a flag, or None."""
    return next((value for name, value in zip(words, words[1:]) if name == flag), None)


class Sampler:
    """Samples what descends from a process. `checks` are the records of the checks that it saw, by their processes, and
    `others` the seconds of the other processes. `total` is what all took, of which `before` had ended when it began."""

    def __init__(self, top, root="/proc"):
        self.top, self.root = top, root
        self.checks, self.others, self.total, self.before = {}, {}, 0.0, 0.0

    def sample(self, now):
        """Looks at all processes once, at this time."""
        found = processes(self.root)
        tree = descendants(found, self.top)
        owners, seconds = {}, {}
        for pid in tree:
            each = found[pid]
            owner = owners.get(each.parent) or self.owner_of(each, now)
            owners[pid] = owner
            if owner:
                seconds[owner] = seconds.get(owner, 0.0) + each.own + each.waited
                self.raise_to(owner, "memory", memory_of(self.root, pid))
            else:
                self.others[each.key()] = each.own
        for owner, taken in seconds.items():
            self.raise_to(owner, "seconds", taken)
        for key, record in self.checks.items():
            record["ended"] = key not in seconds
            record["last"] = record["last"] if record["ended"] else now
        is_first = not self.total
        self.total = max(self.total, sum(found[pid].own + found[pid].waited for pid in tree))
        if is_first:
            self.before = self.total - self.seen()

    def owner_of(self, process, now):
        """The check whose first process this is, as the key of its record; None where it is another process."""
        key = process.key()
        if key not in self.checks:
            words, folder = command_of(self.root, process.pid)
            check = check_of(words, folder)
            if not check:
                return None
            self.others.pop(key, None)
            self.checks[key] = {"check": key, **check._asdict(), "folder": folder, "seconds": 0.0, "memory": 0, "first": now,
                                "last": now, "ended": False}
        return key

    def raise_to(self, key, part, value):
        self.checks[key][part] = max(self.checks[key][part], value)

    def seen(self):
        """The processor seconds of all that was seen."""
        return sum(record["seconds"] for record in self.checks.values()) + sum(self.others.values())


class Following:
    """Follows a process to its end, and writes what is seen: `write` takes the record of a check where it has ended, and
    now and then while it goes on."""

    def __init__(self, pid, write, root="/proc"):
        self.sampler, self.write, self.written = Sampler(pid, root), write, {}

    def follow(self, every):
        """Samples so often, in seconds, until the process has ended, or somebody interrupts the sampling. Gives whether
        it has ended."""
        try:
            watch = os.pidfd_open(self.sampler.top)
        except ProcessLookupError:
            return True
        try:
            while True:
                self.sampler.sample(time.time())
                self.write_news()
                if select.select([watch], [], [], every)[0]:
                    return True
        except KeyboardInterrupt:
            return False
        finally:
            os.close(watch)

    def finish(self, is_whole):
        """Writes the rest. Where the process came to an end of its own, the checks that were seen last have ended too."""
        for record in self.sampler.checks.values():
            record["ended"] = record["ended"] or is_whole
        self.write_news(is_last=True)

    def write_news(self, is_last=False):
        for key, record in self.sampler.checks.items():
            at, had_ended = self.written.get(key, (0.0, False))
            if not had_ended and (record["ended"] or is_last or record["last"] - at > WRITTEN_EVERY):
                self.write(dict(record))
                self.written[key] = record["last"], record["ended"]
