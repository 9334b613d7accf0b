"""What crates cost, by the samples of runs: in seconds of a processor, and in units.

A unit is what one proof of dv_text from nothing takes in the same run. The toolchain keeps what passed, so where a gate
was run in pieces a proof, the building, the tests or the edits of a crate count in the last run alone in which they were seen; and a
run that has no unit takes that of the run before it.
"""
from typing import NamedTuple

from times.sampling import BUILT, EDITS, OTHER, PROOF, TESTS

UNIT = "dv_text"
KINDS = (PROOF, BUILT, TESTS, EDITS)


class Cost(NamedTuple):
    """What the proof of a crate, its building, its tests or its edits cost. `units` is None where there is no unit. `is_whole` says
    whether all checks were seen to end."""

    seconds: float
    units: float
    memory: int
    is_whole: bool


def dependencies(text):
    """The crates that crates.txt names, in its order, each with those of them that it names directly."""
    lines = [line.partition("#")[0].strip() for line in text.splitlines()]
    named = {line.partition(":")[0].split()[0]: line.partition(":")[2].split() for line in lines if line}
    return {crate: [each for each in below if each in named] for crate, below in named.items()}


def run_costs(run):
    """What one run saw of each crate and kind: seconds, memory and whether all ended. Of the processes of one step in one
    folder the dearest counts, since what was killed is begun again; a crate has a folder for each edit."""
    steps, found = {}, {}
    for check in run.checks:
        if check["kind"] != OTHER:
            step = check["crate"], check["kind"], check["folder"], check["step"]
            steps.setdefault(step, []).append(check)
    for (crate, kind, _, _), checks in steps.items():
        seconds, memory, is_whole = found.get((crate, kind), (0.0, 0, True))
        dearest = max(checks, key=lambda check: check["seconds"])
        memory = max(memory, *(check["memory"] for check in checks))
        found[crate, kind] = seconds + dearest["seconds"], memory, is_whole and dearest["ended"]
    return found


def unit_of(costs):
    """The seconds of a unit, by what a run saw; None where it did not see a whole proof of the crate."""
    seconds, _, is_whole = costs.get((UNIT, PROOF), (0.0, 0, False))
    return seconds if is_whole and seconds else None


def costs_of(runs):
    """What each crate and kind costs, by runs in their order."""
    seen = [run_costs(run) for run in runs]
    units = [unit_of(costs) for costs in seen]
    unit = next((each for each in units if each), None)
    found = {}
    for costs, own in zip(seen, units):
        unit = own or unit
        for key, (seconds, memory, is_whole) in costs.items():
            found[key] = Cost(seconds, seconds / unit if unit else None, memory, is_whole)
    return found


def units_of(costs, crate, kinds=KINDS):
    """The units of a crate, of all kinds or some; 0 where nothing was seen, or there is no unit."""
    return sum(costs[crate, kind].units or 0.0 for kind in kinds if (crate, kind) in costs)


def memory_of(costs, crate):
    """The most bytes that a process took in any check of a crate."""
    return max((costs[crate, kind].memory for kind in KINDS if (crate, kind) in costs), default=0)


def longest_chain(costs, below):
    """The crates of the chain whose proofs take most, from below, and their units together."""
    found = {}

    def chain(crate):
        if crate not in found:
            crates, units = max((chain(each) for each in below[crate]), key=lambda it: it[1], default=([], 0.0))
            own = units_of(costs, crate, (PROOF,))
            found[crate] = ([*crates, crate] if own else crates), units + own
        return found[crate]

    return max((chain(crate) for crate in below), key=lambda it: it[1], default=([], 0.0))
