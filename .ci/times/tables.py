"""What is printed of costs: a table of crates, and lines below it; and what is above a budget."""
from times.costs import KINDS, PROOF, UNIT, longest_chain, memory_of, units_of

# A crate that takes more units than these is named.
DEAR = 3
HEADER = ["crate", *(cell for kind in KINDS for cell in (f"{kind}, s", "units")), "GB"]


def table(costs, below):
    """The lines of the table, a row for each crate that was seen, in the order of crates.txt."""
    rows = [row(costs, crate) for crate in below if any((crate, kind) in costs for kind in KINDS)]
    widths = [max(map(len, column)) for column in zip(HEADER, *rows)]
    yield line_of(HEADER, widths)
    yield line_of(["-" * widths[0], *("-" * (width - 1) + ":" for width in widths[1:])], widths)
    for each in rows:
        yield line_of(each, widths)


def row(costs, crate):
    """The cells of a crate."""
    cells = [f"`{crate}`"]
    for kind in KINDS:
        cost = costs.get((crate, kind))
        cells.append(f"{cost.seconds:.0f}" if cost else "")
        cells.append(f"{cost.units:.1f}" if cost and cost.units is not None else "")
    return [*cells, f"{memory_of(costs, crate) / 1e9:.1f}"]


def line_of(cells, widths):
    first, *others = cells
    return f"| {' | '.join([first.ljust(widths[0]), *(cell.rjust(width) for cell, width in zip(others, widths[1:]))])} |"


def sums(costs, below):
    """The line of what all crates take together."""
    parts = ", ".join(f"{kind} {amount(costs, below, (kind,))}" for kind in KINDS)
    return f"sum: {amount(costs, below, KINDS)}: {parts}"


def amount(costs, below, kinds):
    """The units and seconds of some kinds of all crates, in words."""
    seconds = sum(costs[crate, kind].seconds for crate in below for kind in kinds if (crate, kind) in costs)
    units = sum(units_of(costs, crate, kinds) for crate in below)
    return f"{units:.1f} units ({seconds:.0f} s)" if has_units(costs) else f"{seconds:.0f} s"


def has_units(costs):
    return all(cost.units is not None for cost in costs.values())


def notes(costs, below):
    """The lines below the sum."""
    if not has_units(costs):
        yield f"there is no unit: {UNIT} was not proved from nothing"
    elif costs:
        crates, units = longest_chain(costs, below)
        parts = ", ".join(f"{crate} {units_of(costs, crate, (PROOF,)):.1f}" for crate in crates)
        yield f"the longest chain of proofs: {units:.1f} units: {parts}"
        dear = [f"{crate} {units_of(costs, crate):.1f}" for crate in below if units_of(costs, crate) > DEAR]
        yield f"crates over {DEAR} units: {', '.join(dear) or 'none'}"
    cut = [f"{crate} ({kind})" for (crate, kind), cost in costs.items() if not cost.is_whole and crate in below]
    if cut:
        yield f"still running when last seen: {', '.join(cut)}"
    unseen = [crate for crate in below if (crate, PROOF) not in costs]
    if unseen:
        names = f": {', '.join(unseen)}" if len(unseen) <= len(below) // 2 else ""
        yield f"not proved in these runs: {len(unseen)} of {len(below)} crates{names}"
    strangers = sorted({crate for crate, _ in costs} - set(below))
    if strangers:
        yield f"left out, since crates.txt does not name them: {', '.join(strangers)}"


def run_notes(runs):
    """A line for each run: what it was, what it took in all, and what was not seen of that."""
    for run in runs:
        words = f"{run.name.split()[0]} {' '.join(run.head.get('command', ['?']))}: {run.head.get('machine', '?')}"
        total = run.foot.get("total")
        if total is None:
            yield f"{words}; its sampling was broken off"
            continue
        seen = sum(check["seconds"] for check in run.checks)
        missed = max(0.0, total - seen - run.foot["others"])
        share = f" ({100 * missed / total:.1f} %)" if total else ""
        yield (f"{words}; {run.foot['elapsed'] / 60:.0f} minutes; {total:.0f} s of processors: {seen:.0f} in checks, "
               f"{run.foot['others']:.0f} in other processes that were seen, {missed:.0f} not seen{share}")


def above(costs, below, budget=None, chain=None, memory=None, but=()):
    """The lines that say what is above a budget: units of all, units of the longest chain, GB of one process but in the
    crates of `but`. Without a unit the first two say that nothing can be told."""
    if has_units(costs):
        units, longest = sum(units_of(costs, crate) for crate in below), longest_chain(costs, below)[1]
        if budget is not None and units > budget:
            yield f"the sum is {units:.1f} units, and the budget {budget:g}"
        if chain is not None and longest > chain:
            yield f"the longest chain is {longest:.1f} units, and the budget {chain:g}"
    for crate in below:
        most = memory_of(costs, crate) / 1e9
        if memory is not None and most > memory and crate not in but:
            yield f"{crate} takes {most:.1f} GB, and the budget is {memory:g}"
