"""Holds docs/MAP.md to crates.txt: which crates there are, what each stands on, and the longest chain of them."""
import pathlib
import re

from times.costs import dependencies

TOP = pathlib.Path(__file__).resolve().parent.parent.parent
NAMED = re.compile(r"`(\w+)`")
# The sentence that tells the longest chain.
CHAIN = re.compile(r"^The longest chain has (\d+) crates: (.*)\.$", re.M)


def below(crates, crate):
    """All crates that one stands on, whether it names them or not."""
    named = crates[crate]
    return set(named).union(*(below(crates, each) for each in named))


def length(crates, crate):
    """How many crates the longest chain has that ends with one."""
    return 1 + max((length(crates, each) for each in crates[crate]), default=0)


def map_rows(text):
    """The rows of the map's table: the crates of each, and what it says that they stand on."""
    for line in text.splitlines():
        cells = line.strip().strip("|").split(" | ")
        if line.startswith("| `") and len(cells) == 3:
            yield NAMED.findall(cells[0]), NAMED.findall(cells[2])


def row_faults(crates, text):
    seen = []
    for named, stands_on in map_rows(text):
        seen += named
        for crate in filter(crates.get, named):
            for each in sorted(set(stands_on) & set(crates) - below(crates, crate)):
                yield f"{crate} does not stand on {each}"
    for crate in crates:
        if seen.count(crate) != 1:
            yield f"{crate} stands in {seen.count(crate)} rows"
    for crate in seen:
        if crate not in crates:
            yield f"{crate} is no crate"


def chain_faults(crates, text):
    told = CHAIN.search(text)
    if not told:
        yield "no sentence tells the longest chain"
        return
    chain, most = NAMED.findall(told[2]), max(length(crates, crate) for crate in crates)
    if int(told[1]) != most or len(chain) != most:
        yield f"the longest chain has {most} crates, and {told[1]} are told and {len(chain)} named"
    for lower, upper in zip(chain, chain[1:]):
        if lower not in crates.get(upper, ()):
            yield f"{upper} does not name {lower}"


def map_faults():
    """What docs/MAP.md says of the crates that crates.txt does not."""
    crates = dependencies((TOP / "crates.txt").read_text(encoding="utf-8"))
    text = (TOP / "docs" / "MAP.md").read_text(encoding="utf-8")
    yield from row_faults(crates, text)
    yield from chain_faults(crates, text)
