"""Holds docs/ANSWERS.md to the sources: whether each clause that its tables name is one of the function that they name."""
import re

from manual.pages import TOP

PAGE = "docs/ANSWERS.md"
# A clause as the page names it: a crate, a function, perhaps behind its type or trait, and the labels.
NAMED = re.compile(r"`(\w+)` `(?:(\w+)::)?(\w+)`(?:: (`\w+`(?:, `\w+`)*))?")
# The head of an implementation or of a trait, with what is implemented for what, and the heads of functions and clauses.
OWNER = re.compile(r"^(?:pub )?(?:impl|trait)\b(?:<.*?>(?= \w))? ?(?:[\w<>', ]+ for )?(\w+)")
FUNCTION = re.compile(r"^ *(?:pub(?:\(crate\))? )?(?:const )?fn (\w+)")
CLAUSE = re.compile(r"^ *ensures (?:(\w+) )?\{")


def clauses_of(crate):
    """The labels of the clauses of each function of a crate, by its type and its name; none for one without a label."""
    found = {}
    for path in sorted((TOP / "crates" / crate / "src").glob("**/*.rt")):
        owner = labels = None
        for line in path.read_text(encoding="utf-8").splitlines():
            if line.startswith("}"):
                owner = None
            elif head := OWNER.match(line):
                owner = head[1]
            elif head := FUNCTION.match(line):
                labels = found.setdefault((owner, head[1]), [])
            elif (head := CLAUSE.match(line)) and labels is not None:
                labels.append(head[1])
    return found


def fault_of(crates, crate, owner, function, labels):
    """What is wrong with a named clause; none where the sources have it."""
    place = f"{owner}::{function}" if owner else function
    if not (TOP / "crates" / crate).is_dir():
        return f"{crate} is no crate"
    if crate not in crates:
        crates[crate] = clauses_of(crate)
    told = crates[crate].get((owner, function))
    if told is None:
        return f"{crate} has no function {place}"
    if not labels and told != [None]:
        return f"{place} of {crate} has not one clause alone, without a label"
    lacking = [label for label in re.findall(r"\w+", labels or "") if label not in told]
    return f"{place} of {crate} has no clause {', '.join(lacking)}" if lacking else None


def clause_faults():
    """Each row of the page that names no clause, or one that is not there."""
    crates, is_in_table = {}, False
    for number, line in enumerate((TOP / PAGE).read_text(encoding="utf-8").splitlines(), 1):
        cells = [cell.strip() for cell in line.strip("|").split("|")]
        is_row, is_in_table = is_in_table and line.startswith("|"), line.startswith("|")
        if not is_row or set(cells[-1]) == {"-"}:
            continue
        for text in cells[-1].split("; "):
            named = NAMED.fullmatch(text)
            fault = fault_of(crates, *named.groups()) if named else f"no clause is named so: {text}"
            if fault:
                yield f"{number}: {fault}"
