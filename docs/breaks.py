#!/usr/bin/env python3
"""Writes the table of docs/BREAKS.md from docs/breaks.csv.

Usage: docs/breaks.py [--check]      --check writes nothing, and tells where the page is another one or where
                                     breaks.csv names an example that is not there
"""
import csv
import pathlib
import re
import sys

TOP = pathlib.Path(__file__).resolve().parent.parent
PAGE = TOP / "docs" / "BREAKS.md"
HEADER = "| definitions | breaks | refused by examples of |\n|---|---|---|\n"
# An example: the module where two have one name, the function, and the clause or the field of its statement.
EXAMPLE = re.compile(r"(?:(\w+)::)?([a-z]\w*)\.(\w+)")


def rows():
    with open(TOP / "docs" / "breaks.csv", encoding="utf-8", newline="") as file:
        return list(csv.DictReader(file))


def examples_of(row):
    return EXAMPLE.findall(row["refused_by"])


def table(all_rows):
    """A line for each file of definitions: how many breaks, and the functions whose examples refuse them."""
    subjects = {}
    for row in all_rows:
        count, functions = subjects.setdefault(f"`{row['crate']}` {row['definitions']}", [0, {}])
        subjects[f"`{row['crate']}` {row['definitions']}"][0] = count + 1
        functions.update({f"`{module + '::' if module else ''}{name}`": None for module, name, _ in examples_of(row)})
    lines = [f"| {subject} | {count} | {', '.join(functions) or 'a lemma'} |" for subject, (count, functions) in sorted(subjects.items())]
    return HEADER + "\n".join(lines) + "\n"


def absent(all_rows):
    """Examples whose function or field is nowhere in the sources."""
    sources = [path.read_text(encoding="utf-8") for ending in ("src/*.rt", "specs/*.antt")
               for path in TOP.glob(f"crates/*/{ending}")]
    words = set(re.findall(r"\w+", "\n".join(sources)))
    functions = set(re.findall(r"\bfn (\w+)", "\n".join(sources)))
    named = {(name, field) for row in all_rows for _, name, field in examples_of(row)}
    return sorted(f"{name}.{field}" for name, field in named if name not in functions or field not in words)


def main():
    all_rows = rows()
    text = PAGE.read_text(encoding="utf-8")
    written = text[:text.index(HEADER)] + table(all_rows)
    if "--check" in sys.argv:
        faults = absent(all_rows) + ([] if written == text else ["the table is not that of docs/breaks.py"])
        print("; ".join(faults), end="")
        sys.exit(1 if faults else 0)
    PAGE.write_text(written, encoding="utf-8")


main()
