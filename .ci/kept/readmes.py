"""What the READMEs of the examples say: the texts that commands write, and how many rows each window adds."""
import re

from kept.program import TOP

BLOCK = re.compile(r"^```[^\n`]*\n(.*?)^```$", re.M | re.S)
LINE_OF_WINDOW = re.compile(r"^(w\d+\.toml): Loaded (\d+)$", re.M)
LAST_NUMBER = re.compile(r"(\d+)\s*$")


def readme(example):
    return (TOP / "examples" / example / "README.md").read_text(encoding="utf-8")


def blocks(example, header):
    """The blocks of a README that begin with a line, in order."""
    return [block for block in BLOCK.findall(readme(example)) if block.startswith(header + "\n")]


def block(example, header, at=0):
    return blocks(example, header)[at].encode()


def loaded_rows(example):
    """How many rows each window adds, by its manifest."""
    return {manifest: int(rows) for manifest, rows in LINE_OF_WINDOW.findall(readme(example))}


def number_at_end(cell):
    found = LAST_NUMBER.search(cell)
    return int(found[1]) if found else 0


def added_rows(example):
    """How many rows each window adds to each raw table, in table order."""
    lines = readme(example).partition("## How the ")[2].splitlines()
    rows = [[cell.strip() for cell in line.strip("|").split("|")] for line in lines if line.startswith("| `")]
    return {row[0].strip("`"): [number_at_end(cell) for cell in row[1:]] for row in rows}
