"""The examples of README.md, docs/manual and the READMEs of examples/, as the pages have them.

A page has fenced blocks of these kinds; any other block is passed over:

    ```file:NAME    a file. It stands from there on, for each later example of the page, until it is given again
    ```sh run       an example: commands, run by bash in a fresh folder that has the files so far, or, of an example's
                    README, in a fresh copy of its folder that has them; PORT is a port that nobody has
    ```sh run if PROGRAM    the same, which is left out, with a line, where the program is not on this machine; of
                    PYTHON:MODULE, where that Python lacks the module
    ```sql run      an example: queries, run by psql, and left out where there is no PostgreSQL
    ```out          what the example behind which it stands writes to standard output; absent: nothing
    ```err          the same of standard error
    ```status       its exit status; absent: 0
"""
import pathlib
import re
from typing import NamedTuple, Optional

TOP = pathlib.Path(__file__).resolve().parents[2]
# Where pages are: the README, the manual, the READMEs of the examples.
PAGES = ("README.md", "docs/manual/*.md", "examples/*/README.md")
BLOCK = re.compile(r"^```([^\n`]*)\n(.*?)^```$", re.M | re.S)
RUN = re.compile(r"(sh|sql) run(?: if (\S+))?")
# What an example is to write, where no block says it.
ABSENT = {"out": "", "err": "", "status": "0\n"}


class Example(NamedTuple):
    """Commands or queries of a page, with the files that they find and what they write."""

    page: pathlib.Path
    line: int
    kind: str
    command: str
    needs: Optional[str]
    files: dict
    expected: dict

    def place(self):
        return f"{self.page.relative_to(TOP)}:{self.line}"

    def home(self):
        """Where it is run, from the fresh folder, which has a copy of examples/."""
        folder = self.page.parent.relative_to(TOP)
        return folder if folder.parts[:1] == ("examples",) else pathlib.Path()

    def expects(self, part):
        return self.expected.get(part, ABSENT[part])


def manual_pages():
    return [path for form in PAGES[:2] for path in sorted(TOP.glob(form))]


def all_pages():
    return [path for form in PAGES for path in sorted(TOP.glob(form))]


def examples_of(page):
    """The examples of a page, in their order."""
    text = page.read_text(encoding="utf-8")
    files, examples = {}, []
    for block in BLOCK.finditer(text):
        kind, body = block[1].strip(), block[2]
        line = text.count("\n", 0, block.start()) + 1
        if kind.startswith("file:"):
            files[kind[len("file:"):]] = body
        elif run_as := RUN.fullmatch(kind):
            examples.append(Example(page, line, run_as[1], body, run_as[2], dict(files), {}))
        elif kind in ABSENT:
            if not examples or kind in examples[-1].expected:
                raise SystemExit(f"{page.relative_to(TOP)}:{line}: a block `{kind}` without an example of its own")
            examples[-1].expected[kind] = body
    return examples
