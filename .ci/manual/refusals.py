"""What the program prints where it refuses something, as its sources have it, and which of it no example of the manual
writes. An example that is left out on some machines is no case."""
import re

from manual.pages import TOP, examples_of, manual_pages

# The sources, as texts: those of the program's crates, without tests and worked examples.
CODE = re.compile(r'"((?:[WQ]\d+|\d+) [A-Z]\w+)')
LINE = re.compile(r'b"((?:vaultdesk|init|resume|snapshot): [^"\\]+)')
FORM_RULE = re.compile(r"\bF(\d+)\b")
STATUS = re.compile(r"^    \w+ = (\d+),$", re.M)
# What the script `vaultdesk` says, up to what differs from run to run.
SCRIPT_LINE = re.compile(r'(?:fail "|echo "vaultdesk: )([^"$]+)')


def sources(pattern):
    """The texts of the program's own sources."""
    for path in sorted(TOP.glob(f"crates/*/{pattern}")):
        if not re.search(r"_(cases|tests|shown|samples|laws)$", path.relative_to(TOP).parts[1]):
            yield path.read_text(encoding="utf-8")


def printed(pattern, files="src/**/*.rt"):
    return sorted({found for text in sources(files) for found in pattern.findall(text)})


def as_line(text):
    """How a line begins that has a printed text, or what stands behind a manifest's name."""
    if text.startswith("W"):
        return re.compile(rf"^\S.*: {re.escape(text)}(?= |$)", re.M)
    front = "vaultdesk: " if text[0] == "Q" else "vaultdesk: mapping " if text[0].isdigit() else ""
    return re.compile(rf"^{re.escape(front + text.rstrip())}(?= |$)", re.M)


def refusals():
    """Each printed refusal, with what finds a line that has it."""
    for text in printed(CODE) + printed(LINE):
        yield text.rstrip(), as_line(text)
    for number in printed(FORM_RULE, "specs/*.antt"):
        yield f"F{number}", re.compile(rf"^vaultdesk: damaged \S+ \d+ F{number}$", re.M)


def cases():
    """The examples of the manual that every machine runs."""
    return [example for page in manual_pages() for example in examples_of(page) if not example.needs and example.kind == "sh"]


def without_case():
    """What is printed, or is an exit status, and has no case; and what the script says and the page of commands has not."""
    examples = cases()
    lines = "\n".join(example.expects(part) for example in examples for part in ("out", "err"))
    for text, line in refusals():
        if not line.search(lines):
            yield f"`{text}` is printed, and no example of the manual writes it"
    statuses = {example.expects("status").strip() for example in examples}
    for status in STATUS.findall((TOP / "crates/dv_outside/src/statuses.rt").read_text(encoding="utf-8")):
        if status not in statuses:
            yield f"no example of the manual ends with status {status}"
    page = (TOP / "docs/manual/commands.md").read_text(encoding="utf-8")
    for text in SCRIPT_LINE.findall((TOP / "vaultdesk").read_text(encoding="utf-8")):
        if text.strip() not in page:
            yield f"the script says `{text}`, which docs/manual/commands.md has not"
