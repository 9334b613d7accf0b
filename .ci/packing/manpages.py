"""The man page, made of docs/manual/commands.md.

Headings, paragraphs, lists, tables and fenced blocks of the page become roff. A table of two columns is a list of its
rows; one of more names the columns behind the first, and leaves out what is blank. The section of the script is left
out, since a package has the program alone.
"""
import re

BLOCK = re.compile(r"```([^\n`]*)\n(.*?)^```$", re.M | re.S)
LINK = re.compile(r"\[([^]]*)\]\([^)\s]*\)")
# What is said before a block that shows what an example writes.
SHOWN = {"out": "writes", "err": "writes on standard error", "status": "ends with the status"}
# A row of more columns than these is one line.
MOST_LINES = 3
LEFT_OUT = "The script `vaultdesk`"
SIGNS = {"\\": r"\e", "-": r"\-", "'": r"\(aq", "`": r"\(ga", "^": r"\(ha", "~": r"\(ti"}
NAME = "vaultdesk \\- a Data Vault 2.0 warehouse of CSV extracts, with reports as of any past date"
FILES = (
    ("mapping.toml", "the mapping, in the folder in which a command is given"),
    ("vault.db, vault.db-wal", "the vault, and the log that is part of it, in the same folder"),
    ("/usr/share/doc/vaultdesk/docs/manual", "the manual, of which this page is one; README.md there lists the pages"),
    ("/usr/share/doc/vaultdesk/examples", "the examples that the manual speaks of"),
)


def escaped(text):
    return "".join(SIGNS.get(sign, sign) for sign in text)


def bold(text):
    return rf"\fB{escaped(text)}\fR"


def inline(text):
    """A text with code and stress in bold, and of links what they show."""
    text = LINK.sub(r"\1", text)
    # Every second part is one that the pattern found.
    parts = re.split(r"(`[^`]+`|\*\*.+?\*\*)", text)
    return "".join(bold(part.strip("`*")) if at % 2 else escaped(part) for at, part in enumerate(parts))


def line(text):
    """A line of text, which no sign at its start makes a request of roff."""
    return rf"\&{text}" if text.startswith((".", "'")) else text


def request(name, *words):
    quoted = " ".join('"{}"'.format(word.replace('"', r"\(dq")) for word in words)
    return f".{name} {quoted}".rstrip()


def code(info, body):
    """A fenced block, with what it is in a line before it."""
    if info.startswith("file:"):
        yield from (".PP", f"The file {bold(info[len('file:'):])}:")
    elif info in SHOWN:
        yield from (".PP", f"{SHOWN[info]}:")
    yield from (".PP", ".RS 4", ".EX")
    yield from (line(escaped(text)) for text in body.splitlines())
    yield from (".EE", ".RE")


def cells(row):
    return [cell.strip() for cell in row.strip().strip("|").split("|")]


def table(rows):
    """A table, as a list of its rows."""
    header, *rows = [cells(row) for row in rows if not re.fullmatch(r"[|\s:-]+", row)]
    for first, *others in rows:
        yield from (".TP", inline(first) or r"\&")
        if len(others) == 1:
            yield line(inline(others[0]))
            continue
        named = [inline(f"{name}: {cell}") for name, cell in zip(header[1:], others) if cell]
        yield line(("; " if len(others) > MOST_LINES else "\n.br\n").join(named))


def text_of(lines):
    """A paragraph, a list or a table."""
    if lines[0].startswith("|"):
        yield from table(lines)
        return
    bullet = re.compile(r"(?:-|(\d+\.)) +(.*)")
    if not bullet.match(lines[0]):
        yield from (".PP", line(inline(" ".join(lines))))
        return
    for text in lines:
        if match := bullet.match(text):
            yield from (request("IP", match[1] or r"\(bu", "4"), line(inline(match[2])))
        else:
            yield line(inline(text.strip()))


def prose(text):
    """What stands between fenced blocks: headings, and parts that empty lines part."""
    for part in filter(None, re.split(r"\n{2,}", text.strip())):
        lines = part.splitlines()
        heading = re.match(r"(#+) (.*)", lines[0])
        if heading:
            is_section = len(heading[1]) == 2
            yield request("SH", inline(heading[2].upper())) if is_section else request("SS", inline(heading[2]))
            lines = lines[1:]
        if lines:
            yield from text_of(lines)


def body(text):
    at = 0
    for block in BLOCK.finditer(text):
        yield from prose(text[at:block.start()])
        yield from code(block[1].strip(), block[2])
        at = block.end()
    yield from prose(text[at:])


def without_script(page):
    """The page without its title and without the section of the script."""
    page = page.split("\n", 1)[1]
    before, found, rest = page.partition(f"## {LEFT_OUT}\n")
    behind = re.search(r"^## ", rest, re.M)
    return before + (rest[behind.start():] if found and behind else "")


def man_page(page, version, date):
    """The man page, given the text of docs/manual/commands.md."""
    commands = [cells(row)[0] for row in page.splitlines() if row.startswith("| `vaultdesk ")]
    lines = [request("TH", "VAULTDESK", "1", date, f"vaultdesk {version}", "User Commands"), ".nh", ".ad l",
             ".SH NAME", NAME, ".SH SYNOPSIS"]
    for command in commands:
        lines += [line(inline(command)), ".br"]
    lines[-1:] = [".SH DESCRIPTION", *body(without_script(page)), ".SH FILES"]
    for name, what in FILES:
        lines += [".TP", bold(name), escaped(what)]
    return "\n".join(lines) + "\n"
