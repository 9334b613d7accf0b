"""The links of README.md, docs/manual and the READMEs of examples/: whether the file and the heading that a link names
are there."""
import re

from manual.pages import TOP, all_pages

LINK = re.compile(r"\]\(([^)\s]+)\)")
ELSEWHERE = re.compile(r"[a-z]+:")
NOT_IN_ANCHOR = re.compile(r"[^\w\- ]")


def prose(page):
    """The lines of a page outside its fenced blocks, with their numbers."""
    is_fenced = False
    for number, line in enumerate(page.read_text(encoding="utf-8").splitlines(), 1):
        if line.startswith("```"):
            is_fenced = not is_fenced
        elif not is_fenced:
            yield number, line


def anchors(page):
    """What a link may name behind `#` in a page: its headings, as the usual sites for repositories write them."""
    headings = [line.lstrip("#").strip().lower() for _, line in prose(page) if line.startswith("#")]
    return {NOT_IN_ANCHOR.sub("", heading).replace(" ", "-") for heading in headings}


def fault_of(page, target):
    """What is wrong with a link of a page; none where it can be followed."""
    name, _, anchor = target.partition("#")
    found = (page.parent / name).resolve() if name else page
    if not found.exists():
        return f"{target} is not there"
    if anchor and anchor not in anchors(found):
        return f"{target} names no heading of its page"
    return None


def faults_in(page):
    """The links of a page that cannot be followed, each with its line."""
    for number, line in prose(page):
        for target in LINK.findall(line):
            fault = None if ELSEWHERE.match(target) else fault_of(page, target)
            if fault:
                yield number, fault


def link_faults():
    """Each link that cannot be followed, with its place."""
    for page in all_pages():
        for number, fault in faults_in(page):
            yield f"{page.relative_to(TOP)}:{number}: {fault}"
