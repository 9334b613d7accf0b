"""The processes that run, as the folder /proc tells them.

`root` is /proc, or a folder that has been made like it.
"""
import os
import pathlib
from typing import NamedTuple

TICKS = os.sysconf("SC_CLK_TCK")
# Behind the name in a line of stat: the parent, the seconds of the process and of the children that it waited for (in
# user and in system each), and when it began.
PARENT, OWN, WAITED, BEGUN = 1, slice(11, 13), slice(13, 15), 19


class Process(NamedTuple):
    """A process: `own` are the processor seconds that it took itself, `waited` those of the children that ended."""

    pid: int
    begun: int
    parent: int
    own: float
    waited: float

    def key(self):
        """What no other process of the machine has, also where the same number comes again."""
        return f"{self.pid}.{self.begun}"


def process_of(line):
    """A process, by the line of its file stat. Its name, in brackets, may have blanks and brackets itself."""
    pid, _, rest = line.partition(" (")
    fields = rest.rpartition(")")[2].split()
    own, waited = (sum(map(int, fields[part])) / TICKS for part in (OWN, WAITED))
    return Process(int(pid), int(fields[BEGUN]), int(fields[PARENT]), own, waited)


def words_of(content):
    """The words of a command line, by the file cmdline, which has a zero behind each."""
    return content.decode(errors="replace").split("\0")[:-1]


def most_memory_of(content):
    """The most bytes that a process had in memory up to now, by its file status; 0 for one that has ended."""
    for line in content.splitlines():
        if line.startswith("VmHWM:"):
            return int(line.split()[1]) * 1024
    return 0


def processes(root):
    """All processes by their numbers."""
    found = {}
    for name in os.listdir(root):
        if name.isdigit():
            try:
                found[int(name)] = process_of(pathlib.Path(root, name, "stat").read_text(errors="replace"))
            except OSError:
                # It has ended since the folder was listed.
                pass
    return found


def command_of(root, pid):
    """The words of a process and the folder in which it runs; nothing of one that has ended."""
    try:
        return words_of(pathlib.Path(root, str(pid), "cmdline").read_bytes()), os.readlink(f"{root}/{pid}/cwd")
    except OSError:
        return [], ""


def memory_of(root, pid):
    """The most bytes that a process had in memory; 0 of one that has ended."""
    try:
        return most_memory_of(pathlib.Path(root, str(pid), "status").read_text(errors="replace"))
    except OSError:
        return 0


def descendants(found, top):
    """The numbers of the processes that descend from one, each behind its parent, which `top` itself begins."""
    children = {}
    for each in found.values():
        children.setdefault(each.parent, []).append(each.pid)
    listed = [top] if top in found else []
    for pid in listed:
        listed += children.get(pid, [])
    return listed
