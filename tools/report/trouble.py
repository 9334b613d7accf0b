"""What ends a run: one line on standard error and a status."""
import re

DIFFERS, USAGE, MAPPING, NOT_READ, BUSY, NOT_WRITTEN, MEMORY, DAMAGED = range(1, 9)


class Trouble(Exception):
    """The run cannot go on. Takes the line and the exit status."""

    def __init__(self, line, status=NOT_READ):
        super().__init__(line)
        self.status = status


def printed(text):
    """A text in one line: each control character as `?`."""
    return re.sub(r"[\x00-\x1f\x7f]", "?", text)
