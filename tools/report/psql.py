"""PostgreSQL by way of its program psql: a script that it runs, and a session that is asked."""
import contextlib
import os
import re
import subprocess
import tempfile
import uuid

from report.trouble import DIFFERS, NOT_WRITTEN, Trouble

WORDS = ("psql", "-X", "-q", "-w", "-A", "-t", "-v", "ON_ERROR_STOP=1")
SECONDS_TO_CONNECT = "10"
ERROR = re.compile(r"\b(?:ERROR|FATAL|error): +(.*)")
# How an error begins that a script of ours raises.
OUR_LINE = "vaultdesk-report: "
# What COPY writes for characters that would end a field or a row, and what it may write besides.
ESCAPED = str.maketrans({"\\": "\\\\", "\t": "\\t", "\n": "\\n", "\r": "\\r"})
MEANT = {"b": "\b", "f": "\f", "n": "\n", "r": "\r", "t": "\t", "v": "\v"}


def copied(row):
    """A row as COPY takes it."""
    joined = "\t".join(row)
    if "\\" in joined or "\n" in joined or "\r" in joined or joined.count("\t") != len(row) - 1:
        joined = "\t".join(each.translate(ESCAPED) for each in row)
    return joined + "\n"


def uncopied(line):
    """The row of a line that COPY has written."""
    if "\\" not in line:
        return line.split("\t")
    return [re.sub(r"\\(.)", lambda found: MEANT.get(found[1], found[1]), each) for each in line.split("\t")]


def begun(database, stdout, lines):
    """A process of psql that reads its standard input."""
    words = [*WORDS, *(("-d", database) if database else ())]
    settings = {"PGCONNECT_TIMEOUT": SECONDS_TO_CONNECT, **os.environ, "PGCLIENTENCODING": "UTF8", "LC_MESSAGES": "C"}
    try:
        return subprocess.Popen(words, stdin=subprocess.PIPE, stdout=stdout, stderr=lines, env=settings)
    except OSError as error:
        raise Trouble(f"psql cannot be run, which is in the Debian package postgresql-client: {error}", NOT_WRITTEN) from error


def failure(lines):
    """What ends a run, by what psql said."""
    lines.seek(0)
    said = lines.read().decode(errors="replace")
    found = ERROR.search(said)
    if found and found[1].startswith(OUR_LINE):
        return Trouble(found[1].removeprefix(OUR_LINE), DIFFERS)
    return Trouble(f"PostgreSQL: {found[1] if found else said.strip() or 'psql ended'}", NOT_WRITTEN)


class Script:
    """A script that psql runs while it is written. Its transaction is done where it ends with COMMIT, and else nothing."""

    def __init__(self, database):
        self.lines = tempfile.TemporaryFile()
        self.process = begun(database, subprocess.DEVNULL, self.lines)

    def write(self, text):
        try:
            self.process.stdin.write(text.encode())
        except OSError as error:
            self.process.wait()
            raise failure(self.lines) from error

    def close(self):
        """Ends the script, and with a line where it failed."""
        with contextlib.suppress(OSError):
            self.process.stdin.close()
        if self.process.wait():
            raise failure(self.lines)

    def abandon(self):
        """Ends psql, which leaves its transaction undone."""
        self.process.kill()
        with contextlib.suppress(OSError):
            self.process.stdin.close()
        self.process.wait()


class Session:
    """A process of psql that is asked again and again."""

    def __init__(self, database):
        self.lines, self.mark = tempfile.TemporaryFile(), f"answered {uuid.uuid4().hex}\n"
        self.process = begun(database, subprocess.PIPE, self.lines)

    def rows(self, query):
        """The rows of a query."""
        try:
            self.process.stdin.write(f"COPY ({query}) TO STDOUT;\n\\echo {self.mark}".encode())
            self.process.stdin.flush()
        except OSError as error:
            self.process.wait()
            raise failure(self.lines) from error
        found = []
        while (line := self.process.stdout.readline().decode()) != self.mark:
            if not line:
                self.process.wait()
                raise failure(self.lines)
            found.append(uncopied(line[:-1]))
        return found

    def close(self):
        with contextlib.suppress(OSError):
            self.process.stdin.close()
        self.process.kill()
        self.process.wait()


@contextlib.contextmanager
def session(database):
    """A session that is closed again."""
    asked = Session(database)
    try:
        yield asked
    finally:
        asked.close()
