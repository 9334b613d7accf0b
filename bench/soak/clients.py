"""Clients of the desk that ask side by side, and come to rest together, so that the desk can be looked at meanwhile."""
import collections
import contextlib
import hashlib
import socket
import threading
import time

from kept.desk import replies_in
from kept.desks import all_of, get, reset
from kept.program import CheckFailed, expect

CUT = "cut off"
SENT_BEFORE = 0.01  # seconds in which the desk may begin to answer a client that goes


class Turns:
    """Lets visits be under way side by side, and nothing else while somebody looks."""

    def __init__(self):
        self.changed, self.visits, self.is_looked_at = threading.Condition(), 0, False

    @contextlib.contextmanager
    def visit(self):
        with self.changed:
            self.changed.wait_for(lambda: not self.is_looked_at)
            self.visits += 1
        try:
            yield
        finally:
            with self.changed:
                self.visits -= 1
                self.changed.notify_all()

    @contextlib.contextmanager
    def look(self):
        with self.changed:
            self.is_looked_at = True
            self.changed.wait_for(lambda: self.visits == 0)
        try:
            yield
        finally:
            with self.changed:
                self.is_looked_at = False
                self.changed.notify_all()


class Clients:
    """What asks a desk, counts what is asked by its kind, and holds each reply against what was asked."""

    def __init__(self, desk):
        self.desk, self.turns = desk, Turns()
        self.counts, self.statuses = collections.Counter(), collections.defaultdict(collections.Counter)
        self.counting, self.told, self.is_over = threading.Lock(), {}, threading.Event()

    def ask(self, asked, is_settled=True):
        """Asks on a connection of its own. Where the vault is settled the same bytes have the same reply each time."""
        with self.turns.visit():
            told = self.desk.told(asked.sent)
        replies = list(replies_in(told))
        statuses = tuple(int(reply.split(b" ", 2)[1]) for reply in replies)
        expect(f"the statuses of {asked.kind}, asked by {asked.sent[:200]!r}", asked.statuses, statuses)
        if asked.has not in replies[-1]:
            raise CheckFailed(f"{asked.kind}, asked by {asked.sent[:200]!r}\n    expected: it has {asked.has!r}\n"
                              f"    got:      {replies[-1][:400]!r}")
        with self.counting:
            self.counts[asked.kind] += 1
            self.statuses[asked.kind].update(statuses)
            if is_settled:
                key, digest = hashlib.sha256(asked.sent).digest(), hashlib.sha256(told).digest()
                expect(f"whether the reply of {asked.kind} is as before", self.told.setdefault(key, digest), digest)
        return told

    def cut(self, asked, length, by_reset):
        """Sends the first bytes of a connection, and goes, with an end or of a sudden."""
        with self.turns.visit():
            link = self.desk.connected()
            with contextlib.suppress(BrokenPipeError, ConnectionResetError):
                link.sendall(asked.sent[:length])
                if length == len(asked.sent):
                    time.sleep(SENT_BEFORE)
            (reset if by_reset else socket.socket.close)(link)
        with self.counting:
            self.counts[CUT] += 1

    def sample(self):
        """The kB of memory and the open files of the desk while it waits for the next request of a connection: all those
        before were ended by then, since they are taken in the order in which they came."""
        with self.turns.look(), self.desk.connected() as link:
            link.sendall(get("/nothing"))
            expect("the status of a route that is none", b"HTTP/1.1 404", link.recv(1 << 16)[:12])
            found = self.desk.status_of("VmRSS"), self.desk.files_open()
            link.shutdown(socket.SHUT_WR)
            all_of(link)
        return found
