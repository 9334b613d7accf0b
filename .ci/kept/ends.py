"""Checks of how connections to the desk end: with input that nobody reads, and in silence; of signals that break off a read
or write; and of a system that gives no other connection."""
import concurrent.futures
import contextlib
import random
import resource
import signal
import threading
import time

from kept import orders
from kept.desks import BAD_REQUEST, LONGEST_WAIT, NOT_FOUND, NO_LENGTH, TOO_LONG, Desk, all_of, get, heads, serving
from kept.program import expect, with_limits

CONNECTIONS, SLOW = 1_000, 10
BEHIND = 1 << 20  # bytes
SLOW_PIECE = 32 << 10  # bytes
WINDOWS = get("/windows")

# After how many seconds a desk ends a connection; LATE is by how much it may be later, on a machine with other work.
SILENT, CLOSING_SILENT, LATE = 30, 2, 25
MOST_BEHIND = 256 << 20  # bytes that are read and dropped behind a last request
REFUSED_FOR = 5  # seconds in which the system may give no connection


def windows_reply(count):
    """The reply to a GET of the windows, of the example with so many of them."""
    return heads(orders.windows_text(count).encode())


# The ends of talks, behind which nothing is taken, and the last replies, over a vault without a window.
LAST = (
    (get("/windows", "Connection: close"), windows_reply(0).closing()),
    (get("/nothing", version="1.0"), NOT_FOUND.closing()),
    (b"\0\1 no request\r\n\r\n", BAD_REQUEST.closing()),
    (b"POST /windows HTTP/1.1\r\nTransfer-Encoding: chunked\r\n\r\n", NO_LENGTH.closing()),
    (b"POST /windows HTTP/1.1\r\nContent-Length: 68157441\r\n\r\n", TOO_LONG.closing()),
)


def talks(count):
    """The requests of so many connections, several and then a last one, and the replies to them."""
    pick = random.Random(41)
    for number in range(count):
        asked = [pick.choice(((WINDOWS, windows_reply(0)), (get("/nothing"), NOT_FOUND))) for _ in range(pick.randrange(9))]
        asked.append(LAST[number % len(LAST)])
        yield b"".join(request for request, _ in asked), b"".join(reply.bytes() for _, reply in asked)


def next_bytes(link, count):
    """So many bytes that come, or those that come before the connection ends."""
    told = bytearray()
    while len(told) < count and (piece := link.recv(count - len(told))):
        told += piece
    return bytes(told)


class Pauses:
    """The longest pause of a client between two pieces that it sends: a desk ends a connection for one of two seconds."""

    def __init__(self):
        self.before, self.longest = time.monotonic(), 0.0

    def sent(self):
        now = time.monotonic()
        self.before, self.longest = now, max(self.longest, now - self.before)

    def was_late(self):
        """Whether the machine had so much other work that the client could not send in time."""
        return self.longest > CLOSING_SILENT / 2


def answered(desk, requests, replies, behind, pause=0):
    """Whether a connection gets all replies where pieces are sent behind its requests, and whether it ends without a reset.
    One request is answered before: from then on the system waits with what is short until what came before is confirmed. A
    client that was late is none, and the next one is taken."""
    told, whole = b"", True
    first = windows_reply(0).bytes()
    with desk.connected() as link:
        link.sendall(WINDOWS)
        expect("the first reply", first, next_bytes(link, len(first)))
        pauses = Pauses()
        try:
            link.sendall(requests + behind[0])
            for piece in behind[1:]:
                time.sleep(pause)
                link.sendall(piece)
                pauses.sent()
        except (BrokenPipeError, ConnectionResetError):
            whole = False
        pauses.sent()
        try:
            while piece := link.recv(1 << 16):
                told += piece
        except ConnectionResetError:
            whole = False
    if pauses.was_late():
        return answered(desk, requests, replies, behind, pause)
    return told == replies, whole


def all_are_answered(desk, count, behind, pause=0):
    """Compares how many of so many connections lost a part of their replies, and how many were reset, with none."""
    got = [answered(desk, requests, replies, behind, pause) for requests, replies in talks(count)]
    lost = sum(not all_came for all_came, _ in got)
    were_reset = sum(not whole for _, whole in got)
    expect(f"{count} connections: how many lost a reply, and how many were reset", (0, 0), (lost, were_reset))


def input_that_is_unread(bench):
    """a thousand connections that send 1 MiB behind their last requests, at once or slowly, get every byte of each reply"""
    behind = random.Random(1).randbytes(BEHIND)
    with serving(orders.kept(bench, 0)) as desk:
        all_are_answered(desk, CONNECTIONS - SLOW, [behind])
        all_are_answered(desk, SLOW, [behind[at:at + SLOW_PIECE] for at in range(0, BEHIND, SLOW_PIECE)], pause=0.03)


def senders_that_stay(bench):
    """behind a last request a sender without an end is cut off, and one that is silent and stays is waited for two seconds"""
    reply = windows_reply(0).bytes()
    last = get("/windows", "Connection: close")
    with serving(orders.kept(bench, 0)) as desk:
        with desk.connected() as link, desk.connected() as other, ends_after(CLOSING_SILENT):
            link.sendall(last)
            expect("the last reply", windows_reply(0).closing().bytes(), all_of(link))
            other.sendall(WINDOWS)
            expect("the next connection", reply, next_bytes(other, len(reply)))
        sent = sent_without_end(desk, last)
        expect("whether the sender was cut off behind so much", True, MOST_BEHIND < sent < 2 * MOST_BEHIND)
        desk.says("the windows", [windows_reply(0)], WINDOWS)


def sent_without_end(desk, last):
    """How many bytes a client sends behind a last request before it is cut off."""
    while True:
        sent, pauses = 0, Pauses()
        with desk.connected() as link, contextlib.suppress(BrokenPipeError, ConnectionResetError):
            link.sendall(last)
            while sent < 4 * MOST_BEHIND:
                sent += link.send(bytes(1 << 20))
                pauses.sent()
        pauses.sent()
        if not pauses.was_late():
            return sent


@contextlib.contextmanager
def ends_after(seconds):
    """Compares how long it takes from before the desk could begin to count until behind what it does then. The desk counts
    with thousandths of a second."""
    begun = time.monotonic()
    yield
    taken = time.monotonic() - begun
    expect(f"whether {taken:.1f} seconds are {seconds}", True, seconds - 0.1 < taken < seconds + LATE)


def is_silent(vault, sent, replies):
    """A connection that sends no more is ended, and the next one is served."""
    with serving(vault) as desk, ends_after(SILENT), desk.connected() as link, desk.connected() as other:
        link.sendall(sent)
        other.sendall(WINDOWS)
        expect(f"a connection that sends {sent!r}", replies, all_of(link))
        link.close()
        reply = windows_reply(0).bytes()
        expect("the one that waited", reply, next_bytes(other, len(reply)))


def is_slow(vault):
    """A connection that sends a byte in time, again and again, is answered, however long its request takes."""
    with serving(vault) as desk, desk.connected() as link:
        for at in range(3):
            link.sendall(WINDOWS[at:at + 1])
            time.sleep(SILENT * 0.36)
        link.sendall(WINDOWS[3:])
        reply = windows_reply(0).bytes()
        expect("a slow request", reply, next_bytes(link, len(reply)))


def silence(bench):
    """a connection that sends nothing for thirty seconds is ended and others are served, and one that is slow is not"""
    half, reply = WINDOWS + WINDOWS[:9], windows_reply(0).bytes()
    tasks = ((is_silent, orders.kept(bench, 0), b"", b""), (is_silent, orders.kept(bench, 0), half, reply),
             (is_slow, orders.kept(bench, 0)))
    with concurrent.futures.ThreadPoolExecutor() as pool:
        for done in [pool.submit(*task) for task in tasks]:
            done.result()


def a_stop(bench):
    """a desk that is stopped while it reads or writes, and goes on, ends no connection"""
    with serving(orders.kept(bench, 0)) as desk, desk.connected() as link:
        for part in (WINDOWS[:9], WINDOWS[9:-1]):
            link.sendall(part)
            for ending in (signal.SIGSTOP, signal.SIGCONT):
                time.sleep(0.05)
                desk.process.send_signal(ending)
        link.sendall(WINDOWS[-1:])
        reply = windows_reply(0).bytes()
        expect("the reply", reply, next_bytes(link, len(reply)))
        sender = threading.Thread(target=link.sendall, args=(get("/nothing") * 9_000,))
        sender.start()
        for ending in (signal.SIGSTOP, signal.SIGCONT) * 3:
            time.sleep(0.05)
            desk.process.send_signal(ending)
        sent = NOT_FOUND.bytes() * 9_000
        expect("the replies", sent, next_bytes(link, len(sent)))
        sender.join()


def refused_connections(bench):
    """where the system gives no connection for a while the desk goes on then, and where it gives none for longer it ends"""
    vault = orders.kept(bench, 0)
    desk = Desk(vault, limits=with_limits())
    try:
        desk.wait_until_it_listens()
        files = desk.files_open()
        limit_files(desk, files)
        desk.says("the connection that was waited for", [windows_reply(0)], WINDOWS)
        time.sleep(0.5)
        limit_files(desk, files + 1)
        desk.says("a connection when there are files again", [windows_reply(0)], WINDOWS)
        limit_files(desk, files)
        with ends_after(REFUSED_FOR):
            desk.says("another one that was waited for", [windows_reply(0)], WINDOWS)
            expect("the status", 4, desk.process.wait(timeout=LONGEST_WAIT))
        expect("what it said", b"vaultdesk: read fault doors\n", desk.what_it_said())
    finally:
        desk.leave()


def limit_files(desk, count):
    """Lets a desk that runs have so many files open and no more."""
    _, hard = resource.prlimit(desk.process.pid, resource.RLIMIT_NOFILE)
    resource.prlimit(desk.process.pid, resource.RLIMIT_NOFILE, (count, hard))


CHECKS = (input_that_is_unread, senders_that_stay, silence, a_stop, refused_connections)
