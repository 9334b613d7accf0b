"""The desk that serves a vault: how it is started and ended, how it is asked, and what its replies are by the format."""
import contextlib
import json
import os
import pathlib
import random
import signal
import socket
import struct
import subprocess
import tempfile
import time
import tomllib
from typing import NamedTuple

from kept.program import CheckFailed, expect

LONGEST_WAIT = 600  # seconds, of a reply or of the desk's start and end
LISTENING = "0A"  # the state of a socket, as the system writes it
PHRASES = {200: "OK", 400: "Bad Request", 404: "Not Found", 405: "Method Not Allowed", 409: "Conflict",
           411: "Length Required", 413: "Payload Too Large", 422: "Unprocessable Entity", 500: "Internal Server Error",
           503: "Service Unavailable"}


class Reply(NamedTuple):
    """A reply, as the format has it."""

    status: int
    kind: str
    body: bytes
    allow: str | None = None
    last: bool = False

    def head(self):
        """The lines of its head."""
        yield f"HTTP/1.1 {self.status} {PHRASES[self.status]}"
        yield f"Content-Type: {self.kind}"
        yield f"Content-Length: {len(self.body)}"
        if self.allow:
            yield f"Allow: {self.allow}"
        if self.last:
            yield "Connection: close"

    def bytes(self):
        return "".join(f"{line}\r\n" for line in [*self.head(), ""]).encode() + self.body

    def closing(self):
        """The same, behind which the connection ends."""
        return self._replace(last=True)


def as_json(value):
    """A value without blanks, with its members in the order of their names."""
    return json.dumps(value, separators=(",", ":"), sort_keys=True, ensure_ascii=False).encode()


def answer(status, name, **members):
    """A reply that has the name of an answer."""
    allow = members.pop("allow", None)
    return Reply(status, "application/json", as_json({"answer": name, **members}), allow)


def text(body):
    """A reply that has the text of a mart or a table."""
    return Reply(200, "text/csv; charset=utf-8", body)


def loaded(rows):
    return answer(200, "Loaded", rows=rows)


def refused(status, rule):
    return answer(status, "Refused", text=rule)


REPEATED = answer(200, "Repeated")
BAD_REQUEST = answer(400, "BadRequest")
NOT_FOUND = answer(404, "NotFound")
NOT_GET = answer(405, "Method", allow="GET")
NOT_GET_OR_POST = answer(405, "Method", allow="GET, POST")
NO_LENGTH = answer(411, "NoLength")
TOO_LONG = answer(413, "TooLong")
KEEPER = answer(503, "Keeper")


def heads(windows_text):
    """The reply to a GET of /windows, of what the command `windows` writes."""
    rows = [line.split(",") for line in windows_text.decode().splitlines()[1:]]
    begun = [load for load, state, _ in rows if state == "open"]
    sealed = [{"feeds": feeds.split(), "load": load} for load, state, feeds in rows if state == "sealed"]
    return Reply(200, "application/json", as_json({"open": begun[0] if begun else None, "windows": sealed}))


def window(load, extracts):
    """The body that posts a window: its load date, and of each extract the feed and the text."""
    return json.dumps({"load": load, "extracts": [{"feed": feed, "text": csv} for feed, csv in extracts]}).encode()


def window_of(vault, manifest):
    """The body that posts the window of a manifest."""
    given = tomllib.loads(vault.file(manifest).read_text(encoding="utf-8"))
    extracts = [(each["feed"], vault.file(each["file"]).read_bytes().decode()) for each in given.get("extract", [])]
    return window(given["load"], extracts)


def get(target, *fields, version="1.1"):
    """The bytes of a GET."""
    return "".join(f"{line}\r\n" for line in [f"GET {target} HTTP/{version}", *fields, ""]).encode()


def post(body, *fields):
    """The bytes of a POST to /windows."""
    lines = ["POST /windows HTTP/1.1", *fields, f"Content-Length: {len(body)}", ""]
    return "".join(f"{line}\r\n" for line in lines).encode() + body


def free_port():
    """A port at which nobody listens now, of those that the system gives no client, so that none takes it meanwhile."""
    first = int(pathlib.Path("/proc/sys/net/ipv4/ip_local_port_range").read_text().split()[0])
    while True:
        port = random.randrange(min(10_000, first // 2), first)
        with contextlib.suppress(OSError), socket.create_server(("127.0.0.1", port)):
            return port


def listeners(port):
    """The addresses at which somebody listens at a port, as the system writes them."""
    for table in ("/proc/net/tcp", "/proc/net/tcp6"):
        with contextlib.suppress(FileNotFoundError):
            for line in pathlib.Path(table).read_text().splitlines()[1:]:
                _, local, _, state, *_ = line.split()
                address, number = local.split(":")
                if state == LISTENING and int(number, 16) == port:
                    yield address


def with_signals(limits):
    """What a process does first that signals can end, though a gate in the background lets its own pass them over."""

    def begin():
        signal.signal(signal.SIGINT, signal.SIG_DFL)
        if limits:
            limits()

    return begin


class Desk:
    """A process of the program that serves a vault."""

    def __init__(self, vault, port=None, limits=None, options=()):
        self.vault, self.port = vault, port or free_port()
        self.said = tempfile.TemporaryFile()
        self.process = subprocess.Popen([vault.bench.program, "serve", str(self.port), *options], cwd=vault.folder,
                                        stdin=subprocess.DEVNULL, stdout=self.said, stderr=subprocess.STDOUT,
                                        preexec_fn=with_signals(limits))

    def what_it_said(self):
        self.said.seek(0)
        return self.said.read()

    def wait_until_it_listens(self):
        ended = time.monotonic() + LONGEST_WAIT
        while not any(listeners(self.port)):
            if self.process.poll() is not None or time.monotonic() > ended:
                raise CheckFailed(f"serve {self.port}\n    expected: it listens\n    got:      status "
                                  f"{self.process.returncode}, {self.what_it_said()!r}")
            time.sleep(0.01)

    def end(self, ending):
        """Ends the desk by a signal. It neither ended before nor wrote a line."""
        expect("whether the desk still runs", None, self.process.poll())
        self.process.send_signal(ending)
        expect("the desk's end", -ending, self.process.wait(timeout=LONGEST_WAIT))
        expect("what the desk wrote to its standard streams", b"", self.what_it_said())

    def leave(self):
        """Ends the desk where a check failed."""
        self.process.kill()
        self.process.wait()
        self.said.close()

    def connected(self):
        """A connection to the desk, without a wait for other bytes before it sends."""
        link = socket.create_connection(("127.0.0.1", self.port), timeout=LONGEST_WAIT)
        link.setsockopt(socket.IPPROTO_TCP, socket.TCP_NODELAY, 1)
        return link

    def told(self, *pieces, pause=0.002, leaves=True):
        """All that comes back on a connection of its own, where pieces are sent one after another and then, where the
        client leaves, no more. A client that stays is told by the desk that the connection ends."""
        with self.connected() as link:
            for number, piece in enumerate(pieces):
                if number:
                    time.sleep(pause)
                # What was told before the desk closed the connection can still be read.
                with contextlib.suppress(BrokenPipeError, ConnectionResetError):
                    link.sendall(piece)
            if leaves:
                with contextlib.suppress(OSError):
                    link.shutdown(socket.SHUT_WR)
            return all_of(link)

    def says(self, what, expected, *pieces, **how):
        """Compares all that comes back with replies."""
        expect(what, b"".join(reply.bytes() for reply in expected), self.told(*pieces, **how))

    def status_of(self, name):
        """A value of /proc/PID/status: of the memory, in kB."""
        for line in pathlib.Path(f"/proc/{self.process.pid}/status").read_text().splitlines():
            if line.startswith(f"{name}:"):
                return int(line.split()[1])
        raise CheckFailed(f"/proc/PID/status has no {name}")

    def work(self):
        """Whether the process waits for something, and the seconds of a processor that it took."""
        fields = pathlib.Path(f"/proc/{self.process.pid}/stat").read_text().rpartition(")")[2].split()
        return fields[0] == "S", (int(fields[11]) + int(fields[12])) / os.sysconf("SC_CLK_TCK")

    def files_open(self):
        return len(os.listdir(f"/proc/{self.process.pid}/fd"))

    def bytes_read(self):
        """How many bytes the process has read of files so far."""
        lines = pathlib.Path(f"/proc/{self.process.pid}/io").read_text().splitlines()
        return next(int(line.split()[1]) for line in lines if line.startswith("rchar:"))


def all_of(link):
    """The bytes that come until the connection ends; a reset ends it too."""
    found = bytearray()
    while True:
        try:
            piece = link.recv(1 << 16)
        except ConnectionResetError:
            piece = b""
        if not piece:
            return bytes(found)
        found += piece


def reset(link):
    """Breaks a connection off, as a client does that is gone of a sudden."""
    link.setsockopt(socket.SOL_SOCKET, socket.SO_LINGER, struct.pack("ii", 1, 0))
    link.close()


@contextlib.contextmanager
def serving(vault, ending=signal.SIGTERM, **how):
    """A desk over a vault. At the end it still runs, and has written nothing to its standard streams."""
    desk = Desk(vault, **how)
    try:
        desk.wait_until_it_listens()
        yield desk
        desk.end(ending)
    finally:
        desk.leave()
