"""What requests in single bytes cost the desk, and how much memory long bodies take."""
import json
import os
import pathlib
import sys
import time

from asking import Link, Server, get, post
from runs import head, row, run

HERE = pathlib.Path(__file__).resolve().parent
SIZE = 16_384  # bytes of a request in pieces
WHOLE, SINGLE = 2_000, 40  # how often it is sent at once, and in single bytes
BODY = 67_000_000  # bytes of a long body
RECORDS = 190_000  # of the largest extract that is loaded
LOAD = "2025-01-01T00:00:00"  # its date
MANIFEST = 'load = "{}"\nextract = [{{ feed = "customers", file = "large.csv" }}]\n'


def filled(make):
    """A request of just so many bytes: what fills it is made to that length."""
    request = make(SIZE - 200)
    while len(request) != SIZE:
        request = make(SIZE - 200 + SIZE - len(request))
    return request


def long_head(length):
    """A head with fields of 256 bytes and a last one that fills it."""
    fields = [f"X-{number:02d}: " + "x" * 248 for number in range(length // 256 - 1)]
    fields.append("X-Last: " + "x" * (length - sum(len(field) + 2 for field in fields)))
    return ("GET /nothing HTTP/1.1\r\n" + "".join(f"{field}\r\n" for field in fields) + "\r\n").encode()


PIECES = {
    "a head of 64 lines": filled(long_head),
    "a body": filled(lambda length: post(b'{"x":"' + b"x" * length + b'"}')),
    "a head of one line": filled(lambda length: get("/" + "x" * length)),
}


def cost_of(server, request, count, is_single):
    """A server's milliseconds of a processor a request: its own, and those of the system for it."""
    link, before = Link(server), server.processor()
    for _ in range(count):
        if is_single:
            for at in range(len(request)):
                link.socket.send(request[at:at + 1])
            link.take()
        else:
            link.ask(request)
    after = server.processor()
    link.close()
    return [(last - first) / count * 1e3 for first, last in zip(before, after)]


def show_single_bytes(program, folder):
    """The cost of each request, sent at once and in single bytes, beside that of the reads alone."""
    desk = Server("ours", folder, lambda port: [program, "serve", str(port)])
    counter = Server("reads alone", folder, lambda port: [sys.executable, HERE / "counter.py", str(port), str(SIZE)])
    head([f"a request of {SIZE:,} bytes", "sent", "who", "own ms of a processor", "ms of the system",
          "both, times the reads alone"])
    for name, request in PIECES.items():
        for how, count, is_single in (("at once", WHOLE, False), ("in single bytes", SINGLE, True)):
            alone = cost_of(counter, request, count, is_single)
            for who, cost in (("ours", cost_of(desk, request, count, is_single)), ("reads alone", alone)):
                row([name, how, who, *(f"{ms:.3f}" for ms in cost), f"{sum(cost) / sum(alone):.2f}" if sum(alone) else ""])
    desk.end()
    counter.end()


def large_text():
    """Nearly the largest extract of customers that a window may have."""
    records = (f"L{number:08d},{'name ' * 30}{number % 1000:03d},Oslo\n" for number in range(RECORDS))
    return "CUST_NO,NAME,CITY\n" + "".join(records)


def window(load, text):
    return {"load": load, "extracts": [{"feed": "customers", "text": text}]}


def long_requests(load, text):
    """Requests with long bodies: what they are, the status of the answer, and their bytes."""
    head_of_get = get("/windows").removesuffix(b"\r\n") + f"Content-Length: {BODY}\r\n\r\n".encode()
    yield "passed over: `GET /windows` with a body", 200, head_of_get + b" " * BODY
    yield "no JSON", 400, post(b"!" * BODY)
    yield "a window with one long text, which W6 refuses", 413, post(json.dumps(window(load, "x" * BODY)).encode())
    yield f"a window of {RECORDS:,} records, loaded", 200, post(json.dumps(window(load, text)).encode())


def show_long_bodies(program, vault, new_copy):
    """The most memory that the desk takes for a long body, beyond what it had before."""
    text = large_text()
    desk = Server("ours", new_copy("bodies"), lambda port: [program, "serve", str(port)])
    head(["a request", "MB", "s", "MB of memory beyond", "times the request"])
    for name, status, request in long_requests(LOAD, text):
        before, link = rested(desk), Link(desk)
        begun = time.perf_counter()
        reply = link.reply(request)
        if not reply.startswith(f"HTTP/1.1 {status} ".encode()):
            raise SystemExit(f"{name}: {reply[:400]}")
        show_memory(name, len(request), time.perf_counter() - begun, desk.memory("VmHWM") - before)
        link.close()
    desk.end()
    show_command(program, new_copy("command"), LOAD, text)


def show_memory(name, size, seconds, beyond):
    """A row of so many bytes, seconds, and kB of memory."""
    row([name, f"{size / 1e6:.1f}", f"{seconds:.2f}", f"{beyond * 1024 / 1e6:.1f}", f"{beyond * 1024 / size:.2f}"])


def rested(desk):
    """The kB of memory between requests; from here on the most is counted anew. Another connection is answered once the
    one before it has ended, and its memory is given back then."""
    link = Link(desk)
    link.ask(get("/nothing"))
    link.close()
    desk.forget_peak()
    return desk.memory("VmRSS")


def show_command(program, folder, load, text):
    """The same window by the command `load`, beyond the memory of a command that only reads the vault."""
    (folder / "large.csv").write_text(text)
    (folder / "w.toml").write_text(MANIFEST.format(load))
    before = run([program, "windows"], folder, os.devnull)[2]
    seconds, _, peak, _ = run([program, "load", "w.toml"], folder, os.devnull)
    show_memory("the last one by `vaultdesk load`", len(text), seconds, peak - before)
