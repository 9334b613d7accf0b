"""Checks of the desk's life: how it begins and ends, and of connections that are kept, wait, break off or come in
thousands."""
import contextlib
import http.client
import pathlib
import resource
import signal
import socket
import subprocess
import threading
import time

from kept import history, orders
from kept.breaks import sizes, spread
from kept.desk import ByClient, each_is, limit_files
from kept.desks import (BAD_REQUEST, KEEPER, LONGEST_WAIT, NOT_FOUND, REPEATED, all_of, free_port, get, heads, listeners,
                        loaded, post, refused, reset, serving, text, window, window_of, Desk)
from kept.locks import refusal_of_sqlite
from kept.orders import DATES
from kept.program import KEEPER_FAULT, NO_MAPPING, USAGE, expect, killed_past, with_limits
from kept.stores import change_row, contents, opened

WARM, CONNECTIONS = 100, 1_000
FLAT = 256  # kB by which the memory may grow over so many connections
KILLS = 12
WINDOWS = get("/windows")
TAKEN = {"status": 4, "err": "vaultdesk: read fault doors"}


def windows_reply(count):
    """The reply to a GET of the windows, of the example with so many of them."""
    return heads(orders.windows_text(count).encode())


def words_behind_serve(bench):
    """words behind serve that are no port are usage, and nothing is opened"""
    vault = orders.kept(bench, 1)
    before = vault.store_bytes()
    for words in ("", "0", "08080", "+8080", "-8080", "65536", "99999999999999999999", "80 x", "8080 8080", "-- 8080", "8080 --",
                  "8080 -w 2", "--help", "localhost:8080", "8080.0", "0x50", "windows", "٨٠٨٠"):
        vault.says("serve", *words.split(), **USAGE)
    vault.says("serve", "", **USAGE)
    with open("/dev/full", "wb") as full:
        vault.says("serve", "0", status=6, err_to=full)
    expect("the store after words that are no port", before, vault.store_bytes())


def vaults_that_cannot_be_served(bench):
    """without a mapping, over a file that is none or that another process holds, and over a damaged store, serve ends with
    the line and the status of each command, and listens at no port"""
    port = str(free_port())
    vault = orders.kept(bench, 0)
    vault.without_store()
    vault.says("serve", port, **NO_MAPPING)
    vault.without_store()
    vault.write("vault.db", "no,database\n1,2\n")
    vault.says("serve", port, **KEEPER_FAULT)
    vault = orders.kept(bench, 1)
    with opened(vault.file("vault.db")) as connection:
        connection.execute("BEGIN EXCLUSIVE")
        vault.says("serve", port, **KEEPER_FAULT)
        connection.execute("ROLLBACK")
    with open("/dev/full", "wb") as full, socket.create_server(("127.0.0.1", int(port))):
        vault.says("serve", port, status=6, err_to=full)
    change_row(vault, "hub_customer", 1, "hash_key", bytes(range(16)))
    vault.says("serve", port, status=8, err="vaultdesk: damaged hub_customer 1 F7")


def a_port_that_is_taken(bench):
    """a port that is taken is told by its line and status, whoever has it, and a desk that has it goes on"""
    other = orders.kept(bench, 1)
    with serving(orders.kept(bench, 2)) as desk:
        other.says("serve", str(desk.port), **TAKEN)
        desk.says("the first desk", [windows_reply(2)], WINDOWS)
    with socket.create_server(("127.0.0.1", 0)) as listener:
        other.says("serve", str(listener.getsockname()[1]), **TAKEN)
    other.says("windows", out=orders.windows_text(1))


def no_other_address(bench):
    """the desk listens at 127.0.0.1 alone"""
    with serving(orders.kept(bench, 0)) as desk:
        expect("the addresses", ["0100007F"], list(listeners(desk.port)))
        for address in ("127.0.0.2", "::1"):
            with contextlib.suppress(OSError), socket.create_connection((address, desk.port), timeout=LONGEST_WAIT):
                expect(f"whether {address} is answered", False, True)


def nobody_else_meanwhile(bench):
    """while a desk runs each command and each other desk is a keeper fault, SQLite is locked out, and it ends by a signal"""
    vault = orders.kept(bench, 1)
    before = contents(vault)
    for ending in (signal.SIGINT, signal.SIGTERM, signal.SIGKILL):
        with serving(vault, ending=ending) as desk:
            desk.says("the windows", [windows_reply(1)], WINDOWS)
            for words in (("windows",), ("load", "w2.toml"), ("serve", str(free_port()))):
                vault.says(*words, **KEEPER_FAULT)
            expect("what SQLite says", "database is locked", refusal_of_sqlite(vault))
            desk.says("the windows again", [windows_reply(1)], WINDOWS)
    expect("what is kept", before, contents(vault))
    vault.says("load", "w2.toml", err=orders.line_of("w2.toml"))


def the_same_port_again(bench):
    """a desk that ended while it had connections begins again at the same port at once"""
    vault, port = orders.kept(bench, 0), free_port()
    for _ in range(3):
        with serving(vault, port=port) as desk:
            desk.says("a last request", [windows_reply(0).closing()], get("/windows", "Connection: close"), leaves=False)
            waiting = desk.connected()
        waiting.close()


def kept_connections(bench):
    """a connection is kept from request to request, whatever the answer is, and ended where the client wants it"""
    with serving(orders.kept(bench, 1)) as desk:
        link = http.client.HTTPConnection("127.0.0.1", desk.port, timeout=LONGEST_WAIT)
        link.connect()
        first = link.sock
        for target in ("/windows", "/nothing", "/marts/feed:customers?at=never", "/tables/hub_customer") * 10:
            ByClient.told(link, "GET", target)
            expect("whether the connection is the first one", True, link.sock is first)
        ByClient.told(link, "GET", "/windows", None, "Connection: close")
        expect("whether the connection is still there", None, link.sock)
        url = f"http://127.0.0.1:{desk.port}/windows"
        words = ["curl", "--silent", "--write-out", "%{num_connects} %{http_code}\n", *(["--output", "/dev/null", url] * 3)]
        done = subprocess.run(words, capture_output=True, timeout=LONGEST_WAIT)
        expect("new connections and statuses, by curl", b"1 200\n0 200\n0 200\n", done.stdout)


def ten_thousand_requests(bench):
    """a connection has ten thousand requests, which may come at once, and ends behind the last of their replies"""
    with serving(orders.kept(bench, 0)) as desk, desk.connected() as link:
        sender = threading.Thread(target=link.sendall, args=(get("/") * 10_001,))
        sender.start()
        told = all_of(link)
        sender.join()
        expect("how many replies there are", (10_000, b""), divided(told, NOT_FOUND.bytes()))
        desk.says("another connection", [windows_reply(0)], WINDOWS)


def divided(told, reply):
    """How often a reply stands at the front, and what is behind."""
    count = 0
    while told.startswith(reply, count * len(reply)):
        count += 1
    return count, told[count * len(reply):]


def connections_wait(bench):
    """a connection waits until those before it end, and is answered then"""
    with serving(orders.kept(bench, 0)) as desk:
        links = [desk.connected() for _ in range(4)]
        for link in reversed(links):
            link.sendall(WINDOWS)
        for at, link in enumerate(links):
            reply = windows_reply(0).bytes()
            expect(f"connection {at}", reply, link.recv(len(reply), socket.MSG_WAITALL))
            for later in links[at + 1:]:
                is_silent(later)
            link.close()


def is_silent(link):
    """Fails where something has come."""
    link.setblocking(False)
    with contextlib.suppress(BlockingIOError):
        expect("what came to a connection that waits", None, link.recv(1))
    link.settimeout(LONGEST_WAIT)


def clients_that_go(bench):
    """a client that goes in the midst of a request leaves nothing behind, and the next one is served"""
    vault = orders.kept(bench, 1)
    posted, before = post(window_of(vault, "w2.toml"), "Host: localhost"), contents(vault)
    head = posted.index(b"\r\n\r\n") + 4
    with serving(vault) as desk:
        for length in (0, 1, 10, head - 2, head, head + 1, len(posted) // 2, len(posted) - 1):
            for leave in (socket.socket.close, reset):
                link = desk.connected()
                link.sendall(posted[:length])
                leave(link)
                desk.says(f"the windows after a client that went behind {length} bytes", [windows_reply(1)], WINDOWS)
    expect("what is kept after clients that went", before, contents(vault))


def clients_that_go_unanswered(bench):
    """a whole window is loaded though its client goes before the answer, and is a repeated one when it comes again"""
    vault = orders.kept(bench, 1)
    posted = post(window_of(vault, "w2.toml"))
    with serving(vault) as desk:
        link = desk.connected()
        link.sendall(posted)
        desk_has_read(desk, link)
        reset(link)
        desk.says("the window again", [REPEATED], posted)
    expect("what is kept", contents(orders.kept(bench, 2)), contents(vault))


def desk_has_read(desk, link):
    """Waits until what was sent on a connection was read: until no bytes of it wait at the desk's end."""
    ended = time.monotonic() + LONGEST_WAIT
    ports = f"{desk.port:04X}", f"{link.getsockname()[1]:04X}"
    while time.monotonic() < ended:
        for line in pathlib.Path("/proc/net/tcp").read_text().splitlines()[1:]:
            _, local, remote, _, queues, *_ = line.split()
            if (local[-4:], remote[-4:]) == ports and queues.endswith(":00000000"):
                return
        time.sleep(0.01)
    expect("whether the desk reads", True, False)


ONE_FEED = """
hub = [{ name = "customer", parts = 1 }]
feed = [{ name = "customers", source = "crm", hub = "customer", keys = [["NO"]], attrs = ["NAME"] }]
"""


def clients_that_do_not_read(bench):
    """a client that reads no reply lets others wait, without work for the processor, and they are served once it is gone"""
    vault = bench.empty()
    vault.write("mapping.toml", ONE_FEED)
    vault.says("init", err="init: Stored")
    csv = "NO,NAME\n" + "".join(f"C{number:06d},{'x' * 100}\n" for number in range(20_000))
    mart = get(f"/marts/feed:customers?at={DATES[0]}")
    with serving(vault) as desk:
        desk.says("the window", [loaded(60_000)], post(window(DATES[0], [("customers", csv)])))
        for leave in (socket.socket.close, reset):
            link = desk.connected()
            link.sendall(mart * 20)
            other = desk.connected()
            other.sendall(mart)
            rests(desk)
            is_silent(other)
            leave(link)
            other.shutdown(socket.SHUT_WR)
            expect("the other connection", text(csv.encode()).bytes(), all_of(other))
            other.close()


def rests(desk):
    """Waits until the desk waits itself, and takes no more of a processor for half a second."""
    ended, before = time.monotonic() + LONGEST_WAIT, None
    while (now := desk.work()) != before or not now[0]:
        expect("whether the desk comes to rest", True, time.monotonic() < ended)
        before = now
        time.sleep(0.5)


def visit(desk, number, posted):
    """A connection of one of several kinds."""
    kind = number % 6
    if kind == 0:
        desk.says("the talk", [windows_reply(1), NOT_FOUND, windows_reply(1)], WINDOWS + get("/nothing") + WINDOWS)
    elif kind == 1:
        desk.says("no request", [BAD_REQUEST.closing()], b"nothing\r\n\r\n")
    elif kind == 2:
        desk.says("half a request", [], posted[:len(posted) // 2])
    elif kind == 3:
        link = desk.connected()
        link.sendall(WINDOWS)
        reset(link)
    elif kind == 4:
        desk.says("the window again", [REPEATED], posted)
    else:
        desk.says("a refused date", [refused(422, "Q2 BadDate text=never")], get("/marts/feed:customers?at=never"))


def thousand_connections(bench):
    """a thousand connections, one after another, of clients of all kinds, leave the desk's memory and files as they were"""
    vault = orders.kept(bench, 1)
    posted = post(window_of(vault, "w1.toml"))
    with serving(vault) as desk:
        for number in range(WARM):
            visit(desk, number, posted)
        desk.says("the windows", [windows_reply(1)], WINDOWS)
        # A client sees the end of the replies just before the desk closes its side.
        rests(desk)
        before, files = desk.status_of("VmRSS"), desk.files_open()
        for number in range(CONNECTIONS):
            visit(desk, number, posted)
        desk.says("the windows", [windows_reply(1)], WINDOWS)
        rests(desk)
        after = desk.status_of("VmRSS")
        expect(f"whether the memory grew by at most {FLAT} kB, from {before} to {after}", True, after - before <= FLAT)
        expect("the open files", files, desk.files_open())


def store_is_read_once(bench):
    """the store is read at the beginning and after a fault of the file, and for no other request"""
    vault = orders.kept(bench, 2)
    posted = post(window_of(vault, "w3.toml"))
    targets = ("/windows", "/tables/sat_lines", f"/marts/path:sold?at={DATES[1]}", "/nothing", "/windows")
    with serving(vault, limits=with_limits()) as desk:
        reads_nothing(desk, targets)
        limit_files(desk, 0)
        desk.says("a load without room", [KEEPER], posted)
        limit_files(desk, resource.RLIM_INFINITY)
        before = desk.bytes_read()
        desk.says("the windows", [windows_reply(2)], WINDOWS)
        expect("whether the store is read after a fault", True, desk.bytes_read() > before)
        reads_nothing(desk, targets)


def reads_nothing(desk, targets):
    before = desk.bytes_read()
    for target in targets:
        desk.told(get(target))
    expect("the bytes that were read of files", before, desk.bytes_read())


def killed_after(vault, seconds, posted):
    """Kills a desk a while after a window was sent."""
    with serving(vault, ending=signal.SIGKILL) as desk, desk.connected() as link:
        link.sendall(posted)
        time.sleep(seconds)


def killed_at(vault, size, posted):
    """Has a desk killed that writes a file past so many bytes, as it loads a window."""
    desk = Desk(vault, limits=killed_past(resource.RLIM_INFINITY))
    try:
        desk.wait_until_it_listens()
        resource.prlimit(desk.process.pid, resource.RLIMIT_FSIZE, (size, size))
        with desk.connected() as link:
            link.sendall(posted)
            expect(f"the end of a desk that may write {size} bytes", -signal.SIGXFSZ, desk.process.wait(timeout=LONGEST_WAIT))
    finally:
        desk.leave()


def killed_desks(bench):
    """a desk that is killed while it loads, at some moments, leaves the window absent, open or sealed: it comes again and ends
    as unbroken"""
    vault = history.inputs(bench)
    vault.says("init", err="init: Stored")
    vault.loaded("w1.toml")
    unbroken = vault.twin()
    added = loaded(unbroken.loaded("w2.toml")[0])
    request, taken = ("POST", "/windows", window_of(vault, "w2.toml")), seconds_of_post(vault)
    kills = [(killed_after, seconds) for seconds in spread(0, 1.1 * taken, KILLS // 2)]
    kills += [(killed_at, size) for size in sizes(vault, KILLS // 2, "load", "w2.toml")]
    for kill, moment in kills:
        tried = vault.twin()
        kill(tried, moment, post(request[2]))
        with serving(tried) as desk:
            is_sealed = history.DATES[1].encode() in desk.told(WINDOWS).partition(b'"windows":')[2]
            each_is(desk, [(request, REPEATED if is_sealed else added), (request, REPEATED)], [ByClient])
        expect("what is kept after a kill", contents(unbroken), contents(tried))
        bench.drop(tried)


def seconds_of_post(vault):
    """How long the second window takes."""
    tried = vault.twin()
    with serving(tried) as desk:
        begun = time.perf_counter()
        desk.told(post(window_of(vault, "w2.toml")))
        return time.perf_counter() - begun


CHECKS = (
    words_behind_serve, vaults_that_cannot_be_served, a_port_that_is_taken, no_other_address, nobody_else_meanwhile,
    the_same_port_again, kept_connections, ten_thousand_requests, connections_wait, clients_that_go, clients_that_go_unanswered,
    clients_that_do_not_read, thousand_connections, store_is_read_once, killed_desks,
)
