"""Checks of the bytes on a connection to the desk: requests that come in pieces, that are cut, and that are none."""
import random

from kept.desks import (BAD_REQUEST, NOT_FOUND, NOT_GET, NOT_GET_OR_POST, NO_LENGTH, REPEATED, TOO_LONG, get, heads, loaded,
                        post, refused, serving, text)
from kept.program import expect
from kept.stores import contents
from kept.vaults import as_bytes

PLACED = """
hub = [{ name = "customer", parts = 1 }, { name = "sales_order", parts = 1 }]
link = [{ name = "placed", hubs = ["customer", "sales_order"] }]
feed = [
  { name = "customers", source = "crm", hub = "customer", keys = [["CUST_NO"]], attrs = ["NAME", "CITY", "SINCE"] },
  { name = "orders", source = "shop", hub = "sales_order", keys = [["ORDER_NO"]],
    attrs = ["STATE", "TOTAL_CENTS", "CURRENCY"] },
  { name = "placements", source = "shop", link = "placed", keys = [["CUST_NO"], ["ORDER_NO"]],
    attrs = ["CHANNEL"], ignore = ["CLERK"] },
]
"""

# A window as a client may write it, with a mark at its beginning and lines that end in CR LF; and a mart of it.
WINDOW = (
    rb'{"load":"2024-03-01T02:00:00","extracts":['
    rb'{"feed":"customers","text":"\ufeffCUST_NO,NAME,CITY,SINCE\r\n c1 ,\"Roe, Ann\",Oslo,2019\r\nC2,Lee,Bergen,2021\r\n"},'
    rb'{"feed":"orders","text":"ORDER_NO,STATE,TOTAL_CENTS,CURRENCY\r\no1,paid,1999,NOK\r\no2,new,500,NOK\r\n"},'
    rb'{"feed":"placements","text":"CUST_NO,ORDER_NO,CHANNEL,CLERK\r\nc1,o1,web,k7\r\nc2,o2,desk,k9\r\n"}]}')
POSTED = post(WINDOW, "Host: localhost")
ASKED = get("/marts/feed:customers?at=2024-03-01T02:00:00", "Host: localhost")
TALK = POSTED + ASKED
MART = text(b'CUST_NO,NAME,CITY,SINCE\nC1,"Roe, Ann",Oslo,2019\nC2,Lee,Bergen,2021\n')

# What somebody may hide behind a request: it shows whether more was answered than was asked.
HIDDEN = get("/tables/hub_sales_order")
NO_WINDOWS = heads(b"load_date,state,feeds\n")


def new_vault(bench):
    """A vault with a mapping and no window."""
    vault = bench.empty()
    vault.write("mapping.toml", PLACED)
    vault.says("init", err="init: Stored")
    return vault


def loaded_vault(bench):
    """A vault with the window."""
    vault = new_vault(bench)
    with serving(vault) as desk:
        desk.says("the talk", [loaded(18), MART], TALK)
    return vault


def a_talk(bench):
    """a window and a mart over one connection are answered in order, byte for byte, and so when they come again"""
    with serving(new_vault(bench)) as desk:
        desk.says("a new vault", [NO_WINDOWS], get("/windows"))
        for first in (loaded(18), REPEATED):
            desk.says("the talk", [first, MART], TALK)
        desk.says("the talk twice", [REPEATED, MART, REPEATED, MART], TALK + TALK)
        one_window = heads(b"load_date,state,feeds\n2024-03-01T02:00:00,sealed,customers orders placements\n")
        desk.says("the windows", [one_window], get("/windows"))


def each_front(bench):
    """of each front of a talk the requests that are whole are answered, and what is cut is neither answered nor loaded"""
    vault = new_vault(bench)
    before = contents(vault)
    with serving(vault) as desk:
        for length in range(len(POSTED)):
            desk.says(f"the first {length} bytes", [], TALK[:length])
    expect("what is kept of requests that were cut", before, contents(vault))
    with serving(loaded_vault(bench)) as desk:
        for length in range(len(POSTED), len(TALK)):
            desk.says(f"the first {length} bytes", [REPEATED], TALK[:length])


def in_pieces(bench):
    """a talk in two pieces, wherever it is parted, in three, and in single bytes is answered as in one"""
    pick = random.Random(19)
    with serving(loaded_vault(bench)) as desk:
        for at in range(1, len(TALK)):
            desk.says(f"parted at {at}", [REPEATED, MART], TALK[:at], TALK[at:])
        for _ in range(100):
            at, then = sorted(pick.sample(range(1, len(TALK)), 2))
            desk.says(f"parted at {at} and {then}", [REPEATED, MART], TALK[:at], TALK[at:then], TALK[then:])
        desk.says("in single bytes", [REPEATED, MART], *(TALK[at:at + 1] for at in range(len(TALK))), pause=0)


def field(*lines):
    """A GET of the windows with other lines behind its first one, as they are."""
    return b"GET /windows HTTP/1.1\r\n" + b"".join(as_bytes(line) + b"\r\n" for line in lines) + b"\r\n"


def length(value, method="GET"):
    return f"{method} /windows HTTP/1.1\r\nContent-Length:{value}\r\n\r\n".encode()


# No request can be told in these, or not where one ends. Each is answered once, and the connection is closed.
NO_REQUESTS = (
    # lines that are folded, and spaces where none may be
    field("A: b", " c"), field("A: b", "\tc"), field(" A: b"), field("A : b"), field("A"), field(": b"),
    # bytes that no field, name, target or method may have
    field("A: b\rc"), field("A: b\0c"), field("A\0: b"), field("A: b\x7f"), field("A b: c"), field("Ä: b"),
    b"GET /win\0dows HTTP/1.1\r\n\r\n", b"GET /\xff HTTP/1.1\r\n\r\n", b"GET /win dows HTTP/1.1\r\n\r\n",
    b"G(T /windows HTTP/1.1\r\n\r\n",
    # other blanks and line ends in the first line, and before it
    b"GET  /windows HTTP/1.1\r\n\r\n", b" GET /windows HTTP/1.1\r\n\r\n", b"GET /windows HTTP/1.1 \r\n\r\n",
    b"GET /windows\tHTTP/1.1\r\n\r\n", b"GET /windows HTTP/1.1\r\r\n\r\n", b"\rGET /windows HTTP/1.1\r\n\r\n",
    # other protocols and versions
    b"GET /windows\r\n\r\n", b"GET /windows\n\n", b"GET /windows HTTP/0.9\r\n\r\n", b"GET /windows HTTP/1.2\r\n\r\n",
    b"GET /windows HTTP/2\r\n\r\n", b"GET /windows HTTP/11\r\n\r\n", b"GET /windows http/1.1\r\n\r\n",
    b"PRI * HTTP/2.0\r\n\r\nSM\r\n\r\n", b"\x16\x03\x01\x02\x00\x01\x00\x01\xfc\x03\x03" + bytes(300),
    b"vaultdesk windows\r\n\r\n", b'{"load":"2024-03-01T02:00:00"}\r\n\r\n',
    # two lengths, and lengths that are none
    field("Content-Length: 1", "Content-Length: 2"), field("Content-Length: 1", "content-length: 1"),
    *(length(value) for value in ("", " ", " 1, 1", " +1", " -1", " 1 1", " 1;", " 0x1", " 1.0", " ١", " 18446744073709551617",
                                  " 00000000000000000001")),
    length(" +1", "POST"),
)

# A length in chunks, alone, with a length before or behind it, and spelled otherwise.
CHUNKED = ("Transfer-Encoding: chunked", "transfer-encoding:chunked", "Transfer-Encoding: identity", "Transfer-Encoding:",
           "TRANSFER-ENCODING: gzip, chunked")
NO_LENGTHS = (
    *(field(line) for line in CHUNKED), *(field(line, "Content-Length: 4") for line in CHUNKED),
    *(field("Content-Length: 4", line) for line in CHUNKED), field("Transfer-Encoding: chunked", "Content-Length: x"),
    field("Content-Length: 1", "Content-Length: 2", "Transfer-Encoding: chunked"),
    b"POST /windows HTTP/1.1\r\nTransfer-Encoding: chunked\r\n\r\n", b"POST /windows HTTP/1.1\r\n\r\n",
    b"POST /nothing HTTP/1.0\r\n\r\n",
)
TOO_LONG_BODIES = (length(" 68157441"), length(" 68157441", "POST"), length(" 9223372036854775808"), length(" 9999999999999999999"),
                   length(" 0068157441", "PUT"))


def no_requests(bench):
    """what is no request is answered once, by its name, and the connection is closed: what stands behind is not taken"""
    with serving(new_vault(bench)) as desk:
        for cases, reply in ((NO_REQUESTS, BAD_REQUEST), (NO_LENGTHS, NO_LENGTH), (TOO_LONG_BODIES, TOO_LONG)):
            for case in cases:
                for behind in (HIDDEN, b"0\r\n\r\n" + HIDDEN, b"\r\n" + HIDDEN):
                    desk.says(f"{case!r}", [reply.closing()], case + behind, leaves=False)
                both = [NO_WINDOWS, reply.closing()]
                desk.says(f"{case!r} behind a request", both, get("/windows") + case + HIDDEN, leaves=False)


AT = "2024-03-01T02:00:00"
EMPTY_MART = text(b"CUST_NO,NAME,CITY,SINCE\n")

# These are requests, though some of them are odd, and what stands behind them is the next one.
REQUESTS = (
    # a line may end in LF alone, and empty lines may come before
    (b"GET /windows HTTP/1.1\nHost: localhost\n\n", NO_WINDOWS), (b"GET /windows HTTP/1.1\r\nHost: localhost\n\r\n", NO_WINDOWS),
    (b"\r\n\r\n\nGET /windows HTTP/1.1\r\n\r\n", NO_WINDOWS),
    # values with blanks round them, and fields that are passed over
    (field("Content-Length: \t0 \t"), NO_WINDOWS), (field("A:"), NO_WINDOWS), (field("A: \xe6"), NO_WINDOWS),
    (field("Host: a", "Host: b"), NO_WINDOWS), (field("Expect: 100-continue"), NO_WINDOWS),
    (field("Upgrade: h2c", "Connection: Upgrade"), NO_WINDOWS), (field("Connection: keep-alive"), NO_WINDOWS),
    (field("Connection: close, x"), NO_WINDOWS),
    # targets of other forms are compared as they are
    *((get(target), NOT_FOUND) for target in ("http://localhost/windows", "*", "/%77indows", "/windows%", "/windows#a",
                                              "/./windows", "/windows/../windows", "/wændows")),
    (b"OPTIONS * HTTP/1.1\r\n\r\n", NOT_FOUND), (b"CONNECT localhost:80 HTTP/1.1\r\n\r\n", NOT_FOUND),
    (get("/windows?"), NO_WINDOWS), (get("/windows?%"), NO_WINDOWS),
    # escapes in the query, which may be cut
    (get(f"/marts/feed:customers?at={AT}"), EMPTY_MART), (get(f"/marts/feed:customers?a%74={AT}"), EMPTY_MART),
    (get(f"/marts/feed:customers?%61%74={AT}&at=%"), EMPTY_MART),
    (get(f"/marts/feed:customers?at={AT}%"), refused(422, f"Q2 BadDate text={AT}%")),
    (get(f"/marts/feed:customers?at={AT}%4"), refused(422, f"Q2 BadDate text={AT}%4")),
    (get("/marts/feed:customers?at=%zz+%00"), refused(422, "Q2 BadDate text=%zz ?")),
    (get("/marts/feed:customers?at=%ff%22"), refused(422, 'Q2 BadDate text=�"')),
    # methods in small letters, and others; only POST has to have a length
    (b"get /windows HTTP/1.1\r\n\r\n", NOT_GET_OR_POST), (b"post /windows HTTP/1.1\r\n\r\n", NOT_GET_OR_POST),
    (b"HEAD /windows HTTP/1.1\r\n\r\n", NOT_GET_OR_POST), (b"X-Y.z! /windows HTTP/1.1\r\n\r\n", NOT_GET_OR_POST),
    (b"PUT /tables/hub_customer HTTP/1.1\r\n\r\n", NOT_GET),
    (b"PATCH /nothing HTTP/1.1\r\nContent-Length: 3\r\n\r\nabc", NOT_FOUND),
    # a body that hides a request, or is none
    (length(f" {len(HIDDEN)}") + HIDDEN, NO_WINDOWS), (length(f" {len(HIDDEN)}", "POST") + HIDDEN, BAD_REQUEST),
    (length(" 0000000000000000003") + b"abc", NO_WINDOWS), (length(" 0", "POST"), BAD_REQUEST),
)

# The connection ends behind these, and what stands behind is not answered.
LAST_REQUESTS = (
    get("/windows", version="1.0"), get("/windows", "Connection: keep-alive", version="1.0"), get("/windows", "Connection: close"),
    get("/windows", "connection:\tCLOSE "), get("/windows", "Connection: keep-alive", "Connection: close"),
)


def odd_requests(bench):
    """odd requests are answered by the format, and the next one behind each, but not behind the last one"""
    with serving(new_vault(bench)) as desk:
        for case, reply in REQUESTS:
            both = [reply, NO_WINDOWS.closing()]
            desk.says(f"{case!r}", both, case + get("/windows", "Connection: close") + HIDDEN, leaves=False)
        for case in LAST_REQUESTS:
            desk.says(f"{case!r}", [NO_WINDOWS.closing()], case + HIDDEN, leaves=False)


def head_of(size, fields):
    """The head of a GET with so many bytes and fields."""
    lines = ["A: b"] * (fields - 1)
    bare = len(get("/windows", *lines, "X: "))
    return get("/windows", *lines, "X: " + "x" * (size - bare))


def limits_of_heads(bench):
    """a head has at most 16,384 bytes and 64 fields"""
    fitting, others = ((16_384, 1), (16_384, 64), (1_000, 64)), ((16_385, 1), (20_000, 1), (1_000, 65), (16_384, 65))
    with serving(new_vault(bench)) as desk:
        for heads_of, replies in ((fitting, [NO_WINDOWS, NO_WINDOWS]), (others, [BAD_REQUEST.closing()])):
            for size, fields in heads_of:
                head = head_of(size, fields)
                for parts in ([head + get("/windows")], [head[:size // 2], head[size // 2:] + get("/windows")]):
                    desk.says(f"a head of {size} bytes and {fields} fields in {len(parts)}", replies, *parts)
        long = get("/" + "a" * 20_000)
        desk.says("the first 16,383 bytes of a head without an end", [], long[:16_383])
        desk.says("the first 16,384 bytes of it", [BAD_REQUEST.closing()], long[:16_384])
        desk.says("16,384 bytes of empty lines", [BAD_REQUEST.closing()], b"\r\n" * 8_192 + get("/windows"))


def limits_of_bodies(bench):
    """a body has at most 68,157,440 bytes, and a longer one is refused by its length"""
    vault = loaded_vault(bench)
    with serving(vault) as desk:
        body = WINDOW + b" " * (68_157_440 - len(WINDOW))
        desk.says("a body of 68,157,440 bytes", [REPEATED, MART], post(body) + ASKED)
        desk.says("a body of 68,157,441 bytes", [TOO_LONG.closing()], post(body + b" ") + ASKED)
        desk.says("a mart behind it", [MART], ASKED)


CHECKS = (a_talk, each_front, in_pieces, no_requests, odd_requests, limits_of_heads, limits_of_bodies)
