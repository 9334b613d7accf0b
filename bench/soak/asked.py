"""What the desk is asked: connections with their bytes, and the statuses that the format gives for them."""
import csv
import datetime
import io
from typing import NamedTuple

from kept import history
from kept.desk import NO_JSON, NO_ROUTES, NO_WINDOWS
from kept.desks import get, post, window
from kept.wires import NO_LENGTHS, NO_REQUESTS, TOO_LONG_BODIES

FIRST = datetime.datetime(2024, 3, 1, 2)
LAST_DATE, LATE_DATE = "9000-01-01T00:00:00", "2000-01-01T00:00:00"
MARTS = ("feed:customers", "feed:phones", "feed:visits", "feed:care", "period:care", "hub:customer", "hub:site", "hub:clerk",
         *(f"path:{path}" for path in history.PATHS))
NO_MARTS = ("marts/feed:nobody", "marts/table:hub_customer", "marts/", "tables/hub_customers", "tables/", "pits/sold",
            "pits/customer")
DATES = ("2024-02-30T00:00:00", "never", "")
CUSTOMERS, CARE, VISITS = "CUST_NO,NAME,CITY\n", "CUST_NO,CLERK\n", "CUST_NO,REGION,SITE,PURPOSE\n"
LONG = 33_554_433  # bytes of an extract, one more than it may have
MANY = 200_001  # records of one, likewise


class Asked(NamedTuple):
    """A connection: its kind, the bytes that are sent, the status of each reply in order, and what the last one has."""

    kind: str
    sent: bytes
    statuses: tuple
    has: bytes = b""


def load_of(number):
    """The load date of the n-th window."""
    return (FIRST + datetime.timedelta(hours=number)).isoformat()


def new_window(source, number):
    """The n-th window of a source, as it is posted, after which the source goes on."""
    extracts = []
    for feed, header, rows in source.extracts():
        text = io.StringIO()
        csv.writer(text, lineterminator="\n").writerows([header, *rows])
        extracts.append((feed, text.getvalue()))
    source.go_on()
    return post(window(load_of(number), extracts))


def windows_against_rules(first):
    """Windows that break a rule, with the rule and the status; `first` is the load date of a loaded one."""
    last, care = LAST_DATE, ("care", CARE)
    yield "W1", 422, last, []
    yield "W2", 422, last, [("stock", CARE)]
    yield "W3", 422, last, [care, care]
    yield "W4", 409, LATE_DATE, [care]
    yield "W6", 413, last, [("care", CARE + "x" * (LONG - len(CARE)))]
    yield "W7", 422, last, [("care", "")]
    yield "W9", 422, last, [("care", "CUST_NO,CLERK,CLERK\n")]
    yield "W10", 422, last, [("care", "CUST_NO,CLERK,NOTE\n")]
    yield "W11", 422, last, [("care", "CUST_NO\n")]
    yield "W12", 422, last, [("care", CARE + "c1\n")]
    yield "W14", 422, last, [("customers", CUSTOMERS + "c1," + "x" * 4097 + ",Oslo\n")]
    yield "W15", 422, last, [("customers", CUSTOMERS + ",Ann,Oslo\n")]
    yield "W16", 422, last, [("customers", CUSTOMERS + "c1,Ann,Oslo\nc1,Bo,Oslo\n")]
    yield "W17", 422, last, [("care", CARE + "".join(f"c{number},k1\n" for number in range(MANY)))]
    yield "W18", 422, last, [("care", CARE + "c1,k1\nc1,k2\n")]
    yield "W19", 409, first, [care]
    yield "W20", 409, last, [("visits", VISITS + 'c1,A,B;C,x\nc1,A;B,C,x\n')]


def refused(first):
    """Windows that are refused, and bodies that are none."""
    for rule, status, load, extracts in windows_against_rules(first):
        yield Asked(f"refused, {rule}", post(window(load, extracts)), (status,), f'"text":"{rule} '.encode())
    for body in NO_JSON:
        yield Asked("no JSON", post(body), (400,), b"BadRequest")
    for body, place in NO_WINDOWS:
        yield Asked("no window", post(body), (422,), f'"W0 Manifest place={place}"'.encode())


def not_there():
    """What is not found, methods that a route has not, and dates that are none."""
    for target in (*NO_ROUTES, *(f"/{name}?at={load_of(0)}" for name in NO_MARTS)):
        yield Asked("not found", get(target), (404,), b"NotFound")
    for target in ("/windows", "/marts/feed:customers", "/tables/hub_customer", "/pits/customer"):
        yield Asked("no such method", get(target).replace(b"GET", b"DELETE", 1), (405,), b"Allow: GET")
    for date in DATES:
        yield Asked("no date", get(f"/marts/feed:customers?at={date}"), (422,), b"Q2 BadDate")


def no_requests():
    """Bytes that are no request, requests without a length, and lengths that are too long."""
    for kind, status, each in (("no request", 400, NO_REQUESTS), ("no length", 411, NO_LENGTHS), ("too long", 413, TOO_LONG_BODIES)):
        yield from (Asked(kind, sent, (status,), b"Connection: close") for sent in each)


def texts(count):
    """The list of windows, each raw table, and each mart before the first of so many windows, at one of them and at the
    last one: the words of the command, and what asks the desk for the same."""
    yield ("windows",), get("/windows")
    for table in history.TABLES:
        yield ("table", table), get(f"/tables/{table}")
    for number, mart in enumerate(MARTS):
        for date in dict.fromkeys((load_of(-1), load_of(number % count), load_of(count - 1))):
            yield ("mart", mart, date), get(f"/marts/{mart}?at={date}")


def asked_of(count):
    """All that is asked of a desk with so many windows, but for these windows themselves."""
    given = [Asked(words[0], sent, (200,)) for words, sent in texts(count)]
    given += [Asked("several at once", sent + get("/nothing") + get("/windows"), (200, 404, 200)) for _, sent in texts(count)]
    return [*given, *refused(load_of(0)), *not_there(), *no_requests()]
