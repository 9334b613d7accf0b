"""Checks of what the desk answers, asked by curl and by Python's http.client: each route and each status. The texts are
those that the commands write of the same windows, and the refusals those that they say."""
import http.client
import pathlib
import resource
import shutil
import subprocess
import tempfile

from kept import orders, rooms
from kept.commands import REFUSED_EXTRACTS, window as manifest_of
from kept.desks import (BAD_REQUEST, KEEPER, LONGEST_WAIT, NOT_FOUND, NOT_GET, NOT_GET_OR_POST, NO_LENGTH, REPEATED,
                        TOO_LONG, answer, heads, loaded, refused, serving, text, window, window_of)
from kept.orders import DATES, LAST_DATE, MANIFESTS
from kept.points import hubs_of, pit_text
from kept.program import CheckFailed, expect, with_limits
from kept.readmes import loaded_rows
from kept.stores import line_of, change, contents, opened_copy


class ByCurl:
    """Asks by curl, in one process, which keeps a connection as long as it can."""

    def __init__(self, desk):
        self.desk = desk
        if not shutil.which("curl"):
            raise CheckFailed("curl is not on this machine: install the package curl")

    def tell_all(self, requests):
        """The bytes of the reply to each request."""
        with tempfile.TemporaryDirectory(dir=self.desk.vault.bench.folder) as folder:
            parts = [self.part(pathlib.Path(folder), at, *request) for at, request in enumerate(requests)]
            done = subprocess.run(["curl", "--config", "-"], input="next\n".join(parts).encode(), capture_output=True)
        expect("curl: exit status and lines", (0, b""), (done.returncode, done.stderr))
        return list(replies_in(done.stdout))

    def part(self, folder, at, method, target, body=None, *fields):
        """What a configuration of curl says of a request. curl would wait for a second whether a long body is wanted."""
        lines = ["silent", "show-error", "include", "globoff", "path-as-is", "http1.1", f"max-time = {LONGEST_WAIT}"]
        lines += [f'url = "http://127.0.0.1:{self.desk.port}{target}"', f'request = "{method}"']
        lines += [f'header = "{field}"' for field in ("Expect:", *fields)]
        if body is not None:
            (folder / str(at)).write_bytes(body)
            lines.append(f'data-binary = "@{folder / str(at)}"')
        return "".join(f"{line}\n" for line in lines)


def replies_in(told):
    """Parts replies by their lengths."""
    while told:
        head, end, behind = told.partition(b"\r\n\r\n")
        length = int(head.partition(b"Content-Length: ")[2].split()[0])
        yield head + end + behind[:length]
        told = behind[length:]


class ByClient:
    """Asks by http.client, over one connection as long as it lasts."""

    def __init__(self, desk):
        self.desk = desk

    def tell_all(self, requests):
        """The bytes of the reply to each request, made of what the client understood."""
        link = http.client.HTTPConnection("127.0.0.1", self.desk.port, timeout=LONGEST_WAIT)
        found = [self.told(link, *request) for request in requests]
        link.close()
        return found

    @staticmethod
    def told(link, method, target, body=None, *fields):
        link.request(method, target, body, dict(field.split(": ") for field in fields))
        reply = link.getresponse()
        lines = [f"HTTP/1.{reply.version % 10} {reply.status} {reply.reason}"]
        lines += [f"{name}: {value}" for name, value in reply.getheaders()]
        return "".join(f"{line}\r\n" for line in [*lines, ""]).encode() + reply.read()


CLIENTS = (ByCurl, ByClient)


def each_is(desk, asked, clients=CLIENTS):
    """Each request, a method, a target and perhaps a body, has its reply, by each client."""
    for by in clients:
        told = by(desk).tell_all([request for request, _ in asked])
        expect(f"how many replies there are, by {by.__name__}", len(asked), len(told))
        for (request, reply), got in zip(asked, told):
            expect(f"{request[0]} {request[1]} by {by.__name__}", reply.bytes(), got)


def target_of(words):
    """The target that asks for what a command writes."""
    command, *names = words
    if command in ("mart", "pit"):
        return f"/{command}s/{names[0]}?at={names[1]}"
    return "/" + "/".join(["tables", *names] if command == "table" else [command])


def reply_of(words, said):
    return heads(said) if words[0] == "windows" else text(said)


def windows_that_are_posted(bench):
    """windows that are posted to the desk are kept as those that are loaded by commands"""
    by_commands = orders.kept(bench, 3)
    for by in CLIENTS:
        vault, asked = orders.kept(bench, 0), []
        for count, manifest in enumerate(MANIFESTS, 1):
            posted = ("POST", "/windows", window_of(vault, manifest))
            asked += [(posted, loaded(loaded_rows("orders")[manifest])), (posted, REPEATED)]
            asked += [(("GET", "/windows"), heads(orders.windows_text(count).encode()))]
        with serving(vault) as desk:
            each_is(desk, asked, [by])
        expect("what is kept of posted windows", contents(by_commands), contents(vault))


def texts_that_are_asked_for(bench):
    """each table, each mart at several dates and each point-in-time table is what its command writes"""
    vault = orders.kept(bench, 3)
    for date in DATES:
        vault.run("snapshot", date)
    said = {tuple(command.split()): written for command, written in orders.texts(vault).items()}
    for mart in ("feed:customers", "path:sold"):
        said |= {("mart", mart, date): vault.text("mart", mart, date) for date in orders.MART_DATES}
    for hub in hubs_of(vault):
        for date in DATES:
            said["pit", hub, date] = vault.text("pit", hub, date)
            expect(f"pit {hub} {date}, by the extracts", pit_text(vault, hub, date), said["pit", hub, date])
    with serving(vault) as desk:
        each_is(desk, [(("GET", target_of(words)), reply_of(words, written)) for words, written in said.items()])


def periods_and_sub_columns(bench):
    """periods, hubs and rows with sub columns are what the commands write too"""
    for example, marts in (("assignments", ("period:assignments", "hub:employee")), ("phones", ("feed:phones", "hub:customer"))):
        vault = bench.kept_example(example, *[name for name in loaded_rows(example) if name != "w5.toml"])
        asked = [(("GET", f"/marts/{mart}?at={LAST_DATE}"), text(vault.text("mart", mart, LAST_DATE))) for mart in marts]
        with serving(vault) as desk:
            each_is(desk, asked)


NO_ROUTES = ("/", "/window", "/windows/", "/Windows", "//windows", "/marts", "/tables", "/pits", "/bridges/sold?at=" + LAST_DATE,
             "/marts?at=" + LAST_DATE, "/%77indows", "/mapping", "/snapshots")


NO_MARTS = ("feed:nobody", "table:hub_customer", "pit:customer", "bridge:sold", "period:customers", "customers", "",
            "feed%3Acustomers")
NO_TABLES = ("", "hub_customers", "windows", "hub_customer/", "hub_customer/1", "table:hub_customer")


def what_is_not_there(bench):
    """other routes, marts, tables and hubs, and a date without a snapshot, are not found"""
    vault = orders.kept(bench, 2)
    vault.run("snapshot", DATES[0])
    at = f"?at={DATES[0]}"
    names = [f"/marts/{mart}{date}" for date in (at, "?at=never", "") for mart in NO_MARTS]
    names += [f"/tables/{name}" for name in NO_TABLES]
    names += [f"/pits/{name}{date}" for date in (at, "?at=never") for name in ("", "customers", "pit:customer", "sold")]
    names += [f"/pits/customer?at={DATES[1]}"]
    asked = [(("GET", target), NOT_FOUND) for target in (*NO_ROUTES, *names)]
    asked += [(("DELETE", target), NOT_FOUND) for target in NO_ROUTES]
    with serving(vault) as desk:
        each_is(desk, asked)


def other_methods(bench):
    """a method that a route has not is refused with those that it has"""
    asked = []
    for method in ("DELETE", "PUT", "PATCH", "OPTIONS", "get"):
        asked.append(((method, "/windows"), NOT_GET_OR_POST))
        asked += [((method, target), NOT_GET) for target in ("/marts/feed:customers", "/tables/nothing", "/pits/")]
    asked += [(("POST", target, b"{}"), NOT_GET) for target in ("/marts/feed:customers", "/tables/", "/pits/customer")]
    with serving(orders.kept(bench, 0)) as desk:
        each_is(desk, asked)


def dates_that_are_none(bench):
    """a date that is none, or no date, is refused by its rule"""
    vault = orders.kept(bench, 1)
    for target in ("/marts/feed:customers", "/marts/path:sold", "/pits/customer"):
        asked = [(("GET", target), refused(422, "Q2 BadDate text="))]
        for date in ("2024-02-30T00:00:00", "2024-03-01", "never", "9999-12-31T23:59:59", ""):
            asked.append((("GET", f"{target}?at={date}"), refused(422, f"Q2 BadDate text={date}")))
        asked.append((("GET", f"{target}?at=never&at={DATES[0]}"), refused(422, "Q2 BadDate text=never")))
        with serving(vault) as desk:
            each_is(desk, asked)


def dates_that_are_spelled_otherwise(bench):
    """the first `at` of the query counts, by the rules of forms"""
    vault = orders.kept(bench, 1)
    mart = text(vault.text("mart", "feed:customers", DATES[0]))
    coded = DATES[0].replace(":", "%3A").replace("2", "%32")
    queries = (f"at={coded}", f"a%74={DATES[0]}", f"x=1&at={DATES[0]}&at=never", f"?at=never&at={DATES[0]}", f"&&at={DATES[0]}")
    with serving(vault) as desk:
        each_is(desk, [(("GET", f"/marts/feed:customers?{query}"), mart) for query in queries])


LINES = "ORDER_NO,PRODUCT_NO,QTY\n"
NO_WINDOWS = (
    (b"[]", "object"), (b"[" * 127 + b"]" * 127, "object"), (b"1", "object"), (b"null", "object"), (b"{}", "load"),
    (b'{"load":1}', "load"),
    (b'{"load":"2024-02-30T00:00:00","extracts":[]}', "load"), (b'{"load":"2024-04-01T02:00:00"}', "extracts"),
    (b'{"load":"2024-04-01T02:00:00","extracts":{}}', "extracts"),
    (b'{"load":"2024-04-01T02:00:00","extracts":[{"text":"a"}]}', "extract 1 feed"),
    (b'{"load":"2024-04-01T02:00:00","extracts":[{"feed":"lines","text":"a"},{"feed":"orders"}]}', "extract 2 text"),
)
NO_JSON = (b"", b"{", b"{} {}", b"load = 1", b"\xff\xfe", b"'{}'", b"[" * 128 + b"]" * 128)


def bodies_that_are_no_window(bench):
    """a body that is no JSON is a bad request, and one that is no window is refused by its place"""
    vault = orders.kept(bench, 1)
    asked = [(("POST", "/windows", body), BAD_REQUEST) for body in NO_JSON]
    asked += [(("POST", "/windows", body), refused(422, f"W0 Manifest place={place}")) for body, place in NO_WINDOWS]
    before = contents(vault)
    with serving(vault) as desk:
        each_is(desk, asked)
    expect("what is kept after bodies that are no window", before, contents(vault))


# The status of a refused window, by its rule.
STATUSES = {"W4": 409, "W5": 409, "W19": 409, "W20": 409, "W6": 413}


def refused_windows(vault, given):
    """How each window, a load date and extracts, is refused: by the rule that the command says of it."""
    for load, extracts in given:
        vault.write("given.toml", manifest_of(load, *((feed, f"given_{at}.csv") for at, (feed, _) in enumerate(extracts))))
        for at, (_, csv) in enumerate(extracts):
            vault.write(f"given_{at}.csv", csv)
        said = vault.run("load", "given.toml")
        expect("the status of a refused window", 1, said.status)
        rule = said.err.decode().removeprefix("given.toml: ").rstrip("\n")
        yield ("POST", "/windows", window(load, extracts)), refused(STATUSES.get(rule.split()[0], 422), rule)


def windows_that_break_rules(bench):
    """a window that breaks a rule is refused with the line that the command `load` has for it, and leaves no trace"""
    vault = orders.kept(bench, 2)
    given = [(LAST_DATE, [("lines", csv)]) for csv, _ in REFUSED_EXTRACTS]
    given += [(LAST_DATE, []), (LAST_DATE, [("stock", LINES)]), (LAST_DATE, [("lines", LINES), ("lines", LINES)])]
    given += [("2024-02-29T00:00:00", [("lines", LINES)]), ("2024-03-15T00:00:00", [("lines", LINES)])]
    given += [(DATES[1], [("lines", LINES)]), (DATES[0], [("lines", LINES)])]
    given += [(LAST_DATE, [("lines", LINES + "O1,P1," + "1" * 4097 + "\n")]), (LAST_DATE, [("lines", "ORDER_NO,QTY,QTY\n")])]
    given += [(LAST_DATE, [("lines", LINES + "O1,P1,1\n" * 4_800_000)])]
    asked = list(refused_windows(vault, given))
    expect("the rules", ["W12", "W15", "W16", "W10", "W11", "W7", "W1", "W2", "W3", "W4", "W4", "W19", "W19", "W14", "W9", "W6"],
           [reply.body.decode().split('"')[7].split()[0] for _, reply in asked])
    before = contents(vault)
    with serving(vault) as desk:
        each_is(desk, asked)
    expect("what is kept after windows that break rules", before, contents(vault))


SITES = """
hub = [{ name = "site", parts = 2 }]
feed = [{ name = "sites", source = "crm", hub = "site", keys = [["REGION", "SITE"]] }]
"""


def windows_that_collide(bench):
    """two keys with one hash key are refused with their rule, and no row of the window is kept"""
    vault = bench.empty()
    vault.write("mapping.toml", SITES)
    vault.says("init", err="init: Stored")
    asked = list(refused_windows(vault, [(DATES[0], [("sites", "REGION,SITE\nA;B,C\nA,B;C\n")])]))
    expect("the rule", refused(409, "W20 Collision table=hub_site first=[A][B;C] second=[A;B][C]"), asked[0][1])
    with serving(vault) as desk:
        each_is(desk, asked)


def a_path_with_too_many_rows(bench):
    """a path with more rows than are written is refused by its rule"""
    vault = orders.kept(bench, 0)
    vault.write("w1_placements.csv", "CUST_NO,ORDER_NO\n" + "".join(f"C{number},O1\n" for number in range(1001)))
    vault.write("w1_lines.csv", LINES + "".join(f"O1,P{number},1\n" for number in range(1000)))
    vault.loaded("w1.toml")
    vault.says("mart", "path:sold", DATES[0], status=1, err="vaultdesk: Q3 TooLarge path=sold")
    with serving(vault) as desk:
        each_is(desk, [(("GET", f"/marts/path:sold?at={DATES[0]}"), refused(422, "Q3 TooLarge path=sold"))])


def lengths_that_are_none(bench):
    """a POST without a length, or in chunks, is refused, and so is a longer body than is taken"""
    given = [(("POST", "/windows", None, "Content-Length:"), NO_LENGTH.closing()),
             (("POST", "/windows", b"{}", "Transfer-Encoding: chunked"), NO_LENGTH.closing()),
             (("POST", "/windows", b" " * 68_157_441), TOO_LONG.closing()),
             (("GET", "/windows"), heads(orders.windows_text(0).encode()))]
    with serving(orders.kept(bench, 0)) as desk:
        each_is(desk, given, [ByCurl])


def an_open_window(bench):
    """while a window is open others are refused, it is told by its date, and the same one completes it"""
    vault = rooms.with_open_window(bench)
    with_open = heads(vault.text("windows"))
    sealed = [(("GET", f"/marts/{mart}?at={LAST_DATE}"), text(vault.text("mart", mart, LAST_DATE))) for mart in orders.MARTS]
    tables = [(("GET", f"/tables/{table}"), text(vault.text("table", table))) for table in orders.TABLES]
    asked = [(("GET", "/windows"), with_open), *sealed, *tables]
    for manifest in ("w1.toml", "w3.toml"):
        asked.append((("POST", "/windows", window_of(vault, manifest)), refused(409, f"W5 OpenOther load={DATES[1]}")))
    other = window(DATES[1], [("lines", LINES)])
    asked.append((("POST", "/windows", other), refused(409, f"W19 Differs load={DATES[1]}")))
    completed = ("POST", "/windows", window_of(vault, "w2.toml"))
    with serving(vault) as desk:
        each_is(desk, asked)
        each_is(desk, [(completed, loaded(loaded_rows("orders")["w2.toml"])), (completed, REPEATED)], [ByClient])
    expect("what is kept", contents(orders.kept(bench, 2)), contents(vault))


def damaged_rows(bench):
    """a point-in-time table that somebody changed is named, and all else is answered as before"""
    vault = orders.kept(bench, 1)
    vault.run("snapshot", DATES[0])
    products = vault.text("pit", "product", DATES[0])
    with opened_copy(vault) as connection:
        line = line_of(connection, "pit_customer", DATES[0])
    change(vault, f"UPDATE {line.rows_in} SET hash_key = ? WHERE number = ?", bytes(32), line.first)
    vault.says("pit", "customer", DATES[0], status=8, err="vaultdesk: damaged pit_customer 1 F4")
    with serving(vault) as desk:
        each_is(desk, [(("GET", f"/pits/customer?at={DATES[0]}"), answer(500, "Damaged", text="pit_customer 1 F4")),
                       (("GET", f"/pits/product?at={DATES[0]}"), text(products)),
                       (("GET", "/windows"), heads(orders.windows_text(1).encode()))])


def keeper_faults(bench):
    """where the file can't be written a load is a keeper fault, other answers go on, and the same load ends it later"""
    vault, unbroken = orders.kept(bench, 1), orders.kept(bench, 2)
    posted = (("POST", "/windows", window_of(vault, "w2.toml")), loaded(loaded_rows("orders")["w2.toml"]))
    elsewhere, windows = (("GET", "/nothing"), NOT_FOUND), (("GET", "/windows"), heads(orders.windows_text(2).encode()))
    ended = vault.twin()
    with serving(ended) as desk:
        each_is(desk, [posted], [ByClient])
    size = ended.file("vault.db-wal").stat().st_size
    for part in range(6):
        tried = vault.twin()
        with serving(tried, limits=with_limits()) as desk:
            limit_files(desk, size * part // 6)
            each_is(desk, [(posted[0], KEEPER), elsewhere], [ByClient])
            limit_files(desk, resource.RLIM_INFINITY)
            each_is(desk, [posted, windows], [ByClient])
        expect("what is kept after a keeper fault", contents(unbroken), contents(tried))
        bench.drop(tried)


def limit_files(desk, size):
    """Lets the files of a desk that runs grow to a size and no further."""
    resource.prlimit(desk.process.pid, resource.RLIMIT_FSIZE, (size, resource.RLIM_INFINITY))


CHECKS = (
    windows_that_are_posted, texts_that_are_asked_for, periods_and_sub_columns, what_is_not_there, other_methods,
    dates_that_are_none, dates_that_are_spelled_otherwise, bodies_that_are_no_window, windows_that_break_rules,
    windows_that_collide, a_path_with_too_many_rows, lengths_that_are_none, an_open_window, damaged_rows, keeper_faults,
)
