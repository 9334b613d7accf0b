"""What vaultdesk-check tells of mappings, manifests and extracts: all that the program refuses, each at its place."""
import csv
import io
import itertools
import random
import re
import resource

from kept.program import TOP, CheckFailed, expect, slowness
from manual.pages import examples_of
from tools.bench import CHECK, FIRST_DATE, expect_faults, in_case, told
from tools.changes import changed
from tools.deliveries import Deliveries
from tools.mappings import Planter

PAGES = ("rules", "mapping")
HEADING = re.compile(r"^##+ (W?\d+ [A-Z]\w+)$", re.M)
# A manifest that is refused.
REFUSED = re.compile(r"^(\S+\.toml): W\d+ ", re.M)
REFUSAL = re.compile(r"^(?:\S+\.toml: (W\d+ .*)|vaultdesk: (mapping \d+ .*))$", re.M)


def words_for_all(bench):
    """vaultdesk-check has words for each code of rules.md and mapping.md, and for no other"""
    pages = [(TOP / "docs" / "manual" / f"{page}.md").read_text(encoding="utf-8") for page in PAGES]
    codes = {code for page in pages for code in HEADING.findall(page)}
    expect_faults("the codes of the pages", codes, set(CHECK.WORDS) - {"mapping differs"})


def as_check(example):
    """The commands of an example, which call vaultdesk-check where they called `try`, or `load` of a manifest that is refused."""
    command = re.sub(r"^vaultdesk try \S+ \S+ (.*)$", r"vaultdesk-check \1", example.command, flags=re.M)
    for manifest in dict.fromkeys(REFUSED.findall(example.expects("err"))):
        before, load, behind = f"{command}\n".rpartition(f"\nvaultdesk load {manifest}\n")
        command = f"{before}\nvaultdesk-check --vault {manifest}\n{behind}" if load else command
    return command


def manual_lines(bench):
    """each refusal that an example of rules.md and mapping.md shows is told by vaultdesk-check, at a place, with status 1"""
    tried = set()
    for example in itertools.chain(*(examples_of(TOP / "docs" / "manual" / f"{page}.md") for page in PAGES)):
        refusals = [one or other for part in ("err", "out") for one, other in REFUSAL.findall(example.expects(part))]
        if not refusals or "vaultdesk-check" not in as_check(example):
            continue
        folder = bench.new_folder(example.files)
        (folder / "vaultdesk").symlink_to(bench.program)
        (folder / "vaultdesk-check").symlink_to(TOP / "tools" / "vaultdesk-check")
        command = f'PATH="$PWD:$PATH"\n{as_check(example)}'
        lines = re.sub(r"(vaultdesk-check .*?)( 2> lines)?$", r"\1; echo status $?", command, flags=re.M).replace("tail -n 2 lines", "")
        got = bench.run_shell(folder, lines)
        for refusal in refusals:
            if not re.search(rf"^\S+:\d+:\d+: {re.escape(refusal)}\. \S", got, re.M) or "status 1\n" not in got:
                raise CheckFailed(f"{example.place()}: {refusal} is not told:\n{got}")
            tried.add(refusal.removeprefix("mapping ").split(" ")[0])
    expect_faults("codes with an example", {code.split(" ")[0] for code in CHECK.WORDS if code != "mapping differs"}, tried)


def compare(bench, folder, manifests, expected=None):
    """Compares what is told with what was planted, and the verdict with the program's."""
    got, said = bench.tried(folder, manifests)
    found = told(folder, *manifests)
    if expected is not None:
        expect_faults("faults", expected, {(file, place, text.split(" last=")[0]) for file, place, text in found.faults})
    expect_faults("what the program says first", set(said), set(said) & found.said())
    is_known = manifests or got.status == 3
    expect("status", {0: 0, 1: 1, 3: 1, 4: 4}[got.status] if is_known else 0, found.status)
    return len(found.faults)


def planted_mappings(bench):
    """each of 1 to 30 faults that are planted in a mapping is told at its place, and nothing else"""
    for seed in range(bench.cases // 2):
        planter = Planter(seed)
        planter.some(random.Random(seed).randint(1, 30))
        text, expected = planter.text()
        with in_case(f"seed {seed}"):
            compare(bench, bench.new_folder({"mapping.toml": text}), [], {("mapping.toml", *fault) for fault in expected})


def planted_windows(bench):
    """each of 1 to 30 faults that are planted in manifests and extracts is told at its place, and nothing else"""
    for seed in range(bench.cases // 2):
        deliveries = Deliveries(seed, 30)
        with in_case(f"seed {seed}"):
            compare(bench, bench.new_folder(deliveries.files), deliveries.manifests, set(deliveries.expected))


def changed_files(bench):
    """of files that are changed at random the verdict is the program's, and what the program says first is told"""
    for seed in range(bench.cases):
        pick = random.Random(seed)
        deliveries = Deliveries(seed, pick.choice((1, 3)))
        ends = pick.choice((("mapping.toml",), tuple(deliveries.manifests), (".csv",)))
        name = pick.choice([name for name in sorted(deliveries.files) if name.endswith(ends)])
        deliveries.files[name] = changed(pick, deliveries.files[name])
        with in_case(f"seed {seed}, {name}"):
            compare(bench, bench.new_folder(deliveries.files), deliveries.manifests)


RECORDS = 'hub = [{ name = "k", parts = 1 }]\nfeed = [{ name = "customers", source = "s", hub = "k", keys = [["K"]], attrs = ["A"] }]\n'
WINDOW = 'load = "2024-03-01T02:00:00"\nextract = [{ feed = "customers", file = "e.csv" }]\n'


def records_as_read(bench):
    """records are read as the program reads them: random quotes, line ends and commas, by the record that it names and by the
    rows that it loads"""
    pick = random.Random(5)
    signs = [b'"', b'"', b",", b",", b"\n", b"\r", b"\r\n", b"x", b"yz", b" ", b'""', b"\xc3\xa9"]
    folder = bench.new_folder({"mapping.toml": RECORDS, "w.toml": WINDOW})
    for number in range(3 * bench.cases):
        body = b"".join(pick.choices(signs, k=pick.randint(0, 14)))
        data = pick.choice((b"", CHECK.MARK)) + b"K,A\n" + b"".join(b"k%d," % n + line for n, line in enumerate(body.split(b"x")))
        (folder / "e.csv").write_bytes(data)
        got = bench.run(folder, "try", "feed:customers", "2024-03-01T02:00:00", "w.toml")
        with in_case(f"case {number}, {data!r}"):
            compare_records(CHECK.Extract(data), got)


def compare_records(extract, got):
    """Compares the records of an extract with what the program says of it, or loads of it."""
    rows = [list(extract.values(number)) for number in range(1, extract.count() + 1)]
    wrong = next((number for number, row in enumerate(rows, 1) if len(row) != 2), None)
    if named := re.search(rb"W12 Ragged feed=customers row_no=(\d+)", got.err):
        expect("the ragged record", int(named[1]), wrong)
    elif b"Loaded" in got.err:
        expect("a ragged record", None, wrong)
        rows = {(key.strip(b" \t\r\n").upper(), value.strip(b" \t\r\n")) for key, value in rows}
        loaded = list(csv.reader(io.StringIO(got.out.decode(), newline="")))[1:]
        expect("the rows", rows, {(key.encode(), value.encode()) for key, value in loaded})


def large_extract(bench):
    """200,000 records with 20 faults take at most 20 runs of the program and two seconds, all told at their places"""
    lines = [f'c{n},"Roe, Ann {n}",Oslo{n % 100}' for n in range(200_000)]
    mapping = RECORDS.replace('["A"]', '["A", "B"]')
    folder = bench.new_folder({"mapping.toml": mapping, "w.toml": WINDOW})
    (folder / "e.csv").write_text("\n".join(["K,A,B", *lines]), encoding="utf-8")
    one_run = seconds_of(lambda: bench.run(folder, "try", "feed:customers", FIRST_DATE, "w.toml"))
    numbers = random.Random(3).sample(range(1, 200_000), 20)
    for number in numbers:
        lines[number - 1] += ",more"
    (folder / "e.csv").write_text("\n".join(["K,A,B", *lines]), encoding="utf-8")
    found = []
    seconds = seconds_of(lambda: found.append(bench.tool("vaultdesk-check", folder, "w.toml")))
    for number in numbers:
        place = f"e.csv:{number + 1}:{len(lines[number - 1]) - 3}: W12 Ragged feed=customers row_no={number}.".encode()
        expect(f"record {number}", True, place in found[0].out)
    if seconds > 20 * one_run + 2 * slowness():
        raise CheckFailed(f"{seconds:.1f} seconds, where a run takes {one_run:.2f}")


def seconds_of(work):
    """The processor seconds of the processes that some work starts."""
    before = resource.getrusage(resource.RUSAGE_CHILDREN)
    work()
    after = resource.getrusage(resource.RUSAGE_CHILDREN)
    return after.ru_utime + after.ru_stime - before.ru_utime - before.ru_stime


def causes_alone(bench):
    """what only follows from a fault is not told: feeds of a hub whose name is lost, columns that stand behind a quote"""
    mapping = '[[hub]]\nname = 5\nparts = 1\n\n[[feed]]\nname = "f"\nsource = "S"\nhub = "customer"\nkeys = [["K"]]\n'
    found = told(bench.new_folder({"mapping.toml": mapping}))
    expect_faults("told", {("mapping.toml", (2, 8), "mapping 2 Shape place=hub 1 name"),
                           ("mapping.toml", (7, 10), "mapping 14 NameForm name=S")}, found.faults)
    expect("a note", 1, len(found.check.notes))
    files = {"mapping.toml": RECORDS, "w.toml": WINDOW, "e.csv": b"K,\xc4\nk1,x\nk2,y,z\n"}
    found = told(bench.new_folder(files), "w.toml")
    expect_faults("told", {("e.csv", (1, 3), "W8 HeaderNotUtf8 feed=customers"),
                           ("e.csv", (3, 6), "W12 Ragged feed=customers row_no=2")}, found.faults)


def order_of_windows(bench):
    """windows that are late, differ, or collide with an earlier one are told also where an earlier window has faults"""
    mapping = ('hub = [{ name = "site", parts = 2 }]\n'
               'feed = [{ name = "customers", source = "s", hub = "site", keys = [["K", "L"]], attrs = ["A"] }]\n')
    files = {"mapping.toml": mapping}
    for name, date, rows in (("a", "05", "x;y,z,1\nq,r\n"), ("b", "04", "k,l,1\n"), ("c", "06", "x,y;z,1\n"), ("d", "06", "x,y,1\n"),
                             ("e", "07", "x,y,1\nx\n"), ("f", "07", "x,y,1\n")):
        files[f"{name}.toml"] = f'load = "2024-{date}-01T00:00:00"\nextract = [{{ feed = "customers", file = "{name}.csv" }}]\n'
        files[f"{name}.csv"] = f"K,L,A\n{rows}"
    found = told(bench.new_folder(files), *[f"{name}.toml" for name in "abcdef"])
    expect_faults("told", {
        ("a.csv", (3, 4), "W12 Ragged feed=customers row_no=2"), ("b.toml", (1, 8), "W4 Late last=2024-05-01T00:00:00"),
        ("c.csv", (2, 1), "W20 Collision table=hub_site first=[X][Y;Z] second=[X;Y][Z]"),
        ("d.toml", (1, 8), "W19 Differs load=2024-06-01T00:00:00"), ("e.csv", (3, 2), "W12 Ragged feed=customers row_no=2")}, found.faults)
    expect("notes", ["f.toml: whether W19 holds is seen when the faults of all windows are corrected."], found.check.notes)


def order_behind_others(bench):
    """a window that is late is told also where the one before it has a fault of its manifest alone"""
    twice = 'load = "2024-03-01T02:00:00"\n' + '[[extract]]\nfeed = "customers"\nfile = "e.csv"\n' * 2
    files = {"mapping.toml": RECORDS, "a.toml": twice, "b.toml": WINDOW.replace("-03-", "-02-"), "e.csv": "K,A\nk1,x\n"}
    found = told(bench.new_folder(files), "a.toml", "b.toml")
    expect_faults("told", {("a.toml", (6, 8), "W3 FeedTwice feed=customers"),
                           ("b.toml", (1, 8), "W4 Late last=2024-03-01T02:00:00")}, found.faults)


CHECKS = [words_for_all, manual_lines, planted_mappings, planted_windows, changed_files, records_as_read, causes_alone, order_of_windows,
          order_behind_others, large_extract]
