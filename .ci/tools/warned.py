"""The warnings of vaultdesk-check: each of a file that has the cause, and none of its twin that has it not."""
import json

from kept.program import expect
from tools.bench import expect_faults, told

MAPPING = """hub = [{ name = "customer", parts = 1 }, { name = "site", parts = 2 }]
[[feed]]
name = "customers"
source = "crm"
hub = "customer"
keys = [["CUST_NO"]]
attrs = ["NAME"]
[[feed]]
name = "accounts"
source = "shop"
hub = "customer"
keys = [["ACCOUNT"]]
[[feed]]
name = "sites"
source = "erp"
hub = "site"
keys = [["REGION", "SITE"]]
"""


def manifest(date, *feeds, more=""):
    entries = "".join(f'[[extract]]\nfeed = "{feed}"\nfile = "{file}"\n' for feed, file in feeds)
    return f'load = "2024-{date}-01T02:00:00"\n{more}{entries}'


def warnings_of(bench, extract, mapping=MAPPING, **files):
    """What is warned of in a window with an extract of the customers, as file, place and the words up to a place's."""
    named = {name.replace("_", "."): data for name, data in files.items()}
    feeds = [("customers", "customers.csv")] + [(name[:-4], name) for name in named if name.endswith("csv")]
    all_files = {"mapping.toml": mapping, "w1.toml": manifest("03", *feeds), "customers.csv": extract, **named}
    found = told(bench.new_folder(all_files), "w1.toml")
    return {(file, (line, column), text) for file, line, column, text in found.check.warnings}


def only(bench, what, extract, twin, place, words, **files):
    """Expects one warning of an extract, and none of its twin."""
    found = warnings_of(bench, extract, **files)
    expect(f"{what}: warnings", 1, len(found))
    (file, at, text), = found
    expect(f"{what}: the place", (place[0], place[1]), (file, at))
    expect(f"{what}: {text!r} has {words!r}", True, words in text)
    expect(f"{what}: the twin", set(), warnings_of(bench, twin, **files))


def each_cause(bench):
    """each warning comes with its cause, and not without it"""
    csv = "customers.csv"
    good = "CUST_NO,NAME\nc1,Ann\nc2,Bo\n"
    only(bench, "a header alone", "CUST_NO,NAME\n", good, (csv, (1, 1)), "a header alone")
    only(bench, "a key NULL", "CUST_NO,NAME\nc1,Ann\n null,Bo\n", "CUST_NO,NAME\nc1,NULL\n", (csv, (3, 1)), "NULL is a key")
    only(bench, "a key NA", "CUST_NO,NAME\nna,Ann\n", "CUST_NO,NAME\nnan1,NA\n", (csv, (2, 1)), "NA is a key")
    only(bench, "zeros", "CUST_NO,NAME\n7,Ann\n8,Bo\n007,Eva\n", "CUST_NO,NAME\n7,Ann\n008,007\n70,a\n", (csv, (4, 1)), "007 and 7 (customers.csv:2)")
    only(bench, "zeros of two extracts", "CUST_NO,NAME\n007,Ann\n", "CUST_NO,NAME\n7,Ann\n", ("accounts.csv", (2, 1)), "7 and 007 (customers.csv:2)",
         accounts_csv="ACCOUNT\n7\n")
    only(bench, "letters", "CUST_NO,NAME\nø1,Ann\nØ1,Bo\n", "CUST_NO,NAME\nø1,Ø1\nø2,Bo\n", (csv, (3, 1)), "Ø1 and ø1 (customers.csv:2)")
    only(bench, "composed letters", "CUST_NO,NAME\n\u00e91,Ann\ne\u03011,Bo\n", good, (csv, (3, 1)), "letters past ASCII")
    only(bench, "a no-break space", "CUST_NO,NAME\nc1,Ann\nc2\u00a0,Bo\n", good, (csv, (3, 3)), "no-break spaces (1 of them)")
    only(bench, "an open quote", 'CUST_NO,NAME\nc1,"Ann\nc2,Bo\nc3,Eva\n', 'CUST_NO,NAME\nc1,"Ann\nRoe"\nc2,"a, b"\n', (csv, (2, 4)), "is never closed")
    only(bench, "a quote over records", 'CUST_NO,NAME\nc1,"Ann\nc2,Bo\nc3",Eva\nc4,x\n'.replace('",E', '"\nc5,E'), good, (csv, (2, 4)), "stays open")


def with_faults(bench):
    """another separator and another encoding are warned of beside the faults that come of them, with what converts the file"""
    found = warnings_of(bench, "CUST_NO;NAME\nc1;Ann\n")
    expect("semicolons", True, any("semicolons" in text and file == "customers.csv" for file, _, text in found))
    found = warnings_of(bench, "CUST_NO,NAME\nc1,J\u00f8rn\n".encode("cp1252"))
    expect("Windows", {("customers.csv", (2, 5))}, {(file, place) for file, place, _ in found})
    expect("iconv", True, "iconv -f WINDOWS-1252 -t UTF-8 customers.csv" in min(found)[2])
    found = warnings_of(bench, "CUST_NO,NAME\nc1,Ann\n".encode("utf-16"))
    expect("UTF-16", True, any("iconv -f UTF-16 -t UTF-8 customers.csv" in text for *_, text in found))
    data = "CUST_NO,NAME\nc1,J\u00f8rn\n".encode("cp1252")
    folder = bench.new_folder({"customers.csv": data})
    bench.run_shell(folder, "iconv -f WINDOWS-1252 -t UTF-8 customers.csv > utf8.csv")
    expect("what iconv makes", "CUST_NO,NAME\nc1,J\u00f8rn\n", (folder / "utf8.csv").read_text(encoding="utf-8"))


def of_manifests(bench):
    """a mapping without an entry, and keys that mean nothing in a manifest, are warned of; they are no faults"""
    more = 'note = "x"\n'
    files = {"mapping.toml": MAPPING, "w1.toml": manifest("03", ("customers", "c.csv"), more=more) + 'files = "y"\n', "c.csv": "CUST_NO,NAME\nc1,a\n"}
    found = told(bench.new_folder(files), "w1.toml")
    expect("places", {("w1.toml", 2, 1), ("w1.toml", 6, 1)}, {warning[:3] for warning in found.check.warnings})
    expect("status", 0, found.status)
    found = told(bench.new_folder({"mapping.toml": "# nothing\n"}))
    expect("an empty mapping", [("mapping.toml", 1, 1)], [warning[:3] for warning in found.check.warnings])
    expect("status", 0, found.status)
    found = told(bench.new_folder({"mapping.toml": "", "w1.toml": manifest("03", ("customers", "c.csv")), "c.csv": "K\n"}), "w1.toml")
    expect_faults("a window of it", {("w1.toml", (3, 8), "W2 UnknownFeed name=customers")}, found.faults)


def kept_vault(bench):
    """with --vault the last extracts are those of vault.db, which stays as it is, and what the vault refuses is told"""
    rows = "".join(f"c{n},x\n" for n in range(10))
    files = {"mapping.toml": MAPPING, "w1.toml": manifest("03", ("customers", "c.csv")), "c.csv": f"CUST_NO,NAME\n{rows}",
             "w2.toml": manifest("04", ("customers", "d.csv")), "d.csv": "CUST_NO,NAME\nc1,x\n",
             "w3.toml": manifest("02", ("customers", "c.csv")), "w4.toml": manifest("05", ("customers", "e.csv")), "e.csv": "CUST_NO,NAME\n"}
    folder = bench.new_folder(files)
    for words in (["init"], ["load", "w1.toml"]):
        expect(" ".join(words), 0, bench.run(folder, *words).status)
    before = {path.name: path.read_bytes() for path in folder.glob("vault.db*")}
    found = told(folder, "--vault", "w2.toml")
    expect("few rows", ["1 record, where the last extract had 10. What is missing ends."], [text for *_, text in found.check.warnings])
    expect("status", 0, found.status)
    expect("without --vault", [], told(folder, "w2.toml").check.warnings)
    found = told(folder, "--vault", "w3.toml")
    expect_faults("a late window", {("w3.toml", (1, 8), "W4 Late last=2024-03-01T02:00:00")}, found.faults)
    found = told(folder, "--vault", "w4.toml")
    expect("a header alone", True, "ends all 10 rows of the last extract" in found.check.warnings[0][3])
    expect("the vault", before, {path.name: path.read_bytes() for path in folder.glob("vault.db*")})
    (folder / "mapping.toml").write_text(MAPPING.replace("NAME", "NAMES"), encoding="utf-8")
    found = told(folder, "--vault")
    expect_faults("another mapping", {("mapping.toml", (1, 1), "mapping differs")}, found.faults)


def as_json(bench):
    """--json tells the same as the lines"""
    files = {"mapping.toml": MAPPING, "w1.toml": manifest("03", ("customers", "c.csv"), ("sites", "none.csv")), "c.csv": "CUST_NO,NAME\nNULL,x\nc1\n"}
    folder = bench.new_folder(files)
    lines, text = (bench.tool("vaultdesk-check", folder, *words, "w1.toml") for words in ((), ("--json",)))
    found = json.loads(text.out)
    expect("status", (4, 4, 4), (lines.status, text.status, found["status"]))
    expect("faults", ["W12 Ragged feed=customers row_no=2"], [fault["said"] for fault in found["faults"]])
    for one in found["faults"] + found["unread"] + found["warnings"]:
        what = one.get("said") or f"warning: {one['text']}"
        expect(what, True, f"{one['file']}:{one['line']}:{one['column']}: {what}".encode() in lines.out)
    expect("lines", 4, lines.out.count(b"\n"))


CHECKS = [each_cause, with_faults, of_manifests, kept_vault, as_json]
