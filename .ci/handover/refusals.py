"""What vaultdesk-replay refuses: by a line and a status, without a traceback, and with nothing half done."""
import contextlib
import pathlib

from handover import vaults
from handover.replays import loaded_tool
from handover.sources import history
from handover.vaults import expect_answer, kept, run_tool
from kept.program import CheckFailed, expect, with_limits
from kept.stores import change


def refused(bench, vault, status, *words, **how):
    """Replays a vault, which ends with a status; what it says. Nothing is left of it."""
    folder = bench.folder / f"new{next(bench.numbers)}"
    before = vault.store_bytes()
    got = run_tool(bench, "vaultdesk-replay", vault.folder, folder, "--yes", *words, **how)
    expect_answer(f"replay {' '.join(map(str, words))}", got, status)
    expect("the old vault's bytes", before, vault.store_bytes())
    for path in (folder, pathlib.Path(f"{folder}.replay")):
        expect(f"whether {path} is there", False, path.exists())
    return got.err.decode()


def expect_line(part, said):
    if part not in said or status_lines(said) != 1:
        raise CheckFailed(f"expected one line with {part!r}\n    got:      {said!r}")


def status_lines(said):
    return len([line for line in said.splitlines() if line.startswith("vaultdesk-replay: ")])


def words(bench):
    """dates that are none, of no window or too early, wrong renames, a place that is taken and a folder that is none are refused"""
    vault = kept(bench, history(1))
    mapping = str(vault.file("mapping.toml"))
    for status, given in ((2, ["--without", "yesterday"]), (2, ["--from", "2024-02-30T00:00:00"]), (2, ["--none"]),
                          (1, ["--without", "2024-03-01T02:00:01"]), (1, ["--from", "2024-02-01T00:00:00"]),
                          (2, ["--rename", "f0.NAME=OTHER"]), (2, ["--rename", "f9.NAME=OTHER"]), (2, ["--rename", "f0"]),
                          (2, ["--rename", "f0.NAME=A, B"]), (4, ["--mapping", "none.toml"]), (4, ["--mapping", "/"]),
                          (4, ["--program", "/nowhere"]), (4, ["--program", "/etc/hostname"]), (4, ["--old-program", "/nowhere"])):
        refused(bench, vault, status, *given)
    expect_answer("a place that is taken", run_tool(bench, "vaultdesk-replay", vault.folder, vault.folder), 2)
    expect_answer("no folder", run_tool(bench, "vaultdesk-replay", mapping, bench.folder / "new"), 4)
    (bench.folder / "taken.replay").mkdir()
    (bench.folder / "taken.replay" / "own").touch()
    got = run_tool(bench, "vaultdesk-replay", vault.folder, bench.folder / "taken")
    expect_answer("a folder of somebody else", got, 2)
    expect("the folder of somebody else", True, (bench.folder / "taken.replay" / "own").exists())


def mappings(bench):
    """a mapping with a fault, a part of a key that no column gives and a mapping that makes rows equal are refused"""
    vault = vaults.example(bench, "phones")
    plain = vault.file("mapping.toml").read_text(encoding="utf-8")
    for status, old, new, said in ((3, "parts = ", "part = ", "mapping 2 Shape"), (3, '[["CUST_NO"]]', '[["NEW"]]', "--rename phones.OLD=NEW"),
                                   (1, 'sub = ["KIND"]\n', "", "W16 TwoRows feed=phones")):
        expect("whether the mapping is another one", False, old not in plain)
        vault.write("other.toml", plain.replace(old, new))
        expect_line(said, refused(bench, vault, status, "--mapping", vault.file("other.toml")))


def vaults_as_they_are(bench):
    """a folder without a vault, a vault that is busy, open, damaged or no database, and another mapping.toml are told by their status"""
    empty = bench.empty()
    expect_line("mapping none", refused(bench, empty, 3))
    busy = kept(bench, history(1))
    with vaults.served(busy):
        # Reading the file here would end the locks of this process on it, and of no other.
        expect_line("a command or a desk has the vault", refused(bench, busy, 5))
    expect_line("is open; complete it first", refused(bench, interrupted(bench), 1))
    text = bench.empty()
    text.write("vault.db", "no database\n")
    expect_line("keeper fault", refused(bench, text, 5))
    damaged = kept(bench, history(1))
    forge(damaged)
    expect_line("damaged", refused(bench, damaged, 8))
    other = kept(bench, history(2))
    other.write("mapping.toml", "# lost\n")
    new = bench.folder / "from-the-stored-mapping"
    expect_answer("mapping.toml is lost", run_tool(bench, "vaultdesk-replay", other.folder, new, "--yes"), 0)
    expect("windows", other.text("windows"), vaults.vault_at(bench, new).text("windows"))


def interrupted(bench):
    """A vault whose second load broke off."""
    vault = bench.empty()
    vault.write("mapping.toml", '[[hub]]\nname = "h"\nparts = 1\n[[feed]]\nname = "f"\nsource = "s"\nhub = "h"\nkeys = [["K"]]\nattrs = ["A"]\n')
    vault.write("w1.toml", 'load = "2024-03-01T02:00:00"\nextract = [{ feed = "f", file = "c.csv" }]\n')
    vault.write("c.csv", "K,A\n" + "".join(f"c{n},customer {n}\n" for n in range(5000)))
    vault.says("init", err="init: Stored")
    for size in range(200_000, 2_000_000, 50_000):
        got = vault.run("load", "w1.toml", limits=with_limits(file_size=size))
        if b",open," in vault.text("windows"):
            return vault
        expect("status of a load that breaks off", 5, got.status)
    raise CheckFailed("no load broke off")


def forge(vault):
    """Changes a key of a vault, and the sums of its pages with it; so it is damaged."""
    change(vault, "UPDATE rows_of_hub_0 SET part_1 = 'FORGED' WHERE number = 1")


def full_disk(bench):
    """a full disk at any place ends a replay with a line and status 4 or 5, and then the same words have the same vault"""
    vault = kept(bench, history(1))
    sizes = [1, 3_000, 60_000, 100_000, 150_000, 400_000] if bench.is_all else [1, 60_000, 150_000]
    for size in sizes:
        folder = bench.folder / f"full{size}"
        got = run_tool(bench, "vaultdesk-replay", vault.folder, folder, "--yes", limits=with_limits(file_size=size))
        if got.status == 0:
            break
        expect_answer(f"files of {size} bytes at most", got, got.status if got.status in (4, 5) else -1)
        expect("whether there is a vault", False, folder.exists())
        expect_answer("again", run_tool(bench, "vaultdesk-replay", vault.folder, folder, "--yes"), 0)
    got = run_tool(bench, "vaultdesk-replay", vault.folder, bench.folder / "unwritten", out_to=open("/dev/full", "wb"))
    expect_answer("standard output is full", got, 4)


def changed_meanwhile(bench):
    """a window that another program puts into the new vault while it is built is found"""
    vault = kept(bench, history(1))
    tool = loaded_tool("vaultdesk-replay")
    plain = tool.Builder.build

    def build(self):
        plain(self)
        with tool.Desk(self.new) as desk:
            desk.load(tool.as_body("2024-12-01T00:00:00", {"f0": tool.written([self.plan.new.feeds["f0"].columns()])}))

    tool.Builder.build = build
    try:
        with contextlib.redirect_stdout(None):
            tool.replay(tool.read_words([str(vault.folder), str(bench.folder / "new"), "--yes"]))
    except tool.Trouble as found:
        expect("the line", True, "has other windows than were loaded" in str(found))
    else:
        raise CheckFailed("a foreign window was not found")


CHECKS = [words, mappings, vaults_as_they_are, full_disk, changed_meanwhile]
LARGE = []
