"""What vaultdesk-replay makes of a vault: under no change the same, and under a change what the extracts would have made. The
direct way is the extracts as the source had them, loaded under the other mapping by the program."""
import importlib.machinery
import importlib.util
import io
import contextlib
import pathlib
import re

from handover import vaults
from handover.sources import DATES, history, rename
from handover.vaults import all_texts, expect_answer, expect_texts, kept, mart_texts, run_tool
from kept.program import TOP, CheckFailed, expect

SNAPSHOTS = (DATES[1], "2024-06-15T00:00:00")
RANGE = re.compile(r"(\d{4}-\d\d-\d\dT\d\d:\d\d:\d\d)(?: to (\d{4}-\d\d-\d\dT\d\d:\d\d:\d\d))?")


def seeds(bench, few):
    return range(20 if bench.is_all else few)


def replayed(bench, vault, *words, status=0):
    """A vault that is replayed, and the lines that tell how. The old one keeps its bytes."""
    folder = bench.folder / f"new{next(bench.numbers)}"
    before = vault.store_bytes()
    got = run_tool(bench, "vaultdesk-replay", vault.folder, folder, "--yes", *words)
    expect_answer(f"replay {' '.join(map(str, words))}", got, status)
    expect("the old vault's bytes", before, vault.store_bytes())
    expect("what is beside the new vault", False, pathlib.Path(f"{folder}.replay").exists())
    expect("whether the new vault is there", status == 0, folder.exists())
    return vaults.vault_at(bench, folder), got.out.decode()


def expect_all_equal(told):
    found = re.search(r"^equal: ([\d,]+) of ([\d,]+) ", told, re.M)
    if not found or found[1] != found[2] or "differs" in told:
        raise CheckFailed(f"told of equal vaults:\n{told}")


def law_of_examples(bench):
    """a replay with no option has each table, mart and snapshot of the examples, byte for byte"""
    for name in vaults.EXAMPLES:
        dates = [f"{vaults.load_dates(vaults.example(bench, name))[1]}", "2024-04-15T00:00:00"]
        vault = vaults.example(bench, name, dates)
        new, told = replayed(bench, vault)
        expect_texts(name, all_texts(vault, dates), all_texts(new, dates))
        expect_all_equal(told)


def law_of_histories(bench):
    """a replay with no option has each table, mart and snapshot of random histories, byte for byte"""
    for seed in seeds(bench, 4):
        vault = kept(bench, history(seed), SNAPSHOTS)
        new, told = replayed(bench, vault)
        expect_texts(f"history {seed}", all_texts(vault, SNAPSHOTS), all_texts(new, SNAPSHOTS))
        expect_all_equal(told)
        bench.drop(vault, new)


def law_of_worlds(bench):
    """a replay with no option has each table, mart and snapshot of the worlds of links and paths, byte for byte"""
    from kept.worlds import DATES as WORLD_DATES, MANIFESTS, World
    for seed in seeds(bench, 3):
        vault = bench.empty()
        World(seed).write(vault)
        vault.says("init", err="init: Stored")
        vault.loaded(*MANIFESTS)
        vaults.store(vault, WORLD_DATES[2])
        new, told = replayed(bench, vault)
        expect_texts(f"world {seed}", all_texts(vault, WORLD_DATES[2:3]), all_texts(new, WORLD_DATES[2:3]))
        expect_all_equal(told)
        bench.drop(vault, new)


def by_mapping(bench, told, change, *words, later=0):
    """Replays a history under the mapping that a change makes, and loads the last windows of the changed history into it; the new
    vault, the direct one and the lines."""
    before = told.changed(lambda other: other.windows.__delitem__(slice(len(other.windows) - later, None)) if later else None)
    vault, changed = kept(bench, before), told.changed(change)
    direct = kept(bench, changed)
    new, lines = replayed(bench, vault, "--mapping", direct.file("mapping.toml"), *words)
    for number in range(len(told.windows) - later, len(told.windows)):
        for path in direct.folder.glob(f"{number}-*.csv"):
            new.write(path.name, path.read_bytes())
        new.write(f"w{number}.toml", direct.file(f"w{number}.toml").read_bytes())
        new.loaded(f"w{number}.toml")
    expect_texts("under another mapping", all_texts(direct), all_texts(new))
    return vault, new, lines


def with_attribute(told):
    """A change of a history: f0 has a column more, in the last window alone with values."""
    told.feeds["f0"].attrs.insert(1, "EMAIL")
    last = told.windows[-1][1]
    for number, row in enumerate(last.get("f0", [])):
        row["EMAIL"] = f"{number}@example.com"


def added_column(bench):
    """a column that is added in the middle of a history is what it would be if it had been there, and empty, from the beginning"""
    for seed in seeds(bench, 2):
        _, _, lines = by_mapping(bench, history(seed), with_attribute, later=1)
        expect("the line of a new column", True, "feed f0: EMAIL is new, and empty in each window" in lines)


def left_out(bench):
    """a column and a feed that are left out are what they would be if they had never been kept"""
    def change(told):
        told.feeds["f0"].attrs.remove("NAME")
        told.feeds["f0"].ignore.append("NAME")
        del told.feeds["f1"]
        for _, extracts in told.windows:
            extracts.pop("f1", None)
        told.windows = [(date, extracts) for date, extracts in told.windows if extracts]

    for seed in seeds(bench, 2):
        _, _, lines = by_mapping(bench, history(seed), change)
        for line in ("feed f0: NAME is left out", "feed f1 is left out"):
            expect(line, True, line in lines)


def renamed(bench):
    """renamed columns, of attributes, of keys and of names with `=`, are what they would be if the source had called them so"""
    for feed, old, new in (("f0", "NAME", "A=B"), ("f0", "A, B", "NAME2"), ("f0", "K0_0", "Key.No"), ("f4", "K1_0", "é"), ("f2", "KIND", "X Y")):
        told = history(7)
        _, _, lines = by_mapping(bench, told, rename(feed, old, new), "--rename", f"{feed}.{old}={new}")
        expect("the line of a rename", True, f"feed {feed}: {old} becomes {new}" in lines)
    told = history(7).changed(rename("f0", "NAME", "A=B"))
    by_mapping(bench, told, rename("f0", "A=B", "B=C"), "--rename", "f0.A=B=B=C")


def swapped(bench):
    """columns and feeds that stand in another order are what they would be if they had stood so"""
    def change(told):
        told.feeds["f0"].attrs.reverse()
        told.feeds = dict(reversed(told.feeds.items()))

    for seed in seeds(bench, 1):
        by_mapping(bench, history(seed), change)


def without(bench):
    """a vault without a window is what it would be if that had never been loaded, and each mart that differs is told with its dates"""
    for seed in seeds(bench, 2):
        told = history(seed)
        for at in (0, 2, 4):
            vault = kept(bench, told, SNAPSHOTS)
            direct = kept(bench, told.changed(lambda other, at=at: other.windows.pop(at)))
            new, lines = replayed(bench, vault, "--without", DATES[at])
            expect_texts(f"without {DATES[at]}", all_texts(direct), all_texts(new))
            expect_told(vault, new, lines, vaults.load_dates(vault))
            is_lost = SNAPSHOTS[1] > vaults.load_dates(direct)[-1]
            expect("whether a snapshot is left out", is_lost, f"snapshot {SNAPSHOTS[1]} is left out" in lines)
            expect("the status of its table", 1 if is_lost else 0, new.run("pit", "h0", SNAPSHOTS[1]).status)
            bench.drop(vault, direct, new)


def expect_told(old, new, lines, dates):
    """Fails where the marts that are told to differ, with their dates, are not those that differ."""
    one, other = mart_texts(old, dates), mart_texts(new, dates)
    expected = {}
    for (word, date), text in one.items():
        if (word, date) in other and other[word, date] != text:
            expected.setdefault(word, []).append(date)
    found = {}
    for line in lines.splitlines():
        word = re.match(r"((?:feed|hub|path|period):\w+): (?:differs|has other columns)", line)
        if word:
            spans = re.search(r"load dates?: ([^;]*)", line)[1]
            found.setdefault(word[1], []).extend(date for first, last in RANGE.findall(spans)
                                                 for date in dates if first <= date <= (last or first))
    expect("the marts that are told, and their dates", expected, {word: sorted(each) for word, each in found.items()})


def told_under_a_mapping(bench):
    """under another mapping each mart that differs is told with its dates, and whether it differs in its columns alone"""
    def change(told):
        with_attribute(told)
        for _, extracts in told.windows:
            for row in extracts.get("f0", []):
                row["EMAIL"] = ""

    for seed in seeds(bench, 2):
        vault, new, lines = by_mapping(bench, history(seed), change)
        expect_told(vault, new, lines, vaults.load_dates(vault))
        expect("a mart with another column", True, "feed:f0: has other columns, and the same values" in lines)


def begins_later(bench):
    """from a date on a vault has the marts of feeds, hubs and paths that the old one has, and what one window of all feeds would make"""
    for seed in seeds(bench, 2):
        told = history(seed)
        for date, at in ((DATES[2], 2), ("2024-06-15T00:00:00", 3), (DATES[4], 4)):
            vault = kept(bench, told, SNAPSHOTS)
            new, lines = replayed(bench, vault, "--from", date)

            def change(other, at=at):
                first = {}
                for _, extracts in other.windows[:at + 1]:
                    first |= extracts
                other.windows = [(DATES[at], {name: first[name] for name in other.feeds if name in first}), *other.windows[at + 1:]]

            direct = kept(bench, told.changed(change))
            expect_texts(f"from {date}", all_texts(direct), all_texts(new))
            dates = vaults.load_dates(new)
            expect_told(vault, new, lines, dates)
            same = {place: text for place, text in mart_texts(vault, dates).items() if not place[0].startswith("period:")}
            other = {place: text for place, text in mart_texts(new, dates).items() if not place[0].startswith("period:")}
            expect_texts(f"from {date}, the old vault's marts", same, other)
            bench.drop(vault, direct, new)


def loaded_tool(name):
    loader = importlib.machinery.SourceFileLoader(name.replace("-", "_"), str(TOP / "tools" / name))
    module = importlib.util.module_from_spec(importlib.util.spec_from_loader(loader.name, loader))
    loader.exec_module(module)
    return module


def planted(bench):
    """a record that is lost, changed or of another key on its way into the new vault is told with the marts and dates that it changes"""
    told = history(3)
    at = next(at for at, (_, extracts) in enumerate(told.windows) if len(extracts.get("f4", [])) > 1)
    plants = (lambda rows: rows[:-1], lambda rows: [*rows[:-1], [*rows[-1][:-1], "planted"]],
              lambda rows: [["other", *rows[0][1:]], *rows[1:]])
    for plant in plants:
        vault = kept(bench, told)
        tool = loaded_tool("vaultdesk-replay")
        plain = tool.Builder.extract

        def extract(self, reader, name, date, plain=plain, plant=plant, tool=tool):
            header, *rows = tool.records(plain(self, reader, name, date))
            return tool.written([header, *(plant(rows) if name == "f4" and date == DATES[at] else rows)])

        tool.Builder.extract = extract
        folder, said = bench.folder / f"new{next(bench.numbers)}", io.StringIO()
        with contextlib.redirect_stdout(said):
            tool.replay(tool.read_words([str(vault.folder), str(folder), "--yes"]))
        expect("whether a difference is told", True, "feed:f4: differs at" in said.getvalue())
        expect_told(vault, vaults.vault_at(bench, folder), said.getvalue(), vaults.load_dates(vault))


def odd_columns(bench):
    """a first column with a byte order mark, and columns with commas and quotes, are replayed"""
    vault = bench.empty()
    vault.write("mapping.toml", '[[hub]]\nname = "h"\nparts = 1\n[[feed]]\nname = "f"\nsource = "s"\nhub = "h"\n'
                                'keys = [["\\ufeffK"]]\nattrs = ["A\\"B", "C,D", "\'"]\n')
    vault.write("c.csv", '\ufeff\ufeffK,"A""B","C,D",\'\nk1,x,y,z\n')
    vault.write("w1.toml", 'load = "2024-03-01T02:00:00"\nextract = [{ feed = "f", file = "c.csv" }]\n')
    vault.says("init", err="init: Stored")
    vault.loaded("w1.toml")
    new, told = replayed(bench, vault)
    expect_texts("odd columns", all_texts(vault), all_texts(new))
    expect_all_equal(told)


def same_words_again(bench):
    """without --yes nothing is put in place; with it the vault that was built is, and the same words again change nothing"""
    vault = kept(bench, history(1))
    folder = bench.folder / "again"
    first = run_tool(bench, "vaultdesk-replay", vault.folder, folder)
    expect_answer("without --yes", first, 0)
    expect("whether the vault is in place", False, folder.exists())
    built = (bench.folder / "again.replay/new/vault.db").stat().st_ino
    lines = first.out.splitlines()[:-1]
    for _ in range(2):
        got = run_tool(bench, "vaultdesk-replay", vault.folder, folder, "--yes")
        expect_answer("with --yes", got, 0)
        expect("what is told", lines, got.out.splitlines()[:-1])
        expect("the file that was built", built, (folder / "vault.db").stat().st_ino)
    # A vault that has grown since is read anew.
    other = bench.folder / "grown"
    expect_answer("before", run_tool(bench, "vaultdesk-replay", vault.folder, other), 0)
    vault.write("late.toml", 'load = "2024-08-01T02:00:00"\nextract = [{ feed = "f0", file = "late.csv" }]\n')
    vault.write("late.csv", "K0_0,K0_1,NAME,\"A, B\"\n" if "K0_1" in vault.file("mapping.toml").read_text().split("f1")[0] else "K0_0,NAME,\"A, B\"\n")
    vault.loaded("late.toml")
    expect_answer("after", run_tool(bench, "vaultdesk-replay", vault.folder, other, "--yes"), 0)
    expect_texts("a vault that has grown", all_texts(vault), all_texts(vaults.vault_at(bench, other)))


def large_first_state(bench):
    """a first state that is too large for one window is loaded by several, a second apart"""
    vault = bench.empty()
    feeds = "".join(f'[[feed]]\nname = "f{n}"\nsource = "s"\nhub = "h"\nkeys = [["K"]]\n' for n in range(3))
    vault.write("mapping.toml", f'[[hub]]\nname = "h"\nparts = 1\n{feeds}')
    vault.write("c.csv", "K\n" + "".join(f"{n}\n" for n in range(150_000)))
    vault.says("init", err="init: Stored")
    for n in range(3):
        vault.write(f"w{n}.toml", f'load = "2024-03-0{n + 1}T02:00:00"\nextract = [{{ feed = "f{n}", file = "c.csv" }}]\n')
        vault.loaded(f"w{n}.toml")
    new, _ = replayed(bench, vault, "--from", "2024-03-03T02:00:00")
    expect("the windows", b"load_date,state,feeds\n2024-03-03T01:59:59,sealed,f0 f1\n2024-03-03T02:00:00,sealed,f2\n", new.text("windows"))
    expect("the hub", vault.text("mart", "hub:h", "2024-03-03T02:00:00"), new.text("mart", "hub:h", "2024-03-03T02:00:00"))


def full_vault(bench):
    """a vault of 10,000 windows, to which none can be added (W21), goes over whole, and from a date on so that more can be added"""
    vault = bench.empty()
    vault.write("mapping.toml", '[[hub]]\nname = "h"\nparts = 1\n[[feed]]\nname = "f"\nsource = "s"\nhub = "h"\nkeys = [["K"]]\n')
    vault.says("init", err="init: Stored")
    tool = loaded_tool("vaultdesk-replay")
    with tool.Desk(tool.Vault(tool.Program(bench.program), vault.folder, "full")) as desk:
        for number in range(10_000):
            text = "K\n" + (f"{number // 100}\n" if number % 3 else "")
            desk.load(tool.as_body(vaults.seconds_after("2024-01-01T00:00:00", number), {"f": text.encode()}))
    vault.write("c.csv", "K\nlast\n")
    vault.write("last.toml", 'load = "2024-02-01T00:00:00"\nextract = [{ feed = "f", file = "c.csv" }]\n')
    full = "last.toml: W21 VaultFull weight="
    expect("the window after 10,000", full, vault.run("load", "last.toml").err.decode()[:len(full)])
    new, told = replayed(bench, vault)
    expect_all_equal(told)
    for words in (("windows",), ("table", "hub_h"), ("table", "status_f")):
        expect(f"full: {words}", vault.text(*words), new.text(*words))
    later, _ = replayed(bench, vault, "--from", "2024-01-01T02:30:00")
    expect("windows from a date on", 1_000, len(vaults.load_dates(later)))
    later.write("c.csv", "K\nlast\n")
    later.write("last.toml", vault.file("last.toml").read_bytes())
    later.loaded("last.toml")


CHECKS = [law_of_examples, law_of_histories, law_of_worlds, added_column, left_out, renamed, swapped, without, told_under_a_mapping,
          begins_later, planted, odd_columns, same_words_again]
LARGE = [large_first_state, full_vault]
