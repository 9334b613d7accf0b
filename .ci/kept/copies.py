"""Checks of the one file: a copy of it is the vault, and each changed bit of it is found or of no account. What cannot be
put into it stands in the log, and changes no answer."""
import random
import shutil

from kept import breaks, history, orders
from kept.desk import ByClient, each_is
from kept.desks import loaded, serving, window_of
from kept.orders import DATES
from kept.program import CheckFailed, expect, with_limits
from kept.readmes import loaded_rows
from kept.vaults import Vault

FLIPS = 1000
PAGE = 4096
FOUND = (5, 8)


def copied(vault):
    """Another folder with the same inputs and a copy of the file `vault.db` alone."""
    folder = vault.bench.new_folder()
    for path in vault.folder.iterdir():
        if not path.name.startswith("vault.db"):
            (folder / path.name).symlink_to(path.resolve())
    shutil.copy(vault.file("vault.db"), folder)
    return Vault(vault.bench, folder)


def a_copy_is_the_vault(bench):
    """a copy of vault.db alone is the vault, after each command that ended well"""
    vault = bench.example("orders")
    for words in (("init",), *(("load", manifest) for manifest in orders.MANIFESTS), ("snapshot", DATES[1])):
        expect(f"{' '.join(words)}: exit status", 0, vault.run(*words).status)
        twin = copied(vault)
        expect(f"all texts of a copy after {words[0]}", orders.texts(vault), orders.texts(twin))
    for table in (("pit", "customer"), ("bridge", "sold")):
        expect(f"{' '.join(table)} of a copy", vault.text(*table, DATES[1]), twin.text(*table, DATES[1]))


def a_copy_of_a_long_load(bench):
    """a copy of vault.db alone is the vault, after loads of many rows"""
    made = history.make(bench)
    vault = made.after_first.twin()
    vault.loaded("w2.toml", "w3.toml")
    expect("all texts of a copy", made.texts, history.texts(copied(vault)))


def a_copy_after_a_desk(bench):
    """a copy of vault.db alone is the vault, after a desk that loaded windows was ended and a command ended well"""
    vault = orders.kept(bench, 0)
    with serving(vault) as desk:
        for manifest in orders.MANIFESTS:
            each_is(desk, [(("POST", "/windows", window_of(vault, manifest)), loaded(loaded_rows("orders")[manifest]))], [ByClient])
    vault.says("windows", out=orders.windows_text(3))
    expect("all texts of a copy", orders.texts(orders.kept(bench, 3)), orders.texts(copied(vault)))


def a_copy_of_a_broken_load(bench):
    """after a load that was killed a copy of both files is the vault, and after the next command one of vault.db alone"""
    made = history.make(bench)
    for size in breaks.sizes(made.after_first, 5, "load", "w2.toml"):
        vault = made.after_first.twin()
        breaks.killed_by_size(vault, size, "load", "w2.toml")
        text = vault.twin().text("windows")
        expect("the windows after a load was killed", text, vault.text("windows"))
        expect("the windows of a copy", text, copied(vault).text("windows"))
        bench.drop(vault)


def of_one_feed(bench, count):
    """A vault with a window of so many customers, and a second window in which another one stands in the last one's place."""
    vault = bench.empty()
    vault.write("mapping.toml", 'hub = [{ name = "customer", parts = 1 }]\nfeed = [{ name = "customers", source = "crm", '
                'hub = "customer", keys = [["CUST_NO"]], attrs = ["NAME"] }]\n')
    names = [f"C{number},customer {number}\n" for number in range(count)]
    for number in (1, 2):
        vault.write(f"w{number}.csv", "CUST_NO,NAME\n" + "".join(names))
        vault.write(f"w{number}.toml", f'load = "{DATES[number - 1]}"\n'
                    f'extract = [{{ feed = "customers", file = "w{number}.csv" }}]\n')
        names[-1] = f"C{count},another\n"
    vault.says("init", err="init: Stored")
    vault.says("load", "w1.toml", err=f"w1.toml: Loaded {3 * count}")
    return vault


def closes_after(vault, unbroken):
    """Fails where no changes wait in the log, or where the next command does not put them into the file."""
    log = vault.file("vault.db-wal").stat().st_size
    expect("whether the load left a log with changes", True, log > PAGE)
    vault.says("load", "w2.toml", err="w2.toml: Repeated")
    for words in (("windows",), ("table", "sat_customers"), ("mart", "feed:customers", DATES[1])):
        expect(f"{words[0]} of a copy", unbroken.text(*words), copied(vault).text(*words))


def a_failed_close(bench):
    """a load whose log cannot be put into the file is answered as ever, or killed then: the next command puts it in"""
    first = of_one_feed(bench, 4000)
    size = first.file("vault.db").stat().st_size * 3 // 4
    unbroken, failed, killed = first.twin(), first.twin(), first.twin()
    unbroken.says("load", "w2.toml", err="w2.toml: Loaded 4")
    failed.says("load", "w2.toml", err="w2.toml: Loaded 4", limits=with_limits(file_size=size))
    closes_after(failed, unbroken)
    breaks.killed_by_size(killed, size, "load", "w2.toml")
    closes_after(killed, unbroken)


def texts_of(vault):
    """All texts that commands write."""
    texts = orders.texts(vault)
    texts.update({" ".join(words): vault.text(*words, DATES[1]) for words in (("pit", "customer"), ("pit", "product"),
                                                                             ("pit", "sales_order"), ("bridge", "sold"))})
    return texts


def with_flipped_bit(data, place):
    """The bytes with one bit changed."""
    flipped = bytearray(data)
    flipped[place // 8] ^= 1 << place % 8
    return flipped


def flipped_bits(bench):
    """each of a thousand bits of the file that is flipped is found, or changes no text"""
    vault = orders.kept(bench, 3)
    vault.run("snapshot", DATES[1])
    texts, data = texts_of(vault), vault.file("vault.db").read_bytes()
    places = random.Random(43).sample(range(8 * len(data)), FLIPS)
    # Of the header each bit of some bytes: the page size, the versions, the bytes for a sum.
    places += range(8 * 16, 8 * 24)
    unfound = 0
    for place in places:
        vault.without_store()
        vault.write("vault.db", bytes(with_flipped_bit(data, place)))
        got = vault.run("windows")
        if got.status in FOUND:
            continue
        unfound += 1
        if got.status != 0 or texts_of(vault) != texts:
            raise CheckFailed(f"bit {place % 8} of byte {place // 8} flipped\n    expected: it is found\n    got:      {got}")
    print(f"kept checks: {len(places) - unfound} of {len(places)} flipped bits were found, {unfound} changed no text",
          flush=True)


CHECKS = (a_copy_is_the_vault, a_copy_of_a_long_load, a_copy_after_a_desk, a_copy_of_a_broken_load, a_failed_close,
          flipped_bits)
