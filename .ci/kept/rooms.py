"""Checks of a disk without room."""
import contextlib
import subprocess

from kept import history, orders
from kept.program import KEEPER_FAULT, expect, with_limits
from kept.readmes import loaded_rows

PAGE = 4096


def is_keeper_fault_or_loaded(got, line):
    """Whether a load was done; fails where it neither was nor is a keeper fault."""
    answers = {0: f"{line}\n", KEEPER_FAULT["status"]: f"{KEEPER_FAULT['err']}\n"}
    expect("a load without room: its line", answers.get(got.status), got.err.decode())
    return got.status == 0


def files_that_may_not_grow(bench):
    """a load whose files may not grow past a size, at each size up to one that suffices, is a keeper fault that leaves
    the window absent or open, and ends as unbroken"""
    made = history.make(bench)
    line = f"w2.toml: Loaded {made.added[1]}"
    states, size, is_loaded = [], 0, False
    while not is_loaded:
        vault = made.after_first.twin()
        is_loaded = is_keeper_fault_or_loaded(vault.run("load", "w2.toml", limits=with_limits(file_size=size)), line)
        history.is_in_order(made, vault)
        states.append(history.state_after_break(made, vault))
        expect("the window after a load", is_loaded, states[-1] == "sealed")
        if states[-1] == "open" or is_loaded:
            history.complete(made, vault, states[-1], by_resume=len(states) % 2 == 0)
            history.goes_on_as_unbroken(made, vault)
        bench.drop(vault)
        size += 8 * PAGE
    expect("whether some size left the window open", True, "open" in states)


def answers_with_an_open_window(bench):
    """with an open window other dates are refused as W5, and other rows as W19; marts show the sealed windows alone"""
    vault = with_open_window(bench)
    vault.says("windows", out=orders.windows_text(1) + orders.SECOND_OPEN)
    for manifest in ("w1.toml", "w3.toml"):
        vault.says("load", manifest, status=1, err=f"{manifest}: W5 OpenOther load={orders.DATES[1]}")
    manifest = vault.file("w2.toml").read_text()
    vault.write("other.toml", manifest.replace("w2_lines.csv", "w1_lines.csv"))
    vault.says("load", "other.toml", status=1, err=f"other.toml: W19 Differs load={orders.DATES[1]}")
    for mart in orders.MARTS:
        tried = vault.run("try", mart, orders.LAST_DATE, "w1.toml")
        vault.says("mart", mart, orders.LAST_DATE, out=tried.out)
    vault.says("init", err="init: Kept")
    again = vault.twin()
    vault.says("resume", err=f"resume: Loaded {loaded_rows('orders')['w2.toml']}")
    vault.says("resume", status=1, err="vaultdesk: Q8 NothingOpen")
    again.says("load", "w2.toml", err=orders.line_of("w2.toml"))
    again.says("load", "w2.toml", err="w2.toml: Repeated")
    for one in (vault, again):
        one.says("load", "w3.toml", err=orders.line_of("w3.toml"))
        expect("all texts", orders.texts(orders.kept(bench, 3)), orders.texts(one))


def with_open_window(bench):
    """The example with its second window open, since its files could not grow."""
    first = orders.kept(bench, 1)
    for size in range(PAGE, 4_000_000, PAGE // 2):
        vault = first.twin()
        got = vault.run("load", "w2.toml", limits=with_limits(file_size=size))
        if is_keeper_fault_or_loaded(got, orders.line_of("w2.toml")):
            break
        if vault.text("windows") != orders.windows_text(1).encode():
            return vault
        bench.drop(vault)
    expect("whether some size left the window of the example open", True, False)


@contextlib.contextmanager
def small_disk(bench, size):
    """A folder with so much room; none where nothing can be mounted."""
    folder = bench.new_folder()
    mounted = ["mount", "-t", "tmpfs", "-o", f"size={size}", "none", str(folder)]
    try:
        is_mounted = subprocess.run(mounted, capture_output=True).returncode == 0
    except OSError:
        is_mounted = False
    try:
        yield folder if is_mounted else None
    finally:
        if is_mounted:
            subprocess.run(["umount", str(folder)], check=True)


def give_room(folder):
    subprocess.run(["mount", "-o", "remount,size=1g", str(folder)], check=True)


def loaded_on(made, folder, line):
    """Loads the second window on a small disk, then with room; the state that the want of room left."""
    vault = made.after_first.twin(folder)
    is_loaded = is_keeper_fault_or_loaded(vault.run("load", "w2.toml"), line)
    history.is_in_order(made, vault)
    elsewhere = made.after_first.bench.empty()
    vault.copy_store(elsewhere.folder)
    state = history.state_after_break(made, elsewhere)
    expect("the window after a load", is_loaded, state == "sealed")
    give_room(folder)
    expect("the window with room", state, history.state_after_break(made, vault))
    history.complete(made, vault, state, by_resume=True)
    history.goes_on_as_unbroken(made, vault)
    return state


def full_disks(bench):
    """a load on a disk that gets full is a keeper fault that leaves the window absent or open, and with room it ends as
    unbroken"""
    made = history.make(bench)
    unbroken = made.after_first.twin()
    unbroken.loaded("w2.toml")
    first, last = made.after_first.store_size(), unbroken.store_size()
    states = []
    for part in range(9):
        size = (first + abs(last - first) * part // 8) // PAGE * PAGE + PAGE
        with small_disk(bench, size) as folder:
            if folder is None:
                return bench.leave_out("full disks: nothing can be mounted here")
            states.append(loaded_on(made, folder, f"w2.toml: Loaded {made.added[1]}"))
    expect("whether some disk was full", True, set(states) != {"sealed"})


def init_on_a_full_disk(bench):
    """init on a full disk is a keeper fault, and stores the mapping with room"""
    with small_disk(bench, 2 * PAGE) as folder:
        if folder is None:
            return bench.leave_out("init on a full disk: nothing can be mounted here")
        vault = bench.example("orders").twin(folder)
        vault.says("init", **KEEPER_FAULT)
        give_room(folder)
        vault.says("windows", status=3, err="vaultdesk: mapping none")
        vault.says("init", err="init: Stored")
        vault.loaded(*orders.MANIFESTS)
        vault.says("windows", out=orders.windows_text(3))


CHECKS = (files_that_may_not_grow, answers_with_an_open_window, full_disks, init_on_a_full_disk)
