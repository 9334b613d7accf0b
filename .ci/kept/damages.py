"""Checks of stores that somebody changed with SQLite: each command names the first damage, and leaves the file."""
from kept import orders, rooms
from kept.commands import EVERY_COMMAND
from kept.orders import DATES
from kept.program import KEEPER_FAULT, expect
from kept.readmes import loaded_rows
from kept.stores import change, change_row, contents, opened, opened_copy

NO_DIGEST = bytes(range(16))
GREATEST_DIGEST = b"\xff" * 16
C1, C4 = (bytes.fromhex(text) for text in ("1a2ddc2db4693cfd16d534cde5572cc1", "b713e6323a68d3ddabf4855826c50148"))

# A raw table of the example `orders`, a row's number, a column of the file's table and what it gets; then the damage.
CHANGED_ROWS = (
    ("hub_customer", 1, "hash_key", NO_DIGEST, "hub_customer 1 F7"),
    ("hub_customer", 2, "part_1", "C9", "hub_customer 2 F7"),
    ("hub_customer", 1, "load_date", "2024-03-01T02:00:01", "hub_customer 1 F5"),
    ("hub_customer", 1, "load_date", DATES[1], "hub_customer 2 F6"),
    ("hub_customer", 4, "record_source", "crm.clients", "hub_customer 4 F8"),
    ("hub_customer", 1, "hash_key", bytes(32), "hub_customer 1 F4"),
    ("hub_product", 2, "hash_key", GREATEST_DIGEST, "hub_product 2 F7"),
    ("link_placed", 3, "hash_key", bytes(16), "link_placed 3 F7"),
    ("link_placed", 1, "hub_1", NO_DIGEST, "link_placed 1 F9"),
    ("link_placed", 1, "hub_1", bytes(32), "link_placed 1 F4"),
    ("link_placed", 3, "hub_2", C1, "link_placed 3 F9"),
    ("sat_customers", 1, "attribute_2", "Hamar", "sat_customers 1 F7"),
    ("sat_customers", 6, "load_date", DATES[0], "sat_customers 6 F6"),
    ("sat_orders", 5, "load_date", DATES[2], "sat_orders 5 F5"),
    ("sat_lines", 6, "hash_diff", NO_DIGEST, "sat_lines 6 F7"),
    ("status_customers", 1, "status", "D", "status_customers 1 F11"),
    ("status_customers", 6, "status", "D", "status_customers 6 F11"),
    ("status_customers", 6, "hash_key", GREATEST_DIGEST, "status_customers 6 F9"),
    ("status_lines", 5, "record_source", "lines", "status_lines 5 F8"),
)

# The same of the example `assignments`.
CHANGED_PERIODS = (
    ("eff_assignments", 1, "begin", "2024-02-01T02:00:00", "eff_assignments 1 F12"),
    ("eff_assignments", 4, "end", "9999-12-31T23:59:59", "eff_assignments 4 F12"),
    ("eff_assignments", 9, "end", "2024-07-01T02:00:00", "eff_assignments 9 F12"),
)

# The same of the example `phones`.
CHANGED_PHONES = (
    ("msat_phones", 4, "attribute_1", "21", "msat_phones 4 F7"),
    ("msat_phones", 4, "hash_diff", bytes(32), "msat_phones 4 F4"),
)

CHANGED_WINDOWS = (
    ("UPDATE windows SET load_date = '2024-02-01T02:00:00' WHERE load_date = '2024-04-01T02:00:00'", "windows 2 F2"),
    ("UPDATE windows SET load_date = '2024-06-01T02:00:00' WHERE load_date = '2024-04-01T02:00:00'", "windows 3 F2"),
    ("UPDATE windows SET feeds = '4 0' WHERE load_date = '2024-05-01T02:00:00'", "windows 3 F2"),
    ("UPDATE windows SET feeds = '0 5' WHERE load_date = '2024-05-01T02:00:00'", "windows 3 F2"),
    ("UPDATE windows SET feeds = '0 70000' WHERE load_date = '2024-05-01T02:00:00'", "windows 3 F2"),
    ("UPDATE windows SET feeds = '' WHERE load_date = '2024-05-01T02:00:00'", "windows 3 F2"),
    ("UPDATE windows SET feeds = '4' WHERE load_date = '2024-05-01T02:00:00'", "sat_customers 6 F5"),
    ("DELETE FROM windows WHERE load_date = '2024-05-01T02:00:00'", "sat_customers 6 F5"),
)

# What stands for no value, or for no row.
NO_VALUES = (
    "UPDATE rows_of_status_0 SET status = 'X' WHERE number = 1",
    "UPDATE rows_of_hub_0 SET load_date = 'soon' WHERE number = 1",
    "UPDATE rows_of_hub_0 SET hash_key = x'00' WHERE number = 1",
    "UPDATE windows SET feeds = 'customers' WHERE place = 1",
    "DELETE FROM rows_of_hub_0 WHERE number = 1",
)


def damaged(place):
    return {"status": 8, "err": f"vaultdesk: damaged {place}"}


def each_change(vault, changes, apply):
    """Applies each change to a store of its own; `windows` names its damage, and leaves all as it is."""
    for *what, place in changes:
        changed = vault.twin()
        apply(changed, *what)
        before = contents(changed)
        changed.says("windows", **damaged(place))
        expect(f"the store after {place} was named", before, contents(changed))
        vault.bench.drop(changed)


def changed_rows(bench):
    """a changed row of a hub, link, satellite or status table is named by its table, row and rule"""
    each_change(orders.kept(bench, 3), CHANGED_ROWS, change_row)


def changed_periods_and_phones(bench):
    """a changed row of an effectivity table or a multi-active satellite is named too"""
    for example, changes in (("assignments", CHANGED_PERIODS), ("phones", CHANGED_PHONES)):
        each_change(bench.kept_example(example, *loaded_rows(example)), changes, change_row)


def a_key_twice(bench):
    """a key that stands twice in a hub is named"""
    vault = orders.kept(bench, 3)
    change(vault, "UPDATE rows_of_hub_0 SET hash_key = ?, part_1 = 'C1' WHERE hash_key = ?", C1, C4)
    vault.says("windows", **damaged("hub_customer 4 F10"))


def changed_windows(bench):
    """changed or lost sealed windows are named, or the first row that no window brings any more"""
    each_change(orders.kept(bench, 3), CHANGED_WINDOWS, change)


def a_changed_mapping(bench):
    """a stored mapping that is none any more is named, also by init"""
    vault = orders.kept(bench, 3)
    for text in (b"hub = [", b"\xff a mapping file of more than 22 bytes\n",
                 b'link = [{ name = "works", hubs = ["employee", "department"] }]'):
        change(vault, "UPDATE mapping SET content = ?", text)
        for words in EVERY_COMMAND:
            vault.says(*words, **damaged("mapping 1 F1"))


def a_changed_stage(bench):
    """an open window with another feed than the mapping's is named"""
    vault = rooms.with_open_window(bench)
    with opened_copy(vault) as connection:
        [(content,)] = connection.execute("SELECT extracts FROM stage").fetchall()
    # The number of extracts takes four bytes, and then comes the first one's feed.
    change(vault, "UPDATE stage SET extracts = ?", content[:4] + (70_000).to_bytes(4, "big") + content[8:])
    vault.says("resume", **damaged("stage 1 F3"))


def every_command_names_it(bench):
    """each command but init says what is damaged, before it looks at its own words and files"""
    vault = orders.kept(bench, 3)
    change_row(vault, "hub_customer", 1, "hash_key", NO_DIGEST)
    before = contents(vault)
    for words in EVERY_COMMAND[1:] + (("load", "none.toml"), ("mart", "nothing", "never"), ("table", "nothing"),
                                       ("snapshot", "never"), ("pit", "nothing", "never"), ("bridge", "nothing", "never")):
        vault.says(*words, **damaged("hub_customer 1 F7"))
    vault.says("init", err="init: Kept")
    expect("the store after each command named its damage", before, contents(vault))
    change(vault, "UPDATE rows_of_hub_0 SET hash_key = ? WHERE hash_key = ?", C1, NO_DIGEST)
    vault.says("windows", out=orders.windows_text(3))


def values_of_nothing(bench):
    """a value that stands for nothing, or a row that is gone, is a keeper fault"""
    vault = orders.kept(bench, 3)
    for sql in NO_VALUES:
        changed = vault.twin()
        change(changed, sql)
        before = contents(changed)
        changed.says("mart", "feed:customers", DATES[0], **KEEPER_FAULT)
        expect(f"the store after {sql}", before, contents(changed))
        bench.drop(changed)


def lines_of_other_rows(bench):
    """a line of the directory that says other rows than a table has is a keeper fault, or what it leaves out is named"""
    vault = orders.kept(bench, 3)
    for said in ("row_count = row_count + 1", "row_count = 4611686018427387904", "first_row = first_row + 1",
                 "first_row = 9223372036854775807"):
        changed = vault.twin()
        change(changed, f"UPDATE directory SET {said} WHERE rows_in = 'rows_of_sat_4'")
        changed.says("windows", **KEEPER_FAULT)
    change(vault, "DELETE FROM directory WHERE rows_in = 'rows_of_hub_0'")
    expect("the exit status without the line of a table", 8, vault.run("windows").status)


def a_change_without_its_sum(bench):
    """a store that a SQLite without sums changed is a keeper fault for each command, and stays as it is"""
    for sql in ("UPDATE windows SET feeds = '4 0' WHERE load_date = '2024-05-01T02:00:00'",
                "DELETE FROM rows_of_sat_4 WHERE number = 1", "CREATE INDEX places ON rows_of_hub_0 (part_1)"):
        vault = orders.kept(bench, 3)
        with opened(vault.file("vault.db")) as connection:
            connection.execute(sql)
            connection.execute("PRAGMA wal_checkpoint(TRUNCATE)")
        before = vault.file("vault.db").read_bytes()
        for words in EVERY_COMMAND:
            vault.says(*words, **KEEPER_FAULT)
        expect(f"the bytes of the store after {sql}", before, vault.file("vault.db").read_bytes())


CHECKS = (changed_rows, changed_periods_and_phones, a_key_twice, changed_windows, a_changed_mapping, a_changed_stage,
          lines_of_other_rows, a_change_without_its_sum, every_command_names_it, values_of_nothing)
