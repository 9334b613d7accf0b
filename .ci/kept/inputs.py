"""Checks of inputs that are no files, or grow while they are read."""
import os
import subprocess

from kept import orders
from kept.program import LONGEST_RUN, expect

NO_FILES = {
    "a pipe": os.mkfifo,
    "a device": lambda path: path.symlink_to("/dev/zero"),
    "a device that is read to its end": lambda path: path.symlink_to("/dev/null"),
    "a folder": lambda path: path.mkdir(),
}


def fault(name):
    return {"status": 4, "err": f"vaultdesk: read fault {name}"}


def in_its_place(vault, name, make):
    """Puts what is no file in the place of an input."""
    vault.file(name).unlink()
    make(vault.file(name))


def a_mapping_that_is_no_file(bench):
    """a mapping that is a pipe, a device or a folder is a read fault, and nothing is stored"""
    for make in NO_FILES.values():
        vault = bench.example("orders")
        in_its_place(vault, "mapping.toml", make)
        vault.says("init", **fault("mapping.toml"))
        vault.says("try", "feed:customers", orders.DATES[0], "w1.toml", **fault("mapping.toml"))
        expect("files of the store", 0, vault.store_size())


def a_manifest_that_is_no_file(bench):
    """a manifest that is a pipe, a device or a folder is a read fault, and the vault is free for the next command"""
    for make in NO_FILES.values():
        vault = orders.kept(bench, 1)
        before = orders.texts(vault)
        in_its_place(vault, "w2.toml", make)
        vault.says("load", "w2.toml", **fault("w2.toml"))
        expect("all texts after it", before, orders.texts(vault))


def an_extract_that_is_no_file(bench):
    """an extract that is a pipe, a device or a folder is a read fault, and the window is loaded once it is a file"""
    for make in NO_FILES.values():
        vault = orders.kept(bench, 1)
        extract = "w2_customers.csv"
        records = vault.file(extract).read_bytes()
        in_its_place(vault, extract, make)
        vault.says("load", "w2.toml", **fault(extract))
        made = vault.file(extract)
        made.rmdir() if made.is_dir() else made.unlink()
        vault.write(extract, records)
        vault.says("load", "w2.toml", err=orders.line_of("w2.toml"))


def an_extract_that_grows(bench):
    """an extract that is longer than it may be, and grows while it is read, is cut by its limit and refused"""
    vault = orders.kept(bench, 1)
    with open(vault.file("w2_customers.csv"), "ab") as grows:
        grows.truncate(33_554_433)
        process = vault.begin("load", "w2.toml", err_to=subprocess.PIPE)
        for _ in range(1000):
            grows.write(bytes(16_384))
        _, err = process.communicate(timeout=LONGEST_RUN)
    expect("its line and its status", (b"w2.toml: W6 TooLong feed=customers\n", 1), (err, process.returncode))


CHECKS = (a_mapping_that_is_no_file, a_manifest_that_is_no_file, an_extract_that_is_no_file, an_extract_that_grows)
