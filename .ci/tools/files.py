"""Files and words of all kinds, of which vaultdesk-check and vaultdesk-picture make a line and a status, and no traceback."""
import os
import shutil
import signal
import subprocess
import sys
import threading
import time

from kept.program import CheckFailed, expect
from tools.bench import expect_faults, told
from tools.warned import MAPPING, manifest

# What runs a command without the right of the user root to read any file.
WITHOUT_RIGHTS = ("setpriv", "--bounding-set", "-dac_override,-dac_read_search")
GOOD = "CUST_NO,NAME\nc1,Ann\n"


def expect_no_traceback(what, got, status):
    expect(f"{what}: status", status, got.status)
    if b"Traceback" in got.out + got.err:
        raise CheckFailed(f"{what}: {got.err[-400:]!r}")


def window_files(**more):
    return {"mapping.toml": MAPPING, "w1.toml": manifest("03", ("customers", "c.csv")), "c.csv": GOOD, **more}


def statuses(bench):
    """the status is 0 for no fault, 1 for faults, 2 for wrong words and 4 for files and for a program that is not there"""
    folder = bench.new_folder(window_files(bad_csv="CUST_NO,NAME\nc1\n"))
    (folder / "w2.toml").write_text(manifest("04", ("customers", "bad_csv")), encoding="utf-8")
    for words, status in (([], 0), (["w1.toml"], 0), (["w1.toml", "w2.toml"], 1), (["--none"], 2), (["--most", "0"], 2), (["--most", "x"], 2),
                          (["none.toml"], 4), (["w2.toml", "none.toml"], 4), (["--mapping", "none"], 4), (["--vault"], 4), (["--", "-x"], 4),
                          (["--help"], 0)):
        expect_no_traceback(" ".join(words), bench.tool("vaultdesk-check", folder, *words), status)
    for program in ("/nowhere", "/etc/hostname", "/bin/true", "/bin/false"):
        got = bench.tool("vaultdesk-check", folder, "w1.toml", env={**os.environ, "VAULTDESK": program})
        expect_no_traceback(program, got, 4)
        got = bench.tool("vaultdesk-picture", folder, env={**os.environ, "VAULTDESK": program})
        expect_no_traceback(f"picture, {program}", got, 4)
    full = open("/dev/full", "wb")  # noqa: SIM115
    expect_no_traceback("a full disk", bench.tool("vaultdesk-check", folder, "w1.toml", out_to=full), 4)
    expect_no_traceback("picture, a full disk", bench.tool("vaultdesk-picture", folder, out_to=full), 4)
    full.close()


def odd_bytes(bench):
    """files of 0 bytes, of binary data, of one long line, of 10,000 columns and of half a million line ends are told with lines"""
    binary = bytes(range(256)) * 40
    for name in ("mapping.toml", "w1.toml", "c.csv"):
        for data in (b"", binary, b"\x00" * 5000, b"\xff\xfe" + "x,y".encode("utf-16"), b"[" * 5000, b'"' * 5001, b"x" * 70_000,
                     b"a." * 5000 + b"b = 1", b"," * 100_000, b"\n" * 500_000, ",".join(f"C{n}" for n in range(10_000)).encode()):
            folder = bench.new_folder(window_files(**{name: data}))
            got, said = bench.tried(folder, ["w1.toml"])
            found = told(folder, "w1.toml")
            expect_faults(f"{name}, {data[:9]!r}", set(said), set(said) & found.said())
            if got.err.rpartition(b"\n")[0].rpartition(b"\n")[2][:14] != b"vaultdesk: Q1 ":
                expect(f"{name}, {data[:9]!r}: status", {0: 0, 1: 1, 3: 1, 4: 4}[got.status], found.status)


def at_limits(bench):
    """files at a limit of their size and one byte past it have the program's verdict; a sparse file of 4 GiB is not read whole"""
    mapping, window = window_files()["mapping.toml"], window_files()["w1.toml"]
    for name, text, limit in (("mapping.toml", mapping, 1_048_576), ("w1.toml", window, 65_536), ("c.csv", GOOD, 33_554_432)):
        for size in (limit, limit + 1):
            front = text + ("# " if name != "c.csv" else "")
            padded = front + ("\n" if name == "c.csv" else "x") * (size - len(front))
            folder = bench.new_folder(window_files(**{name: padded}))
            _, said = bench.tried(folder, ["w1.toml"])
            expect_faults(f"{name} of {size} bytes", set(said), told(folder, "w1.toml").said())
        folder = bench.new_folder(window_files())
        os.truncate(folder / name, 4 * 1024 ** 3)
        found = told(folder, "w1.toml")
        expect(f"{name} of 4 GiB: faults", (1, 1), (found.status, len(found.faults)))


def odd_kinds(bench):
    """a FIFO, a folder, a device, a name with a NUL and a file without the right to read are told as files, with status 4"""
    for name in ("mapping.toml", "w1.toml", "c.csv"):
        for make in (os.mkfifo, os.mkdir, lambda path: os.symlink("/dev/zero", path), lambda path: os.symlink(path, path)):
            folder = bench.new_folder(window_files())
            (folder / name).unlink()
            make(folder / name)
            expect_no_traceback(f"{name}", bench.tool("vaultdesk-check", folder, "w1.toml"), 4)
        folder = bench.new_folder(window_files())
        (folder / name).chmod(0)
        front = WITHOUT_RIGHTS if os.getuid() == 0 else ()
        if front and not shutil.which(front[0]):
            bench.leave_out("files without rights, as setpriv is not on this machine")
            continue
        expect_no_traceback(f"{name} without rights", bench.tool("vaultdesk-check", folder, "w1.toml", front=front), 4)
    text = manifest("03", ("customers", "c.csv")).replace("c.csv", "c\\u0000.csv")
    expect_no_traceback("a NUL", bench.tool("vaultdesk-check", bench.new_folder(window_files(**{"w1.toml": text})), "w1.toml"), 4)


def odd_vaults(bench):
    """with --vault a vault.db that is a FIFO, a folder, a device, binary or 4 GiB of nothing has status 4, and an empty one is new"""
    def binary(path):
        path.write_bytes(bytes(range(256)) * 40)

    def sparse(path):
        path.touch()
        os.truncate(path, 4 * 1024 ** 3)

    kinds = ((os.mkfifo, 4), (os.mkdir, 4), (lambda path: os.symlink("/dev/zero", path), 4), (binary, 4), (sparse, 4), (os.mknod, 0))
    for make, status in kinds:
        folder = bench.new_folder(window_files())
        make(folder / "vault.db")
        expect_no_traceback("an odd vault.db", bench.tool("vaultdesk-check", folder, "--vault", "w1.toml"), status)


def shrinking(bench):
    """a file that shrinks and grows while it is read has a verdict"""
    folder = bench.new_folder(window_files())
    path, is_over = folder / "c.csv", threading.Event()

    def write():
        while not is_over.is_set():
            for rows in (20_000, 0, 300):
                path.write_text("CUST_NO,NAME\n" + "c1,x\n" * rows, encoding="utf-8")

    writer = threading.Thread(target=write)
    writer.start()
    try:
        for _ in range(5):
            got = bench.tool("vaultdesk-check", folder, "w1.toml")
            expect_no_traceback("a file that changes", got, got.status if got.status in (0, 1) else -1)
    finally:
        is_over.set()
        writer.join()


def broken_off(bench):
    """a reader that goes away, and a break from the keyboard, end vaultdesk-check without a traceback"""
    folder = bench.new_folder(window_files())
    tool = f"{sys.executable} {bench.tool_path('vaultdesk-check')}"
    got = bench.run_shell(folder, f"({tool} w1.toml; echo status $?) 2> err | true; cat err")
    expect("a traceback", False, "Traceback" in got)
    slow = folder / "slow"
    slow.write_text(f"#!/bin/sh\ntouch {folder}/begun\nexec sleep 60\n", encoding="utf-8")
    slow.chmod(0o755)
    # What a shell starts in the background has the signal ignored, and so have those that it starts.
    with subprocess.Popen([sys.executable, bench.tool_path("vaultdesk-check"), "w1.toml"], cwd=folder, stdout=subprocess.DEVNULL,
                          stderr=subprocess.PIPE, env={**os.environ, "VAULTDESK": str(slow)}, start_new_session=True,
                          preexec_fn=lambda: signal.signal(signal.SIGINT, signal.SIG_DFL)) as process:
        while process.poll() is None and not (folder / "begun").exists():
            time.sleep(0.01)
        os.killpg(process.pid, signal.SIGINT)
        expect("what is said at a break", b"", process.stderr.read())
        expect("the status at a break", 130, process.wait())


CHECKS = [statuses, odd_bytes, at_limits, odd_kinds, odd_vaults, shrinking, broken_off]
