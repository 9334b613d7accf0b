"""Runs commands to their end, and takes their time and memory; prints tables."""
import os
import pathlib
import subprocess
import tempfile
import threading
import time

TOP = pathlib.Path(__file__).resolve().parent.parent


def built_program():
    """The repository's program, which the script vaultdesk builds where it is not built of these sources."""
    subprocess.run([TOP / "vaultdesk"], env={**os.environ, "VAULTDESK_BUILD": "1"}, stdin=subprocess.DEVNULL,
                   stderr=subprocess.DEVNULL)
    return TOP / "crates/vaultdesk/out/vaultdesk"


def watch(pid, peak):
    """Keeps the most memory that a process ever had, in kB, until it is gone."""
    while True:
        try:
            lines = pathlib.Path(f"/proc/{pid}/status").read_text().splitlines()
        except OSError:
            return
        found = [int(line.split()[1]) for line in lines if line.startswith("VmHWM:")]
        if not found:
            return
        peak[0] = max(peak[0], found[0])
        time.sleep(0.004)


def run(command, folder, out, settings=None):
    """Seconds, processor seconds, kB at the peak, and the lines of standard error."""
    start, peak = time.perf_counter(), [0]
    with open(out, "wb") as text, tempfile.TemporaryFile("w+") as lines:
        env = os.environ | (settings or {})
        process = subprocess.Popen(command, cwd=folder, env=env, stdin=subprocess.DEVNULL, stdout=text, stderr=lines)
        watcher = threading.Thread(target=watch, args=(process.pid, peak))
        watcher.start()
        _, status, used = os.wait4(process.pid, 0)
        taken = time.perf_counter() - start
        process.returncode = os.waitstatus_to_exitcode(status)
        watcher.join()
        lines.seek(0)
        said = lines.read()
    if process.returncode != 0:
        raise SystemExit(f"{command[0]} ended with {process.returncode}: {said}")
    return taken, used.ru_utime + used.ru_stime, peak[0], said.splitlines()


def row(cells):
    print(f"| {' | '.join(cells)} |")


def head(cells):
    row(cells)
    print("|" + "---|" * len(cells))
