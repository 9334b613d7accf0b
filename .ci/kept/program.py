"""The program that is checked: how it is run, and how what it writes is compared."""
import os
import pathlib
import resource
import signal
import subprocess
import time
from typing import NamedTuple

TOP = pathlib.Path(__file__).resolve().parents[2]
BUILT = TOP / "crates/vaultdesk/out/vaultdesk"
LONGEST_RUN = 900  # seconds
PLAIN_WORK = 0.2  # seconds, see `slowness`

KEEPER_FAULT = {"status": 5, "err": "vaultdesk: keeper fault"}
NO_MAPPING = {"status": 3, "err": "vaultdesk: mapping none"}
USAGE = {"status": 2, "err": "vaultdesk: usage"}


class CheckFailed(Exception):
    """A check found something else than what is expected."""


class Answer(NamedTuple):
    """What the program wrote, and its status."""

    status: int
    out: bytes
    err: bytes


def found_program():
    """The program that the environment names, or the repository's, which the script `vaultdesk` builds where it is not
    built of these sources."""
    named = os.environ.get("VAULTDESK")
    if named:
        return pathlib.Path(named).resolve()
    subprocess.run([TOP / "vaultdesk"], env={**os.environ, "VAULTDESK_BUILD": "1"}, stdin=subprocess.DEVNULL,
                   stdout=subprocess.DEVNULL, stderr=subprocess.DEVNULL)
    if not BUILT.exists():
        raise SystemExit("kept check failed: the script vaultdesk did not build the program")
    return BUILT


def cut(value, at):
    """A value as a failing check shows it: of a long one what stands round a place."""
    if not isinstance(value, (bytes, str)) or len(value) <= 400:
        return repr(value)
    return f"{value[max(0, at - 100):at + 200]!r} (from {max(0, at - 100)} on, of {len(value)})"


def first_difference(one, other):
    if not isinstance(one, (bytes, str)) or type(one) is not type(other):
        return 0
    pairs = enumerate(zip(one, other))
    return next((at for at, (left, right) in pairs if left != right), min(len(one), len(other)))


def expect(what, expected, got):
    """Fails where a value is another one than is expected."""
    if expected != got:
        at = first_difference(expected, got)
        raise CheckFailed(f"{what}\n    expected: {cut(expected, at)}\n    got:      {cut(got, at)}")


def with_limits(file_size=None, memory=None):
    """What a process does first that may write no larger file, where a write past it fails, or take no more memory."""

    def begin():
        signal.signal(signal.SIGXFSZ, signal.SIG_IGN)
        for kind, most in ((resource.RLIMIT_FSIZE, file_size), (resource.RLIMIT_AS, memory)):
            if most is not None:
                resource.setrlimit(kind, (most, most))

    return begin


def killed_past(file_size):
    """What a process does first that the system kills where it writes a file past a size: at that very byte, on each
    machine."""

    def begin():
        signal.signal(signal.SIGXFSZ, signal.SIG_DFL)
        resource.setrlimit(resource.RLIMIT_CORE, (0, 0))
        resource.setrlimit(resource.RLIMIT_FSIZE, (file_size, file_size))

    return begin


def run(program, folder, words, out_to=subprocess.PIPE, err_to=subprocess.PIPE, limits=None):
    """Runs the program in a folder to its end."""
    done = subprocess.run([program, *words], cwd=folder, stdin=subprocess.DEVNULL, stdout=out_to, stderr=err_to,
                          preexec_fn=limits, timeout=LONGEST_RUN)
    return Answer(done.returncode, done.stdout or b"", done.stderr or b"")


def begin(program, folder, words, err_to=subprocess.DEVNULL):
    """A process of the program, which goes on in a folder."""
    return subprocess.Popen([program, *words], cwd=folder, stdin=subprocess.DEVNULL, stdout=subprocess.DEVNULL,
                            stderr=err_to)


def slowness():
    """How many times as long as on the machine for which the checks say seconds some work takes on this one; 1 at least."""
    begun = time.process_time()
    sum(number * number for number in range(2_000_000))
    return max(1.0, (time.process_time() - begun) / PLAIN_WORK)


def all_end(session):
    """Waits until no process of a session runs: what a killed program has begun ends with it, but a moment later."""
    ended = time.monotonic() + LONGEST_RUN
    while any(runs_in(session, folder) for folder in pathlib.Path("/proc").glob("[0-9]*")):
        expect("whether what a killed program has begun ends with it", True, time.monotonic() < ended)
        time.sleep(0.01)


def runs_in(session, folder):
    """Whether a process, by its folder in /proc, runs and is of a session."""
    try:
        state, _, _, number, *_ = (folder / "stat").read_text(errors="replace").rpartition(")")[2].split()
    except OSError:
        return False
    return state not in "ZX" and int(number) == session
