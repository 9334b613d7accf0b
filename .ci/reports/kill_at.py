"""Runs tools/vaultdesk-report and kills it at one of its steps: before or after a call by which it changes something outside.

Usage: kill_at.py STEP WORD.. Steps count from 1. A run that has fewer steps goes to its end. Where STEP is 0, their number is
written to standard error, and behind it the first and the last step of each place in the code.
"""
import os
import pathlib
import signal
import sys

sys.dont_write_bytecode = True
TOOLS = pathlib.Path(__file__).resolve().parents[2] / "tools"
sys.path.insert(0, str(TOOLS))

from report import run  # noqa: E402

# Calls in C, and functions of the report's code. How often a desk is asked until it answers is not the same in each run.
CALLS = {"execute", "executemany", "connect", "replace", "fsync", "unlink", "write", "close"}
FUNCTIONS = {"begun", "end", "answer", "asked", "finish", "abandon"}
UNEVEN = {"wait_for", "has_port", "free_port", "windows"}
ours = str(TOOLS / "report")
count, last = 0, int(sys.argv[1])
places = {}  # the first and the last step of each place in the code


def is_uneven(frame):
    while frame and frame.f_code.co_filename.startswith(ours):
        if frame.f_code.co_name in UNEVEN:
            return True
        frame = frame.f_back
    return False


def step(frame, event, called):
    """Counts a call of the report's code, and its end."""
    global count
    if not frame.f_code.co_filename.startswith(ours) or is_uneven(frame):
        return
    name = getattr(called, "__name__", "") if event.startswith("c_") else frame.f_code.co_name
    if name in (CALLS if event.startswith("c_") else FUNCTIONS):
        count += 1
        place = frame.f_code.co_filename, frame.f_lineno, event, name
        places[place] = places.get(place, (count,))[0], count
        if count == last:
            os.kill(os.getpid(), signal.SIGKILL)


sys.setprofile(step)
status = run.main(sys.argv[2:])
sys.setprofile(None)
if last == 0:
    print(count, *sorted({step for pair in places.values() for step in pair}), file=sys.stderr)
sys.exit(status)
