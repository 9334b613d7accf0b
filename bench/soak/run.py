#!/usr/bin/env python3
"""Serves vaults for long: requests of all kinds for some minutes, and as many windows as a vault may have.

Usage: python3 bench/soak/run.py [--program FILE] [--minutes N] [--windows N]

FILE, or what the environment's VAULTDESK names, is a built vaultdesk; where none is named, the script vaultdesk builds the
repository's. For N minutes clients ask a desk side by side, of which the vault grows in the first one alone: each reply has
to have the status that is asked for, and the desk's memory and open files have to stay as they are then. Then N windows of
ten records are posted into one vault: the last hundred may take at most 1.3 times the seconds of the second one. By 0 a
part is left out. The exit status is 1 where something is wrong.
"""
import argparse
import os
import pathlib
import sys
import tempfile

TOP = pathlib.Path(__file__).resolve().parent.parent.parent
for each in (TOP / "bench/desk", TOP / "bench", TOP / ".ci"):
    sys.path.insert(0, str(each))
sys.dont_write_bytecode = True
import many  # noqa: E402
import steady  # noqa: E402
from kept.program import CheckFailed  # noqa: E402
from kept.vaults import Bench  # noqa: E402
from runs import built_program  # noqa: E402


def arguments():
    parser = argparse.ArgumentParser(description=__doc__, formatter_class=argparse.RawDescriptionHelpFormatter)
    parser.add_argument("--program", type=pathlib.Path, default=os.environ.get("VAULTDESK"))
    parser.add_argument("--minutes", type=float, default=30)
    parser.add_argument("--windows", type=int, default=many.MOST)
    given = parser.parse_args()
    if given.minutes < 0 or not 0 <= given.windows <= many.MOST or given.windows % many.SPAN or 0 < given.windows < 3 * many.SPAN:
        parser.error(f"--windows is 0, or some hundreds from {3 * many.SPAN} to {many.MOST}; --minutes is 0 or more")
    return given


def main():
    given = arguments()
    program = pathlib.Path(given.program).resolve() if given.program else built_program()
    wrong = []
    print(f"load average before: {os.getloadavg()[0]:.1f} on {os.cpu_count()} processors\n")
    with tempfile.TemporaryDirectory() as folder:
        for part, size in ((steady, given.minutes), (many, given.windows)):
            if size:
                try:
                    wrong += part.run(Bench(program, tempfile.mkdtemp(dir=folder)), size)
                except CheckFailed as found:
                    wrong.append(str(found))
                print(flush=True)
    print(f"load average after: {os.getloadavg()[0]:.1f}")
    if wrong:
        raise SystemExit("\n".join(["", *wrong, f"soak: {len(wrong)} things are wrong"]))
    print("soak: all as it has to be")


main()
