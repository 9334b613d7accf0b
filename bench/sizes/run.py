#!/usr/bin/env python3
"""How many bytes a text, a list, a key, a digest and some rows take in place.

Usage: python3 bench/sizes/run.py [--keep FOLDER]

Builds, in a folder of its own, the program of program/ over copies of the crates that it needs (which proves them, so the
first time takes minutes), and prints what it prints. With --keep the folder is kept, and a later run with it starts at once.
"""
import argparse
import pathlib
import shutil
import subprocess
import sys
import tempfile

HERE = pathlib.Path(__file__).resolve().parent
sys.path.insert(0, str(HERE.parent))
from programs import build_program  # noqa: E402

USES = ["dv_records", "dv_text", "anyhow"]


def main():
    parser = argparse.ArgumentParser(description=__doc__, formatter_class=argparse.RawDescriptionHelpFormatter)
    parser.add_argument("--keep", type=pathlib.Path)
    folder = parser.parse_args().keep
    temporary = folder is None
    folder = pathlib.Path(tempfile.mkdtemp()) if temporary else folder.resolve()
    try:
        folder.mkdir(parents=True, exist_ok=True)
        program = build_program(folder, HERE / "program", "sizes_bench", USES)
        subprocess.run([program], check=True)
    finally:
        if temporary:
            shutil.rmtree(folder, ignore_errors=True)


if __name__ == "__main__":
    main()
