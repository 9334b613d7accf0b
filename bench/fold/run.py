#!/usr/bin/env python3
"""How the homes of a window's keys spread, and what keys of one home cost, by a model of dv_window_keys' fold in Rust.

Usage: python3 bench/fold/run.py [--keys N] [--worst N]

Builds fold.rs with rustc -O in a folder of its own. Prints for each shape of keys the probes an offer, those for uniform
homes, and their ratio, for N different keys (1,000,000 if not said); and then the seconds of N keys of one home (20,000 if
not said), which grow with the square of their number.
"""
import argparse
import pathlib
import subprocess
import tempfile

HERE = pathlib.Path(__file__).resolve().parent


def main():
    parser = argparse.ArgumentParser(description="How the homes of a window's keys spread.")
    parser.add_argument("--keys", type=int, default=1_000_000)
    parser.add_argument("--worst", type=int, default=20_000)
    words = parser.parse_args()
    with tempfile.TemporaryDirectory() as folder:
        program = pathlib.Path(folder) / "fold"
        subprocess.run(["rustc", "-O", "-o", program, HERE / "fold.rs"], check=True)
        subprocess.run([program, "probes", str(words.keys)], check=True)
        subprocess.run([program, "worst", str(words.worst)], check=True)


if __name__ == "__main__":
    main()
