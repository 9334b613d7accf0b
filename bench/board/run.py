#!/usr/bin/env python3
"""Offers a second of the shared key table and of what else could keep the least item of each key, in one run.

Usage: python3 bench/board/run.py [--keep FOLDER]

Builds, in a folder of its own, the program of program/ over a copy of crates/dv_board (which proves both, so the first
time takes minutes) and peers.rs with rustc -O, runs each of them, and prints the best, the median and the worst of twenty rounds.
With --keep the folder is kept, and a later run with it starts at once.
"""
import argparse
import os
import pathlib
import shutil
import subprocess
import tempfile

HERE = pathlib.Path(__file__).resolve().parent
TOP = HERE.parent.parent


def quietly(command, folder):
    """Runs a command whose output matters only where it fails."""
    done = subprocess.run(command, cwd=folder, stdout=subprocess.PIPE, stderr=subprocess.STDOUT, text=True)
    if done.returncode != 0:
        raise SystemExit(f"{' '.join(command)} in {folder} failed:\n{done.stdout}")


def build_program(folder):
    """The Rattle program, built by LLVM: program/ without the ending `.in`, and the items of the crate's own tests."""
    crates = folder / "crates"
    program = crates / "board_bench"
    shutil.rmtree(crates / "dv_board", ignore_errors=True)
    shutil.copytree(TOP / "crates/dv_board", crates / "dv_board", ignore=shutil.ignore_patterns("out", "must-fail"))
    (folder / "crates.txt").write_text("dv_board: atomic_table\nboard_bench: dv_board anyhow arrayvec\n")
    shutil.copy(TOP / "HANDLES", folder / "HANDLES")
    for source in (HERE / "program").rglob("*.in"):
        target = program / source.relative_to(HERE / "program").with_suffix("")
        target.parent.mkdir(parents=True, exist_ok=True)
        shutil.copy(source, target)
    crate = TOP / "crates/dv_board"
    for name in ["src/tagged.rt", "specs/TaggedItems.antt", "specs/TaggedLaws.antt",
                 "proofs/tagged/TaggedKeyItems/same/Answers.antt"]:
        text = (crate / name).read_text()
        text = text.replace("use crate::key_items::KeyItems", "use dv_board::KeyItems")
        for own in ["specs.Tagged", "proofs.tagged"]:
            text = text.replace(f"Rattle.dv_board.{own}", f"Rattle.board_bench.{own}")
        (program / name).parent.mkdir(parents=True, exist_ok=True)
        (program / name).write_text(text)
    (program / "specs/Lib.antt").write_text("pub mod TaggedItems\npub mod TaggedLaws\n")
    quietly(["rt", "lib"], crates / "dv_board")
    quietly(["rt", "run"], program)
    return program / "out/board_bench"


def build_peers(folder):
    subprocess.run(["rustc", "-O", "-o", folder / "peers", HERE / "peers.rs"], check=True)
    return folder / "peers"


def measure(program):
    lines = subprocess.run([program], check=True, capture_output=True, text=True).stdout.splitlines()
    return [(words[0], [int(word) for word in words[1:]]) for words in map(str.split, lines)]


def table(rows):
    print("| who | threads | offers a second, best | median | worst | best with the sorted list, ms |")
    print("|---|---|---|---|---|---|")
    for (who, threads), rounds in rows.items():
        times = sorted(offered for _, offered, _ in rounds)
        rates = [f"{rounds[0][0] * 1_000_000 // time:,}" for time in (times[0], times[len(times) // 2], times[-1])]
        closed = min(closed for _, _, closed in rounds) / 1000
        print(f"| {who} | {threads} | {' | '.join(rates)} | {closed:.1f} |")


def main():
    parser = argparse.ArgumentParser(description=__doc__, formatter_class=argparse.RawDescriptionHelpFormatter)
    parser.add_argument("--keep", type=pathlib.Path)
    folder = parser.parse_args().keep
    temporary = folder is None
    folder = pathlib.Path(tempfile.mkdtemp()) if temporary else folder.resolve()
    folder.mkdir(parents=True, exist_ok=True)
    program, peers = build_program(folder), build_peers(folder)
    print(f"load average before: {os.getloadavg()[0]:.1f} on {os.cpu_count()} processors")
    rows, answers = {}, set()
    for who, (threads, items, *times, keys, folded) in measure(program):
        made, offered, closed = times
        rows.setdefault((who, threads), []).append((items, offered - made, closed))
        answers.add((keys, folded))
    for who, (threads, items, offered, closed, keys, folded) in measure(peers):
        rows.setdefault((who, threads), []).append((items, offered, closed))
        answers.add((keys, folded))
    table(rows)
    print(f"load average after: {os.getloadavg()[0]:.1f}")
    if len(answers) != 1:
        raise SystemExit(f"the peers disagree: {answers}")
    if temporary:
        shutil.rmtree(folder)


if __name__ == "__main__":
    main()
