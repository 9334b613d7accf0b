"""Builds the programs of the folders beside this file, each in a folder of the run's own."""
import pathlib
import shutil
import subprocess

TOP = pathlib.Path(__file__).resolve().parent.parent


def quietly(command, folder):
    """Runs a command whose output matters only where it fails."""
    done = subprocess.run(command, cwd=folder, stdout=subprocess.PIPE, stderr=subprocess.STDOUT, text=True)
    if done.returncode != 0:
        raise SystemExit(f"{' '.join(command)} in {folder} failed:\n{done.stdout}")


def rows_of_crates():
    """What crates.txt says of each crate: the line, and the crates that it names."""
    lines = [line.partition("#")[0].strip() for line in (TOP / "crates.txt").read_text().splitlines()]
    return {line.partition(":")[0].split()[0]: (line, line.partition(":")[2].split()) for line in lines if line}


def with_below(names, rows):
    """Crates of the repository, and those that they stand on."""
    found = [name for name in names if name in rows]
    for name in found:
        found += [below for below in rows[name][1] if below in rows and below not in found]
    return found


def copy_crate(source, target):
    """Copies a crate as it stands; what an earlier run proved of it stays beside it."""
    for part in ["src", "specs", "proofs"]:
        shutil.rmtree(target / part, ignore_errors=True)
        if (source / part).exists():
            shutil.copytree(source / part, target / part)


def build_program(folder, sources, name, uses):
    """The Rattle program of some sources, built by LLVM: they have the ending `.in`, so that no gate reads them."""
    rows = rows_of_crates()
    below = with_below(uses, rows)
    for crate in below:
        copy_crate(TOP / "crates" / crate, folder / "crates" / crate)
    lines = [rows[crate][0] for crate in below] + [f"{name}: {' '.join(uses)}"]
    (folder / "crates.txt").write_text("\n".join(lines) + "\n")
    shutil.copy(TOP / "HANDLES", folder / "HANDLES")
    program = folder / "crates" / name
    for source in sources.rglob("*.in"):
        target = program / source.relative_to(sources).with_suffix("")
        target.parent.mkdir(parents=True, exist_ok=True)
        shutil.copy(source, target)
    quietly(["rt", "run"], program)
    return program / "out" / name


def build_peer(folder, source):
    subprocess.run(["rustc", "-O", "--edition", "2021", "-o", folder / source.stem, source], check=True)
    return folder / source.stem
