"""Copies of the checkout with a release, and search paths for them: a machine's programs without rt, and a stand-in for it."""
import os
import pathlib
import shutil
import stat
import subprocess
import sys

from kept.program import Answer, CheckFailed
from packing import releases

TOP = releases.TOP
ENOUGH_SECONDS = 600
NOBODY = 65534
# The toolchain of a release that is made for the checks.
TOOLCHAIN = "rattle-kit-for-checks logic 0"
# Beside the sources, what a check needs of the checkout.
KEPT = ("vaultdesk", "crates.txt", "HANDLES", "README.md", ".ci", "examples", "docs")

RT = """\
#!/bin/sh
set -e
echo "$*" >>{calls}
case $1 in
  version) echo '{toolchain}' ;;
  run) {meanwhile}; mkdir -p out; cp {program} out/vaultdesk; exec out/vaultdesk ;;
  ci) rm -rf crates/vaultdesk/out; mkdir crates/vaultdesk/out; cp {program} crates/vaultdesk/out/vaultdesk ;;
esac
"""
# Stands for a program that is built: it says its words, and without words what vaultdesk says then.
BUILT_HERE = """\
#!/bin/sh
[ $# -gt 0 ] || { echo 'vaultdesk: usage' >&2; exit 2; }
echo "built here: $*"
"""


def copy_tree(source, target):
    if source.is_dir():
        shutil.copytree(source, target, ignore=shutil.ignore_patterns("vault.db*", "out"))
    else:
        target.parent.mkdir(parents=True, exist_ok=True)
        shutil.copy(source, target)


def crates_below():
    done = subprocess.run([TOP / ".ci/sources", "--crates"], check=True, capture_output=True, text=True)
    return done.stdout.split()


def make_template(folder, program):
    """Copies what the release is of into a folder, with the checkout's release where it is whole and of its sources, and
    else with one that is made of a program. Gives what it has, in words."""
    for name in KEPT:
        copy_tree(TOP / name, folder / name)
    for crate in crates_below():
        for part in ("src", "specs", "proofs"):
            if (TOP / "crates" / crate / part).is_dir():
                copy_tree(TOP / "crates" / crate / part, folder / "crates" / crate / part)
    if releases.is_begun() and not releases.faults(is_compared=False):
        for path in (releases.PACKED, releases.SUMS, releases.SOURCES, releases.VERSION):
            copy_tree(path, folder / path.relative_to(TOP))
        return "the checkout's release"
    put_program(folder, program.read_bytes(), TOOLCHAIN)
    done = subprocess.run([folder / ".ci/release"], capture_output=True, text=True)
    if done.returncode:
        raise CheckFailed(f"no release could be made for the checks: {done.stderr}")
    shutil.rmtree(folder / "crates/vaultdesk/out")
    return f"a release made of {program}, as the checkout has none of its sources"


def put_program(top, data, toolchain):
    """Puts a program into a checkout, noted as built of its sources."""
    built = top / "crates/vaultdesk/out/vaultdesk"
    built.parent.mkdir(exist_ok=True)
    built.write_bytes(data)
    built.chmod(0o755)
    sources = subprocess.run([top / ".ci/sources", toolchain], check=True, capture_output=True, text=True).stdout
    subprocess.run([top / ".ci/note-built", sources.rstrip("\n")], check=True)


def make_path(folder, *left_out):
    """Makes a folder with the system's programs but some, and this Python, for a search path."""
    folder.mkdir()
    (folder / "python3").symlink_to(sys.executable)
    for system in ("/usr/bin", "/bin"):
        for name in os.listdir(system):
            if name not in left_out and not (folder / name).is_symlink():
                (folder / name).symlink_to(f"{system}/{name}")
    return str(folder)


class Trial:
    """A fresh copy of the template, an empty folder to work in, a home, and what is run there. `plain` is a search path
    without rt."""

    def __init__(self, template, plain, folder):
        self.template, self.plain, self.folder = template, plain, pathlib.Path(folder)
        self.folder.chmod(0o755)
        self.top, self.work, self.home = (self.folder / name for name in ("checkout", "work", "home"))
        subprocess.run(["cp", "-a", template, self.top], check=True)
        for made in (self.work, self.home):
            made.mkdir()
        self.release = self.top / "release"
        self.unpacked = self.release / "vaultdesk"
        self.toolchain = (self.release / "sources").read_text().split("toolchain ")[1].strip()

    def put_back(self, *names):
        """Gives files or folders of the copy back as the template has them."""
        for name in names:
            subprocess.run(["rm", "-rf", self.top / name], check=True)
            subprocess.run(["cp", "-a", self.template / name, self.top / name], check=True)

    def path_with_rt(self, program=BUILT_HERE, meanwhile=":"):
        """A search path with a stand-in for rt, which builds a program: a text or bytes."""
        folder = self.folder / "with-rt"
        shutil.rmtree(folder, ignore_errors=True)
        folder.mkdir()
        made = folder / "program"
        made.write_bytes(program.encode() if isinstance(program, str) else program)
        rt = folder / "rt"
        rt.write_text(RT.format(calls=self.folder / "calls", toolchain=self.toolchain, program=made, meanwhile=meanwhile))
        for path in (made, rt):
            path.chmod(0o755)
        return f"{folder}:{self.plain}"

    def calls(self):
        """The words of the calls of the stand-in for rt that asked for more than its version."""
        log = self.folder / "calls"
        return [line for line in log.read_text().splitlines() if line != "version"] if log.exists() else []

    def run(self, *command, path=None, at=None, user=None, limits=None, **environment):
        """Runs a command, the script with the word `windows` where none is said."""
        environment = {"PATH": path or self.plain, "HOME": str(self.home), "LC_ALL": "C.UTF-8", **environment}
        account = {"user": user, "group": user, "extra_groups": []} if user is not None else {}
        done = subprocess.run(command or [self.top / "vaultdesk", "windows"], cwd=at or self.work, env=environment,
                              stdin=subprocess.DEVNULL, capture_output=True, timeout=ENOUGH_SECONDS,
                              preexec_fn=limits, **account)
        return Answer(done.returncode, done.stdout, done.stderr)

    def check_release(self, *words, path=None):
        """What .ci/release --check says in the copy, by this Python."""
        return self.run(sys.executable, self.top / ".ci/release", "--check", *words, path=path, at=self.top)


def flip(path, at):
    """Turns a bit of a file's byte; a place below 0 counts from the end."""
    data = bytearray(path.read_bytes())
    data[at] ^= 1
    write(path, data)


def write(path, data):
    """Puts bytes or text in place of a file's, and leaves its mode."""
    mode = stat.S_IMODE(path.stat().st_mode) if path.exists() else 0o644
    path.write_bytes(data.encode() if isinstance(data, str) else data)
    path.chmod(mode)


def append(path, text):
    write(path, path.read_bytes() + text.encode())
