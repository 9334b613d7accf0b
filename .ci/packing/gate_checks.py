"""Checks of what makes a release and of what holds it to the built program: `.ci/release`, `.ci/sources` and the gate."""
import hashlib
import os
import re
import shutil
import sys

from kept.program import CheckFailed, expect
from packing.checkouts import append, flip, put_program, write
from packing.releases import sum_of

OTHER_SOURCES = ("release check failed: release/sources is not that of the checkout: the release is of other sources. "
                 ".ci/release renews it\n")
NO_RELEASE = "release check failed: the checkout has no release. .ci/release makes it\n"
GATE = """\
#!/bin/sh
echo 'own checks ran'
"""


def program_of(trial):
    """The bytes of the released program."""
    expect("the release", 3, trial.run().status)
    return trial.unpacked.read_bytes()


def passed(trial):
    version, date = (trial.top / "VERSION").read_text().split()
    return 0, f"release check: {version} of {date} is the built program, of the checkout's sources\n".encode(), b""


def differs(built, released):
    """What is said of a built program that has a byte more than the released one."""
    return (f"release check failed: the built program's bytes are not those of the release: crates/vaultdesk/out/vaultdesk has "
            f"the sum {sum_of(built)}, the release {sum_of(released)}; they differ from byte {len(released) + 1} on\n")


def sources_by_hand(top, toolchain):
    """What .ci/sources has to print, made in another way."""
    rows = {}
    for text in (top / "crates.txt").read_text().splitlines():
        found = re.findall(r"[\w/-]+", text.partition("#")[0])
        if found:
            rows[found[0]] = text, found[1:]
    below, more = set(), {"vaultdesk"}
    while more:
        below |= more
        more = {name for crate in more for name in rows[crate][1] if name in rows} - below
    files = ["HANDLES"]
    for crate in below:
        for part in ("src", "specs", "proofs"):
            files += [os.path.relpath(os.path.join(at, name), top)
                      for at, _, names in os.walk(top / "crates" / crate / part) for name in names]
    lines = [f"{sum_of((top / file).read_bytes())}  {file}" for file in sorted(files, key=os.fsencode)]
    lines += sorted(rows[crate][0] for crate in below) + [toolchain]
    return f"sources {hashlib.sha256(''.join(f'{line}{chr(10)}' for line in lines).encode()).hexdigest()}\ntoolchain {toolchain}\n"


def one_hash(trial):
    """the hash over the sources is the one that its description gives"""
    for toolchain in (trial.toolchain, "another one"):
        expected = 0, sources_by_hand(trial.top, toolchain).encode(), b""
        expect("the hash", expected, trial.run(trial.top / ".ci/sources", toolchain))
    expect("release/sources", sources_by_hand(trial.top, trial.toolchain), (trial.release / "sources").read_text())


def held_to_both(trial):
    """.ci/release --check passes the built program of these sources, and refuses other bytes, other sources and both"""
    released = program_of(trial)
    built = trial.top / "crates/vaultdesk/out/vaultdesk"
    line = b"release check failed: no program is built to be compared: crates/vaultdesk/out/vaultdesk is not there\n"
    expect("no built program", (1, line, b""), trial.check_release())
    put_program(trial.top, released, trial.toolchain)
    expect("the same bytes", passed(trial), trial.check_release())
    write(built, released + b"\0")
    other_bytes = differs(released + b"\0", released)
    expect("a byte more", (1, other_bytes.encode(), b""), trial.check_release())
    append(trial.top / "crates/dv_text/src/lib.rt", "// more\n")
    expect("both", (1, (OTHER_SOURCES + other_bytes).encode(), b""), trial.check_release())
    write(built, released)
    expect("other sources", (1, OTHER_SOURCES.encode(), b""), trial.check_release())


def held_to_toolchain(trial):
    """.ci/release --check compares no bytes with a release by another toolchain, says so, and still asks for its sources"""
    released = program_of(trial)
    put_program(trial.top, released + b"\0", trial.toolchain)
    expect("the same", (1, differs(released + b"\0", released).encode(), b""), trial.check_release(path=trial.path_with_rt()))
    named, trial.toolchain = trial.toolchain, "another one"
    told = passed(trial)[1].decode().replace("is the built program, of the checkout's sources\n", (
        f"is of the checkout's sources; it was built by {named}, and here is another one, so its bytes are not compared\n"))
    expect("another one", (0, told.encode(), b""), trial.check_release(path=trial.path_with_rt()))
    append(trial.top / "crates/dv_text/src/lib.rt", "// more\n")
    expect("other sources", (1, OTHER_SOURCES.encode(), b""), trial.check_release(path=trial.path_with_rt()))


def damage_is_told(trial):
    """.ci/release --check tells a damaged file of the release, and one that is not there"""
    put_program(trial.top, program_of(trial), trial.toolchain)
    flip(trial.release / "vaultdesk.xz", 5000)
    (trial.top / "VERSION").unlink()
    lines = ("release check failed: VERSION is not there\n"
             "release check failed: release/vaultdesk.xz is damaged: its sum is not that of release/SHA256SUMS\n")
    expect("the answer", (1, lines.encode(), b""), trial.check_release())


def none_yet(trial):
    """a checkout without a release fails .ci/release --check, and passes it with --if-there"""
    shutil.rmtree(trial.release)
    expect("a version alone", 1, trial.check_release("--if-there").status)
    (trial.top / "VERSION").unlink()
    expect("no release", (1, NO_RELEASE.encode(), b""), trial.check_release())
    expect("no release, if there", (0, b"release check: the checkout has no release\n", b""), trial.check_release("--if-there"))


def made_again(trial):
    """.ci/release makes the same bytes again, gives other bytes another version, and takes only what is noted as built"""
    released, make = program_of(trial), (sys.executable, trial.top / ".ci/release")
    for name in ("vaultdesk.xz", "SHA256SUMS", "sources"):
        expect(f"{name} in another folder", True, len((trial.release / name).read_bytes()) > 0)
    files = [*(trial.release / name for name in ("vaultdesk.xz", "SHA256SUMS", "sources")), trial.top / "VERSION"]
    before = [file.read_bytes() for file in files]
    expect("nothing is built", 1, trial.run(*make).status)
    put_program(trial.top, released, trial.toolchain)
    expect("the same program", 0, trial.run(*make).status)
    expect("the same release", before, [file.read_bytes() for file in files])
    shutil.rmtree(trial.release)
    expect("the same program from nothing", 0, trial.run(*make, "--version", "4.5.6", SOURCE_DATE_EPOCH="86400").status)
    expect("the release from nothing", before[1:3], [file.read_bytes() for file in files[1:3]])
    expect("the version", "4.5.6 1970-01-02\n", files[3].read_text())
    write(trial.top / "crates/vaultdesk/out/vaultdesk", released + b"\0")
    expect("a program that is not noted", 1, trial.run(*make).status)
    put_program(trial.top, released + b"\0", trial.toolchain)
    expect("another program", 0, trial.run(*make, SOURCE_DATE_EPOCH="0").status)
    expect("its version", "4.5.7 1970-01-01\n", files[3].read_text())
    expect("it runs", 3, trial.run().status)
    expect("it is the release", released + b"\0", trial.unpacked.read_bytes())


def gate_refuses(trial):
    """the gate passes the release that it builds, and refuses one of other sources and one whose bytes differ"""
    released = program_of(trial)
    # The checks of the program are no part of this one.
    write(trial.top / ".ci/own-checks", GATE)
    gate = trial.top / ".ci/run"
    ran = b"own checks ran\n"

    def run(program):
        return trial.run(gate, path=trial.path_with_rt(program), at=trial.top)

    expect("the release", (0, ran + passed(trial)[1], b""), run(released))
    noted = trial.run(path=trial.plain, VAULTDESK_BUILD="1")
    expect("what the gate built is run, and not built again", 3, noted.status)
    expect("other bytes", (1, ran + differs(released + b"\0", released).encode(), b""), run(released + b"\0"))
    append(trial.top / "crates/dv_text/src/lib.rt", "// more\n")
    expect("other sources", (1, ran + OTHER_SOURCES.encode(), b""), run(released))
    expect("calls of rt", ["ci"] * 3, trial.calls())
    if shutil.which("rt", path=trial.plain):
        raise CheckFailed("rt is among the system's programs, so these checks show nothing")


CHECKS = (one_hash, held_to_both, held_to_toolchain, damage_is_told, none_yet, made_again, gate_refuses)
