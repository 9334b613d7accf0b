"""Checks of the script `vaultdesk` in a checkout that has a release: what it runs, and what it says where it runs nothing."""
import lzma
import os
import re
import resource
import subprocess
import sys
import time

from kept.program import CheckFailed, expect, slowness, with_limits
from manual.pages import examples_of
from packing.checkouts import NOBODY, append, flip, make_path, write
from packing.releases import sum_of

MOST_SECONDS_FIRST, MOST_SECONDS_LATER = 2, 1
# `vaultdesk windows` in an empty folder, as the manual has it.
RELEASED = (3, b"", b"vaultdesk: mapping none\n")
BUILT = (0, b"built here: windows\n", b"")
NO_RT = "the program is not built, and the toolchain's command rt is not here to build it"
DIFFERS = ": the sources are not those of the release"
WAITING = re.compile(rb"vaultdesk: waiting for rt to prove and build the program \([^)]*\)(.*)\nvaultdesk: built\n")


def refused(line):
    """The answer of the script where it runs nothing."""
    return 2, b"", f"vaultdesk: {line}\n".encode()


def seconds_of(call):
    """The seconds of a call, the least of three; those of a processor where it had to wait for other work."""
    taken = []
    for number in range(3):
        begun, used = time.perf_counter(), used_seconds()
        call(number)
        taken += [time.perf_counter() - begun, used_seconds() - used]
    return min(taken)


def used_seconds():
    """The processor seconds of the commands that have ended."""
    used = resource.getrusage(resource.RUSAGE_CHILDREN)
    return used.ru_utime + used.ru_stime


def expect_at_most(what, most, seconds):
    most *= slowness()
    if seconds > most:
        raise CheckFailed(f"{what} took {seconds:.2f} seconds, and may take {most:.1f}")


def answers_at_once(trial):
    """the README's first command is answered within two seconds in a fresh copy without rt, and later within one"""
    example = next(it for it in examples_of(trial.top / "README.md") if "vaultdesk try" in it.command)
    expected = (0, example.expects("out").encode(), example.expects("err").encode())

    def first(number):
        trial.unpacked.unlink(missing_ok=True)
        later(number)

    def later(number):
        expect("the README's first command", expected, trial.run("bash", "-c", example.command, at=trial.top))

    expect_at_most("the first command", MOST_SECONDS_FIRST, seconds_of(first))
    expect_at_most("a later command", MOST_SECONDS_LATER, seconds_of(later))


def first_vault(trial):
    """the examples of the README, its first vault among them, are run by the release, and nothing is built"""
    got = trial.run(sys.executable, trial.top / ".ci/manual-checks", trial.top / "README.md", at=trial.top)
    counts = re.fullmatch(rb"manual checks: (\d+) of (\d+) examples passed\n", got.out)
    if got.status or not counts or counts[1] != counts[2] or int(counts[1]) < 2:
        raise CheckFailed(f"the README's examples: {got}")
    expect("the folder of a build", False, (trial.top / "crates/vaultdesk/out").exists())


def asks_no_rt(trial):
    """where rt is there it is not asked for anything, neither for its version"""
    path = trial.path_with_rt()
    for _ in range(2):
        expect("the answer", RELEASED, trial.run(path=path))
    expect("calls of rt", False, (trial.folder / "calls").exists())


def by_a_link(trial):
    """by a symbolic link, and from a folder with a blank in its name, the program gets the words as they are"""
    link, folder = trial.folder / "link", trial.work / "a folder"
    link.symlink_to(trial.top / "vaultdesk")
    folder.mkdir()
    (folder / "mapping.toml").write_text('hub = [{ name = "customer", parts = 1 }]\n')
    expect("init", (0, b"", b"init: Stored\n"), trial.run(link, "init", at=folder))
    expected = (1, b"", b"vaultdesk: Q1 UnknownMart name=feed:a  b\n")
    expect("a word with blanks", expected, trial.run(link, "mart", "feed:a  b", "2024-03-01T02:00:00", at=folder))


def times_decide_nothing(trial):
    """files that are touched, or have times of long ago or to come, change nothing, neither for a program that was built"""
    built, path = trial.top / "crates/vaultdesk/out/vaultdesk", trial.path_with_rt()
    expect("the program of the release", RELEASED, trial.run(path=path))
    trial.run(path=path, VAULTDESK_BUILD="1")
    files = [at for at in trial.top.rglob("*") if at.is_file() and at != built]
    for seconds in (0, time.time(), 4_000_000_000):
        for file in files:
            os.utime(file, (seconds, seconds))
        expect("the release", RELEASED, trial.run(path=path))
        expect("a program that was built", BUILT, trial.run(path=path, VAULTDESK_BUILD="1"))
    expect("builds", ["run"], trial.calls())


def changes(top):
    """Changes of the sources, each a name and what makes it."""
    crate = top / "crates/dv_text"
    code, definitions, proofs = (next(iter(sorted(crate.glob(form)))) for form in ("src/*.rt", "specs/*.antt", "proofs/*.antt"))
    rows = top / "crates.txt"
    yield "a line more in a source", lambda: append(code, "// more\n")
    yield "a flipped bit in a source", lambda: flip(code, 10)
    yield "a line more in a definition", lambda: append(definitions, "// more\n")
    yield "a line more in a proof", lambda: append(proofs, "// more\n")
    yield "a source that is gone", code.unlink
    yield "a source of another name", lambda: code.rename(code.with_name("other.rt"))
    yield "a new source", lambda: (crate / "src/new.rt").write_text("")
    yield "other handles", lambda: write(top / "HANDLES", "Handles allowed: none.\n")
    yield "a crate that uses more", lambda: write(rows, rows.read_text().replace("dv_text: jiff", "dv_text: base64 jiff"))
    yield "a line of a crate that is gone", lambda: write(rows, re.sub(r"(?m)^dv_text:.*\n", "", rows.read_text()))


def sources_decide(trial):
    """any change of a source, a definition, a proof, HANDLES or a crate's line is told, and nothing is run without rt"""
    for what, change in changes(trial.top):
        expect(f"before {what}", RELEASED, trial.run())
        change()
        expect(what, refused(NO_RT + DIFFERS), trial.run())
        trial.put_back("crates/dv_text", "crates.txt", "HANDLES")


def others_do_not(trial):
    """what does not go into the program changes nothing: other crates and their lines, tests of refusals, documents"""
    append(trial.top / "crates.txt", "dv_more_tests: dv_text\n# a remark\n")
    other = trial.top / "crates/dv_more_tests/src"
    other.mkdir(parents=True)
    (other / "lib.rt").write_text("")
    (trial.top / "crates/dv_text/must-fail").mkdir()
    (trial.top / "crates/dv_text/must-fail/one.edit").write_text("")
    append(trial.top / "README.md", "more\n")
    expect("the release", RELEASED, trial.run())


def installed_goes_on(trial):
    """a program that is installed by the commands of the manual is run as it is where a source was changed since"""
    page = (trial.top / "docs/manual/commands.md").read_text()
    commands = re.search(r"^```\n(version=.*?)^```$", page, re.M | re.S)[1]
    folder = trial.folder / "bin"
    folder.mkdir()
    expect("the program of the release", RELEASED, trial.run())
    installing = commands.replace("sudo ", "").replace("/usr/local/bin", str(folder))
    expect("the commands", (0, b"", b""), trial.run("bash", "-ec", installing, at=trial.top))
    append(trial.top / "crates/dv_text/src/lib.rt", "// more\n")
    expect("the script", refused(NO_RT + DIFFERS), trial.run())
    expect("the installed program", RELEASED, trial.run(folder / "vaultdesk", "windows"))


def changed_is_built(trial):
    """changed sources are told in one line and built once; where they are as before, the release is run again"""
    source = trial.top / "crates/dv_text/src/lib.rt"
    before, path = source.read_bytes(), trial.path_with_rt()
    append(source, "// more\n")
    got = trial.run(path=path)
    told = WAITING.fullmatch(got.err)
    expect("the lines of the build", DIFFERS.encode(), told and told[1])
    expect("what is built", BUILT[:2], got[:2])
    expect("the same again", BUILT, trial.run(path=path))
    expect("the same without rt", BUILT, trial.run())
    expect("builds", ["run"], trial.calls())
    write(source, before)
    expect("the sources as before", RELEASED, trial.run(path=path))
    trial.run(path=path, VAULTDESK_BUILD="1")
    expect("builds, as what was built is of other sources", ["run", "run"], trial.calls())


def built_in_any_case(trial):
    """by VAULTDESK_BUILD=1 the program is built from source, and not by VAULTDESK_BUILD=0"""
    expect("without rt", refused(NO_RT), trial.run(VAULTDESK_BUILD="1"))
    path = trial.path_with_rt()
    expect("with 0", RELEASED, trial.run(path=path, VAULTDESK_BUILD="0"))
    got = trial.run(path=path, VAULTDESK_BUILD="1")
    told = WAITING.fullmatch(got.err)
    expect("the lines of the build", b"", told and told[1])
    expect("what is built", BUILT[:2], got[:2])
    # A program that nobody noted, put in place of the one that was built, is not run.
    write(trial.top / "crates/vaultdesk/out/vaultdesk", "#!/bin/sh\necho wrong\n")
    expect("the built program again", BUILT[:2], trial.run(path=path, VAULTDESK_BUILD="1")[:2])
    expect("builds", ["run", "run"], trial.calls())


def edited_meanwhile(trial):
    """where a source is changed while the program is built, nothing is run"""
    path = trial.path_with_rt(meanwhile=f"echo '// more' >>{trial.top}/crates/dv_text/src/lib.rt")
    got = trial.run(path=path, VAULTDESK_BUILD="1")
    line = b"vaultdesk: the sources were changed while the program was built: give the command again\n"
    expect("the answer", (2, b"", True), (got.status, got.out, got.err.endswith(line)))


def damaged(trial):
    """a flipped bit in the packed program, a packed file that is cut or gone, and sums that are damaged: a line each"""
    packed, sums = trial.release / "vaultdesk.xz", trial.release / "SHA256SUMS"
    whole, of_whole = packed.read_bytes(), sums.read_bytes()
    is_damaged = refused("release/vaultdesk.xz is damaged: its sum is not that of release/SHA256SUMS")
    for at in (0, 7, len(whole) // 2, -1):
        flip(packed, at)
        expect(f"a flipped bit in byte {at}", is_damaged, trial.run())
        write(packed, whole)
    for kept in (0, 1000, len(whole) - 1):
        write(packed, whole[:kept])
        expect(f"the first {kept} bytes alone", is_damaged, trial.run())
    packed.unlink()
    expect("no packed file", refused("release/vaultdesk.xz is not there, or cannot be read"), trial.run())
    write(packed, whole)
    write(sums, b"0" * 64 + of_whole[64:])
    expect("a sum of no program", refused("release/vaultdesk.xz does not have the program of release/SHA256SUMS"), trial.run())
    write(sums, of_whole[:-20])
    expect("sums that are cut", refused("release/SHA256SUMS is damaged"), trial.run())
    sums.unlink()
    expect("no sums", refused("release/SHA256SUMS is not there, or cannot be read"), trial.run())
    expect("what was unpacked", ["sources", "vaultdesk.xz"], sorted(os.listdir(trial.release)))


def sources_gone(trial):
    """a release without its file of sources is told; one with a damaged one counts as of other sources"""
    flip(trial.release / "sources", 12)
    expect("a flipped bit", refused(NO_RT + DIFFERS), trial.run())
    (trial.release / "sources").unlink()
    expect("no sources", refused("release/sources is not there, or cannot be read"), trial.run())


def put_packed(trial, program, its_sum):
    """Puts another program into the release, packed, with the sum of the packed file and a sum of the program."""
    packed = lzma.compress(program, lzma.FORMAT_XZ)
    write(trial.release / "vaultdesk.xz", packed)
    write(trial.release / "SHA256SUMS", f"{its_sum}  vaultdesk\n{sum_of(packed)}  vaultdesk.xz\n")


def another_program(trial):
    """a packed file that is whole and has another program than the sums say is not run"""
    put_packed(trial, b"#!/bin/sh\necho wrong\n", (trial.release / "SHA256SUMS").read_text()[:64])
    expect("the answer", refused("release/vaultdesk.xz does not have the program of release/SHA256SUMS"), trial.run())
    expect("what was unpacked", False, trial.unpacked.exists())


def another_machine(trial):
    """a program that the machine cannot run is told, with status 2"""
    program = b"\x7fELF\0 of another machine\n"
    put_packed(trial, program, sum_of(program))
    got = trial.run()
    line = b"vaultdesk: the program cannot be run on this machine: it is for Linux on x86-64, with glibc\n"
    expect("the answer", (2, b"", True), (got.status, got.out, got.err.endswith(line)))


def no_xz(trial):
    """without xz a line says so, and nothing is run; what was unpacked before needs none"""
    path = make_path(trial.folder / "without-xz", "rt", "xz")
    expect("without xz", refused("xz is not here to unpack release/vaultdesk.xz: install the package xz-utils"),
           trial.run(path=path))
    expect("with xz", RELEASED, trial.run())
    expect("without xz, unpacked before", RELEASED, trial.run(path=path))


def unpacked_changed(trial):
    """an unpacked program that was changed, cut, replaced or has lost its mode is unpacked anew before it is run"""
    expect("the first time", RELEASED, trial.run())
    whole = trial.unpacked.read_bytes()
    for what, data in (("a flipped bit", whole[:-1] + bytes([whole[-1] ^ 1])), ("cut", whole[:2_000_000]), ("empty", b""),
                       ("another program", b"#!/bin/sh\necho wrong\n")):
        write(trial.unpacked, data)
        expect(what, RELEASED, trial.run())
        expect("what stands there then", True, trial.unpacked.read_bytes() == whole)
    trial.unpacked.chmod(0o644)
    expect("a mode without x", RELEASED, trial.run())
    trial.unpacked.unlink()
    trial.unpacked.mkdir()
    expect("a folder of that name", RELEASED, trial.run())


def read_only(trial):
    """where the checkout can't be written the program is unpacked into the user's cache; where neither can, a line says so"""
    user = NOBODY if os.geteuid() == 0 else None
    if user is None:
        trial.release.chmod(0o555)
    else:
        for folder in (trial.home, trial.work):
            os.chown(folder, user, user)
    name = f"vaultdesk-{(trial.release / 'SHA256SUMS').read_text()[:64]}"
    for _ in range(2):
        expect("the answer", RELEASED, trial.run(user=user))
    expect("the cache", [name], os.listdir(trial.home / ".cache/vaultdesk"))
    other = trial.home / "other"
    expect("another cache", RELEASED, trial.run(user=user, XDG_CACHE_HOME=str(other)))
    expect("the other cache", [name], os.listdir(other / "vaultdesk"))
    nowhere = refused(f"release/vaultdesk.xz can be unpacked nowhere: tried {trial.release} /proc/none/.cache/vaultdesk")
    expect("no cache", nowhere, trial.run(user=user, HOME="/proc/none"))
    trial.release.chmod(0o755)


def no_room(trial):
    """where there is no room for the whole program nothing is run, and nothing of it is left"""
    places = f"{trial.release} {trial.home}/.cache/vaultdesk"
    expect("the answer", refused(f"release/vaultdesk.xz can be unpacked nowhere: tried {places}"),
           trial.run(limits=with_limits(file_size=1_000_000)))
    left = [*os.listdir(trial.release), *os.listdir(trial.home / ".cache/vaultdesk")]
    expect("what is left", ["SHA256SUMS", "sources", "vaultdesk.xz"], sorted(left))


def many_at_once(trial):
    """eight first commands at once are all answered, and leave one program"""
    environment = {"PATH": trial.plain, "HOME": str(trial.home)}
    folders = [trial.work / str(number) for number in range(8)]
    for folder in folders:
        folder.mkdir()
    begun = [subprocess.Popen([trial.top / "vaultdesk", "windows"], cwd=folder, env=environment, stdin=subprocess.DEVNULL,
                              stdout=subprocess.PIPE, stderr=subprocess.PIPE) for folder in folders]
    for process in begun:
        out, err = process.communicate()
        expect("an answer", RELEASED, (process.returncode, out, err))
    expect("the release", ["SHA256SUMS", "sources", "vaultdesk", "vaultdesk.xz"], sorted(os.listdir(trial.release)))


CHECKS = (answers_at_once, first_vault, asks_no_rt, by_a_link, times_decide_nothing, sources_decide, others_do_not,
          installed_goes_on, changed_is_built, built_in_any_case, edited_meanwhile, damaged, sources_gone, another_program,
          another_machine, no_xz, unpacked_changed, read_only, no_room, many_at_once)
