"""The release: the program packed, its sums, of which sources it is, and its version.

`release/vaultdesk.xz` is the program, packed by xz. `release/SHA256SUMS` has the sums of the program and of the packed
file, in the form of sha256sum. `release/sources` is what `.ci/sources` prints. `VERSION` is one line, a version and a
date, as `1.0.0 2026-11-30`.
"""
import datetime
import hashlib
import lzma
import os
import pathlib
import re
import shutil
import subprocess

TOP = pathlib.Path(__file__).resolve().parents[2]
RELEASE = TOP / "release"
PACKED = RELEASE / "vaultdesk.xz"
SUMS = RELEASE / "SHA256SUMS"
SOURCES = RELEASE / "sources"
VERSION = TOP / "VERSION"
BUILT = TOP / "crates/vaultdesk/out/vaultdesk"
# What .ci/note-built says of the built program.
NOTE = BUILT.with_name("sources")

SUMS_FORM = re.compile(r"([0-9a-f]{64})  vaultdesk\n([0-9a-f]{64})  vaultdesk\.xz\n")
SOURCES_FORM = re.compile(r"sources [0-9a-f]{64}\ntoolchain ([^\n]+)\n")
NOTE_FORM = re.compile(rf"({SOURCES_FORM.pattern})program ([0-9a-f]{{64}})\n")
VERSION_FORM = re.compile(r"(\d+)\.(\d+)\.(\d+) (\d{4}-\d\d-\d\d)\n")


class Fault(Exception):
    """Something is not as a release has it; the text says what."""


def sum_of(data):
    return hashlib.sha256(data).hexdigest()


def name_of(path):
    return path.relative_to(TOP)


def read(path, form):
    """The match of a small file's text with its form."""
    if not path.is_file():
        raise Fault(f"{name_of(path)} is not there")
    match = form.fullmatch(path.read_text(encoding="utf-8", errors="replace"))
    if not match:
        raise Fault(f"{name_of(path)} is damaged")
    return match


def sources_by(toolchain):
    """What .ci/sources prints for this checkout and a toolchain."""
    return subprocess.run([TOP / ".ci/sources", toolchain], check=True, capture_output=True, text=True).stdout


def version():
    """The version and the date of the release, as texts."""
    *numbers, date = read(VERSION, VERSION_FORM).groups()
    return ".".join(numbers), date


def program():
    """The bytes of the released program, held to their sums."""
    of_program, of_packed = read(SUMS, SUMS_FORM).groups()
    if not PACKED.is_file():
        raise Fault(f"{name_of(PACKED)} is not there")
    packed = PACKED.read_bytes()
    if sum_of(packed) != of_packed:
        raise Fault(f"{name_of(PACKED)} is damaged: its sum is not that of {name_of(SUMS)}")
    try:
        found = lzma.decompress(packed, lzma.FORMAT_XZ)
    except lzma.LZMAError as error:
        raise Fault(f"{name_of(PACKED)} cannot be unpacked: {error}") from None
    if sum_of(found) != of_program:
        raise Fault(f"{name_of(PACKED)} does not have the program of {name_of(SUMS)}")
    return found


def is_begun():
    """Whether the checkout has any file of a release."""
    return any(path.exists() for path in (PACKED, SUMS, SOURCES, VERSION))


def hold_to_sources():
    """Fails where the release is not of the checkout's sources."""
    match = read(SOURCES, SOURCES_FORM)
    if sources_by(match[1]) != match[0]:
        raise Fault(f"{name_of(SOURCES)} is not that of the checkout: the release is of other sources. .ci/release renews it")


def toolchains():
    """The toolchain that the release names, and that of this machine: the same one where it has none."""
    released, rt = read(SOURCES, SOURCES_FORM)[1], shutil.which("rt")
    here = subprocess.run([rt, "version"], capture_output=True, text=True).stdout.strip() if rt else released
    return released, here


def is_by_another_toolchain():
    """Whether the release was built by another toolchain than this machine's, which may make other bytes of the sources."""
    try:
        released, here = toolchains()
    except Fault:
        return False
    return released != here


def hold_to_built(released):
    """Fails where the program that was built in the checkout has other bytes than the released one."""
    if not BUILT.is_file():
        raise Fault(f"no program is built to be compared: {name_of(BUILT)} is not there")
    built = BUILT.read_bytes()
    if built != released:
        pairs = enumerate(zip(built, released))
        at = next((at for at, (one, other) in pairs if one != other), min(len(built), len(released)))
        raise Fault(f"the built program's bytes are not those of the release: {name_of(BUILT)} has the sum {sum_of(built)}, "
                    f"the release {sum_of(released)}; they differ from byte {at + 1} on")


def faults(is_compared=True):
    """What is wrong with the release, as texts: its files, its sources, and the bytes of the built program.

    Bytes that another toolchain built are not held to those of the release.
    """
    found, released = [], []

    def tried(call, *given):
        try:
            return call(*given)
        except Fault as fault:
            found.append(str(fault))

    tried(version)
    tried(hold_to_sources)
    released = tried(program)
    if is_compared and released is not None and not is_by_another_toolchain():
        tried(hold_to_built, released)
    return found


def write(path, data):
    """Writes a file whole, or not at all."""
    path.parent.mkdir(exist_ok=True)
    new = path.with_name(f".{path.name}.new")
    new.write_bytes(data)
    os.replace(new, path)


def packed_by_xz(data):
    done = subprocess.run(["xz", "-9", "--threads=1", "--stdout"], input=data, capture_output=True, check=True,
                          env={**os.environ, "XZ_OPT": "", "XZ_DEFAULTS": ""})
    if lzma.decompress(done.stdout, lzma.FORMAT_XZ) != data:
        raise Fault("xz packed the program, and what it unpacks to is another one")
    return done.stdout


def next_version():
    """The version behind that of the checkout, by its last number."""
    if not VERSION.exists():
        return "1.0.0"
    major, minor, patch, _ = read(VERSION, VERSION_FORM).groups()
    return f"{major}.{minor}.{int(patch) + 1}"


def today():
    seconds = os.environ.get("SOURCE_DATE_EPOCH")
    now = datetime.datetime.now(datetime.timezone.utc)
    return (datetime.datetime.fromtimestamp(int(seconds), datetime.timezone.utc) if seconds else now).date().isoformat()


def built_program():
    """The bytes of the built program and the text for release/sources, where they are noted as those of the checkout."""
    how = "run .ci/run, or VAULTDESK_BUILD=1 ./vaultdesk"
    if not BUILT.is_file():
        raise Fault(f"no program is built: {how}")
    if not NOTE.is_file():
        raise Fault(f"nothing notes of which sources {name_of(BUILT)} is: {how}")
    text, toolchain, noted = read(NOTE, NOTE_FORM).groups()
    built = BUILT.read_bytes()
    if sum_of(built) != noted or sources_by(toolchain) != text:
        raise Fault(f"{name_of(BUILT)} is not the program of the checkout's sources: {how}")
    return built, text


def renew(wanted=None):
    """Makes the release of the built program. The packed file and the version stay where the program is the same."""
    built, text = built_program()
    try:
        is_same = program() == built and bool(version())
    except Fault:
        is_same = False
    if not is_same:
        packed = packed_by_xz(built)
        write(PACKED, packed)
        write(SUMS, f"{sum_of(built)}  vaultdesk\n{sum_of(packed)}  vaultdesk.xz\n".encode())
    if wanted or not is_same:
        write(VERSION, f"{wanted or next_version()} {today()}\n".encode())
    write(SOURCES, text.encode())
