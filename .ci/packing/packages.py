"""The Debian package of the release: its files, and how dpkg-deb makes it of them.

It has the released program, byte for byte, a man page, completion for bash, the documents with the manual, and the
examples. The same release gives the same package: files have the date of VERSION and belong to root.
"""
import datetime
import gzip
import hashlib
import os
import pathlib
import re
import shutil
import subprocess
import tempfile

from packing import releases
from packing.manpages import man_page

TOP = releases.TOP
MAINTAINER = "Bitternchest maintainers <maintainers@users.noreply.bitternchest.example>"
SUMMARY = "Data Vault 2.0 warehouse of CSV extracts"
DESCRIPTION = """\
 Full extracts of source systems go in as CSV files, under a mapping that
 declares hubs, links and feeds. The warehouse keeps what each source
 delivered and when, in one SQLite file where rows are only added, and
 writes reports as of any past date.
 .
 The program is written in Rattle, a Rust with contracts, and is proved
 against definitions that are written apart from the code.
"""
COPYRIGHT = """\
Format: https://www.debian.org/doc/packaging-manuals/copyright-format/1.0/
Upstream-Name: vaultdesk

Files: *
Copyright: {year} {maintainer}
License: unstated
 The repository states no licence.
"""
README = """\
vaultdesk for Debian

The program is the one of the release {version}, byte for byte: its SHA-256 sum is
{sum}.

README.md, docs/ and examples/ are those of the repository; the manual begins in
docs/manual/README.md. Copy an example into a folder of your own before you try
it. Where the manual speaks of the script vaultdesk at the top of a checkout,
read the program.
"""
# What is copied to the same paths below the package's folder of documents, so that links lead on there.
COPIED = ("README.md", "docs/*.md", "docs/manual/*.md", "docs/manual/pictures/*", "examples/*/*")
# lintian's tags that are no fault here, each with why.
OVERRIDES = (("unstripped-binary-or-object", "the program is that of the release, byte for byte, so that its sum can be held to it"),)


def glibc_of(program):
    """The least version of the C library that the program's symbols ask for, as text."""
    found = re.findall(rb"\bGLIBC_(\d+)\.(\d+)(?:\.\d+)?\0", program)
    return ".".join(map(str, max(tuple(map(int, numbers)) for numbers in found)))


def packed(text):
    """A text as gzip has it, without the time and the name."""
    return gzip.compress(text.encode(), 9, mtime=0)


def stamp_of(date):
    return datetime.datetime.fromisoformat(date).replace(tzinfo=datetime.timezone.utc)


def changelog(version, date):
    day = stamp_of(date).strftime("%a, %d %b %Y 00:00:00 +0000")
    return f"vaultdesk ({version}) unstable; urgency=medium\n\n  * The release {version}.\n\n -- {MAINTAINER}  {day}\n"


def own_files(program, version, date):
    """The contents of the files that are made here, by their paths in the package."""
    page = (TOP / "docs/manual/commands.md").read_text(encoding="utf-8")
    completion = TOP / ".ci/packing/completion.bash"
    doc = "usr/share/doc/vaultdesk"
    overrides = "".join(f"# {why}\nvaultdesk: {tag}\n" for tag, why in OVERRIDES)
    return {
        "usr/bin/vaultdesk": program,
        "usr/share/man/man1/vaultdesk.1.gz": packed(man_page(page, version, date)),
        "usr/share/bash-completion/completions/vaultdesk": completion.read_bytes(),
        f"{doc}/changelog.gz": packed(changelog(version, date)),
        f"{doc}/copyright": COPYRIGHT.format(year=date[:4], maintainer=MAINTAINER).encode(),
        f"{doc}/README.Debian": README.format(version=version, sum=releases.sum_of(program)).encode(),
        "usr/share/lintian/overrides/vaultdesk": overrides.encode(),
    }


def copied_files():
    """The contents of the documents and the examples, by their paths in the package."""
    for path in sorted(path for form in COPIED for path in TOP.glob(form)):
        if path.is_file() and not path.name.startswith("vault.db"):
            yield f"usr/share/doc/vaultdesk/{path.relative_to(TOP)}", path.read_bytes()


def control(files, program, version):
    size = sum(-(-len(data) // 1024) for data in files.values())
    return (f"Package: vaultdesk\nVersion: {version}\nArchitecture: amd64\nMaintainer: {MAINTAINER}\n"
            f"Installed-Size: {size}\nDepends: libc6 (>= {glibc_of(program)})\nSuggests: bash-completion\nSection: database\nPriority: optional\n"
            f"Description: {SUMMARY}\n{DESCRIPTION}")


def sums(files):
    """The control file md5sums, as dpkg wants it."""
    return "".join(f"{hashlib.md5(data).hexdigest()}  {path}\n" for path, data in sorted(files.items()))


def lay_out(folder, files, seconds):
    """Writes the files under a folder, with one time, and with modes that don't depend on the umask."""
    for path, data in files.items():
        target = folder / path
        target.parent.mkdir(parents=True, exist_ok=True)
        target.write_bytes(data)
        target.chmod(0o755 if path.startswith("usr/bin/") else 0o644)
    for at, _, names in os.walk(folder, topdown=False):
        os.chmod(at, 0o755)
        for name in (*names, ""):
            os.utime(os.path.join(at, name), (seconds, seconds))


def make(folder):
    """Makes the package in a folder, and gives its path. Fails where the release is damaged or of other sources."""
    if not shutil.which("dpkg-deb"):
        raise releases.Fault("dpkg-deb is not here: install the package dpkg")
    if found := releases.faults(is_compared=False):
        raise releases.Fault(found[0])
    program, (version, date) = releases.program(), releases.version()
    files = {**own_files(program, version, date), **dict(copied_files())}
    seconds = int(stamp_of(date).timestamp())
    package = pathlib.Path(folder).resolve() / f"vaultdesk_{version}_amd64.deb"
    package.parent.mkdir(parents=True, exist_ok=True)
    with tempfile.TemporaryDirectory() as made:
        root = pathlib.Path(made) / "root"
        lay_out(root, {**files, "DEBIAN/control": control(files, program, version).encode(),
                       "DEBIAN/md5sums": sums(files).encode()}, seconds)
        subprocess.run(["dpkg-deb", "--root-owner-group", "-Zxz", "--build", root, package], check=True,
                       stdout=subprocess.DEVNULL, env={**os.environ, "SOURCE_DATE_EPOCH": str(seconds)})
    return package
