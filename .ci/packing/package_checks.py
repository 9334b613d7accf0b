"""Checks of the Debian package: what is in it, what lintian and man say of it, what completion offers, and the package
installed, used and removed."""
import os
import re
import shutil
import subprocess
import sys
import tomllib

from kept.program import CheckFailed, expect
from manual.links import faults_in
from manual.pages import PAGES, all_pages, examples_of
from packing import packages
from packing.checkouts import TOP, append
from packing.releases import sum_of

COMMANDS = ["bridge", "exercise", "init", "load", "mart", "pit", "resume", "serve", "snapshot", "table", "try", "windows"]
MAPPING = """\
hub = [{ name = "customer", parts = 1 }, { name = "site", parts = 2 }]  # name = "no"
link = [{ name = "visit", hubs = ["customer", "site"] }]

[[feed]]
name = "phones"
source = "crm"
hub = "customer"
keys = [["CUST_NO"]]
sub = ["KIND"]
attrs = ["PHONE"]
[[feed]]
source = 'erp'
name = 'visits'
link = "visit"
keys = [["CUST_NO"], ["REGION", "SITE"]]
driver = ["customer"]

[[path]]
name = "seen"
feeds = ["visits"]
via = []
"""
# What is typed, and what completion makes of it; behind a colon, which bash takes for a word's end, the rest alone.
TYPED = {
    "vaultdesk ": COMMANDS,
    "vaultdesk s": ["serve", "snapshot"],
    "vaultdesk mart ": ["feed:phones", "feed:visits", "hub:customer", "hub:site", "path:seen", "period:visits"],
    "vaultdesk mart feed:": ["phones", "visits"],
    "vaultdesk mart feed:p": ["phones"],
    "vaultdesk table ": ["eff_visits", "hub_customer", "hub_site", "link_visit", "msat_phones", "status_phones",
                         "status_visits"],
    "vaultdesk pit ": ["customer", "site"],
    "vaultdesk bridge ": ["seen"],
    "vaultdesk try pit:": ["customer", "site"],
    "vaultdesk try table:e": ["eff_visits"],
    "vaultdesk try bridge:": ["seen"],
    "vaultdesk load ": ["folder", "mapping.toml", "w1.toml"],
    "vaultdesk load w": ["w1.toml"],
    "vaultdesk try feed:phones 2024-03-01T02:00:00 w": ["w1.toml"],
    "vaultdesk mart feed:phones ": [],
    "vaultdesk init ": [],
    "vaultdesk serve ": [],
    "vaultdesk init -": [],
    "vaultdesk mart --": [],
    "vaultdesk load -": ["--order", "--workers"],
    "vaultdesk exercise --w": ["--workers"],
    "vaultdesk serve 8080 -": ["--workers"],
    "vaultdesk load --order ": ["declared", "reverse"],
    "vaultdesk load --order=": ["declared", "reverse"],
    "vaultdesk try --order=r": ["reverse"],
    "vaultdesk load --workers ": [],
    "vaultdesk load --workers 4 w": ["w1.toml"],
    "vaultdesk load --workers=4 --order reverse w": ["w1.toml"],
    "vaultdesk load w1.toml --o": ["--order"],
    "vaultdesk load -- -": [],
    "vaultdesk load -- w": ["w1.toml"],
    "vaultdesk try --workers 2 pit:": ["customer", "site"],
    "vaultdesk try --order=reverse feed:phones --workers 2 2024-03-01T02:00:00 w": ["w1.toml"],
}
COMPLETE = r"""
source "$1"
COMP_WORDBREAKS=$' \t\n"'"'"'><=;|&(:'
COMP_LINE=$2 COMP_POINT=${#2}
_vaultdesk
[ "${#COMPREPLY[@]}" = 0 ] || printf '%s\n' "${COMPREPLY[@]}"
"""
NAMES = 'source "$1"; _vaultdesk_names'


class NotHere(Exception):
    """The machine lacks what a check needs; the text says what."""


def package_of(trial):
    got = trial.run(sys.executable, trial.top / ".ci/make-deb", trial.folder / "packages", at=trial.top)
    version = (trial.top / "VERSION").read_text().split()[0]
    made = trial.folder / f"packages/vaultdesk_{version}_amd64.deb"
    expect("make-deb", (0, f"{made}\n".encode(), b""), got)
    return made


def unpacked(trial, package):
    root = trial.folder / "root"
    subprocess.run(["dpkg-deb", "--extract", package, root], check=True)
    return root


def lacks(*programs):
    for name in programs:
        if not shutil.which(name):
            raise NotHere(name)


def what_it_has(trial):
    """the package has the released program byte for byte, documents and examples whose links can be followed there, and is
    the same when made again"""
    lacks("dpkg-deb")
    package = package_of(trial)
    before, root = package.read_bytes(), unpacked(trial, package)
    expect("made again", True, package_of(trial).read_bytes() == before)
    program = (root / "usr/bin/vaultdesk").read_bytes()
    expect("the program's sum", (trial.release / "SHA256SUMS").read_text()[:64], sum_of(program))
    inside = root / "usr/share/doc/vaultdesk"
    for form in packages.COPIED:
        of_checkout = {str(at.relative_to(trial.top)): at.read_bytes() for at in trial.top.glob(form)}
        expect(form, of_checkout, {str(at.relative_to(inside)): at.read_bytes() for at in inside.glob(form)})
    found = [f"{page.name}: {fault}" for form in PAGES for page in inside.glob(form) for _, fault in faults_in(page)]
    expect("links that lead nowhere", [], found)
    done = subprocess.run(["dpkg-deb", "--field", package, "Package", "Version", "Architecture"], capture_output=True, text=True)
    version = (trial.top / "VERSION").read_text().split()[0]
    expect("its fields", f"Package: vaultdesk\nVersion: {version}\nArchitecture: amd64\n", done.stdout)


def only_of_these_sources(trial):
    """no package is made of a release of other sources"""
    append(trial.top / "crates/dv_text/src/lib.rt", "// more\n")
    got = trial.run(sys.executable, trial.top / ".ci/make-deb", trial.folder / "packages", at=trial.top)
    expect("the answer", (1, b"", True), (got.status, got.out, b"release/sources is not that of the checkout" in got.err))


def without_errors(trial):
    """lintian finds no errors but the one that is overridden: the program is not stripped, as the release is not"""
    lacks("dpkg-deb", "lintian")
    done = subprocess.run(["lintian", "--show-overrides", package_of(trial)], capture_output=True, text=True)
    errors = [line for line in done.stdout.splitlines() if line.startswith("E:")]
    hidden = [line for line in done.stdout.splitlines() if line.startswith("O:")]
    expect("errors", [], errors)
    expect("what is overridden", [f"O: vaultdesk: {tag} [usr/bin/vaultdesk]" for tag, _ in packages.OVERRIDES], hidden)


def man_page(trial):
    """man shows the man page without a warning, with each command and each status"""
    lacks("dpkg-deb", "man", "groff" if shutil.which("groff") else "nroff")
    page = unpacked(trial, package_of(trial)) / "usr/share/man/man1/vaultdesk.1.gz"
    how = {**os.environ, "LC_ALL": "C.UTF-8", "MANROFFSEQ": "", "MANWIDTH": "80"}
    done = subprocess.run(["man", "--warnings", "-E", "UTF-8", "-l", "-Tutf8", "-Z", page], env=how, capture_output=True, text=True)
    expect("warnings", (0, ""), (done.returncode, done.stderr))
    shown = subprocess.run(["man", "-l", page], env=how, stdin=subprocess.DEVNULL, capture_output=True, text=True).stdout
    plain = re.sub(r".\x08", "", shown)
    for command in COMMANDS:
        if not re.search(rf"^ +vaultdesk {command}\b", plain, re.M):
            raise CheckFailed(f"the man page has no line of {command}")
    for status in range(9):
        if not re.search(rf"^ +{status} +when: ", plain, re.M):
            raise CheckFailed(f"the man page has no line of the status {status}")
    if re.search(r"`|\*\*|^ *\||\]\(", plain, re.M):
        raise CheckFailed("the man page has signs of Markdown")


def completed(trial, completion):
    """Compares what is offered behind what is typed, in a folder with a mapping, a manifest and other files."""
    (trial.work / "mapping.toml").write_text(MAPPING)
    (trial.work / "w1.toml").write_text("")
    (trial.work / "customers.csv").write_text("")
    (trial.work / "folder").mkdir()
    for typed, expected in TYPED.items():
        got = trial.run("bash", "-c", COMPLETE, "bash", completion, typed)
        expect(f"behind `{typed}`", (0, expected, b""), (got.status, sorted(got.out.decode().splitlines()), got.err))


def names_in(mapping):
    """The lines of names that completion is to find in a mapping that tomllib has read."""
    for hub in mapping.get("hub", []):
        yield from (f"hub {hub['name']}", f"mart hub:{hub['name']}", f"table hub_{hub['name']}")
    for link in mapping.get("link", []):
        yield f"table link_{link['name']}"
    for path in mapping.get("path", []):
        yield from (f"path {path['name']}", f"mart path:{path['name']}")
    for feed in mapping.get("feed", []):
        name = feed["name"]
        yield from (f"mart feed:{name}", f"table status_{name}")
        if "sub" in feed:
            yield f"table msat_{name}"
        elif "attrs" in feed:
            yield f"table sat_{name}"
        if "driver" in feed:
            yield from (f"mart period:{name}", f"table eff_{name}")


def mappings():
    """The texts of the mappings of the examples and of the manual, as far as tomllib reads them and each entry has a name."""
    texts = [path.read_text() for path in TOP.glob("examples/*/mapping.toml")]
    texts += [body for page in all_pages() for example in examples_of(page)
              for name, body in example.files.items() if name.endswith("mapping.toml")]
    for text in dict.fromkeys(texts):
        try:
            yield text, sorted(names_in(tomllib.loads(text)))
        except (tomllib.TOMLDecodeError, KeyError, AttributeError, TypeError):
            continue


def completion(trial):
    """completion offers the commands, and the names of the mapping in the folder; those of each mapping as tomllib has them"""
    file = TOP / ".ci/packing/completion.bash"
    completed(trial, file)
    found = list(mappings())
    for text, expected in found:
        (trial.work / "mapping.toml").write_text(text)
        got = trial.run("bash", "-c", NAMES, "bash", file)
        expect(f"the names in\n{text}", expected, sorted(got.out.decode().splitlines()))
    expect("whether there are mappings", True, len(found) > 10)


def make_root(folder):
    """Makes a root for dpkg, in which nothing is installed but the C library of this machine."""
    own = folder / "var/lib/dpkg"
    for name in ("info", "updates", "triggers"):
        (own / name).mkdir(parents=True)
    done = subprocess.run(["dpkg-query", "--status", "libc6"], capture_output=True, text=True)
    if done.returncode:
        raise NotHere("a C library that dpkg knows")
    (own / "status").write_text(f"{done.stdout}\n")
    return {str(path) for path in folder.rglob("*")}


def installed(trial):
    """the package is installed under a root of its own, used and removed, and leaves nothing"""
    lacks("dpkg-deb", "dpkg", "dpkg-query")
    if os.geteuid() != 0:
        raise NotHere("the right to install")
    root = trial.folder / "system"
    before = make_root(root)
    dpkg = ["dpkg", f"--root={root}", "--log=/dev/null"]

    def run(*words):
        done = subprocess.run([*dpkg, *words], capture_output=True, text=True)
        if done.returncode:
            raise CheckFailed(f"dpkg {words[0]}: {done.stderr}")

    run("--install", package_of(trial))
    program = root / "usr/bin/vaultdesk"
    expect("completion", True, (root / "usr/share/bash-completion/completions/vaultdesk").is_file())
    for name in ("customers.csv", "mapping.toml", "w1.toml"):
        shutil.copy(trial.top / "examples/first" / name, trial.work)
    expect("init", (0, b"", b"init: Stored\n"), trial.run(program, "init"))
    expect("load", (0, b"", b"w1.toml: Loaded 4\n"), trial.run(program, "load", "w1.toml"))
    expect("mart", (0, b"CUST_NO\nA1\nA2\n", b""), trial.run(program, "mart", "feed:customers", "2024-03-01T02:00:00"))
    run("--purge", "vaultdesk")
    own = f"{root}/var/lib/dpkg"
    left = {str(path) for path in root.rglob("*") if not str(path).startswith(own)}
    expect("what is left", {path for path in before if not path.startswith(own)}, left)


CHECKS = (what_it_has, only_of_these_sources, without_errors, man_page, completion, installed)
