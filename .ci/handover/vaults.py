"""Vaults of histories and examples, and all that the commands print of one."""
import contextlib
import http.client
import os
import subprocess
import sys
import time
import tomllib
from datetime import datetime, timedelta

from kept.desks import free_port
from kept.program import TOP, Answer, CheckFailed, expect
from kept.vaults import Vault

LONGEST_RUN = 3600  # seconds
EXAMPLES = {"orders": "w1.toml w2.toml w3.toml", "phones": "w1.toml w2.toml w3.toml w4.toml",
            "assignments": "w1.toml w2.toml w3.toml w4.toml"}


def run_tool(bench, name, *words, folder=None, limits=None, program=None, front=(), out_to=subprocess.PIPE):
    """Runs a program of tools/ in a folder."""
    done = subprocess.run([*front, sys.executable, TOP / "tools" / name, *map(str, words)], cwd=folder or bench.folder,
                          stdin=subprocess.DEVNULL, stdout=out_to, stderr=subprocess.PIPE, timeout=LONGEST_RUN, check=False,
                          env={**os.environ, "VAULTDESK": str(program or bench.program)}, preexec_fn=limits)
    return Answer(done.returncode, done.stdout or b"", done.stderr or b"")


def expect_answer(what, got, status):
    """Fails where a program of tools/ ends otherwise, or says nothing where it fails, or has a traceback."""
    if got.status != status or b"Traceback" in got.err:
        raise CheckFailed(f"{what}: expected status {status}\n    got:      {got}")
    if status not in (0, 2) and len(got.err.splitlines()) < 1:
        raise CheckFailed(f"{what}: no line on standard error")


def kept(bench, told, snapshots=()):
    """A vault of a history, with its windows loaded and snapshots stored."""
    vault = bench.empty()
    names = told.write(vault)
    vault.says("init", err="init: Stored")
    vault.loaded(*names)
    for date in snapshots:
        store(vault, date)
    return vault


def store(vault, date):
    got = vault.run("snapshot", date)
    expect(f"snapshot {date}: status", 0, got.status)


def example(bench, name, snapshots=()):
    vault = bench.kept_example(name, *EXAMPLES[name].split())
    for date in snapshots:
        store(vault, date)
    return vault


def load_dates(vault):
    return [line.split(",")[0] for line in vault.text("windows").decode().splitlines()[1:]]


def mapping_of(vault):
    return tomllib.loads(vault.file("mapping.toml").read_text(encoding="utf-8"))


def marts_of(mapping):
    found = [f"feed:{feed['name']}" for feed in mapping["feed"]] + [f"hub:{hub['name']}" for hub in mapping["hub"]]
    found += [f"path:{path['name']}" for path in mapping.get("path", [])]
    return found + [f"period:{feed['name']}" for feed in mapping["feed"] if feed.get("driver")]


def tables_of(mapping):
    found = [f"hub_{hub['name']}" for hub in mapping["hub"]] + [f"link_{link['name']}" for link in mapping.get("link", [])]
    for feed in mapping["feed"]:
        found += [f"{'msat' if feed.get('sub') else 'sat'}_{feed['name']}"] if feed.get("attrs") else []
        found += [f"status_{feed['name']}"] + ([f"eff_{feed['name']}"] if feed.get("driver") else [])
    return found


def seconds_after(date, count):
    return (datetime.fromisoformat(date) + timedelta(seconds=count)).isoformat()


@contextlib.contextmanager
def served(vault):
    """What a desk over a vault answers to the target of a GET: a text with status 200. A command would read the vault each time."""
    port = free_port()
    process = vault.begin("serve", str(port))
    client = http.client.HTTPConnection("127.0.0.1", port, timeout=LONGEST_RUN)

    def get(target):
        client.request("GET", target)
        answer = client.getresponse()
        text = answer.read()
        expect(f"{target}: status", 200, answer.status)
        return text

    try:
        while process.poll() is None:
            with contextlib.suppress(ConnectionRefusedError):
                client.connect()
                break
            time.sleep(0.01)
        yield get
    finally:
        client.close()
        process.terminate()
        process.wait()


def mart_texts(vault, dates=None):
    """The text of each mart at each load date, or at the dates that are given."""
    words, dates = marts_of(mapping_of(vault)), dates or load_dates(vault)
    with served(vault) as get:
        return {(word, date): get(f"/marts/{word}?at={date}") for date in dates for word in words}


def all_texts(vault, snapshots=()):
    """All that is printed of a vault: windows, raw tables, marts at each load date and a second before the first and after the
    last, and the tables of snapshots."""
    mapping, dates = mapping_of(vault), load_dates(vault)
    ends = [seconds_after(dates[0], -1), seconds_after(dates[-1], 1)] if dates else []
    texts = {("windows",): vault.text("windows")}
    texts |= {("mart", *place): text for place, text in mart_texts(vault, [*dates, *ends]).items()}
    with served(vault) as get:
        texts |= {("table", name): get(f"/tables/{name}") for name in tables_of(mapping)}
        texts |= {("pit", hub["name"], date): get(f"/pits/{hub['name']}?at={date}") for date in snapshots for hub in mapping["hub"]}
    for date in snapshots:
        texts |= {("bridge", path["name"], date): vault.text("bridge", path["name"], date) for path in mapping.get("path", [])}
    return texts


def expect_texts(what, expected, got):
    """Fails with the first text that differs."""
    for place in {**expected, **got}:
        expect(f"{what}: {' '.join(place)}", expected.get(place), got.get(place))


def vault_at(bench, folder):
    return Vault(bench, folder)
