"""What the checks have: vaults, the program tools/vaultdesk-report, and reports in SQLite and PostgreSQL."""
import itertools
import os
import subprocess
import sys

from kept import vaults, worlds
from kept.program import TOP, Answer, CheckFailed, expect

TOOL = TOP / "tools" / "vaultdesk-report"
LONGEST_RUN = 3600  # seconds
BETWEEN = "2024-04-15T12:00:00"


class Target:
    """A report in SQLite, or in PostgreSQL: the words that write it and those that compare it."""

    def __init__(self, kind, place, server=None):
        self.kind, self.place, self.server = kind, place, server

    def words(self):
        if self.kind == "sqlite":
            return ("sqlite", "--out", str(self.place))
        return ("postgres", "--database", self.server.connection(), "--schema", self.place)

    def compare_words(self):
        if self.kind == "sqlite":
            return ("compare", "--sqlite", str(self.place))
        return ("compare", "--database", self.server.connection(), "--schema", self.place)


class Bench(vaults.Bench):
    """The program, a folder, the servers, and whether all cases are tried."""

    def __init__(self, program, folder, servers, is_all):
        super().__init__(program, folder)
        self.servers, self.is_all, self.schemas = servers, is_all, itertools.count(1)

    def targets(self):
        """A new report of each kind that this machine can have."""
        number = next(self.schemas)
        yield Target("sqlite", self.folder / f"report{number}.db")
        if server := self.servers.server():
            yield Target("postgres", f"{self.folder.name} report{number}", server)

    def tool(self, vault, *words, front=(), **how):
        """Runs the tool in a vault's folder."""
        done = subprocess.run([*front, sys.executable, str(TOOL), *words], cwd=vault.folder, stdin=subprocess.DEVNULL,
                              stdout=subprocess.PIPE, stderr=subprocess.PIPE, timeout=LONGEST_RUN, **how)
        return Answer(done.returncode, done.stdout, done.stderr)

    def done(self, vault, *words, **how):
        """What a run of the tool says that ends well."""
        got = self.tool(vault, *words, **how)
        if got.status or got.err:
            raise CheckFailed(f"{' '.join(words)}\n    expected: status 0 and no line\n    got:      {got}")
        return got.out.decode()

    def says(self, vault, words, status, line, **how):
        """Fails where a run does not end with a status and a line, or writes more."""
        got = self.tool(vault, *words, **how)
        expect(f"{' '.join(words)}: status and lines", (status, line), (got.status, got.err.decode()))
        expect(f"{' '.join(words)}: standard output", b"", got.out)

    def is_equal(self, vault, target, *more):
        """Fails where a report is not the vault's."""
        said = self.done(vault, *target.compare_words(), *more)
        if not said.startswith("equal: "):
            raise CheckFailed(f"compare says {said}")
        return said

    def world(self, seed, count=len(worlds.DATES)):
        """A vault with a random world, and how to load its windows one after another."""
        world, vault = worlds.World(seed), self.empty()
        world.write(vault)
        vault.says("init", err="init: Stored")
        vault.loaded(*worlds.MANIFESTS[:count])
        return vault

    def mapped(self, mapping, *windows):
        """A vault of a mapping's text with windows: of each the date and the texts of its extracts by feed."""
        vault = self.empty()
        vault.write("mapping.toml", mapping)
        vault.says("init", err="init: Stored")
        for number, (date, extracts) in enumerate(windows, 1):
            entries = ""
            for feed, text in extracts.items():
                vault.write(f"w{number}_{feed}.csv", text)
                entries += f'[[extract]]\nfeed = "{feed}"\nfile = "w{number}_{feed}.csv"\n'
            vault.write(f"w{number}.toml", f'load = "{date}"\n{entries}')
            vault.loaded(f"w{number}.toml")
        return vault


def without_server():
    """The environment, in which no server of PostgreSQL is named that is there."""
    return {**os.environ, "PGHOST": "/nonexistent", "PGUSER": "postgres"}
