"""Servers of PostgreSQL of a run's own, each over a socket in a folder that is deleted again. As root they run as the user
postgres."""
import os
import pathlib
import shutil
import subprocess
import tempfile

from kept.program import CheckFailed

LONGEST_WAIT = 600  # seconds
OPTIONS = "-c listen_addresses='' -c unix_socket_directories='{folder}' -c fsync=off -c shared_buffers=64MB -c max_connections=40"


def programs():
    """The folder of the newest server's programs; none where there is none."""
    found = sorted(pathlib.Path("/usr/lib/postgresql").glob("*/bin/initdb"))
    return found[-1].parent if found and shutil.which("psql") else None


def installed():
    """The same, where the package is installed first if need be."""
    if not programs() and os.getuid() == 0 and shutil.which("apt-get"):
        subprocess.run(["apt-get", "install", "-y", "--no-install-recommends", "postgresql"], stdin=subprocess.DEVNULL,
                       capture_output=True, env={**os.environ, "DEBIAN_FRONTEND": "noninteractive"})
    return programs()


def as_postgres(*words, **how):
    front = ["runuser", "-u", "postgres", "--"] if os.getuid() == 0 else []
    done = subprocess.run([*front, *map(str, words)], stdin=subprocess.DEVNULL, stdout=subprocess.DEVNULL,
                          stderr=subprocess.PIPE, cwd="/", **how)
    if done.returncode:
        raise CheckFailed(f"{words[0]}: {done.stderr.decode(errors='replace')}")


class Server:
    """A server with its folder, in which the socket is."""

    def __init__(self, tools, limits=None, more=""):
        self.tools, self.folder = tools, pathlib.Path(tempfile.mkdtemp())
        self.folder.chmod(0o777)
        self.data = self.folder / "data"
        as_postgres(tools / "initdb", "-U", "postgres", "-A", "trust", "-E", "UTF8", "--no-locale", "--no-sync", "--wal-segsize=1",
                    "-D", self.data)
        options = OPTIONS.format(folder=self.folder) + more
        as_postgres(tools / "pg_ctl", "-w", "-t", LONGEST_WAIT, "-D", self.data, "-o", options, "-l", self.folder / "log", "start",
                    preexec_fn=limits)

    def connection(self):
        """How psql is told of it."""
        return f"host={self.folder} user=postgres dbname=postgres"

    def ask(self, query):
        """What psql writes for a query."""
        done = subprocess.run(["psql", "-X", "-A", "-t", "-q", "-v", "ON_ERROR_STOP=1", "-d", self.connection(), "-c", query],
                              stdin=subprocess.DEVNULL, capture_output=True)
        if done.returncode:
            raise CheckFailed(f"psql: {done.stderr.decode(errors='replace')}")
        return done.stdout.decode().rstrip("\n")

    def stop(self):
        try:
            as_postgres(self.tools / "pg_ctl", "-t", LONGEST_WAIT, "-D", self.data, "-m", "immediate", "stop")
        finally:
            shutil.rmtree(self.folder, ignore_errors=True)


class Servers:
    """The servers of a run, which are started when they are first asked for."""

    def __init__(self):
        self.tools, self.started, self.is_asked = None, [], False

    def __enter__(self):
        return self

    def __exit__(self, *_):
        for server in self.started:
            server.stop()

    def server(self, number=0):
        """The server with a number; none where PostgreSQL is not here."""
        if not self.is_asked:
            self.tools, self.is_asked = installed(), True
            if not self.tools:
                print("report checks: left out, as the Debian package postgresql is not here: all of PostgreSQL", flush=True)
        while self.tools and len(self.started) <= number:
            self.started.append(Server(self.tools))
        return self.started[number] if self.tools else None
