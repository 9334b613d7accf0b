"""PostgreSQL as a peer: a server of the run's own on a unix socket, COPY into staging tables, and then the inserts that
a generator of loads writes, one transaction a window.

fsync, synchronous_commit and full_page_writes are on. As root the server runs as the user postgres.
"""
import os
import pathlib
import shutil
import subprocess
import threading
import tomllib

HERE = pathlib.Path(__file__).resolve().parent
PROGRAMS = pathlib.Path(os.environ.get("PGBIN", "/usr/lib/postgresql/15/bin"))
SETTINGS = """
listen_addresses = ''
unix_socket_directories = '{folder}'
shared_buffers = 2GB
work_mem = 256MB
maintenance_work_mem = 512MB
effective_cache_size = 12GB
max_wal_size = 8GB
checkpoint_timeout = 30min
random_page_cost = 1.1
jit = off
"""
# A table's columns as the program prints them: digests in hexadecimal, dates with a T, attributes in capitals.
COLUMNS = """
SELECT string_agg(CASE data_type
    WHEN 'bytea' THEN format('encode(%1$I, ''hex'') AS %1$I', column_name)
    WHEN 'timestamp without time zone' THEN format('to_char(%1$I, ''YYYY-MM-DD"T"HH24:MI:SS'') AS %1$I', column_name)
    ELSE format('nullif(%I, '''') AS %I', column_name, CASE
        WHEN column_name IN ('name', 'city', 'since', 'state', 'total_cents', 'currency', 'qty') THEN upper(column_name)
        ELSE column_name END) END, ', ' ORDER BY ordinal_position)
FROM information_schema.columns WHERE table_name = '{table}'
"""


def is_there():
    return (PROGRAMS / "initdb").exists() and shutil.which("psql") is not None


def as_postgres(*command):
    words = ["runuser", "-u", "postgres", "--"] if os.getuid() == 0 else []
    subprocess.run([*words, *command], cwd="/", stdout=subprocess.DEVNULL, check=True)


def processes_below(pid):
    """A process and those that it started."""
    found = [pid]
    for parent in found:
        try:
            found += map(int, pathlib.Path(f"/proc/{parent}/task/{parent}/children").read_text().split())
        except OSError:
            pass
    return found


def shared_memory(pids):
    """What processes have of memory, in kB, where each has its part of what they share."""
    total = 0
    for pid in pids:
        try:
            lines = pathlib.Path(f"/proc/{pid}/smaps_rollup").read_text().splitlines()
            total += sum(int(line.split()[1]) for line in lines if line.startswith("Pss:"))
        except OSError:
            pass
    return total


class Server:
    """A server in a folder, which is stopped at the end of a `with`."""

    def __init__(self, folder, scripts=HERE):
        """`scripts` is the folder of the texts in SQL that create the tables and load a window."""
        self.folder, self.data, self.scripts = folder, folder / "data", scripts
        self.psql = ["psql", "-X", "-q", "-v", "ON_ERROR_STOP=1", "-h", str(folder), "-U", "bench"]

    def __enter__(self):
        shutil.rmtree(self.folder, ignore_errors=True)
        self.folder.mkdir(mode=0o755)
        if os.getuid() == 0:
            shutil.chown(self.folder, "postgres")
        as_postgres(PROGRAMS / "initdb", "-D", self.data, "-U", "bench", "-A", "trust", "--locale=C", "--encoding=UTF8")
        with open(self.data / "postgresql.conf", "a") as settings:
            settings.write(SETTINGS.format(folder=self.folder))
        as_postgres(PROGRAMS / "pg_ctl", "-D", self.data, "-l", self.folder / "log", "-w", "start")
        return self

    def __exit__(self, *_):
        as_postgres(PROGRAMS / "pg_ctl", "-D", self.data, "-w", "-m", "fast", "stop")

    def ask(self, database, sql):
        done = subprocess.run([*self.psql, "-d", database, "-A", "-t", "-c", sql], capture_output=True, check=True)
        return done.stdout

    def new_vault(self):
        """A database with empty tables."""
        self.ask("postgres", "DROP DATABASE IF EXISTS vault")
        self.ask("postgres", "CREATE DATABASE vault")
        subprocess.run([*self.psql, "-d", "vault", "-f", self.scripts / "postgres_create.sql"], capture_output=True, check=True)

    def load_command(self, data, manifest):
        """The command that loads a window."""
        window = tomllib.loads((data / manifest).read_text())
        names = {"load": window["load"]} | {entry["feed"]: data / entry["file"] for entry in window["extract"]}
        values = [word for name, value in names.items() for word in ("-v", f"{name}={value}")]
        return [*self.psql, "-d", "vault", *values, "-f", str(self.scripts / "postgres_window.sql")]

    def mart_command(self, date, script="postgres_mart.sql"):
        return [*self.psql, "-d", "vault", "-v", f"date={date}", "-f", str(self.scripts / script)]

    def table_text(self, table):
        columns = self.ask("vault", COLUMNS.format(table=table)).decode().strip()
        copied = f"SELECT {columns} FROM {table} ORDER BY {table}.load_date, {table}.hash_key"
        return self.ask("vault", f"COPY ({copied}) TO STDOUT (FORMAT csv, HEADER)")

    def watch(self, peak):
        """Keeps the most memory of the server's processes in a list's place, until the call that it answers."""
        pid, ended = int((self.data / "postmaster.pid").read_text().split()[0]), threading.Event()

        def take():
            while not ended.wait(0.2):
                peak[0] = max(peak[0], shared_memory(processes_below(pid)))

        watcher = threading.Thread(target=take)
        watcher.start()

        def end():
            ended.set()
            watcher.join()

        return end
