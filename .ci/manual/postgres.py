"""A PostgreSQL server of a run's own, over a socket in a folder that is deleted again. As root it runs as the user
postgres."""
import atexit
import os
import pathlib
import shutil
import subprocess
import tempfile

PROGRAMS = ("initdb", "pg_ctl", "psql", "runuser")


def as_postgres(*words, **how):
    front = ["runuser", "-u", "postgres", "--"] if os.getuid() == 0 else []
    return subprocess.run([*front, *words], stdin=subprocess.DEVNULL, capture_output=True, **how)


def started():
    """The folder of a server's socket; none where no server can be started here."""
    if not all(map(shutil.which, PROGRAMS)):
        return None
    folder = pathlib.Path(tempfile.mkdtemp())
    atexit.register(shutil.rmtree, folder, ignore_errors=True)
    folder.chmod(0o777)
    data = folder / "data"
    options = f"-c listen_addresses='' -c unix_socket_directories='{folder}' -c fsync=off"
    for words in (["initdb", "-U", "postgres", "-A", "trust", "-E", "UTF8", "--no-locale", "-D", data],
                  ["pg_ctl", "-w", "-t", "600", "-D", data, "-o", options, "-l", folder / "log", "start"]):
        if as_postgres(*map(str, words), cwd="/").returncode:
            return None
    atexit.register(as_postgres, "pg_ctl", "-D", str(data), "-m", "immediate", "stop", cwd="/")
    return folder


def answers(folder, queries):
    """What psql writes, without headers, and its status."""
    words = ["psql", "-X", "-A", "-t", "-q", "-v", "ON_ERROR_STOP=1", "-h", str(folder), "-U", "postgres"]
    done = subprocess.run(words, input=queries.encode(), capture_output=True)
    return {"out": done.stdout, "err": done.stderr, "status": b"%d\n" % done.returncode}
