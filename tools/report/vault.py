"""The vault of the working folder, by the commands of the program alone. Most of it is asked of a desk, which reads the
vault once, on a port that nobody else has. While the desk runs no other command has the vault, so nothing changes."""
import contextlib
import ctypes
import http.client
import json
import os
import pathlib
import signal
import socket
import subprocess
import tempfile
import time
import urllib.parse

from report.trouble import BUSY, DAMAGED, DIFFERS, MAPPING, MEMORY, NOT_READ, Trouble

LONGEST_SILENCE = 600  # seconds
MOST_PORTS = 20
PORT_TAKEN = "vaultdesk: read fault doors"
OTHER_MAPPING = "mapping.toml is not the mapping that the vault has stored"


class NotThere(Exception):
    """The desk has no such mart, table or snapshot."""


class Refused(Trouble):
    """The desk refuses a query by a rule."""


class NoAnswer(Trouble):
    """The desk does not answer."""


def found_program(named):
    """The program's path: the one that is named, or the environment's, or the script beside the folder of the tools."""
    beside = pathlib.Path(__file__).resolve().parent.parent.parent / "vaultdesk"
    named = named or os.environ.get("VAULTDESK")
    if not named and not beside.exists():
        raise Trouble(f"the program is not at {beside}; --program or VAULTDESK may name it")
    return os.path.abspath(named or beside)


def end_with(parent):
    """Makes the process that is just begun end when its parent does, however that ends: a desk holds the vault."""
    ctypes.CDLL(None).prctl(1, signal.SIGKILL)  # 1 is PR_SET_PDEATHSIG
    if os.getppid() != parent:
        os._exit(1)


def has_port(pid, port):
    """Whether a process has the socket that listens at a port: else another program of this machine answers there."""
    wanted = f"0100007F:{port:04X}"
    with open("/proc/net/tcp", encoding="ascii") as table:
        sockets = {f"socket:[{cells[9]}]" for cells in map(str.split, table) if cells[1] == wanted and cells[3] == "0A"}
    with contextlib.suppress(OSError):
        for descriptor in os.listdir(f"/proc/{pid}/fd"):
            with contextlib.suppress(OSError):
                if os.readlink(f"/proc/{pid}/fd/{descriptor}") in sockets:
                    return True
    return False


def free_port():
    with socket.create_server(("127.0.0.1", 0)) as listener:
        return listener.getsockname()[1]


class Vault:
    """The vault of a folder."""

    def __init__(self, program, folder="."):
        self.program, self.folder = program, pathlib.Path(folder)

    def is_there(self):
        """Ends where no vault is in the folder, before a command could make one."""
        if not (self.folder / "vault.db").exists():
            raise Trouble("vaultdesk: mapping none", MAPPING)

    def holds_mapping(self):
        """Ends where the file mapping.toml is not the stored mapping, as `init` says: a mapping is stored already, so
        this stores none."""
        said = self.answer("init").stderr.decode(errors="replace").strip()
        if said != "init: Kept":
            raise Trouble(OTHER_MAPPING if said == "vaultdesk: mapping differs" else said, MAPPING)

    def answer(self, *words, stdout=subprocess.DEVNULL):
        """Runs a command to its end."""
        try:
            return subprocess.run([self.program, *words], cwd=self.folder, stdin=subprocess.DEVNULL, stdout=stdout,
                                  stderr=subprocess.PIPE)
        except OSError as error:
            raise Trouble(f"the program cannot be run: {error}") from error

    def file(self, *words):
        """A file with what a command writes to standard output."""
        file = tempfile.TemporaryFile()
        done = self.answer(*words, stdout=file)
        if done.returncode:
            raise Trouble(last_line(done.stderr), done.returncode)
        file.seek(0)
        return file

    @contextlib.contextmanager
    def desk(self):
        """A desk of this vault, which is ended again."""
        for _ in range(MOST_PORTS):
            port = free_port()
            process, lines = self.begun(port)
            try:
                if wait_for(process, port):
                    yield Desk(port)
                    return
            finally:
                end(process)
            lines.seek(0)
            line = last_line(lines.read())
            if line != PORT_TAKEN:
                raise Trouble(line, process.returncode if process.returncode > 0 else NOT_READ)
        raise Trouble("no port is free for a desk")

    def begun(self, port):
        """A process of the desk, and the file of its lines."""
        lines, parent = tempfile.TemporaryFile(), os.getpid()
        try:
            process = subprocess.Popen([self.program, "serve", str(port)], cwd=self.folder, stdin=subprocess.DEVNULL,
                                       stdout=subprocess.DEVNULL, stderr=lines, preexec_fn=lambda: end_with(parent))
        except OSError as error:
            raise Trouble(f"the program cannot be run: {error}") from error
        return process, lines


def last_line(said):
    """The last line of what the program said on standard error."""
    lines = said.decode(errors="replace").strip().splitlines()
    return lines[-1] if lines else "the program ended without a line"


def wait_for(process, port):
    """Waits until the desk answers; whether it does, or has ended before."""
    pause = 0.005
    while process.poll() is None:
        with contextlib.suppress(OSError, NoAnswer):
            socket.create_connection(("127.0.0.1", port), LONGEST_SILENCE).close()
            if has_port(process.pid, port):
                Desk(port).windows()
                return True
        time.sleep(pause)
        pause = min(0.1, pause * 1.5)
    return False


def end(process):
    process.terminate()
    process.wait()


class Desk:
    """A desk that answers at a port."""

    def __init__(self, port):
        self.port = port

    def windows(self):
        """The load date of each sealed window with the names of its feeds, in order, and whether another one is open."""
        with self.asked("/windows") as file:
            told = json.load(file)
        return [(window["load"], window["feeds"]) for window in told["windows"]], told["open"] is not None

    def table(self, name):
        """A file with the text of a raw table, all its rows."""
        return self.asked(f"/tables/{name}")

    def mart(self, what, date):
        """A file with the text of a mart at a date."""
        return self.asked(f"/marts/{what}?at={urllib.parse.quote(date)}")

    def pit(self, hub, date):
        """A file with the text of a stored point-in-time table."""
        return self.asked(f"/pits/{hub}?at={urllib.parse.quote(date)}")

    def asked(self, target):
        """A file with the body of the answer, which is read at once: a desk does not wait for slow readers."""
        connection = http.client.HTTPConnection("127.0.0.1", self.port, timeout=LONGEST_SILENCE)
        file = tempfile.TemporaryFile()
        try:
            connection.request("GET", target)
            answer = connection.getresponse()
            while piece := answer.read(1_048_576):
                file.write(piece)
        except (OSError, http.client.HTTPException) as error:
            raise NoAnswer(f"the desk does not answer: {error}") from error
        finally:
            connection.close()
        file.seek(0)
        if answer.status != 200:
            raise refusal(answer.status, file.read().decode(errors="replace"))
        return file


def refusal(status, body):
    """What ends a run, or is caught, where a desk does not answer 200."""
    try:
        text = json.loads(body).get("text", "")
    except ValueError:
        text = ""
    if status == 404:
        return NotThere(body)
    if status == 422:
        return Refused(f"vaultdesk: {text}", DIFFERS)
    of_status = {500: (f"vaultdesk: damaged {text}", DAMAGED), 503: ("vaultdesk: keeper fault", BUSY),
                 507: ("vaultdesk: out of memory", MEMORY)}
    return Trouble(*of_status.get(status, (f"the desk answers {status}", NOT_READ)))
