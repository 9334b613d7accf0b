"""Servers as processes at a port of their own, and connections over which they are asked."""
import contextlib
import os
import pathlib
import socket
import subprocess
import time

LONGEST_WAIT = 120  # seconds


def free_port():
    with socket.create_server(("127.0.0.1", 0)) as listener:
        return listener.getsockname()[1]


class Server:
    """A process that serves at a port: a command whose last words may be the port."""

    def __init__(self, name, folder, command):
        self.name, self.port = name, free_port()
        self.process = subprocess.Popen(command(self.port), cwd=folder, stdin=subprocess.DEVNULL, stdout=subprocess.DEVNULL)
        ended = time.monotonic() + LONGEST_WAIT
        while True:
            with contextlib.suppress(ConnectionRefusedError):
                return self.connected().close()
            if self.process.poll() is not None or time.monotonic() > ended:
                raise SystemExit(f"{name} does not listen: {self.process.returncode}")
            time.sleep(0.01)

    def connected(self):
        link = socket.create_connection(("127.0.0.1", self.port), timeout=LONGEST_WAIT)
        link.setsockopt(socket.IPPROTO_TCP, socket.TCP_NODELAY, 1)
        return link

    def end(self):
        self.process.terminate()
        self.process.wait()

    def processor(self):
        """The seconds that the process took of a processor: its own, and those of the system for it."""
        fields = pathlib.Path(f"/proc/{self.process.pid}/stat").read_text().rpartition(")")[2].split()
        tick = os.sysconf("SC_CLK_TCK")
        return int(fields[11]) / tick, int(fields[12]) / tick

    def memory(self, name):
        """The kB that it has (`VmRSS`), or had at most (`VmHWM`)."""
        for line in pathlib.Path(f"/proc/{self.process.pid}/status").read_text().splitlines():
            if line.startswith(f"{name}:"):
                return int(line.split()[1])
        raise SystemExit(f"/proc/PID/status has no {name}")

    def forget_peak(self):
        """From here on the most memory is counted anew."""
        pathlib.Path(f"/proc/{self.process.pid}/clear_refs").write_text("5")


class Link:
    """A connection that is kept."""

    def __init__(self, server):
        self.socket, self.room = server.connected(), bytearray(1 << 20)

    def ask(self, request):
        """Sends a request and takes its reply; how many bytes that has."""
        self.socket.sendall(request)
        return self.take()

    def take(self):
        count = body = 0
        while not body:
            count += self.received(count)
            body = self.room.find(b"\r\n\r\n", 0, count) + 4 if b"\r\n\r\n" in self.room[:count] else 0
        at = self.room.index(b"Content-Length: ", 0, body) + len(b"Content-Length: ")
        size = body + int(self.room[at:self.room.index(b"\r", at)])
        if size > len(self.room):
            self.room.extend(bytes(size - len(self.room)))
        while count < size:
            count += self.received(count)
        return size

    def received(self, at):
        count = self.socket.recv_into(memoryview(self.room)[at:])
        if not count:
            raise SystemExit(f"the connection ended behind {at} bytes of a reply: {bytes(self.room[:at])}")
        return count

    def reply(self, request):
        """The bytes of the reply."""
        return bytes(self.room[:self.ask(request)])

    def close(self):
        self.socket.close()


def get(target):
    return f"GET {target} HTTP/1.1\r\nHost: localhost\r\n\r\n".encode()


def post(body, target="/windows"):
    return f"POST {target} HTTP/1.1\r\nHost: localhost\r\nContent-Length: {len(body)}\r\n\r\n".encode() + body
