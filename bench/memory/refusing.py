"""Runs the program while requests of it for memory are refused."""
import mmap
import os
import pathlib
import shutil
import socket
import struct
import subprocess

from kept.program import Answer

HERE = pathlib.Path(__file__).resolve().parent
COMPILERS = ("cc", "gcc", "clang", "/opt/rattle/toolchain/bin/clang")
NUMBERS, TOLD = struct.Struct("lllll"), struct.Struct("ll")  # those of refuse.c
LONGEST_RUN = 900  # seconds, more than those of a copy
NO_END = "no end"


def built_library(folder):
    """The library of refuse.c, built in a folder by the first compiler that is there; none where none is."""
    compiler = next(filter(shutil.which, COMPILERS), None)
    if compiler is None:
        return None
    library = folder / "refuse.so"
    subprocess.run([compiler, "-O2", "-Wall", "-shared", "-fPIC", "-o", library, HERE / "refuse.c"], check=True)
    return library


class Refusing:
    """What refuses memory: the library, the numbers that it shares with this process, and the files to which a process writes
    that has copies."""

    def __init__(self, library, folder):
        file, self.out, self.err = (folder / name for name in ("refused", "out", "err"))
        file.write_bytes(bytes(NUMBERS.size))
        self.env = os.environ | {"LD_PRELOAD": str(library), "REFUSED": str(file)}
        self.talking = self.env | {"REFUSED_OUT": str(self.out), "REFUSED_ERR": str(self.err)}
        with open(file, "r+b") as numbers:
            self.numbers = mmap.mmap(numbers.fileno(), NUMBERS.size)

    def asked(self):
        """How many requests there were, in the process that was started last."""
        return NUMBERS.unpack_from(self.numbers)[4]

    def run(self, vault, words, number, is_lasting=False):
        """Runs a command in a process of its own whose n-th request is refused, and those behind it too where that lasts;
        none by 0. What it answers."""
        NUMBERS.pack_into(self.numbers, 0, number, number, 1, is_lasting, 0)
        command = [vault.bench.program, *words]
        try:
            done = subprocess.run(command, cwd=vault.folder, env=self.env, stdin=subprocess.DEVNULL, capture_output=True,
                                  timeout=LONGEST_RUN)
        except subprocess.TimeoutExpired as found:
            return Answer(NO_END, found.stdout or b"", found.stderr or b"")
        return Answer(done.returncode, done.stdout, done.stderr)

    def each(self, vault, words, numbers, is_lasting=False):
        """Runs a command in one process, and for each of a range of requests a copy of it that begins there, in which it is
        refused. The number and the answer of each copy, while the store is as the copy left it; and last none and the
        answer of the process, to which nothing was refused."""
        NUMBERS.pack_into(self.numbers, 0, numbers[0], numbers[-1], numbers.step, is_lasting, 0)
        ours, theirs = socket.socketpair(socket.AF_UNIX, socket.SOCK_SEQPACKET)
        ours.settimeout(LONGEST_RUN)
        with open(self.out, "wb") as out, open(self.err, "wb") as err:
            process = subprocess.Popen([vault.bench.program, *words], cwd=vault.folder, pass_fds=[theirs.fileno()],
                                       env=self.talking | {"REFUSED_TALK": str(theirs.fileno())},
                                       stdin=subprocess.DEVNULL, stdout=out, stderr=err)
        try:
            theirs.close()
            while told := ours.recv(TOLD.size):
                number, status = TOLD.unpack(told)
                yield number, self.written(os.waitstatus_to_exitcode(status))
                ours.send(b".")
            yield None, self.written(process.wait(timeout=LONGEST_RUN))
        finally:
            # Where nobody asks for more, or nothing comes, it still waits.
            process.kill()
            process.wait()
            ours.close()

    def written(self, status):
        """An answer, with what a process and its copy have written by now."""
        return Answer(status, self.out.read_bytes(), self.err.read_bytes())
