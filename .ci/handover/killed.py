"""Runs a Python program and kills it before its Nth change of the world: a file that is opened to be written, renamed or
removed, a process, a connection, a request. Usage: killed.py N PROGRAM WORD..

Where there are fewer, the program runs to its end, and the number of changes goes to the file that the environment's CHANGES
names.
"""
import os
import runpy
import signal
import sys

CHANGES = {"os.rename", "os.remove", "os.rmdir", "os.mkdir", "os.truncate", "subprocess.Popen", "http.client.send", "sqlite3.connect",
           "fcntl.flock", "fcntl.fcntl"}
last, count = int(sys.argv[1]), 0


def watch(event, args):
    global count
    is_write = event == "open" and isinstance(args[2], int) and args[2] & (os.O_WRONLY | os.O_RDWR)
    if event in CHANGES or is_write:
        count += 1
        if count == last:
            os.kill(os.getpid(), signal.SIGKILL)


sys.argv = sys.argv[2:]
sys.addaudithook(watch)
try:
    runpy.run_path(sys.argv[0], run_name="__main__")
finally:
    changes = count
    with open(os.environ["CHANGES"], "w", encoding="ascii") as file:
        file.write(str(changes))
