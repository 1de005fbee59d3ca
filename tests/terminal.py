"""Runs a program with standard error on a terminal, for the scripts beside this."""
import os
import pty
import subprocess
from dataclasses import dataclass


@dataclass
class Run:
    status: int
    shown: str
    errors: str


def bytes_from(terminal):
    found = b""
    while True:
        try:
            more = os.read(terminal, 65_536)
        except OSError:
            return found
        if not more:
            return found
        found += more


def on_terminal(command, folder, stdin=subprocess.DEVNULL, typed=None, **variables):
    """How the program ends, and what it writes. With `typed` standard input is the terminal too, on which that is typed."""
    ours, theirs = pty.openpty()
    environment = {"PATH": os.environ["PATH"], "TERM": "xterm", **variables}
    given = stdin if typed is None else theirs
    run = subprocess.Popen(command, cwd=folder, env=environment, stdin=given, stdout=subprocess.PIPE, stderr=theirs)
    os.close(theirs)
    if typed is not None:
        os.write(ours, typed)
    shown = run.communicate()[0].decode()
    errors = bytes_from(ours).decode()
    os.close(ours)
    return Run(run.returncode, shown, errors.replace("\r\n", "\n"))
