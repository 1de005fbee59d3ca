"""How the command for Dask ends where it can't go on, or is told to: soon, with one line, and with nothing left of it."""
import os
import resource
import signal
import socket
import subprocess
import sys
import time

from bench import ENGINE, fail
from loopback import Cluster, wait_until

# An end without a scheduler or a worker must come within so many seconds, and one by a signal within so many.
SOON, AT_ONCE = 30, 5
# When signals come, in seconds after the start: while modules are loaded, while a cluster begins, and in tasks.
MOMENTS = [0.3, 0.4, 0.5, 0.5, 0.7, 0.9, 1.2, 2.0]
# Room for addresses, in bytes: too little for Dask, and enough.
TOO_LITTLE, ENOUGH = [30_000_000, 60_000_000, 100_000_000, 200_000_000, 300_000_000], 4_000_000_000
WORDS = ["--json", "--group-by", "name"]


class Run:
    """A run of the command among the traces, with folders of its own for temporary files and for parts."""

    def __init__(self, bench, *words, room=None, names=None):
        self.bench = bench
        self.temporary, self.parts = (folder_beside(bench, name) for name in ("temporary", "parts"))
        limit = room and (lambda: resource.setrlimit(resource.RLIMIT_AS, (room, room)))
        terms = {"stdin": subprocess.DEVNULL, "stdout": subprocess.PIPE, "stderr": subprocess.PIPE, "preexec_fn": limit}
        environment = {**os.environ, "PATH": bench.path, "TMPDIR": self.temporary}
        command = [sys.executable, "-B", ENGINE, *WORDS, *words, "--", *(names or bench.names)]
        self.process, self.begun = subprocess.Popen(command, cwd=bench.folder, env=environment, **terms), time.monotonic()

    def end(self, patience):
        """The status, the text and the lines, where the end comes soon, and nothing is left."""
        try:
            text, said = self.process.communicate(timeout=patience)
        except subprocess.TimeoutExpired:
            self.process.kill()
            fail(f"no end of {self.process.args[:12]} within {patience} s")
        left = [*os.listdir(self.temporary), *set(os.listdir(self.bench.folder)).difference(self.bench.names)]
        left += [name for name in os.listdir(self.parts) if not name.endswith((".jsonl", ".faults"))]
        if left:
            fail(f"{left} is left by {self.process.args[:12]}")
        return self.process.returncode, text, said.decode()


def folder_beside(bench, name):
    """A folder beside that of the traces."""
    folder = os.path.join(os.path.dirname(bench.folder), name)
    os.makedirs(folder, exist_ok=True)
    return folder


def expect_line(what, found, told):
    """That there was no text, and one line, which begins so."""
    status, text, said = found
    if (status, text, said.count("\n")) != (2, b"", 1) or not said.startswith(told):
        fail(f"{what}: status {status}, {text[:2_000]}, {said!r}")


def try_without_scheduler(bench):
    """Nobody answers, or somebody who is no scheduler, or at an address that is none."""
    with socket.create_server(("127.0.0.1", 0)) as silent, socket.socket() as closed:
        closed.bind(("127.0.0.1", 0))
        silence, nobody = (f"127.0.0.1:{each.getsockname()[1]}" for each in (silent, closed))
        for address in f"tcp://{silence}", f"tcp://{nobody}", f"tls://{nobody}", f"other://{nobody}", "nowhere", "":
            found = Run(bench, "--scheduler", address).end(SOON)
            expect_line(f"the scheduler {address!r}", found, f'tracebook_dask: no scheduler at "{address}": ')
    print("no scheduler", flush=True)


def try_without_workers(bench):
    with Cluster(folder_beside(bench, "lonely"), bench.path) as cluster:
        cluster.begin_scheduler()
        found = Run(bench, "--scheduler", cluster.address).end(SOON)
        expect_line("no workers", found, "tracebook_dask: for 10 seconds the scheduler has had no worker\n")
        run = Run(bench, "--scheduler", cluster.address)
        wait_until(lambda: clients_of(cluster) == 2, "a second client")
        time.sleep(1)
    status, text, said = run.end(SOON)
    if (status, text) != (2, b"") or not said.startswith("tracebook_dask: the scheduler was lost\n"):
        fail(f"the scheduler was lost: status {status}, {text[:2_000]}, {said!r}")
    print("no workers", flush=True)


def clients_of(cluster):
    """How many clients a scheduler has had."""
    with open(os.path.join(cluster.folder, "scheduler-0.log"), encoding="utf-8") as log:
        return log.read().count("Receive client connection")


def try_without_memory(bench):
    for room in TOO_LITTLE:
        expect_line(f"{room} bytes", Run(bench, room=room).end(SOON), "tracebook: 31 Memory\n")
    names = bench.names[:20]
    found = Run(bench, room=ENOUGH, names=names).end(SOON)
    if found != bench.alone(WORDS, names):
        fail(f"{ENOUGH} bytes: {found}")
    print("no memory", flush=True)


def expect_signal(what, run, number):
    run.process.send_signal(number)
    found = run.end(AT_ONCE)
    if found != (-number, b"", ""):
        fail(f"{what}: {found} of signal {number}")


def try_signals(bench):
    """A signal at some moment, without and with parts, and in a task whose program doesn't end."""
    for place, moment in enumerate(3 * MOMENTS):
        number = [signal.SIGINT, signal.SIGTERM, signal.SIGHUP][place % 3]
        bench.watched.note("slow", "0.json\n")
        run = Run(bench, *(["--parts", "../parts"] if place % 2 else []))
        time.sleep(max(0, run.begun + moment - time.monotonic()))
        expect_signal(f"after {moment} s", run, number)
    os.remove(bench.watched.path("slow"))
    for number in signal.SIGINT, signal.SIGTERM, signal.SIGHUP:
        program = end_in_task(bench, number)
        wait_until(lambda: not runs(program), "the end of a held program")
        bench.watched.let_go()
    print("signals", flush=True)


def try_signal_on_cluster(bench):
    """On a cluster what isn't kept is among the traces, and a task that runs goes on."""
    program = end_in_task(bench, signal.SIGINT, "--scheduler", bench.cluster.address)
    if not runs(program):
        fail("a signal ended a program of a worker")
    bench.watched.let_go()
    wait_until(lambda: not runs(program), "the end of a program that was let go")
    print("a signal on a cluster", flush=True)


def end_in_task(bench, number, *words):
    """Ends a run by a signal when a task of it is held, and gives the program that was begun for it."""
    bench.watched.hold()
    run = Run(bench, *words)
    wait_until(bench.watched.holds, "a held task")
    program = bench.watched.held_program()
    expect_signal("in a task", run, number)
    return program


def runs(process):
    """Whether a process is there that has not ended."""
    try:
        with open(f"/proc/{process}/stat", encoding="utf-8") as file:
            return file.read().rpartition(")")[2].split()[0] != "Z"
    except FileNotFoundError:
        return False


def try_ignored_signals(bench):
    """A signal that is ignored, as by nohup, stays so."""
    before = signal.signal(signal.SIGHUP, signal.SIG_IGN)
    run = Run(bench, names=bench.names[:20])
    signal.signal(signal.SIGHUP, before)
    while run.process.poll() is None:
        run.process.send_signal(signal.SIGHUP)
        time.sleep(0.05)
    if run.end(AT_ONCE) != bench.alone(WORDS, bench.names[:20]):
        fail("a signal that is ignored ended a run")
    print("ignored signals", flush=True)


def try_ends(bench):
    try_without_scheduler(bench)
    try_without_workers(bench)
    try_without_memory(bench)
    try_signals(bench)
    try_ignored_signals(bench)
