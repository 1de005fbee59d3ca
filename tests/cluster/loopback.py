"""A Dask cluster on this machine's loopback: a scheduler and workers, each a process of its own, which can be stopped and killed."""
import json
import os
import subprocess
import sys
import time

THREADS = 2  # of a worker
# A worker of which nothing was heard for so long is taken out.
SILENCE = "8s"
PATIENCE = 60


class Cluster:
    """Ends what it started when it is left."""

    def __init__(self, folder, path):
        self.folder = folder
        self.environment = {**os.environ, "PATH": path, "DASK_DISTRIBUTED__SCHEDULER__WORKER_TTL": SILENCE}
        self.processes = []
        self.address = None

    def __enter__(self):
        return self

    def __exit__(self, *_):
        for process in self.processes:
            process.kill()
        for process in self.processes:
            process.wait()

    def start(self, what, words):
        command = [sys.executable, "-m", f"distributed.cli.dask_{what}", *words]
        terms = {"env": self.environment, "cwd": self.folder, "stdin": subprocess.DEVNULL}
        with open(os.path.join(self.folder, f"{what}-{len(self.processes)}.log"), "wb") as log:
            self.processes.append(subprocess.Popen(command, stdout=log, stderr=log, **terms))

    def begin(self, workers):
        self.begin_scheduler()
        self.have_workers(workers)

    def begin_scheduler(self):
        where = os.path.join(self.folder, "scheduler.json")
        self.start("scheduler", ["--host", "127.0.0.1", "--port", "0", "--no-dashboard", "--scheduler-file", where])
        self.address = wait_until(lambda: address_in(where), "a scheduler")

    def have_workers(self, count):
        """Starts workers until so many answer."""
        from distributed import Client

        with Client(self.address) as client:
            for _ in range(count - len(client.nthreads())):
                words = [self.address, "--no-nanny", "--no-dashboard", "--nthreads", str(THREADS), "--memory-limit", "0"]
                self.start("worker", [*words, "--local-directory", self.folder])
            client.wait_for_workers(count, timeout=PATIENCE)

    def end(self, worker):
        """Kills a worker, whether or not it is stopped."""
        process = next(process for process in self.processes if process.pid == worker)
        process.kill()
        process.wait()


def address_in(path):
    """The address that a scheduler has written, once it is whole."""
    try:
        with open(path, encoding="utf-8") as file:
            return json.load(file)["address"]
    except (OSError, ValueError):
        return None


def wait_until(sign, what):
    """Waits for a sign, and gives it."""
    end = time.monotonic() + PATIENCE
    while not (seen := sign()):
        if time.monotonic() > end:
            sys.exit(f"cluster: no sign of {what}")
        time.sleep(0.05)
    return seen
