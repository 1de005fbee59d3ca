"""The traces that the command for Dask sums, the program with its watch, and what both have to say."""
import json
import os
import random
import subprocess
import sys

from built import ROOT
from loopback import PATIENCE, Cluster
from watched import Watched

ENGINE = os.path.join(ROOT, "cluster", "tracebook_dask.py")
FILES = 300


def fail(what):
    sys.exit(f"cluster: {what}")


def span(chance, place):
    made = {"ph": "X", "name": chance.choice(["Source", "ParseClass", "a", "f<a>", "f<b>"]), "pid": chance.randrange(3), "ts": place}
    return {**made, "dur": chance.randrange(60), "args": {"detail": f"header_{chance.randrange(12)}.h"}}


def async_event(chance, place):
    id_ = chance.choice([{"id": chance.randrange(4)}, {"id2": {"local": chance.randrange(4)}}])
    return {"ph": chance.choice("bben"), "cat": "c", "name": chance.choice("ab"), "pid": chance.randrange(3), "ts": place, **id_}


def write_trace(folder, name, chance):
    """Writes a trace, or, now and then, most of one."""
    events = [chance.choice([span, span, async_event])(chance, 10 * place) for place in range(chance.randrange(60))]
    text = json.dumps([*events, {"ph": "B", "name": "open", "ts": 700}])
    with open(os.path.join(folder, name), "w", encoding="utf-8") as file:
        file.write(text if chance.randrange(10) else text[:-2])


class Bench:
    """The folder of the traces, the program, and what the engine is run with."""

    def __init__(self, folder, program):
        self.folder = os.path.join(folder, "traces")
        self.program = program
        self.watched = Watched(program, os.path.join(folder, "watched"))
        self.path = f"{self.watched.folder}:{os.environ['PATH']}"
        self.names = [f"{number}.json" for number in range(FILES)]
        self.cluster = Cluster(folder, self.path)
        os.makedirs(self.folder)
        chance = random.Random(1)
        for name in self.names:
            write_trace(self.folder, name, chance)

    def outcome(self, command, given=b""):
        environment = {**os.environ, "PATH": self.path}
        ended = subprocess.run(command, cwd=self.folder, env=environment, input=given, capture_output=True, timeout=PATIENCE)
        return ended.returncode, ended.stdout, ended.stderr.decode()

    def alone(self, words, names):
        """What one run of the program has to say."""
        return self.outcome([self.program, "--apart", "--jobs", "4", *words, "--", *names])

    def engine(self, words, names, scheduler=True):
        where = ["--scheduler", self.cluster.address] if scheduler else []
        listed = "\n".join(names).encode()
        return self.outcome([sys.executable, "-B", ENGINE, *where, *words, "--files-from", "-"], listed)

    def expect(self, what, words, names, found, notes=()):
        """That the engine had to say what one run of the program has, but for these notes."""
        status, text, said = found
        for note in notes:
            if said.count(note) != 1:
                fail(f"{what}: the note {note!r} is missing in {said!r}")
            said = said.replace(note, "")
        wanted = self.alone(words, names)
        if (status, text, said) != wanted:
            fail(f"{what}: {words} gave {(status, text[:2_000], said)}, and not {(wanted[0], wanted[1][:2_000], wanted[2])}")
        print(what, flush=True)
