#!/usr/bin/env python3
"""Sums traces by tracebook on the workers of a Dask cluster: prints what `tracebook --apart` prints for the same files and options, byte
for byte, with the same lines on standard error and the same status; but folded stacks are those of chunks of the files, one behind the
other. README.md beside this says how the work is divided, and what is kept.
"""
import signal

# Until something is to be taken along, Ctrl-C just ends this, also while modules are loaded; where it is ignored, it stays so.
if signal.getsignal(signal.SIGINT) is signal.default_int_handler:
    signal.signal(signal.SIGINT, signal.SIG_DFL)

import glob
import hashlib
import json
import logging
import mmap
import os
import re
import shutil
import subprocess
import sys
import tempfile
import threading
import time
import uuid
import warnings
from collections import deque
from contextlib import contextmanager, redirect_stdout, suppress
from dataclasses import dataclass, replace
from functools import partial
from typing import Optional

NAME = "tracebook_dask"
PROGRAM = "tracebook"
# The options of the program that have a value, and this command's own, with what their values are called.
VALUED = {"--limit", "--top", "--by", "--numbers", "--of", "--base", "--jobs", "--group-by", "--where", "--only", "--skip", "--files-from"}
OWN = {"--scheduler": "<ADDRESS>", "--workers": "<N>", "--parts": "<FOLDER>"}
LIST, WHERE, FOLDED, LARGE = "--files-from", "--where", "--folded", "--large"
# Those that tables follow from, and those that only the text follows from.
OF_TABLES = ("--of", WHERE, "--merge-templates", LARGE, "--limit", "--nanoseconds", "--seal", "--strict")
OF_TEXT = ("--json", "--top", "--by", "--numbers", "--only", "--skip")
# What is a FILE's own, and the file that standard input is kept in, with one byte more than a trace may have, or a large one.
STANDARD_INPUT, GIVEN, MOST_GIVEN, MOST_LARGE = "-", "given", (64 << 20) + 1, 1 << 32
# How the names of traces end that stand for the folder that they are in.
ENDING = b".json"
# A condition on the column `file`, and one that no file meets, since none has an empty name.
OF_FILE, UNMET = re.compile("file(!?[=~])(.*)", re.DOTALL), "file="
# What the columns of arguments begin with.
ARGUMENTS = ("args.", "parent.args.")
# The columns without --group-by, as the program has them.
RANKED_BY = "pid,tid,thread,name"
COMPARED_BY = "process,thread,name"
ASYNC_BY = "cat,name"
FOLDED_BY = "name"
# The numbers without --numbers, of texts for people and of tables, as the program has them.
OF_SPANS = ["self", "total", "count"], ["count", "total", "self"]
OF_ASYNC = ["total", "closed", "open", "points"], ["closed", "total", "open", "points"]
# A chunk has at most so many bytes, and there are so many chunks at least for each thread of a worker, where there are as many files.
MOST_BYTES = 256_000_000
CHUNKS_EACH = 8
# What a file costs before its first byte is read, in bytes that are read in the same time.
OPENING = 10_000
# So many tables are added at a time.
WIDTH = 16
# So many bytes of stacks are held at a time where they are printed.
BLOCK = 1 << 20
# The room for addresses that Dask takes at least, and with each worker of this machine.
ROOM, ROOM_EACH = 320 << 20, 8 << 20
# The seconds that a scheduler has to answer, and that a run goes on without a worker.
ANSWER, WORKERLESS = 5, 10
# The seconds between two looks at tasks, and at workers.
LOOK, CENSUS = 0.02, 1
# The program's statuses: a file that is no trace, and no text at all.
FAULTY, STOPPED = 1, 2
WITHOUT_MEMORY = f"{PROGRAM}: 31 Memory\n"
# How the program's warnings begin, and what it says of files with refused events beyond those that it lists.
WARNING = f"{PROGRAM}: warning: "
UNLISTED = f"{WARNING}files with refused events that are not listed: "
MOST_LISTED = 16
# The signals that end this.
ENDINGS = (signal.SIGINT, signal.SIGTERM, signal.SIGHUP)

HELP = f"""\
Prints what tracebook --apart prints for the same files and options; the workers
of a Dask cluster read the files.

Usage: {NAME} [OPTIONS] [FILE]...

Options:
      --scheduler <ADDRESS>
          The scheduler of a cluster that runs; without it this machine works
          alone
      --workers <N>
          How many files this machine reads at once
          [default: the processors that the system grants]
      --parts <FOLDER>
          Keep a part of each file here, and take those that stand
  -h, --help
          Print help

All other options are those of tracebook --apart, but for --jobs and --page.
With --folded the stacks of chunks of the files stand one behind the other, as
viewers of flame graphs add them up.
"""


@dataclass(frozen=True)
class Trace:
    """A file, the flags by which it meets conditions on its name or doesn't, the path of the part that is kept of it, if parts are kept,
    and what it will cost, in bytes; and where standard input is kept, if it is that."""

    name: str
    flags: list
    part: Optional[str]
    cost: int
    given: Optional[str] = None

    def is_alone(self):
        """Whether no list can have it."""
        return self.name == "" or self.given is not None


@dataclass(frozen=True)
class Work:
    """What every task is given: the folder in which names begin, one for what isn't kept, the option that asks for the text of a chunk, the
    flags that all of these follow from, what the head of a file's table says of them, the program that all are to run, and the folder of
    parts, if they are kept."""

    place: str
    room: str
    text: str
    flags: list
    head: dict
    program: str
    parts: Optional[str]


@dataclass(frozen=True)
class Said:
    """What is said of files: lines that stand before all warnings, as those of files that are no traces; the warnings of the first files
    with refused events; and how many more of these there are."""

    lines: str = ""
    warnings: tuple = ()
    unlisted: int = 0

    def __add__(self, later):
        warnings = self.warnings + later.warnings
        unlisted = self.unlisted + later.unlisted + len(warnings[MOST_LISTED:])
        return Said(self.lines + later.lines, warnings[:MOST_LISTED], unlisted)

    def text(self):
        return self.lines + "".join(self.warnings) + (f"{UNLISTED}{self.unlisted}\n" if self.unlisted else "")


@dataclass(frozen=True)
class Sum:
    """What became of files: the status, what is said of them, and where their table is, or their stacks, unless the status is STOPPED."""

    status: int
    said: Said
    table: Optional[str]


class NoText(Exception):
    """Nothing will be printed, and this says why."""


def quoted(name):
    """A name as the program writes it."""
    return json.dumps(name, ensure_ascii=False)


def names_of(traces):
    return [trace.name for trace in traces]


def in_one_line(error):
    return " ".join(str(error).split()) or type(error).__name__


# What workers do


def run_program(work, words, data):
    """Runs the program with these words and on these bytes, and keeps its text. Only if it ended well its table is there."""
    table = os.path.join(work.room, uuid.uuid4().hex)
    with open(table, "xb") as text:
        ended = subprocess.run([PROGRAM, work.text, *words], cwd=work.place, input=data, stdout=text, stderr=subprocess.PIPE)
    if ended.returncode in (0, FAULTY):
        return Sum(ended.returncode, said_of(ended_lines(ended)), table)
    os.remove(table)
    return Sum(STOPPED, Said(ended_lines(ended)), None)


def run_on_list(work, words, names):
    return run_program(work, [*words, LIST, STANDARD_INPUT], "".join(f"{name}\0" for name in names).encode())


def run_alone(work, words, trace):
    """Runs the program on a file that no list can have, which may be standard input."""
    data = b""
    if trace.given is not None:
        with open(trace.given, "rb") as given:
            data = given.read()
    return run_program(work, [*words, "--", trace.name], data)


def ended_lines(ended):
    """What the program said, and how it ended, where that is no way of its own."""
    said, status = ended.stderr.decode(errors="replace"), ended.returncode
    if status in (0, FAULTY, STOPPED):
        return said
    return f"{said}{NAME}: {PROGRAM} was ended by signal {-status}\n" if status < 0 else f"{said}{NAME}: {PROGRAM} ended with {status}\n"


def said_of(text):
    """What the program said of files. What it says of columns is left out, since it regards these files alone."""
    lines = re.findall("[^\n]+\n?", text)
    warnings = tuple(line for line in lines if line.startswith(f'{WARNING}"'))
    unlisted = sum(int(line.removeprefix(UNLISTED)) for line in lines if line.startswith(UNLISTED))
    return Said("".join(line for line in lines if not line.startswith(WARNING)), warnings, unlisted)


def collect(work, traces):
    """The sum of files that are read, all of which have the same flags. What stops it is said with a file's name."""
    names, words = names_of(traces), ["--apart", "--jobs=1", *work.flags, *traces[0].flags]
    collected = run_alone(work, words, traces[0]) if traces[0].is_alone() else run_on_list(work, words, names)
    if collected.status != STOPPED or last_line(collected.said.lines).startswith(f'{PROGRAM}: "'):
        return collected
    return replace(collected, said=collected.said + Said(stopped_line(names)))


def last_line(said):
    return said[said[:-1].rfind("\n") + 1 :]


def stopped_line(names):
    last = f" to {quoted(names[-1])}" if len(names) > 1 else ""
    return f"{NAME}: stopped at {quoted(names[0])}{last}\n"


def joined(sums):
    """The status of files, and what is said of them, up to the first that stops."""
    status, said = 0, Said()
    for each in sums:
        status, said = max(status, each.status), said + each.said
        if status == STOPPED:
            break
    return status, said


def add(work, sums):
    """The sum of sums, in the order of their files."""
    status, said = joined(sums)
    if status == STOPPED:
        return Sum(status, said, None)
    added = run_on_list(work, ["--add"], [each.table for each in sums])
    return Sum(max(status, added.status), said + added.said, added.table)


def lines_path(part):
    return part.removesuffix(".jsonl") + ".faults"


def kept_lines(work, part):
    """What is said of the file of a part that was kept; None, where it isn't whole, or the head of its table isn't that of such a part."""
    try:
        with open(part, encoding="utf-8") as table:
            head = json.loads(table.readline())
        if any(head.get(member) != value for member, value in work.head.items()):
            return None
        count = head["unread"] + (head["refused"] > 0)
        if count == 0:
            return Said()
        with open(lines_path(part), encoding="utf-8") as lines:
            said = lines.read()
    except (OSError, ValueError, KeyError, AttributeError, TypeError):
        return None
    return said_of(said) if said.count("\n") == count else None


def make_part(work, trace):
    """Reads a file and keeps its part, which stands under its name only when it is whole, and what is said of it before it."""
    if trace.part is not None and os.path.dirname(work.room) != work.parts:
        raise NoText(f"{NAME}: nothing can be written in {quoted(work.parts)}\n")
    made = collect(work, [trace])
    if made.status == STOPPED or trace.part is None:
        return made
    if made.said != Said():
        scratch = made.table + ".faults"
        with open(scratch, "x", encoding="utf-8") as lines:
            lines.write(made.said.text())
        os.replace(scratch, lines_path(trace.part))
    os.replace(made.table, trace.part)
    return replace(made, table=trace.part)


def make_part_again(work, trace):
    made = make_part(work, trace)
    note = f"{NAME}: {quoted(trace.name)}: its part was not whole, or of another kind, and is made anew\n"
    return replace(made, said=Said(note) + made.said)


def part_of(work, trace):
    """The part of a file, made if none is kept. That the rows of a kept part are whole is seen when it is added."""
    if trace.part is None or not os.path.exists(trace.part):
        return make_part(work, trace)
    said = kept_lines(work, trace.part)
    return make_part_again(work, trace) if said is None else Sum(FAULTY if said.lines else 0, said, trace.part)


def is_whole(part):
    """Whether the program takes a part for a table."""
    ended = subprocess.run([PROGRAM, "--add", "--json", "--", part], stdout=subprocess.DEVNULL, stderr=subprocess.DEVNULL)
    return ended.returncode == 0


def sum_parts(work, traces):
    """The sum of files each of which has a part that is kept."""
    parts = []
    for trace in traces:
        parts.append(part_of(work, trace))
        if parts[-1].status == STOPPED:
            break
    total = add(work, parts)
    if total.status != STOPPED or parts[-1].status == STOPPED:
        return total
    again = [part if is_whole(part.table) else make_part_again(work, trace) for part, trace in zip(parts, traces)]
    return add(work, again)


def program_digest():
    """What distinguishes the program that the path gives from all others."""
    path = shutil.which(PROGRAM)
    if path is None:
        raise NoText(f"{NAME}: there is no command {PROGRAM} on the path of {os.uname().nodename}\n")
    with open(path, "rb") as program:
        return hashlib.sha256(program.read()).hexdigest()


def sum_chunk(work, traces):
    """The sum of a chunk of files, where the worker is."""
    try:
        if program_digest() != work.program:
            raise NoText(f"{NAME}: {os.uname().nodename} has another {PROGRAM}\n")
        return collect(work, traces) if work.parts is None else sum_parts(work, traces)
    except (OSError, NoText) as error:
        said = str(error) if isinstance(error, NoText) else f"{NAME}: {in_one_line(error)} on {os.uname().nodename}\n"
        return Sum(STOPPED, Said(said + stopped_line(names_of(traces))), None)


# Files


def not_opened(path):
    return NoText(f"{PROGRAM}: {quoted(path)}: 52 NotOpened\n")


def names_from(path):
    """The names in a list: one on each line, or parted by NULs where it holds one."""
    try:
        with open(0 if path == STANDARD_INPUT else path, "rb") as listed:
            data = listed.read()
        return [name.decode() for name in data.split(b"\0" if b"\0" in data else b"\n") if name]
    except (OSError, ValueError):
        raise not_opened(path) from None


@dataclass(frozen=True)
class Side:
    """The names of the files of a side, and with what they begin that the column `file` leaves out."""

    names: list
    left_out: str = ""


def side_of(names):
    """The files that FILEs stand for. A folder stands for those below it, and if it is alone the column has their paths below it."""
    if len(names) == 1 and is_folder(names[0]):
        return Side(names_below(names[0]), os.path.join(names[0], ""))
    return Side([below for name in names for below in (names_below(name) if is_folder(name) else [name])])


def is_folder(name):
    return name != STANDARD_INPUT and os.path.isdir(name)


def names_below(folder):
    """The names of the traces below a folder, in the order of their bytes."""
    found, unread, left = [], [], [os.fsencode(folder)]
    while left:
        place = left.pop()
        try:
            files, folders = entries_of(place)
        except (OSError, ValueError):
            unread.append(place)
            continue
        found += files
        left += folders
    if unread:
        raise not_opened(os.fsdecode(min(unread)))
    if not found:
        raise NoText(f"{PROGRAM}: {quoted(folder)}: 41 FileCount\n")
    return [name.decode() for name in sorted(found)]


def entries_of(folder):
    """The traces and the folders in a folder, but for those that are links or whose names begin with a dot. All names are to be text."""
    with os.scandir(folder) as entries:
        shown = [entry for entry in entries if not entry.name.decode().startswith(".")]
    files = [entry.path for entry in shown if entry.name.endswith(ENDING) and entry.is_file(follow_symlinks=False)]
    return files, [entry.path for entry in shown if entry.is_dir(follow_symlinks=False)]


def is_met(condition, path):
    """Whether a file with this path meets a condition on the column `file`."""
    operator, text = OF_FILE.fullmatch(condition).groups()
    return (path == text if operator.endswith("=") else text in path) != operator.startswith("!")


def flags_of_file(side, conditions, name):
    """The flags for conditions on the column `file`. Where that leaves out how names begin, the program, which is given whole names, can't
    look whether a file meets them."""
    if side.left_out:
        is_left = all(is_met(condition, name.removeprefix(side.left_out)) for condition in conditions)
        conditions = [] if is_left else [UNMET]
    return [spelled(WHERE, condition) for condition in conditions]


def keep_given(work):
    """Keeps what standard input has, where it is a FILE, and gives the path; None where it can't be read."""
    path = os.path.join(work.room, GIVEN)
    try:
        with open(0, "rb", closefd=False) as given:
            data = given.read(MOST_LARGE if LARGE in work.flags else MOST_GIVEN)
    except OSError:
        return None  # The program will say so.
    with open(path, "xb") as kept:
        kept.write(data)
    return path


def part_path(work, name, flags, status):
    """The path of a file's part, which follows from the file's name, size and time, the flags, and the program."""
    origin = [work.program, work.flags, flags, name, os.path.abspath(name), status.st_size, status.st_mtime_ns]
    return os.path.join(work.parts, hashlib.sha256(json.dumps(origin).encode()).hexdigest() + ".jsonl")


def sizes_of_parts(work):
    """The sizes of the parts that stand, by their paths; None where that is no file."""
    if work.parts is None:
        return {}
    with os.scandir(work.parts) as entries:
        return {entry.path: entry.stat().st_size if entry.is_file() else None for entry in entries if entry.name.endswith(".jsonl")}


def traces_of(work, side, conditions, sizes, given):
    """The files of a side, of whose names there are these conditions, where the parts that stand have these sizes, and the first name of
    standard input has what is given."""
    for name in side.names:
        flags = flags_of_file(side, conditions, name)
        if name == STANDARD_INPUT:
            path = given.pop() if given else None
            yield Trace(name, flags, None, OPENING + (os.path.getsize(path) if path else 0), path)
            continue
        try:
            status = os.stat(name)
        except OSError:
            yield Trace(name, flags, None, OPENING)  # The program will say why.
            continue
        part = None if work.parts is None else part_path(work, name, flags, status)
        size = sizes.get(part, status.st_size)
        if size is None:
            raise NoText(f"{NAME}: {quoted(name)}: its part would be {quoted(part)}, which is no file\n")
        yield Trace(name, flags, part, OPENING + size)


def chunks_of(traces, most):
    """Runs of files with the same flags, of at most this cost, or of one file."""
    chunk, cost = [], 0
    for trace in traces:
        if chunk and (cost + trace.cost > most or trace.flags != chunk[-1].flags or trace.is_alone() or chunk[-1].is_alone()):
            yield chunk
            chunk, cost = [], 0
        chunk.append(trace)
        cost += trace.cost
    if chunk:
        yield chunk


# The run


def expect_dask(workers):
    """Says that Dask is missing, where it is, or that there is no memory for it, which it says in many ways, or never."""
    try:
        mmap.mmap(-1, ROOM + ROOM_EACH * workers, flags=mmap.MAP_PRIVATE | mmap.MAP_ANONYMOUS, prot=mmap.PROT_READ).close()
    except OSError:
        raise MemoryError from None
    try:
        import distributed  # noqa: F401
    except ModuleNotFoundError as error:
        remedy = "python3-distributed in Debian, or `pip install distributed`"
        raise NoText(f"{NAME}: Dask is missing for {sys.executable} ({error}): {remedy}\n") from None


def sum_of(future, traces):
    """What became of files, also where the workers or the scheduler are lost."""
    from distributed import CancelledError, KilledWorker

    try:
        return future.result()
    except KilledWorker:
        return Sum(STOPPED, Said(f"{NAME}: each worker that took it was lost\n{stopped_line(names_of(traces))}"), None)
    except CancelledError:
        return Sum(STOPPED, Said(f"{NAME}: the scheduler was lost\n{stopped_line(names_of(traces))}"), None)


def ended(client, futures):
    """The futures, each when it has ended. Looks now and then whether there is a worker that may end them."""
    from distributed import as_completed

    waiting, seen, asked = as_completed(futures), time.monotonic(), time.monotonic()
    while not waiting.is_empty():
        yield from waiting.next_batch(block=False)
        time.sleep(LOOK)
        now = time.monotonic()
        if now - asked < CENSUS:
            continue
        asked = now
        with suppress(OSError):  # Without a scheduler the futures end.
            seen = now if client.nthreads() else seen
        if now - seen >= WORKERLESS:
            raise NoText(f"{NAME}: for {WORKERLESS} seconds the scheduler has had no worker\n")


def wait_for(client, futures, chunks):
    """Waits for the sums of chunks, or, where one stops, of those before it. Gives their status, and what is said of them."""
    places = {future.key: place for place, future in enumerate(futures)}
    sums, waiting = {}, set(places.values())
    for future in ended(client, futures):
        place = places[future.key]
        if place not in waiting:
            continue
        waiting.remove(place)
        sums[place] = sum_of(future, chunks[place])
        if sums[place].status == STOPPED:
            waiting = {other for other in waiting if other < place}
            with suppress(OSError):  # It may be the scheduler that is lost.
                client.cancel(futures[place + 1 :])
        if not waiting:
            break
    return joined([sums[place] for place in sorted(sums)])


def submit(client, work, chunks):
    """The futures of the chunks' sums, and of those that are left for the last addition. Stacks are not added."""
    sums = [client.submit(sum_chunk, work, chunk, pure=False) for chunk in chunks]
    level = sums
    while len(level) > WIDTH and work.text != FOLDED:
        groups = [level[place : place + WIDTH] for place in range(0, len(level), WIDTH)]
        level = [client.submit(add, work, group, pure=False, priority=1) for group in groups]
    return sums, level


@contextmanager
def progress(client, futures):
    """Shows the bar of Dask where standard error is a terminal."""
    from distributed.diagnostics.progressbar import TextProgressBar

    if not os.isatty(2) or os.environ.get("TERM") == "dumb" or os.environ.get("NO_COLOR"):
        yield
        return
    with redirect_stdout(sys.stderr):
        bar = TextProgressBar(futures, start=False)
        client.loop.add_callback(bar.listen)
        try:
            yield
        finally:
            bar._draw_stop()


def sum_files(client, work, sides):
    """The sums of the files of each side, of which there are sixteen at most, or the stacks of all chunks."""
    slots = sum(client.nthreads().values()) or 1
    most = min(MOST_BYTES, sum(trace.cost for side in sides for trace in side) // (CHUNKS_EACH * slots))
    chunked = [list(chunks_of(side, most)) for side in sides]
    submitted = [submit(client, work, chunks) for chunks in chunked]
    futures = [future for sums, _ in submitted for future in sums]
    with progress(client, futures):
        status, said = wait_for(client, futures, sum(chunked, []))
        if status == STOPPED:
            raise NoText(said.lines)
        for _ in ended(client, [future for _, level in submitted for future in level]):
            pass
        return [[sum_of(future, side) for future in level] for side, (_, level) in zip(sides, submitted)]


def has_bytes(path, sought):
    with open(path, "rb") as file, mmap.mmap(file.fileno(), 0, prot=mmap.PROT_READ) as data:
        return data.find(sought) >= 0


def said_of_columns(columns, tables):
    """What the program says of each column of arguments in which no row of these tables has a value, if they have a row. A value stands
    behind the column's name, which no text within a row is written like."""
    if not any(has_bytes(table, b"\n{") for table in tables):
        return ""
    arguments = [column for column in columns.split(",") if column.startswith(ARGUMENTS)]
    lacking = [column for column in arguments if not any(has_bytes(table, f"{quoted(column)}:".encode()) for table in tables)]
    return "".join(f"{WARNING}no span has {quoted(column)}\n" for column in lacking)


def without_beginning(table, left_out):
    """The path of the table in which all values of the column `file` have lost this beginning, so that their order is the same. Only where
    a member has this name a quote stands behind a brace or a comma, and the name behind it."""
    sought, path = re.compile(rb'([{,]"file":")' + re.escape(quoted(left_out)[1:-1].encode())), f"{table}.below"
    with open(table, "rb") as rows, open(path, "xb") as kept:
        kept.writelines(sought.sub(rb"\1", row, count=1) for row in rows)
    return path


def tables_of(line, side, sums):
    """The paths of a side's tables."""
    tables = [each.table for each in sums]
    if side.left_out and "file" in columns_of(line).split(","):
        return [without_beginning(table, side.left_out) for table in tables]
    return tables


def print_in_turn(paths):
    """Prints what stands in these files, one behind the other."""
    for path in paths:
        with open(path, "rb") as text:
            while block := text.read(BLOCK):
                put(block)


def print_text(line, sides, sums):
    """Prints the text of the sums of both sides. Gives the status, and what is left to say."""
    status, said = joined(sum(sums, []))
    if status == STOPPED:
        return status, said.lines
    if line.has(FOLDED):
        print_in_turn([each.table for each in sums[-1]])
        return status, said.text()
    base, others = (tables_of(line, *each) for each in zip(sides, sums))
    words = ["--add", *line.flags(OF_TEXT), *(f"--base={table}" for table in base), "--", *others]
    ended = subprocess.run([PROGRAM, *words], stdin=subprocess.DEVNULL, stderr=subprocess.PIPE)
    if ended.returncode != 0:
        return STOPPED, ended_lines(ended)
    return status, said.text() + said_of_columns(columns_of(line), [*base, *others])


# The command line


class Line:
    """The words of the command line, parted as the program parts them: options, each with its value or None, and files."""

    def __init__(self, words):
        self.words, self.options, self.files = words, [], []
        left = deque(words)
        while left:
            word = left.popleft()
            if word == "--":
                self.files += left
                break
            if not is_option(word):
                self.files.append(word)
                continue
            name, equals, value = word.partition("=")
            takes_next = not equals and name in VALUED | OWN.keys() and left and not is_option(left[0])
            self.options.append((name, left.popleft() if takes_next else value if equals else None))

    def has(self, name):
        return any(name == other for other, _ in self.options)

    def values(self, name):
        return [value for other, value in self.options if name == other]

    def value(self, name):
        return next(iter(self.values(name)), None)

    def named(self):
        """The FILEs that the words name, or standard input, where they name neither one nor a list."""
        return self.files if self.files or self.has(LIST) else [STANDARD_INPUT]

    def flags(self, names):
        """Those of the options that have these names."""
        return [spelled(name, value) for name, value in self.options if name in names]


def is_option(word):
    return word.startswith("-") and word != "-"


def spelled(name, value):
    return name if value is None else f"{name}={value}"


def broken_rule(line):
    """What is said of this command's own options, and of those of the program that it doesn't take, where they aren't as they are to be."""
    for name, called in OWN.items():
        if None in line.values(name):
            return f"a value is required for '{name} {called}' but none was supplied"
        if len(line.values(name)) > 1:
            return f"the argument '{name} {called}' cannot be used multiple times"
    if line.has("--scheduler") and line.has("--workers"):
        return "the argument '--workers <N>' cannot be used with '--scheduler <ADDRESS>'"
    if not all(re.fullmatch("0*[1-9][0-9]*", number) for number in line.values("--workers")):
        return f"invalid value '{line.value('--workers')}' for '--workers <N>': it is no number from 1 on"
    for name in "--jobs", "--page":
        if line.has(name):
            return f"the argument '{name}' cannot be used with {NAME}"
    if line.has("--parts") and line.has(FOLDED):
        return f"the argument '--parts {OWN['--parts']}' cannot be used with '{FOLDED}'"
    return None


def refusal(rule):
    """What is said of words that are no command, as the program says it."""
    return f"error: {rule}\n\nUsage: {NAME} [OPTIONS] [FILE]...\n\nFor more information, try '--help'.\n"


def is_text(word):
    return not any("\ud800" <= letter <= "\udfff" for letter in word)


def shown_by_program(line):
    """Lets the program look at the words before anything is read, with a list of no names for the files. Gives the version or the help, if
    the program is to show one; otherwise it says that there are no files, or what is wrong."""
    words = [] if line.has("--apart") else ["--apart"]
    is_once = [*line.values("--base"), *line.values(LIST), *line.named()].count(STANDARD_INPUT) < 2
    for name, value in line.options:
        if name not in OWN:
            words.append(spelled(name, os.devnull if name == LIST and value is not None and is_once else value))
    if is_once:
        words += [] if line.has(LIST) else [f"{LIST}={os.devnull}"]
    else:
        words += [name for name in line.files if name == STANDARD_INPUT]  # The program will refuse this.
    words += [word for word in line.words if not is_text(word)]
    looked = subprocess.run([PROGRAM, *words], stdin=subprocess.DEVNULL, stdout=subprocess.PIPE, stderr=subprocess.PIPE)
    if looked.returncode == 0:
        return HELP if looked.stdout.count(b"\n") > 1 else looked.stdout.decode()  # The version is a line.
    said = ended_lines(looked)
    if said != f"{PROGRAM}: 41 FileCount\n":
        raise NoText(said)
    return None


def columns_of(line):
    """The columns of the table that is asked for, or of labels, as the program has them without --group-by."""
    if line.has("--group-by"):
        return line.value("--group-by")
    if line.has(FOLDED):
        return FOLDED_BY
    if is_async(line):
        return ASYNC_BY
    return COMPARED_BY if line.has("--base") or line.has("--json") else RANKED_BY


def is_async(line):
    return line.value("--of") == "async"


def numbers_of(line):
    """The numbers of tables, or None where these are the usual ones. If none are named, a text has the one that it goes by in front of its
    own, where these lack it."""
    (shown, usual), by = OF_ASYNC if is_async(line) else OF_SPANS, line.value("--by")
    if line.has("--numbers"):
        numbers = line.value("--numbers").split(",")
        return None if numbers == usual else numbers
    return None if by is None or by in shown else [by, *shown]


def flags_of(line, of_files):
    """The flags that all tables follow from, which these conditions on files are not among."""
    numbers = numbers_of(line)
    listed = [f"--numbers={','.join(numbers)}"] if numbers else []
    shaping = set(line.flags(OF_TABLES)).difference(spelled(WHERE, condition) for condition in of_files)
    return [f"--group-by={columns_of(line)}", *listed, *sorted(shaping)]


def head_of(line):
    """What the head of a file's table has to say."""
    head = {"columns": columns_of(line).split(","), "runs": 1, "files": 1}
    head["of"] = "async" if is_async(line) else None
    head["unit"] = "ns" if line.has("--nanoseconds") else None
    head["numbers"] = numbers_of(line)
    return head


# What is left


def remove(room):
    """Removes a folder, which no task finds from then on."""
    gone = f"{room}.gone"
    with suppress(OSError):
        os.rename(room, gone)
    shutil.rmtree(gone, ignore_errors=True)


def end_programs():
    """Ends the programs that this process has begun, where the system lists them."""
    for path in glob.glob("/proc/self/task/*/children"):
        with suppress(OSError), open(path, encoding="ascii") as children:
            for child in children.read().split():
                os.kill(int(child), signal.SIGKILL)


def take_along(rooms):
    """Removes what isn't kept, and ends who writes it."""
    end_programs()
    for room in rooms:
        remove(room)
    end_programs()


def end_by_signal(rooms, number, _):
    """Ends this as a signal does that nobody handles."""
    for other in ENDINGS:
        signal.signal(other, signal.SIG_IGN)
    take_along(rooms)
    signal.signal(number, signal.SIG_DFL)
    os.kill(os.getpid(), number)


def end_by_thread(rooms, failed):
    """Ends this where a thread of Dask found no memory, for which the others would wait."""
    if not issubclass(failed.exc_type, MemoryError):
        threading.__excepthook__(failed)
        return
    say(WITHOUT_MEMORY)
    take_along(rooms)
    os._exit(STOPPED)


@contextmanager
def room_in(places):
    """A folder for what isn't kept, in the first of these places where one can be made. It goes away, whatever ends this."""
    name = f"{NAME}-{uuid.uuid4().hex}"
    rooms = [os.path.join(place, name) for place in places]
    threading.excepthook = partial(end_by_thread, rooms)
    for number in ENDINGS:
        if signal.getsignal(number) != signal.SIG_IGN:
            signal.signal(number, partial(end_by_signal, rooms))
    room = first_made(rooms)
    try:
        yield room
    finally:
        remove(room)


def first_made(rooms):
    for room in rooms[:-1]:
        with suppress(OSError):
            os.mkdir(room, 0o700)
            return room
    os.mkdir(rooms[-1], 0o700)
    return rooms[-1]


# The command


def workers_of(line):
    """How many files this machine reads at once."""
    if line.has("--scheduler"):
        return 0
    return int(line.value("--workers") or len(os.sched_getaffinity(0)))


@contextmanager
def client_of(line, room):
    """A client of the cluster that is named, or of one within this process, whose threads wait for the programs that they run."""
    from distributed import Client, LocalCluster

    address = line.value("--scheduler")
    if address is None:
        terms = {"n_workers": 1, "threads_per_worker": workers_of(line), "processes": False, "dashboard_address": ":0", "memory_limit": 0}
        with LocalCluster(**terms, local_directory=room) as cluster, Client(cluster) as client:
            yield client
        return
    try:
        client = Client(address, timeout=ANSWER)
    except Exception as error:  # There are many for an address at which there is no scheduler.
        raise NoText(f"{NAME}: no scheduler at {quoted(address)}: {in_one_line(error)}\n") from None
    with client:
        yield client


def folder_of_parts(line):
    """The folder of parts, if they are kept, which is made if there is none."""
    folder = line.value("--parts")
    if folder is None:
        return None
    os.makedirs(folder, exist_ok=True)
    return os.path.abspath(folder)


def run(line):
    """Gives the status, and what is said."""
    rule = broken_rule(line)
    if rule is not None:
        raise NoText(refusal(rule))
    if shutil.which(PROGRAM) is None and (line.has("-h") or line.has("--help")):
        return show(HELP)
    program = program_digest()
    shown = shown_by_program(line)
    if shown is not None:
        return show(shown)
    names = line.named() + (names_from(line.value(LIST)) if line.has(LIST) else [])
    if not names:
        raise NoText(f"{PROGRAM}: 41 FileCount\n")
    sides = [side_of(side) for side in (line.values("--base"), names)]
    expect_dask(workers_of(line))
    # All workers see the current folder, and the folder of parts.
    parts, rest = folder_of_parts(line), os.getcwd() if line.has("--scheduler") else tempfile.gettempdir()
    with room_in([rest] if parts is None else [parts, rest]) as room, client_of(line, room) as client:
        of_files = [condition for condition in line.values(WHERE) if OF_FILE.fullmatch(condition)]
        text = FOLDED if line.has(FOLDED) else "--json"
        work = Work(os.getcwd(), room, text, flags_of(line, of_files), head_of(line), program, parts)
        sizes, given = sizes_of_parts(work), [keep_given(work)] if any(STANDARD_INPUT in side.names for side in sides) else []
        traces = [list(traces_of(work, side, of_files, sizes, given)) for side in sides]
        return print_text(line, sides, sum_files(client, work, traces))


def put(data):
    """Writes to standard output."""
    try:
        with open(1, "wb", closefd=False) as output:
            output.write(data)
    except OSError:
        raise NoText(f"{PROGRAM}: 51 Output\n") from None


def show(text):
    """Prints a text that is no sum."""
    put(text.encode())
    return 0, ""


def say(said):
    """Writes to standard error. Where that fails nothing can be done."""
    with suppress(OSError), open(2, "wb", closefd=False) as lines:
        lines.write(said.encode(errors="replace"))


def hold_streams():
    """Holds the numbers of standard streams that are closed, so that no file gets them. Reading and writing them fails as before, and
    for the programs they are closed."""
    for number, wrong_way in enumerate((os.O_WRONLY, os.O_RDONLY, os.O_RDONLY)):
        try:
            os.fstat(number)
        except OSError:
            os.open(os.devnull, wrong_way)


def main():
    hold_streams()
    logging.disable()  # Standard error is for the program's lines, and what goes wrong is said there.
    warnings.simplefilter("ignore")
    line = Line(sys.argv[1:])
    try:
        status, said = run(line)
    except NoText as fault:
        status, said = STOPPED, str(fault)
    except MemoryError:
        status, said = STOPPED, WITHOUT_MEMORY
    except OSError as error:
        status, said = STOPPED, f"{NAME}: {in_one_line(error)}\n"
    except Exception as error:  # Python's own status would say that there is a text.
        status, said = STOPPED, f"{NAME}: {type(error).__name__}: {in_one_line(error)}\n"
    say(said)
    return status


if __name__ == "__main__":
    sys.exit(main())
