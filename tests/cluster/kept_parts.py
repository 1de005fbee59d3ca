"""Parts that the command for Dask keeps: which files are read again, and what is done with parts that aren't what they are to be."""
import json
import os
import random
import re
import shutil
import subprocess
import sys

from bench import ENGINE, fail, write_trace
from loopback import PATIENCE

CHANGED = 10
BY_FILE = ["--json", "--group-by", "file,name"]
BY_NOTHING = ["--json", "--group-by", "name,args.none"]
CONDITIONS = ["--merge-templates", "--where", "args.detail~1", "--where", "file!=7.json"]
# What makes a table of another kind than BY_FILE.
OTHER_KINDS = [["--group-by", "name"], [*BY_FILE[1:], "--nanoseconds"], [*BY_FILE[1:], "--of", "async"]]
OTHER_KINDS += [[*BY_FILE[1:], "--numbers", "longest"]]
# What can be under a part's name, and isn't a file.
NO_FILES = {"a dangling link": lambda path: os.symlink("nowhere", path), "a folder": os.mkdir, "a pipe": os.mkfifo}
NOBODY = 65534


def kept_run(bench, what, read, notes=(), words=(), by=BY_FILE, names=None):
    """Runs the engine with parts, and expects that just these files are read."""
    words, names = [*by, *words], names or bench.names
    bench.watched.read()
    found = bench.engine(["--parts", "parts", *words], names)
    if bench.watched.read() != sorted(read):
        fail(f"{what}: other files were read than {sorted(read)}")
    bench.expect(what, words, names, found, notes)


def part_of(bench, kind, holds):
    """The path of some part, and the file that it is of."""
    folder = os.path.join(bench.folder, "parts")
    for name in sorted(os.listdir(folder)):
        with open(os.path.join(folder, name), encoding="utf-8") as file:
            text = file.read()
        if name.endswith(kind) and holds(text):
            return os.path.join(folder, name), text
    fail(f"no part {kind}")


def cut(path, text, size):
    with open(path, "w", encoding="utf-8") as file:
        file.write(text[:size])


def note(name):
    return f'tracebook_dask: "{name}": its part was not whole, or of another kind, and is made anew\n'


def file_of(text):
    """The file of a part's table by file, or of what is said of it."""
    return json.loads(text.splitlines()[1])["file"] if text.startswith("{") else json.loads(re.search('"[^"]*"', text)[0])


def try_parts(bench):
    kept_run(bench, "no part is kept", bench.names)
    kept_run(bench, "all parts are kept", [], words=["--only", "Source"])
    # Half of a table, one without its last row, one without its head's end, and what is said of files.
    kinds = {".jsonl": lambda text: text.count("\n") > 2, ".faults": lambda text: " warning: " not in text}
    for kind, size in [(".jsonl", lambda text: len(text) // 2), (".jsonl", lambda text: text.rindex("\n", 0, -1) + 1)]:
        path, text = part_of(bench, kind, kinds[kind])
        cut(path, text, size(text))
        kept_run(bench, "a part was cut off", [file_of(text)], [note(file_of(text))])
    path, text = part_of(bench, ".jsonl", kinds[".jsonl"])
    cut(path, text, 9)
    other, lines = part_of(bench, ".faults", kinds[".faults"])
    cut(other, lines, 0)
    kept_run(bench, "two parts were cut off", [file_of(text), file_of(lines)], [note(file_of(text)), note(file_of(lines))])
    path, lines = part_of(bench, ".faults", lambda text: " warning: " in text)
    cut(path, lines, len(lines) - 1)
    kept_run(bench, "a warning was cut off", [file_of(lines)], [note(file_of(lines))])
    os.remove(path)
    kept_run(bench, "a warning is missing", [file_of(lines)], [note(file_of(lines))])
    chance = random.Random(2)
    changed = chance.sample(bench.names, CHANGED)
    for name in changed:
        write_trace(bench.folder, name, chance)
    kept_run(bench, f"{CHANGED} files changed", changed)
    kept_run(bench, "the same again", [])
    kept_run(bench, "parts of other flags are kept", bench.names, words=["--seal"])
    kept_run(bench, "parts of what conditions leave are kept", bench.names, words=CONDITIONS)
    kept_run(bench, "parts of what conditions leave are taken", [], words=[*CONDITIONS, "--only", "a"])
    kept_run(bench, "parts of other conditions are kept", bench.names, words=["--merge-templates", "--where", "args.detail=header_1.h"])
    kept_run(bench, "parts by a column that no span has are kept", bench.names, by=BY_NOTHING)
    kept_run(bench, "parts by a column that no span has are taken", [], words=["--skip", "a"], by=BY_NOTHING)
    kept_run(bench, "parts with numbers are kept", bench.names, words=["--numbers", "longest,outer,count"])
    kept_run(bench, "parts with numbers are taken", [], words=["--only", "a", "--numbers", "longest,outer,count"])
    kept_run(bench, "parts of async spans are kept", bench.names, words=["--of", "async"])
    kept_run(bench, "parts of async spans are taken", [], words=["--of", "async", "--only", "a"])
    shutil.rmtree(os.path.join(bench.folder, "parts"))
    kept_run(bench, "no part is kept any more", bench.names)
    try_folder(bench)
    try_other_kinds(bench)
    try_no_files(bench)
    try_closed_folder(bench)


def try_folder(bench):
    """The parts of files serve under their names and under that of their folder."""
    below = [f"./{name}" for name in bench.names]
    kept_run(bench, "parts of a folder's files are kept", below, names=["."])
    kept_run(bench, "parts of a folder's files are taken", [], names=["."])
    kept_run(bench, "parts of a folder's files are taken by their names", [], names=below)
    shutil.rmtree(os.path.join(bench.folder, "parts"))
    kept_run(bench, "no part of a folder is kept any more", bench.names)


def try_other_kinds(bench):
    """Whole tables that aren't those of a part: by other columns, in another unit, of something else, and of two files."""
    for words in [*OTHER_KINDS, [*BY_FILE[1:], "3.json"]]:
        path, text = part_of(bench, ".jsonl", lambda text: text.count("\n") > 2)
        status, table, _ = bench.outcome([bench.program, "--apart", "--json", *words, file_of(text)])
        if status == 2 or table.decode() == text:
            fail(f"no other table of {file_of(text)} by {words}")
        cut(path, table.decode(), len(table))
        kept_run(bench, "a part of another kind", [file_of(text)], [note(file_of(text))])


def try_no_files(bench):
    path, text = part_of(bench, ".jsonl", lambda text: text.count("\n") > 2)
    said = f'tracebook_dask: "{file_of(text)}": its part would be "{os.path.realpath(path)}", which is no file\n'
    for what, make in NO_FILES.items():
        os.rename(path, f"{path}.aside")
        make(path)
        found = bench.engine(["--parts", "parts", *BY_FILE], bench.names)
        if found != (2, b"", said):
            fail(f"{what} for a part: status {found[0]}, {found[1][:2_000]}, {found[2]!r}, and not {said!r}")
        shutil.rmtree(path) if os.path.isdir(path) else os.remove(path)
        os.rename(f"{path}.aside", path)
    kept_run(bench, "no part was harmed", [])


def run_as_nobody(bench, folder, names, **terms):
    """What a run on this machine has to say that keeps parts in a folder, of which nobody may be the user."""
    words = [sys.executable, "-B", f"{folder}/engine.py", "--parts", f"{folder}/parts", *BY_FILE, *names]
    environment = {**os.environ, "PATH": f"{folder}:{os.environ['PATH']}", "HOME": folder, "TMPDIR": f"{folder}/temporary"}
    ended = subprocess.run(words, cwd=bench.folder, env=environment, capture_output=True, timeout=PATIENCE, **terms)
    if os.listdir(f"{folder}/temporary"):
        fail("something is left among the temporary files")
    return ended.returncode, ended.stdout, ended.stderr.decode()


def try_closed_folder(bench):
    """A folder that this user can't write serves, if it has all parts."""
    folder = os.path.realpath(os.path.join(bench.folder, "..", "closed"))
    for path in folder, f"{folder}/temporary":
        os.mkdir(path)
        os.chmod(path, 0o777)
    os.chmod(os.path.dirname(folder), 0o755)
    shutil.copy(ENGINE, f"{folder}/engine.py")
    shutil.copy(bench.program, f"{folder}/tracebook")
    names, terms = bench.names[:20], {} if os.geteuid() else {"user": NOBODY, "group": NOBODY, "extra_groups": []}
    wanted = bench.alone(BY_FILE, names)
    made = run_as_nobody(bench, folder, names)
    os.chmod(f"{folder}/parts", 0o555)
    taken = run_as_nobody(bench, folder, names, **terms)
    more = run_as_nobody(bench, folder, [*names, "20.json"], **terms)
    os.chmod(f"{folder}/parts", 0o755)
    if made != wanted or taken != wanted:
        fail(f"a folder that can't be written: status {taken[0]}, {taken[1][:2_000]}, {taken[2]!r}")
    if more[:2] != (2, b"") or not more[2].endswith(f'nothing can be written in "{folder}/parts"\ntracebook_dask: stopped at "20.json"\n'):
        fail(f"a part that can't be written: status {more[0]}, {more[1][:2_000]}, {more[2]!r}")
    print("a folder that can't be written", flush=True)
