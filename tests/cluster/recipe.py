"""The commands for a shell in cluster/README.md, run as they stand there."""
import os
import re
import shutil
import subprocess

from bench import fail
from built import ROOT
from loopback import PATIENCE

FILES = 40


def recipe():
    with open(os.path.join(ROOT, "cluster", "README.md"), encoding="utf-8") as file:
        block = re.search(r"^## A shell\n\n((?: {4}.*\n)+)", file.read(), re.MULTILINE)
    return re.sub("^ {4}", "", block[1], flags=re.MULTILINE)


def outcome(bench, folder):
    environment = {**os.environ, "PATH": bench.path}
    terms = {"stdin": subprocess.DEVNULL, "capture_output": True, "timeout": PATIENCE}
    ended = subprocess.run(["sh", "-c", recipe()], cwd=folder, env=environment, **terms)
    return ended.returncode, ended.stdout, ended.stderr.decode()


def try_recipe(bench):
    """Of some traces the text is that of one run; without traces there are no parts."""
    folder = os.path.join(os.path.dirname(bench.folder), "recipe")
    os.makedirs(os.path.join(folder, "build"))
    found = outcome(bench, folder)
    if found != (2, b"", 'tracebook: "parts/*.jsonl": 52 NotOpened\n'):
        fail(f"the recipe without traces: {found}")
    os.rmdir(os.path.join(folder, "parts"))
    for name in bench.names[:FILES]:
        shutil.copy(os.path.join(bench.folder, name), os.path.join(folder, "build"))
    status, text, said = outcome(bench, folder)
    wanted = bench.alone(["--top", "20", "--group-by", "name,args.detail"], bench.names[:FILES])[1]
    if (status, text) != (0, wanted):
        fail(f"the recipe: status {status}, {text[:2_000]}, {said!r}, and not {wanted[:2_000]}")
    print("the recipe for a shell", flush=True)
