"""The names that this repository has: of its files and folders, and of what its code, its definitions and its scripts declare."""
import os
import re

ROOT = os.path.normpath(os.path.join(os.path.dirname(os.path.abspath(__file__)), ".."))
# What is made, or isn't ours.
LEFT_OUT = {".git", "out", "__pycache__"}
# Items and clauses, fields and parameters, variants, and words of the outside: those that a string is.
CODE = [
    r"\b(?:fn|struct|enum|trait|type|const|mod|ghost|ensures|requires) (\w+)",
    r"^ +(?:pub(?:\(\w+\))? )?(\w+): ",
    r"^ +([A-Z]\w*)(?:,| \{|\(| = )",
    r'"(\w+)"',
]
# Definitions and lemmas, constructors and fields.
DEFINITIONS = [r"^\s*(?:(?:pub|abbrev|unfoldable|record|data) )*([^\s:({=]+)(?= ?[:({])"]
SCRIPT = [r"^ *(?:def|class) (\w+)", r"^(\w+) ="]


def files():
    """The paths of all files, from the top of the repository on."""
    for folder, below, names in os.walk(ROOT):
        below[:] = [name for name in below if name not in LEFT_OUT]
        yield from (os.path.relpath(os.path.join(folder, name), ROOT) for name in names)


def text(path):
    with open(os.path.join(ROOT, path), encoding="utf-8") as file:
        return file.read()


def patterns_of(path):
    if path.endswith(".rt"):
        return CODE
    if path.endswith(".antt"):
        return DEFINITIONS
    return SCRIPT if path.endswith(".py") or os.path.dirname(path) in ("tests", "bench") else []


def declared_names(paths):
    """What these files declare, with the names of the files and their folders, and of the crates that others are built on."""
    names = set(re.findall(r"\w+", text("crates.txt")))
    for path in paths:
        steps = path.split(os.sep)
        names.update(steps, (os.path.splitext(step)[0] for step in steps))
        for pattern in patterns_of(path):
            names.update(re.findall(pattern, text(path), re.M))
    return names
