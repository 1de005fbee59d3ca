"""What the FILEs of a side stand for, by docs/report.md alone: themselves, or, where they are folders, the files below these."""
import os
from dataclasses import dataclass
from json.encoder import encode_basestring as json_text

from said import Stopped

STANDARD_INPUT = "-"
TRACES, TABLES = ".json", ".jsonl"


@dataclass(frozen=True)
class File:
    """The path of a file, which is also what is said of it by, and what the column `file` has of it."""

    path: str
    shown: str


class Unread(Exception):
    """A folder that can't be read, or has a name that isn't UTF-8: its path below the one that is looked through."""


def is_text(name):
    try:
        return name.decode() is not None
    except ValueError:
        return False


def names_in(top, below):
    """The names in a folder, each with the place that it has below the one that is looked through."""
    try:
        names = os.listdir(os.path.join(top, below))
    except OSError:
        raise Unread(below) from None
    if not all(map(is_text, names)):
        raise Unread(below)
    return [os.path.join(below, name) for name in names if not name.startswith(b".")]


def look_through(top, ending):
    """The paths below a folder of the regular files with this ending, and those of the folders that can't be read."""
    found, unread, left = [], [], [b""]
    while left:
        try:
            paths = names_in(top, left.pop())
        except Unread as unread_one:
            unread += unread_one.args
            continue
        for path in paths:
            whole = os.path.join(top, path)
            if os.path.islink(whole):
                continue
            if os.path.isdir(whole):
                left.append(path)
            elif os.path.isfile(whole) and path.endswith(ending.encode()):
                found.append(path)
    return sorted(found), sorted(unread)


def is_folder(path):
    return path != STANDARD_INPUT and os.path.isdir(path)


def paths_below(folder, ending):
    """The paths below a folder of the files that it stands for, in order."""
    found, unread = look_through(folder.encode(), ending)
    if unread:
        raise Stopped(f"tracebook: {json_text(os.path.join(folder, unread[0].decode()) if unread[0] else folder)}: 52 NotOpened")
    if not found:
        raise Stopped(f"tracebook: {json_text(folder)}: 41 FileCount")
    return [path.decode() for path in found]


def files_of(names, ending=TRACES):
    """The files that the FILEs of a side stand for."""
    files = []
    for name in names:
        below = paths_below(name, ending) if is_folder(name) else None
        if below is None:
            files.append(File(name, name))
        else:
            paths = [os.path.join(name, path) for path in below]
            files += [File(path, shown) for path, shown in zip(paths, below if len(names) == 1 else paths)]
    return files
