#!/usr/bin/env python3
"""Splits a trace that is too large for one file, or for the memory, by its processes.

usage: split_by_process.py [--bytes N] [--elements N] FILE FOLDER

Writes FOLDER/part_01.json, part_02.json and on, each of at most so many bytes and elements (without these flags 67,108,864 and
4,194,304, which is what tracebook reads of one file), and prints their names. Each part has whole processes, with their
elements in their order and as they are written; processes that share the id of an async span or of a flow stay together. So
tracebook's report of the parts is that of the whole.

With `--large` tracebook reads a file of up to 4 GiB whole, which takes less time, and some four times as much memory as the file
has bytes. Split what is larger, or what there is no memory for: with `--apart --jobs 1` tracebook reads one part after another.

Processes that belong together and are too large for one part get a part of their own all the same, and are named on standard
error; the status is then 1. FILE is read twice, piece by piece: only the processes and the ids are kept in memory.
"""

import argparse
import json
import os
import sys

# Where this is installed, nothing is to be left beside it.
sys.dont_write_bytecode = True
from trace_reader import MOST_BYTES, NoTrace, Source, elements_of, is_whole

# What this is called where it runs: it is installed as tracebook_split.
NAME = os.path.basename(sys.argv[0]).removesuffix(".py")
MOST_ELEMENTS = 4_194_304
MOST_PARTS = 64
NO_PROCESS = "no process"


def elements_in(path):
    """The elements of a trace, each with its text."""
    with open(path, encoding="utf-8", newline="") as file:
        yield from elements_of(Source(file))


def process_of(element):
    """The process of an element, or that it has none."""
    process = element.get("pid", 0) if isinstance(element, dict) else NO_PROCESS
    return process if is_whole(process) else NO_PROCESS


def shared_key_of(element):
    """The key of an async span or a flow that other processes can have too, if the element has one."""
    kind = {"b": "async", "n": "async", "e": "async", "s": "flow", "t": "flow", "f": "flow"}.get(phase_of(element))
    if kind is None:
        return None
    id_ = element.get("id")
    if "id" not in element and isinstance(element.get("id2"), dict):
        id_ = element["id2"].get("global")
    if not isinstance(id_, str) and not is_whole(id_):
        return None
    scope = element.get("scope", "") if kind == "async" else ""
    return json.dumps([kind, element.get("cat", ""), scope, element.get("name", ""), str(id_)])


def phase_of(element):
    phase = element.get("ph") if isinstance(element, dict) else None
    return phase if isinstance(phase, str) else None


class Groups:
    """Which processes belong together, and how many bytes and elements each group has."""

    def __init__(self):
        self.parents, self.holders, self.sizes = {}, {}, {}

    def root_of(self, process):
        root = process
        while self.parents.setdefault(root, root) != root:
            root = self.parents[root]
        while process != root:
            self.parents[process], process = root, self.parents[process]
        return root

    def add(self, element, text):
        process = process_of(element)
        size, count = self.sizes.get(process, (0, 0))
        self.sizes[process] = (size + len(text.encode()) + 2, count + 1)
        key = shared_key_of(element) if process != NO_PROCESS else None
        other = self.holders.setdefault(key, process) if key is not None else process
        self.parents[self.root_of(process)] = self.root_of(other)

    def members(self):
        """The processes of each group, in the order of their first elements."""
        groups = {}
        for process in self.sizes:
            groups.setdefault(self.root_of(process), []).append(process)
        return groups.values()

    def size_of(self, members):
        sizes = [self.sizes[process] for process in members]
        return sum(size for size, _ in sizes), sum(count for _, count in sizes)


class Part:
    """What one part holds so far; its brackets count."""

    def __init__(self):
        self.bytes, self.elements = 3, 0

    def fits(self, size, count, most_bytes, most_elements):
        return self.bytes + size <= most_bytes and self.elements + count <= most_elements

    def add(self, size, count):
        self.bytes, self.elements = self.bytes + size, self.elements + count


def parts_of(groups, most_bytes, most_elements):
    """The place of the part of each process, and the groups that are too large for one."""
    parts, places, too_large = [], {}, []
    for members in groups.members():
        size, count = groups.size_of(members)
        free = (place for place, part in enumerate(parts) if part.fits(size, count, most_bytes, most_elements))
        place = next(free, len(parts))
        if place == len(parts):
            parts.append(Part())
            if not parts[place].fits(size, count, most_bytes, most_elements):
                too_large.append((members, size, count))
        parts[place].add(size, count)
        places |= dict.fromkeys(members, place)
    return places, too_large


def write_parts(path, folder, places):
    """Writes the parts, and gives their names."""
    os.makedirs(folder, exist_ok=True)
    count = max(places.values(), default=0) + 1
    digits = max(2, len(str(count)))
    names = [os.path.join(folder, f"part_{number:0{digits}}.json") for number in range(1, count + 1)]
    files = [open(name, "x", encoding="utf-8", newline="") for name in names]
    heads = ["["] * count
    for element, text in elements_in(path):
        place = places[process_of(element)]
        files[place].write(heads[place] + text)
        heads[place] = ",\n"
    for file, head in zip(files, heads):
        file.write("[]\n" if head == "[" else "]\n")
        file.close()
    return names


def named(members):
    """The processes of a group, of which the first ten are named."""
    first = ", ".join(str(process) for process in members[:10])
    others = f" and {len(members) - 10} more that share ids with them" if len(members) > 10 else ""
    return ("process " if len(members) == 1 else "processes ") + first + others


def words_of(argv):
    parser = argparse.ArgumentParser(description="Splits a trace that is too large for one file by its processes.")
    parser.add_argument("--bytes", type=int, default=MOST_BYTES, help="how many bytes a part may have")
    parser.add_argument("--elements", type=int, default=MOST_ELEMENTS, help="how many elements a part may have")
    parser.add_argument("file")
    parser.add_argument("folder")
    return parser.parse_args(argv)


def main():
    words = words_of(sys.argv[1:])
    groups = Groups()
    try:
        for element, text in elements_in(words.file):
            groups.add(element, text)
        places, too_large = parts_of(groups, words.bytes, words.elements)
        names = write_parts(words.file, words.folder, places)
    except (NoTrace, UnicodeDecodeError, OSError) as error:
        sys.exit(f"{NAME}: {words.file}: {error}")
    print(*names, sep="\n")
    for members, size, count in too_large:
        print(f"{NAME}: too large for one part: {named(members)}: {size} bytes, {count} elements", file=sys.stderr)
    if len(names) > MOST_PARTS:
        print(f"{NAME}: {len(names)} parts, but tracebook takes {MOST_PARTS} files at once", file=sys.stderr)
    sys.exit(bool(too_large) or len(names) > MOST_PARTS)


if __name__ == "__main__":
    main()
