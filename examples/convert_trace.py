#!/usr/bin/env python3
"""Turns a trace into one that tracebook takes whole, and says on standard error what was changed.

usage: convert_trace.py [--unit s|ms|us|ns] [--whole] [--cut] < trace.json > converted.json

- Values of counters are rounded down, and texts that hold a number become it.
- A process or a thread that is a text gets a number that no other has, and the text as its name, by a metadata event; where
  the text holds a whole number it becomes that.
- With --unit times are taken to be in seconds, milliseconds or nanoseconds, and become the same in microseconds, exactly.
- With --whole each start and each end is rounded down to a whole microsecond, so spans that nest still nest; a duration is what
  lies between the two. Without it tracebook --nanoseconds reads times with fractions.
- With --cut a trace that ends within an element, or within the object around them, is taken up to its last whole element, and
  closed there.

All else stays byte for byte. The trace is read and written piece by piece: only the names of processes and threads are kept in
memory.
"""

import argparse
import io
import json
import os
import re
import sys
from collections import Counter
from decimal import Decimal, getcontext
from math import floor

# Where this is installed, nothing is to be left beside it.
sys.dont_write_bytecode = True
from trace_reader import Cut, NoTrace, Source, elements_of, is_whole

# Enough digits that no sum of a start and a duration is rounded.
getcontext().prec = 60

# What this is called where it runs: it is installed as tracebook_convert.
NAME = os.path.basename(sys.argv[0]).removesuffix(".py")
MOST = 2**63
# The power of ten that is the microseconds in a unit of time.
UNITS = {"s": 6, "ms": 3, "us": 0, "ns": -3}
# Numbers for texts are given from here on, out of the way of what systems give.
FIRST = 10**12 + 1
# What tracebook takes as a whole number, if it isn't too large.
WHOLE = re.compile(r"(?!-0$)-?[0-9]+")
NUMBER = re.compile(r"\s*[+-]?[0-9]+(\.[0-9]+)?([eE][+-]?[0-9]{1,4})?\s*")
DECODE = json.JSONDecoder(parse_float=Decimal).raw_decode
BLANKS = re.compile(r"[ \t\r\n]*")


class Member:
    """A member of an object: its value, and where that stands in the text."""

    def __init__(self, value, start, end):
        self.value, self.start, self.end = value, start, end


def members_at(text, at):
    """The members of the object that begins there; of two members of one name the last."""
    members = {}
    at = BLANKS.match(text, at + 1).end()
    while text[at] != "}":
        name, at = DECODE(text, at)
        start = BLANKS.match(text, BLANKS.match(text, at).end() + 1).end()
        value, end = DECODE(text, start)
        members[name] = Member(value, start, end)
        at = BLANKS.match(text, end).end()
        if text[at] == ",":
            at = BLANKS.match(text, at + 1).end()
    return members


def number_in(value):
    """The number that a member holds, if it holds one of 64 bits."""
    is_number = isinstance(value, (int, Decimal)) and not isinstance(value, bool)
    return value if is_number and -MOST <= value < MOST else None


def number_of_text(value):
    """The number that a text holds, if it holds one of 64 bits."""
    return number_in(Decimal(value.strip())) if isinstance(value, str) and NUMBER.fullmatch(value) else None


def scaled(number, power):
    """A number times a power of ten, exactly."""
    sign, digits, exponent = Decimal(number).as_tuple()
    return Decimal((sign, digits, exponent + power))


def decimal_text(number):
    """A number in as few digits as say it exactly; with an exponent where it is too small for a time."""
    if number == 0:
        return "0"
    text = format(number, "f" if number.adjusted() > -30 else "e")
    return text.rstrip("0").rstrip(".") if "." in text and "e" not in text else text


class Owners:
    """The numbers of processes, or of threads, that are texts."""

    def __init__(self, what):
        self.what, self.given, self.taken, self.next = what, {}, set(), FIRST
        self.numbers = set()

    def number_of(self, name):
        """The number of a text, which no number that has come is."""
        if name not in self.given:
            while self.next in self.taken:
                self.next += 1
            self.given[name] = self.next
            self.numbers.add(self.next)
            self.next += 1
        return self.given[name]

    def see(self, number):
        """Notes a number of the trace's own."""
        if number >= FIRST:
            if number in self.numbers:
                raise NoTrace(f"the {self.what} {number} came after this number was given to a text")
            self.taken.add(number)


class Converter:
    """What was changed so far, and the numbers that were given."""

    def __init__(self, unit, makes_whole):
        self.processes, self.threads = Owners("process"), Owners("thread")
        self.named, self.changes = set(), Counter()
        self.power, self.makes_whole = UNITS[unit], makes_whole
        self.elements, self.greatest_start, self.fractions = 0, 0, 0
        made = "made whole microseconds" if makes_whole else "made microseconds"
        self.begun = "starts rounded down" if unit == "us" else f"starts {made}"
        self.lasted = "durations rounded" if unit == "us" else f"durations {made}"

    def converted(self, element, text):
        """The text of an element as it shall be, with the metadata events before it that it needs; None where it stays."""
        self.elements += 1
        if not isinstance(element, dict):
            return None
        members, edits, heads = members_at(text, 0), [], []
        phase = element.get("ph")
        if phase != "M":
            self.change_times(members, phase, text, edits)
        if phase == "C" and isinstance(element.get("args"), dict):
            self.round_values(members_at(text, members["args"].start), text, edits)
        self.number_owners(members, edits, heads)
        if not edits:
            return None
        for member, new in sorted(edits, key=lambda edit: edit[0].start, reverse=True):
            text = text[: member.start] + new + text[member.end :]
        return ",\n".join([*heads, text])

    def edit(self, edits, text, member, new, change):
        """Puts a text in the place of a member's value, where it isn't written so."""
        if text[member.start : member.end] != new:
            edits.append((member, new))
            self.changes[change] += 1

    def change_times(self, members, phase, text, edits):
        """Gives an event its start and its duration in microseconds, whole ones where that is wanted."""
        start, length = members.get("ts"), members.get("dur")
        begun = number_in(start.value) if start else None
        if begun is None:
            return
        self.greatest_start = max(self.greatest_start, abs(begun))
        begun = scaled(begun, self.power)
        self.put_time(edits, text, start, floor(begun) if self.makes_whole else begun, self.begun)
        lasted = number_in(length.value) if length and phase == "X" else None
        if lasted is not None:
            lasted = scaled(lasted, self.power)
            self.put_time(edits, text, length, floor(begun + lasted) - floor(begun) if self.makes_whole else lasted, self.lasted)

    def put_time(self, edits, text, member, time, change):
        """Puts a time in the place of a member's value, where one is to be changed, and counts those that aren't whole then."""
        new = text[member.start : member.end]
        if self.makes_whole or self.power != 0:
            new = str(time) if self.makes_whole else decimal_text(time)
            self.edit(edits, text, member, new, change)
        if not WHOLE.fullmatch(new):
            self.fractions += 1

    def round_values(self, series, text, edits):
        """Rounds the values of a counter down."""
        for member in series.values():
            number, of_text = number_in(member.value), number_of_text(member.value)
            if number is not None:
                self.edit(edits, text, member, str(floor(number)), "values of counters rounded down")
            elif of_text is not None:
                self.edit(edits, text, member, str(floor(of_text)), "values of counters that were texts")

    def number_owners(self, members, edits, heads):
        """Makes numbers of a process and a thread that are texts, and names them."""
        process = self.number_owner(members.get("pid"), self.processes, edits)
        thread = self.number_owner(members.get("tid"), self.threads, edits)
        for what, owner, name in ("process", (process,), members.get("pid")), ("thread", (process, thread), members.get("tid")):
            is_given = name is not None and owner[-1] is not None and owner[-1] != name.value and number_of_text(name.value) is None
            if is_given and None not in owner and (what, owner) not in self.named:
                self.named.add((what, owner))
                ids = dict(zip(("pid", "tid"), owner))
                heads.append(json.dumps({"ph": "M", "name": f"{what}_name", **ids, "args": {"name": name.value}}))

    def number_owner(self, member, owners, edits):
        """The number of a process or a thread, if it has or gets one; a missing one is 0."""
        if member is None:
            return 0
        number = number_in(member.value)
        if is_whole(number):
            owners.see(number)
            return number
        held = number if number is not None else number_of_text(member.value)
        if held is not None and held == floor(held):
            owners.see(floor(held))
            edits.append((member, str(floor(held))))
            self.changes[f"numbers of a {owners.what} written as whole ones"] += 1
            return floor(held)
        if not isinstance(member.value, str):
            return None
        edits.append((member, str(owners.number_of(member.value))))
        self.changes[f"texts for a {owners.what} that got a number"] += 1
        return owners.number_of(member.value)


def copy(source, converter, keeps_cut):
    """Puts the elements as they shall be, and says up to which byte they are whole, if the trace is cut off and that is wanted."""
    try:
        for element, text in elements_of(source):
            converted = converter.converted(element, text)
            if converted is not None:
                source.replace(converted)
    except Cut as cut:
        if source.closers is None:
            raise NoTrace("not JSON: it is cut off before its elements") from cut
        if not keeps_cut:
            raise NoTrace(f"{cut}; --cut keeps the whole elements before that") from cut
        source.close()
        return cut.at
    return None


def words():
    parser = argparse.ArgumentParser(description=__doc__.split("\n")[0], epilog="The trace is read on standard input.")
    parser.add_argument("--unit", choices=UNITS, default="us", help="of the times [default: us]")
    parser.add_argument("--whole", action="store_true", help="round times down to whole microseconds")
    parser.add_argument("--cut", action="store_true", help="take a trace that is cut off up to its last whole element")
    return parser.parse_args()


def main():
    asked = words()
    source_file = io.TextIOWrapper(sys.stdin.buffer, encoding="utf-8", errors="surrogateescape", newline="")
    out = io.TextIOWrapper(sys.stdout.buffer, encoding="utf-8", newline="")
    source, converter = Source(source_file, out.write, parse_float=Decimal), Converter(asked.unit, asked.whole)
    try:
        cut = copy(source, converter, asked.cut)
        out.flush()
    except (NoTrace, UnicodeError, OSError) as error:
        sys.exit(f"{NAME}: {error}")
    for line in notes(converter, cut):
        print(f"{NAME}: {line}", file=sys.stderr)


def notes(converter, cut):
    """What was changed, line by line."""
    for change, count in sorted(converter.changes.items()):
        yield f"{count} {change}"
    if cut is not None:
        yield f"cut off behind byte {cut}: {converter.elements} whole elements kept"
    elif not converter.changes:
        yield "nothing was changed"
    if converter.fractions:
        yield f"{converter.fractions} times with fractions: tracebook --nanoseconds reads them"
    if converter.power == 0 and 0 < converter.greatest_start < 1:
        yield "all times are below one: if they are seconds, convert with --unit s"


if __name__ == "__main__":
    main()
