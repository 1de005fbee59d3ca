#!/usr/bin/env python3
"""A plain model of the tables of docs/report.md (table.py): closed spans or async keys (sums.py) summed by columns, as a ranking, a
comparison, and JSON Lines. Files are looked for (folders.py), read and collected as for the report (report.py); like that, it is written
from the pages alone. With --add they are tables, which are added up. What is said of them stands in said.py.

usage: tables.py [--seal] [--strict] [--nanoseconds] [--of spans|async] [--apart | --add] [--top N | --json] [--by NUMBER]
                 [--numbers NUMBERS] [--group-by COLUMNS] [--where CONDITION].. [--merge-templates] [--only TEXT].. [--skip TEXT]..
                 [--base FILE].. [FILE...]
"""
import argparse
import gc
import json
import sys
from json.encoder import encode_basestring as json_text

from folders import STANDARD_INPUT, TABLES, TRACES, files_of
from narrowing import PARENT, Narrowing, condition_of
from reading import MICROSECONDS, NANOSECONDS
from report import bytes_of, collect, first_lines, text_of
from said import Said, Stopped
from sums import ASYNC, SPANS, TIMES
from table import ALL, COUNTS, Run, Table, Wanted, said_beside, sum_of, table_of
from values import MISSING, NIL, OTHER, WHOLE, WORDS, argument_value

RANKED_BY = "pid,tid,thread,name"
COMPARED_BY = "process,thread,name"
ASYNC_BY = "cat,name"
# The rows of a ranking that isn't asked for, but meant.
USUAL_ROWS = 20
# Below this are the numbers of JSON Lines.
BEYOND = 2**64


# Texts for people


def value_text(value):
    kind = value[0]
    if kind in (MISSING[0], NIL[0], OTHER[0]):
        return {MISSING: "-", NIL: "null", OTHER: "..."}[value]
    return json_value(value)


def title(column):
    return json_text(column)[1:-1]


def is_time(name):
    return name in TIMES


def right(name, text):
    """A number of this name, or its title, aligned."""
    return f"{text:>{16 if is_time(name) else 8}}"


def title_line(names, columns):
    """The titles of numbers, each with the name that aligns it, and of columns."""
    return " ".join([*(right(name, text) for name, text in names), *map(title, columns)])


def ranking_lines(table, most, by, wanted):
    yield from first_lines(table.unit)
    yield from table.head_lines()
    yield from wanted.line(table.rows)
    yield title_line([(name, name) for name in table.shown()], table.columns)
    shown = [(key, numbers) for key, numbers in table.rows.items() if wanted.shows(key)]
    for key, numbers in sorted(shown, key=lambda row: (-table.number(by, row[1]), row[0]))[:most]:
        yield " ".join([*(right(name, table.number(name, numbers)) for name in table.shown()), *map(value_text, key)])


def ranking_of(table, most, by=None, wanted=ALL):
    return text_of(ranking_lines(table, most, by or table.usual_by(), wanted))


def difference(base, other):
    return "0" if base == other else f"{other - base:+}"


def changes_of(base, other, by, wanted):
    """The shown keys of which a number differs, in order, each with its numbers in both, and how many shown keys have none."""
    keys = [key for key in base.rows.keys() | other.rows.keys() if wanted.shows(key)]
    both = [(key, base.numbers_at(key), other.numbers_at(key)) for key in keys]
    changed = [change for change in both if change[1] != change[2]]
    names = [by, *filter(is_time, other.shown()), *(name for name in other.of.last if name in other.shown())]

    def order(change):
        key, *sides = change
        numbers = [[other.number(name, side) for side in sides] for name in names]
        return [*(-abs(earlier - later) for earlier, later in numbers), key]

    return sorted(changed, key=order), len(both) - len(changed)


def compared_names(table):
    """The numbers of a comparison, the times before the others."""
    left_out = table.of.left_out if table.shown() == table.of.texts else ()
    return sorted((name for name in table.shown() if name not in left_out), key=is_time, reverse=True)


def compared_titles(names):
    """The titles of a comparison, each with the number that aligns it."""
    for name in names:
        if is_time(name):
            yield name, f"d{name}"
        yield from ((name, f"{name}0"), (name, f"{name}1"))


def compared_numbers(names, table, earlier, later):
    """The numbers below these titles."""
    for name in names:
        both = table.number(name, earlier), table.number(name, later)
        if is_time(name):
            yield right(name, difference(*both))
        yield from (right(name, number) for number in both)


def first_rows(rows, most):
    """The first rows, or all where no number is given, and a line that says how many more there are."""
    yield from rows[:most]
    if most is not None and len(rows) > most:
        yield f"more {len(rows) - most}"


def comparison_lines(base, other, by, wanted, most):
    yield from first_lines(other.unit)
    for line in base.head_lines():
        yield f"base {line}"
    yield from other.head_lines()
    yield from wanted.line(base.rows.keys() | other.rows.keys())
    names = compared_names(other)
    yield title_line(compared_titles(names), other.columns)
    changes, same = changes_of(base, other, by, wanted)
    rows = [" ".join([*compared_numbers(names, other, *numbers), *map(value_text, key)]) for key, *numbers in changes]
    yield from first_rows(rows, most)
    yield f"same {same}"


def comparison_of(base, other, by=None, wanted=ALL, most=None):
    return text_of(comparison_lines(base, other, by or other.usual_by(), wanted, most))


# JSON Lines


class TooGreat(Exception):
    """A number that would be printed is not below 2^64."""


def json_value(value):
    kind = value[0]
    if kind == WORDS:
        return json_text(value[1])
    if kind in (NIL[0], OTHER[0]):
        return {NIL: "null", OTHER: "{}"}[value]
    return str(value[1]).lower() if type(value[1]) is bool else str(value[1])


def number(count):
    if count >= BEYOND:
        raise TooGreat
    return str(count)


def members(names_and_texts):
    return "{" + ",".join(f"{json_text(name)}:{text}" for name, text in names_and_texts) + "}"


def key_members(columns, key):
    return [(column, json_value(value)) for column, value in zip(columns, key) if value != MISSING]


def number_members(names, numbers):
    return [(name, number(count)) for name, count in zip(names, numbers)]


def counts_members(table):
    return number_members(COUNTS, [table.counts[name] for name in COUNTS])


# What the head of JSON Lines says of what is summed and of the unit, and what it means.
OF_MEMBERS = {SPANS: [], ASYNC: [("of", '"async"')]}
OFS = {None: SPANS, "async": ASYNC}
UNIT_MEMBERS = {MICROSECONDS: [], NANOSECONDS: [("unit", '"ns"')]}
UNITS = {None: MICROSECONDS, "ns": NANOSECONDS}


def list_text(texts):
    return "[" + ",".join(map(json_text, texts)) + "]"


def first_members(table):
    return [("tracebook", "1"), *OF_MEMBERS[table.of], *UNIT_MEMBERS[table.unit], ("columns", list_text(table.columns))]


def numbers_members(table):
    """What the head says of the numbers, where they aren't the usual ones."""
    return [] if table.numbers() == table.of.lines else [("numbers", list_text(table.numbers()))]


def json_lines(table, wanted):
    rows = sorted((key, numbers) for key, numbers in table.rows.items() if wanted.shows(key))
    yield members([*first_members(table), *numbers_members(table), ("rows", number(len(rows))), *counts_members(table)])
    for key, numbers in rows:
        yield members(key_members(table.columns, key) + number_members(table.numbers(), numbers))


def json_of(table, wanted=ALL):
    """The text, or none where a number is too great."""
    return text_or_none(json_lines(table, wanted))


def json_comparison_lines(base, other, wanted):
    changes, same = changes_of(base, other, other.usual_by(), wanted)
    head = [*first_members(other), *numbers_members(other), *number_members(["rows", "same"], [len(changes), same])]
    yield members([*head, ("base", members(counts_members(base))), ("other", members(counts_members(other)))])
    names = [f"{name}{side}" for name in other.numbers() for side in (0, 1)]
    for key, earlier, later in changes:
        numbers = [part for both in zip(earlier, later) for part in both]
        yield members(key_members(other.columns, key) + number_members(names, numbers))


def json_comparison_of(base, other, wanted=ALL):
    return text_or_none(json_comparison_lines(base, other, wanted))


def text_or_none(lines):
    try:
        return text_of(lines)
    except TooGreat:
        return None


# Tables that were printed

# The kinds of value that a column can have; an argument can have any.
VALUES = {"pid": {WHOLE}, "tid": {WHOLE}, "process": {MISSING[0], WORDS}, "thread": {MISSING[0], WORDS}}
VALUES |= {column: {WORDS} for column in ["name", "file", "cat", "scope", "id"]}
VALUES |= {PARENT + "name": {MISSING[0], WORDS}}


def printed_value(column, members):
    """The value of a column in the object of a row."""
    value = argument_value(members, column)
    if value[0] not in VALUES.get(column, {value[0]}):
        raise ValueError(column)
    return value


def printed_number(members, name):
    if type(members[name]) is not int or not 0 <= members[name] < BEYOND:
        raise ValueError(name)
    return members[name]


def printed_numbers(of, names, members):
    """The numbers of the object of a row."""
    if set(of.counted).issubset(names) and not any(members[name] for name in of.counted):
        raise ValueError(of.counted)
    return tuple(printed_number(members, name) for name in names)


def printed_list(of, head):
    """The list of numbers that the head has, if it has one."""
    names = tuple(head.get("numbers", of.lines))
    if not of.has_numbers(names):
        raise ValueError(names)
    return names if "numbers" in head else ()


def table_of_text(data):
    """The table of which JSON Lines print just these bytes; there is none with any other text, such as one that was cut off."""
    head, *rows = [json.loads(line) for line in data.decode().split("\n")[:-1]] or [{}]
    of = OFS[head.get("of")]
    columns, named = of.columns_of(",".join(head["columns"])), printed_list(of, head)
    counts = {name: printed_number(head, name) for name in COUNTS}
    keyed = {tuple(printed_value(column, row) for column in columns): printed_numbers(of, named or of.lines, row) for row in rows}
    table = Table(columns, counts, keyed, unit=UNITS[head.get("unit")], of=of, named=named)
    if json_of(table) != data:
        raise ValueError("another text")
    return table


def table_of_file(name, data):
    try:
        return table_of_text(data)
    except (ValueError, KeyError, TypeError, AttributeError, RecursionError):
        raise Stopped(f"tracebook: {json_text(name)}: 53 NotTable") from None


def bytes_or_stop(path):
    try:
        return bytes_of(path)
    except OSError:
        raise Stopped(f"tracebook: {json_text(path)}: 52 NotOpened") from None


def tables_of_files(line):
    """The tables of the base's files, and those of the others. All sum what the first does, and have its unit, its columns and its
    numbers, and those columns and numbers that are asked for, be it by a condition."""
    tables, conditioned = [], narrowing_of(line).columns()
    asked = {*named_numbers(line, KINDS), *([line.by] if line.by else [])}
    for file in [*line.base, *line.files]:
        table = table_of_file(file.path, bytes_or_stop(file.path))
        first = tables[0] if tables else table
        is_like_first = kind_of(table) == kind_of(first)
        has_numbers = asked.issubset(table.numbers())
        if not is_like_first or not has_numbers or not set(table.columns).issuperset([*wanted_columns(line, table), *conditioned]):
            raise Stopped(f"tracebook: {json_text(file.path)}: 54 OtherColumns")
        tables.append(table)
    return tables[: len(line.base)], tables[len(line.base) :]


def kind_of(table):
    """In what all tables that are added are alike."""
    return table.of, table.unit, table.columns, table.named


def wanted_columns(line, table):
    return line.group_by.split(",") if line.group_by else table.columns


# The command line

# What a table may sum.
KINDS = SPANS, ASYNC


def words_of_line(words):
    """The words of a command line, with the files of both sides, the base's looked for before the others."""
    parser = argparse.ArgumentParser(allow_abbrev=False)
    for switch in "--seal", "--strict", "--nanoseconds", "--json", "--apart", "--add", "--merge-templates":
        parser.add_argument(switch, action="store_true")
    parser.add_argument("--top", type=int)
    parser.add_argument("--of", choices=["spans", "async"])
    parser.add_argument("--by", choices=sorted({*SPANS.numbers, *ASYNC.numbers}))
    parser.add_argument("--numbers")
    parser.add_argument("--group-by")
    for several in "--only", "--skip", "--base", "--where":
        parser.add_argument(several, action="append", default=[])
    parser.add_argument("files", nargs="*")
    line = parser.parse_intermixed_args(words)
    line.files = line.files or [STANDARD_INPUT]
    if [*line.base, *line.files].count(STANDARD_INPUT) > 1:
        parser.error("standard input is read once at most")
    if not (line.top or line.json or line.base):
        if not shapes_a_table(line):
            parser.error("no table is asked for")
        line.top = USUAL_ROWS
    line.base, line.files = (files_of(names, TABLES if line.add else TRACES) for names in (line.base, line.files))
    return line


def shapes_a_table(line):
    """Whether a table is meant, though no text is asked for."""
    shapes = [line.apart, line.add, line.of, line.by, line.group_by, line.only, line.skip, line.where, line.merge_templates]
    return any([*shapes, line.numbers is not None])


def named_numbers(line, kinds):
    """The list of numbers that the line names, if it does: of one of these kinds, and among them the one that rows go by."""
    if line.numbers is None:
        return ()
    names = tuple(line.numbers.split(","))
    if not any(of.has_numbers(names) for of in kinds) or line.by not in (None, *names):
        raise ValueError(line.numbers)
    return names


def list_of(line, of):
    """The list of the numbers of a table that is made for the line, where they aren't the usual ones. If it names none, a number to go by
    that isn't among these stands in front of them."""
    is_usual = line.by is None or line.by in of.texts
    return named_numbers(line, [of]) or (() if is_usual else (line.by, *of.texts))


def narrowing_of(line):
    """What the words say of which spans are summed. A condition is on a column that some table may have."""
    conditions = tuple(map(condition_of, line.where))
    unknown = [each.column for each in conditions if not SPANS.has_column(each.column) and not ASYNC.has_column(each.column)]
    if unknown:
        raise ValueError(unknown)
    return Narrowing(conditions, line.merge_templates)


def run_of(line, files):
    """The run of files."""
    read = [(file.path, bytes_of(file.path)) for file in files]
    ledger, said = collect(read, line.strict, NANOSECONDS if line.nanoseconds else MICROSECONDS)
    if line.seal:
        ledger.seal()
    return Run(ledger, len(files), said, files[0].shown)


def table_of_files(line, of, columns, files):
    runs = [run_of(line, [file]) for file in files] if line.apart else [run_of(line, files)]
    return table_of(columns, runs, line.apart, of, narrowing_of(line), list_of(line, of))


def usual_columns(line, of):
    """The columns where none are named."""
    if of == ASYNC:
        return ASYNC_BY
    return COMPARED_BY if line.json or line.base else RANKED_BY


def collected(line):
    """The tables of the base, if there is one, and of the other files."""
    of = ASYNC if line.of == "async" else SPANS
    columns = of.columns_of(line.group_by or usual_columns(line, of))
    sides = [line.base, line.files] if line.base else [line.files]
    return [table_of_files(line, of, columns, files) for files in sides]


def summed(line):
    """The same of files that are tables."""
    base, others = tables_of_files(line)
    shape = wanted_columns(line, others[0]), narrowing_of(line), named_numbers(line, KINDS)
    return [sum_of(tables, *shape) for tables in ([base, others] if base else [others])]


def text_of_line(line):
    """The text, and what is said beside it."""
    tables = summed(line) if line.add else collected(line)
    base, other = tables if line.base else (None, *tables)
    wanted = Wanted(line.only, line.skip)
    if line.json:
        text = json_comparison_of(base, other, wanted) if base else json_of(other, wanted)
    else:
        text = comparison_of(base, other, line.by, wanted, line.top) if base else ranking_of(other, line.top, line.by, wanted)
    if text is None:
        raise Stopped("tracebook: 55 TooGreat")
    return text, Said() if line.add else said_beside(tables)


def outcome_of(make, words):
    """The status of a command line, the text that is made of it, and what is said beside it, or the line of what stops."""
    try:
        text, said = make(words_of_line(words))
    except Stopped as stopped:
        return 2, b"", f"{stopped}\n"
    return 1 if said.faults else 0, text, text_of(said.lines()).decode()


def print_text(make):
    """Prints the outcome of the command line, and gives its status."""
    gc.disable()  # Nothing here is let go in rings, and to look for them takes long.
    status, text, lines = outcome_of(make, sys.argv[1:])
    sys.stdout.buffer.write(text)
    sys.stderr.write(lines)
    return status


if __name__ == "__main__":
    sys.exit(print_text(text_of_line))
