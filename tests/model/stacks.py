#!/usr/bin/env python3
"""A plain model of the folded stacks of a thread, of a run, and of runs that are added (docs/report.md). With --apart each FILE is a run of
its own. Files are looked for, read and collected as for tables (tables.py); like these, it is written from the page alone. It knows no
bound of the labels.

usage: stacks.py [--seal] [--strict] [--nanoseconds] [--apart] [--group-by COLUMNS] [--merge-templates] [FILE...]
"""
import re
import sys
from collections import Counter, deque

import tables
from merged import merged
from reading import is_whole
from report import text_of
from said import Said
from values import MISSING, name_value

NAME = "name"


def word_of(value):
    """A value of an argument as a word of a label."""
    if value is None:
        return "null"
    if type(value) is bool:
        return "true" if value else "false"
    if type(value) is str:
        return value
    return str(value) if is_whole(value) else "..."


def label_of(columns, name, args, merges=False):
    """What a span of this name and these arguments has in the columns, each merged or not, separated by spaces. Of what is no text the
    word has no brackets."""
    words = []
    for column in columns:
        key = column.removeprefix("args.")
        if column == NAME:
            words.append(name)
        elif key in args:
            words.append(word_of(args[key]))
    return " ".join(map(merged, words) if merges else words)


def stacks_of(spans, columns=(NAME,), merges=False):
    """The stacks of a thread's closed spans (start, end, position, name, arguments) in order, each a tuple of labels by these columns
    (`name` or `args.KEY`), with templates merged or not, and its time."""
    waiting = deque(sorted(spans, key=lambda span: (span[0], -span[1], span[2])))
    times = sorted({time for start, end, *_ in spans for time in (start, end)})
    covering, stacks = [], Counter()
    for now, later in zip(times, times[1:]):
        covering = [span for span in covering if span[0] > now]
        while waiting and waiting[0][0] == now:
            _, end, _, name, args = waiting.popleft()
            covering.append((end, label_of(columns, name, args, merges)))
        stack = tuple(label for end, label in covering if end > now)
        if stack:
            stacks[stack] += later - now
    return sorted(stacks.items())


def frame(text):
    return re.sub(r"[\x00-\x1f]", " ", text.replace(";", ":")) or "-"


def name_or_number(name, number):
    return str(number) if name is None else name


def line_of(process, thread, stack, time):
    return f"{';'.join(map(frame, [process, thread, *stack]))} {time}"


def folded_lines(ledger, columns, merges):
    for number, process in sorted(ledger.processes.items()):
        for (_, own), thread in sorted(process.threads.items()):
            owner = name_or_number(process.name, number), name_or_number(thread.name, own)
            for stack, time in stacks_of(thread.closed, columns, merges):
                yield line_of(*owner, stack, time)


def folded_of(ledger, columns=(NAME,), merges=False):
    """The text of a run's stacks."""
    return text_of(folded_lines(ledger, columns, merges))


# Runs that are added


def named_stacks(ledger, columns, merges):
    """Each stack of a run under the names of its process and of its thread, which may be missing, with its time."""
    for process in ledger.processes.values():
        for thread in process.threads.values():
            for stack, time in stacks_of(thread.closed, columns, merges):
                yield (name_value(process.name), name_value(thread.name), stack), time


def added_stacks(ledgers, columns, merges):
    """The time of each stack of all runs, by what it stands under, in order. A missing name comes before all others."""
    times = Counter()
    for ledger in ledgers:
        for key, time in named_stacks(ledger, columns, merges):
            times[key] += time
    return sorted(times.items())


def name_or_hyphen(value):
    return "-" if value == MISSING else value[1]


def folded_of_runs(ledgers, columns=(NAME,), merges=False):
    """The text of the stacks of all runs."""
    added = added_stacks(ledgers, columns, merges)
    return text_of(line_of(*map(name_or_hyphen, owner), stack, time) for (*owner, stack), time in added)


# The command line


def text_of_line(line):
    """The text, and what is said beside it."""
    columns = line.group_by.split(",") if line.group_by else [NAME]
    if not line.apart:
        run = tables.run_of(line, line.files)
        return folded_of(run.ledger, columns, line.merge_templates), run.said
    runs = [tables.run_of(line, [file]) for file in line.files]
    text = folded_of_runs([run.ledger for run in runs], columns, line.merge_templates)
    return text, sum((run.said for run in runs), Said())


if __name__ == "__main__":
    sys.exit(tables.print_text(text_of_line))
