"""What a table sums, by docs/report.md alone: the closed spans of threads, or async keys, each with its value in a column and with its
numbers."""
from dataclasses import dataclass
from functools import partial
from itertools import repeat
from operator import add

from ledger import self_times
from narrowing import ALL, ARGUMENT, PARENT
from parents import are_outer, parents_of
from values import MISSING, argument_value, name_value, whole, words

MOST_COLUMNS = 8
# Of this number the greatest is taken where others are added up; for this one it is looked which spans are outer.
LONGEST, OUTER = "longest", "outer"
# The numbers that are times.
TIMES = ("self", "total", LONGEST, OUTER)


@dataclass(frozen=True)
class Of:
    """What a table sums: its columns, but for those of arguments, and what these begin with; its numbers, as they are summed; and those
    that JSON Lines, and texts for people, have where none are named."""

    columns: tuple
    arguments: tuple
    numbers: tuple
    lines: tuple
    texts: tuple
    # Those by which equal changes go behind the times, and those that a comparison for people leaves out where none are named.
    last: tuple
    left_out: tuple
    # A key has some of these.
    counted: tuple

    def has_column(self, column):
        has_key = column.startswith(self.arguments) and column not in self.arguments and "," not in column
        return column in self.columns or has_key

    def columns_of(self, text):
        """The columns of a list with commas."""
        columns = text.split(",")
        if len(columns) > MOST_COLUMNS or len(set(columns)) < len(columns) or not all(map(self.has_column, columns)):
            raise ValueError(text)
        return columns

    def has_numbers(self, names):
        """Whether these are different numbers of this, at least one."""
        return 0 < len(names) == len(set(names)) and set(names).issubset(self.numbers)


SPANS = Of(
    columns=("pid", "tid", "process", "thread", "name", "file", PARENT + "name"),
    arguments=(ARGUMENT, PARENT + ARGUMENT),
    numbers=("count", "total", "self", LONGEST, OUTER),
    lines=("count", "total", "self"),
    texts=("self", "total", "count"),
    last=(),
    left_out=(),
    counted=("count",),
)
ASYNC = Of(
    columns=("cat", "scope", "id", "name", "file"),
    arguments=(),
    numbers=("closed", "total", "open", "points", LONGEST),
    lines=("closed", "total", "open", "points"),
    texts=("total", "closed", "open", "points"),
    last=("open", "closed"),
    left_out=("points",),
    counted=("closed", "open", "points"),
)


def own_value(column, span):
    """The value of a column that says something of a span itself."""
    return words(span[3]) if column == "name" else argument_value(span[4], column.removeprefix(ARGUMENT))


def span_value(run, number, span, parent, column):
    """The value of a column at a closed span of the thread of this number, which has this parent, or none."""
    process = run.ledger.processes[number[0]]
    if column == "file":
        return words(run.name)
    if column in ("pid", "tid"):
        return whole(number[column == "tid"])
    if column == "process":
        return name_value(process.name)
    if column == "thread":
        return name_value(process.threads[number].name)
    if column.startswith(PARENT):
        return MISSING if parent is None else own_value(column.removeprefix(PARENT), parent)
    return own_value(column, span)


def async_value(run, key, column):
    """The value of a column at an async key, whose id has the process before it that it is local to."""
    category, scope, (_, *id_), name = key
    return words({"cat": category, "scope": scope, "id": ":".join(map(str, id_)), "name": name, "file": run.name}[column])


def outer_lengths(spans):
    """The length of each of the closed spans of a thread that is outer, and 0 of the others."""
    return [end - start if is_outer else 0 for (start, end, *_), is_outer in zip(spans, are_outer(spans))]


def span_sums(run, has_parents, has_outer):
    """What gives the values of each closed span of a run in columns, and its numbers. Parents are looked for where a column has them, and
    outer spans where a number is of these."""
    for process in run.ledger.processes.values():
        for number, thread in process.threads.items():
            parents = parents_of(thread.closed) if has_parents else repeat(None)
            outer = outer_lengths(thread.closed) if has_outer else repeat(0)
            for span, own, parent, outer_length in zip(thread.closed, self_times(thread.closed), parents, outer):
                length = span[1] - span[0]
                yield partial(span_value, run, number, span, parent), (1, length, own, length, outer_length)


def async_sums(run, has_parents, has_outer):
    """The same of each async key of a run, which has no parent, and none of which is outer."""
    assert not has_parents and not has_outer
    for key, spans in run.ledger.async_keys.items():
        yield partial(async_value, run, key), (spans.closed, spans.total, len(spans.open), spans.points, spans.longest)


SUMS = {SPANS: span_sums, ASYNC: async_sums}


def keyed_sums(of, run, columns, names, narrowing=ALL):
    """The key of each span of a run that is summed by these columns, and its numbers of these names."""
    has_parents = any(column.startswith(PARENT) for column in [*columns, *narrowing.columns()])
    places = [of.numbers.index(name) for name in names]
    for value_in, numbers in SUMS[of](run, has_parents, OUTER in names):
        key = narrowing.key(columns, value_in)
        if key is not None:
            yield key, tuple(numbers[place] for place in places)


def added(keyed, names):
    """The sums of each key, of keys that each have numbers of these names."""
    rows, joins = {}, [max if name == LONGEST else add for name in names]
    for key, numbers in keyed:
        before = rows.get(key)
        rows[key] = numbers if before is None else tuple(join(a, b) for join, a, b in zip(joins, before, numbers))
    return rows
