#!/usr/bin/env python3
"""A plain model of the texts of repeated runs (docs/report.md): how the numbers of each key are spread over the repetitions of two sides.
Each FILE is a run of its own, or with --add the table of one (tables.py); like these, it is written from the page alone.

usage: repeats.py [--seal] [--strict] [--nanoseconds] [--of spans|async] [--add] [--top N | --json] [--by NUMBER] [--group-by COLUMNS]
                  [--where CONDITION].. [--merge-templates] [--only TEXT].. [--skip TEXT].. --base FILE.. [FILE...]
"""
import sys
from dataclasses import dataclass

import tables
from report import first_lines, text_of
from said import Said, Stopped
from sums import ASYNC, SPANS
from tables import members, number_members

MOST = 64


@dataclass(frozen=True)
class Spread:
    """The middle one of the values, of an even number the lower of both, and the first and the last."""

    median: int
    least: int
    greatest: int


def spread_of(values):
    ordered = sorted(values)
    return Spread(ordered[(len(ordered) - 1) // 2], ordered[0], ordered[-1])


@dataclass
class Sides:
    """The tables of the repetitions of both sides, all of one kind, unit and columns, and the number whose values are printed."""

    base: list
    other: list
    by: str
    wanted: tables.Wanted

    def first(self):
        return self.base[0]

    def keys(self):
        """Each key that a repetition has, in order."""
        return sorted({key for table in [*self.base, *self.other] for key in table.rows})

    def shown_keys(self):
        return filter(self.wanted.shows, self.keys())

    def values(self, key):
        """Those of both sides under a key, 0 where a repetition lacks it."""
        return tuple([table.number(self.by, table.numbers_at(key)) for table in side] for side in (self.base, self.other))

    def sums(self):
        """Each side's tables added up."""
        return tuple(tables.sum_of(side, self.first().columns) for side in (self.base, self.other))

    def spreads(self):
        """Each key that is shown, in order, with the spreads of both sides."""
        for key in self.shown_keys():
            yield key, *map(spread_of, self.values(key))


def are_apart(earlier, later):
    return earlier.greatest < later.least or later.greatest < earlier.least


NUMBERS = ["dmedian", "median0", "median1", "least0", "greatest0", "least1", "greatest1"]


def numbers_of(earlier, later):
    """The numbers of a row, below their titles."""
    yield tables.difference(earlier.median, later.median)
    yield from (earlier.median, later.median, earlier.least, earlier.greatest, later.least, later.greatest)


def row_line(key, *both):
    return " ".join([*(tables.right("total", number) for number in numbers_of(*both)), *map(tables.value_text, key)])


def repeats_lines(sides, most):
    base, other = sides.sums()
    yield from first_lines(other.unit)
    for line in base.head_lines():
        yield f"base {line}"
    yield from other.head_lines()
    yield from sides.wanted.line(sides.keys())
    yield tables.title_line([("total", name) for name in NUMBERS], other.columns)
    spreads = list(sides.spreads())
    apart = [row for row in spreads if are_apart(*row[1:])]
    apart.sort(key=lambda row: (-abs(row[1].median - row[2].median), row[0]))
    yield from tables.first_rows([row_line(*row) for row in apart], most)
    same = same_of(spreads)
    yield f"overlap {len(spreads) - len(apart) - same} same {same}"


def same_of(spreads):
    """How many keys have the same spread on both sides."""
    return sum(earlier == later for _, earlier, later in spreads)


def repeats_of(sides, most=None):
    return text_of(repeats_lines(sides, most))


def json_repeats_lines(sides):
    spreads, sums = list(sides.spreads()), sides.sums()
    first = [*tables.first_members(sides.first()), *number_members(["rows", "same"], [len(spreads), same_of(spreads)])]
    yield members([*first, *((side, members(tables.counts_members(table))) for side, table in zip(("base", "other"), sums))])
    for key, _, _ in spreads:
        lists = [f"[{','.join(map(tables.number, values))}]" for values in sides.values(key)]
        yield members([*tables.key_members(sides.first().columns, key), *zip(("values0", "values1"), lists)])


def json_repeats_of(sides):
    """The text, or none where a number is too great."""
    return tables.text_or_none(json_repeats_lines(sides))


# The command line


def collected(line):
    """The tables of both sides, one of each file."""
    of = ASYNC if line.of == "async" else SPANS
    columns, narrowing = of.columns_of(line.group_by or tables.usual_columns(line, of)), tables.narrowing_of(line)
    sides = ([tables.run_of(line, [file]) for file in files] for files in (line.base, line.files))
    return [[tables.table_of(columns, [run], True, of, narrowing, tables.list_of(line, of)) for run in runs] for runs in sides]


def printed(line):
    """The same of files that are tables."""
    sides = tables.tables_of_files(line)
    columns, narrowing = tables.wanted_columns(line, sides[0][0]), tables.narrowing_of(line)
    return [[tables.sum_of([table], columns, narrowing) for table in side] for side in sides]


def text_of_line(line):
    """The text, and what is said beside it."""
    if not 1 <= len(line.base) <= MOST or len(line.files) > MOST:
        raise Stopped("tracebook: 41 FileCount")
    base, other = printed(line) if line.add else collected(line)
    sides = Sides(base, other, line.by or base[0].usual_by(), tables.Wanted(line.only, line.skip))
    text = json_repeats_of(sides) if line.json else repeats_of(sides, line.top)
    if text is None:
        raise Stopped("tracebook: 55 TooGreat")
    return text, Said() if line.add else tables.said_beside([*base, *other])


if __name__ == "__main__":
    sys.exit(tables.print_text(text_of_line))
