"""Tables of runs and sums of tables, by docs/report.md alone: the counts and the keys of each, with their numbers; and which keys a text
shows."""
from dataclasses import dataclass, field

from narrowing import ALL as TAKES_ALL
from narrowing import ARGUMENT, PARENT
from reading import MICROSECONDS
from said import Said
from sums import SPANS, Of, added, keyed_sums
from values import MISSING, WORDS

# What the columns of arguments begin with that no span may have.
ARGUMENTS = ARGUMENT, PARENT + ARGUMENT


@dataclass
class Run:
    """What one ledger holds, of so many files, and what is said of them; and what the column `file` has where it is of one alone."""

    ledger: object
    files: int = 1
    said: Said = field(default_factory=Said)
    name: str = ""


# What a table counts beside its rows, in the order of JSON Lines.
COUNTS = ["runs", "files", "unread", "events", "refused", "skipped", "queries", "seals"]


def counts_of(run):
    ledger = run.ledger
    refused = sum(ledger.refused.values())
    return dict(zip(COUNTS, [1, run.files, len(run.said.faults), ledger.accepted, refused, ledger.skipped, 0, ledger.seals]))


def all_counts(each):
    return {name: sum(counts[name] for counts in each) for name in COUNTS}


@dataclass
class Table:
    columns: list
    counts: dict
    rows: dict  # the numbers of each key
    says_runs: bool = True
    unit: str = MICROSECONDS
    of: Of = SPANS
    named: tuple = ()  # its list of numbers, if there is one
    said: Said = field(default_factory=Said)  # of the files of its runs

    def numbers(self):
        """The names of the numbers that a key has here."""
        return self.named or self.of.lines

    def shown(self):
        """These in the order of a text for people."""
        return self.named or self.of.texts

    def usual_by(self):
        """The number that rows go by where none is named for that."""
        return self.shown()[0]

    def number(self, name, numbers):
        """The number of this name among those of a key."""
        return numbers[self.numbers().index(name)]

    def numbers_at(self, key):
        """Those of a key, which are 0 where it isn't here."""
        return self.rows.get(key, (0,) * len(self.numbers()))

    def keys_below(self, less, more):
        """How many keys have less of one number than of another."""
        return sum(self.number(less, numbers) < self.number(more, numbers) for numbers in self.rows.values())

    def head_lines(self):
        """The lines of the head behind its first ones, but for that of shown rows."""
        yield "events {events} refused {refused} skipped {skipped} queries {queries}".format(**self.counts)
        if self.counts["seals"]:
            yield "seals {seals}".format(**self.counts)
        if self.says_runs:
            yield "runs {runs} files {files} unread {unread}".format(**self.counts)


def table_of(columns, runs, says_runs=False, of=SPANS, narrowing=TAKES_ALL, named=()):
    names = named or of.lines
    rows = added((entry for run in runs for entry in keyed_sums(of, run, columns, names, narrowing)), names)
    said = sum((run.said for run in runs), Said())
    return Table(columns, all_counts([counts_of(run) for run in runs]), rows, says_runs, runs[0].ledger.unit, of, named, said)


def rows_by(columns, names, table, narrowing):
    """The keys of a table by these of its columns that are left, each with its numbers of these names."""
    for key, numbers in table.rows.items():
        left = narrowing.key(columns, dict(zip(table.columns, key)).get)
        if left is not None:
            yield left, tuple(table.number(name, numbers) for name in names)


def sum_of(tables, columns, narrowing=TAKES_ALL, named=()):
    """The sum of tables, by these of their columns, and with these of their numbers, or all."""
    first = tables[0]
    names = named or first.numbers()
    rows = added((row for table in tables for row in rows_by(columns, names, table, narrowing)), names)
    return Table(columns, all_counts([table.counts for table in tables]), rows, unit=first.unit, of=first.of, named=named or first.named)


def said_beside(tables):
    """What is said beside a text of these tables: of their files, and of each column of arguments in which none of their keys has a value,
    if there are keys."""
    said = sum((table.said for table in tables), Said())
    keys = [key for table in tables for key in table.rows]
    for place, column in enumerate(tables[0].columns):
        if keys and column.startswith(ARGUMENTS) and all(key[place] == MISSING for key in keys):
            said.lack(column)
    return said


@dataclass
class Wanted:
    """What a text of a key must have, and what none may."""

    only: list
    skip: list

    def shows(self, key):
        texts = [value[1] for value in key if value[0] == WORDS]
        return all(any(text in own for own in texts) for text in self.only) and not any(
            text in own for text in self.skip for own in texts
        )

    def line(self, keys):
        """How many of these keys are shown, where it is said."""
        if self.only or self.skip:
            yield f"shown {sum(map(self.shows, keys))} of {len(keys)}"


ALL = Wanted([], [])
