"""What is said of files on standard error beside a text, by docs/report.md alone."""
from dataclasses import dataclass, field
from json.encoder import encode_basestring as json_text

# So many files with refused events have a line of their own.
MOST_LISTED = 16
WORDS = {1: "NotJson", 2: "NotTrace", 3: "TooLarge", 4: "TooMany"}
WORDS |= {11: "NotObject", 12: "NoPhase", 13: "NoTime", 14: "NotWhole", 15: "NoDuration", 16: "BadField", 17: "NoId", 18: "BadReach"}
WORDS |= {19: "BadSeries", 21: "NoOpenSpan", 22: "TimeGoesBack", 23: "NoOpenAsync", 24: "EndBeforeBegin", 25: "FlowOpen", 26: "NoFlow"}
WORDS |= {27: "NameDiffers"}


class Stopped(Exception):
    """There is no text, and this line says why."""


@dataclass
class Said:
    """A line of each file that is no trace, one of each with refused events, and one of each column that no span has."""

    faults: list = field(default_factory=list)
    refusals: list = field(default_factory=list)
    columns: list = field(default_factory=list)

    def __add__(self, later):
        return Said(self.faults + later.faults, self.refusals + later.refusals, self.columns + later.columns)

    def refuse(self, name, number):
        """A file is no trace, by this number."""
        self.faults.append(f"tracebook: {json_text(name)}: {number} {WORDS[number]}")

    def count(self, name, accepted, refused):
        """A file has so many accepted events, and so many that are refused by each number."""
        if refused:
            most = min(refused, key=lambda number: (-refused[number], number))
            events = f"{refused.total()} of {accepted + refused.total()} events refused"
            self.refusals.append(f"tracebook: warning: {json_text(name)}: {events}, most by {most} {WORDS[most]}")

    def lack(self, column):
        """No span of a table has a value in a column."""
        self.columns.append(f"tracebook: warning: no span has {json_text(column)}")

    def warnings(self):
        yield from self.refusals[:MOST_LISTED]
        if len(self.refusals) > MOST_LISTED:
            yield f"tracebook: warning: files with refused events that are not listed: {len(self.refusals) - MOST_LISTED}"
        yield from self.columns

    def lines(self):
        return [*self.faults, *self.warnings()]
