"""Which spans a table takes, and what of their texts, by docs/report.md alone: what conditions leave, and merged templates."""
import re
from dataclasses import dataclass

from merged import merged
from values import WORDS, plain_text, words

# A column, what parts it from the text, and the text. The first `=` or `~` parts them, with a `!` right before it.
CONDITION = re.compile("([^=~]*?)(!?[=~])(.*)", re.DOTALL)
PARENT, ARGUMENT = "parent.", "args."


@dataclass(frozen=True)
class Condition:
    column: str
    operator: str
    text: str

    def holds(self, value):
        own = plain_text(value)
        holds = own == self.text if self.operator.endswith("=") else self.text in own
        return holds != self.operator.startswith("!")


def condition_of(word):
    """The condition that a word says."""
    found = CONDITION.fullmatch(word)
    if not found or found[2].endswith("~") and not found[3]:
        raise ValueError(word)
    return Condition(*found.groups())


def is_merged(column):
    """Whether a column has names or arguments, be they those of a parent."""
    own = column.removeprefix(PARENT)
    return own == "name" or own.startswith(ARGUMENT)


@dataclass(frozen=True)
class Narrowing:
    conditions: tuple = ()
    merges: bool = False

    def columns(self):
        """Those of the conditions, whether a text shows them or not."""
        return [condition.column for condition in self.conditions]

    def taken(self, column, value):
        """A value as it is taken."""
        return words(merged(value[1])) if self.merges and value[0] == WORDS and is_merged(column) else value

    def key(self, columns, value_in):
        """The key in these columns of what has these values in columns; none, where a condition doesn't hold."""
        if all(each.holds(self.taken(each.column, value_in(each.column))) for each in self.conditions):
            return tuple(self.taken(column, value_in(column)) for column in columns)
        return None


ALL = Narrowing()
