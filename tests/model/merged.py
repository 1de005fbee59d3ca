"""The merged texts of names with templates, by docs/report.md alone."""
import re
from functools import cache

# What counts as other bytes: an operator that follows its word directly, of which the longest is meant, and an arrow anywhere. A word has
# letters, digits, underscores, and characters beyond ASCII.
OPERATORS = ["<=>", "<<=", ">>=", "->*", "<<", ">>", "<=", ">=", "->", "<", ">"]
OTHERS = re.compile(rf"(?<![A-Za-z0-9_\u0080-\U0010ffff])operator(?:{'|'.join(map(re.escape, OPERATORS))})|->")
NEITHER = "x"


def match_of(brackets, place):
    """Where the match of a `<` is: the first place behind it up to which, both included, as many `<` as `>` stand; or none."""
    more = 0
    for end in range(place, len(brackets)):
        more += (brackets[end] == "<") - (brackets[end] == ">")
        if more == 0:
            return end
    return None


@cache
def merged(text):
    # The same text, in which what counts as other bytes is neither of the two.
    brackets = OTHERS.sub(lambda found: NEITHER * len(found[0]), text)
    written, place = "", 0
    while place < len(text):
        match = match_of(brackets, place) if brackets[place] == "<" else None
        written += text[place] if match is None else "<$>"
        place = (place if match is None else match) + 1
    return written
