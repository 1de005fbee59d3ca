"""The values of columns, by docs/report.md alone: each in a tuple with its place in the order of kinds, so that they compare as keys do."""
from reading import is_whole

MISSING, NIL, OTHER = (0,), (1,), (5,)
FLAG, WHOLE, WORDS = 2, 3, 4


def whole(number):
    return (WHOLE, number)


def words(text):
    return (WORDS, text)


def name_value(name):
    return MISSING if name is None else words(name)


def argument_value(args, key):
    if key not in args:
        return MISSING
    value = args[key]
    if value is None:
        return NIL
    if type(value) is bool:
        return (FLAG, value)
    if type(value) is str:
        return words(value)
    return whole(value) if is_whole(value) else OTHER


def plain_text(value):
    """The text of a value, as conditions have it."""
    texts = {MISSING: "", NIL: "null", OTHER: "...", (FLAG, False): "false", (FLAG, True): "true"}
    return texts[value] if value in texts else str(value[1])
