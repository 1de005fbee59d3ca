"""The elements of a file and the event of an element, by docs/format.md alone."""
import json
import re
from fractions import Fraction

MOST_BYTES, MOST_ELEMENTS = 67_108_864, 4_194_304
MOST_LARGE = 2**32 - 1
DEEPEST = 127
BLANKS = " \t\n\r"


class Refused(Exception):
    """A file or an event that is refused, with its number."""

    def __init__(self, number):
        super().__init__(number)
        self.number = number


# The file


def integer(digits):
    """A number without point and exponent: `-0` is read as a float, and so is one that fits no 64 bits."""
    return real(digits) if digits == "-0" or len(digits) > 20 else int(digits)


def real(digits):
    value = float(digits)
    if value in (float("inf"), float("-inf")):
        raise ValueError("a number too large for a float")
    return value


def no_number(word):
    raise ValueError(f"{word} is no JSON")


DECODER = json.JSONDecoder(parse_int=integer, parse_float=real, parse_constant=no_number)
# An escape that stands for a character, or two that stand for one. Half of such a pair stands for none.
ESCAPE = re.compile(rb'\\(?:["\\/bfnrt]|u(?![dD][89a-fA-F])....|u[dD][89abAB]..\\u[dD][c-fC-F]..)')
TEXT = re.compile(rb'"[^"]*"')
ALL_SQUARE = bytes.maketrans(b"{}", b"[]")
NEITHER = bytes(set(range(256)) - set(b'"[]{}'))


def nests_too_deep(plain):
    """Whether JSON without escapes nests too deep. Each round takes out the innermost brackets."""
    brackets = TEXT.sub(b"", plain.translate(ALL_SQUARE, NEITHER).replace(b'""', b""))
    for _ in range(DEEPEST):
        brackets = brackets.replace(b"[]", b"")
    return brackets != b""


def read_json(text):
    try:
        value = DECODER.decode(text)
    except (ValueError, RecursionError):
        raise Refused(1) from None
    plain = ESCAPE.sub(b"", text.encode())
    if b"\\" in plain or nests_too_deep(plain):
        raise Refused(1)
    return value


def candidates(text):
    yield text
    if text.lstrip(BLANKS).startswith("["):
        shorter = text.rstrip(BLANKS).removesuffix(",").rstrip(BLANKS)
        yield shorter
        yield shorter + "]"


def document_of(text):
    for candidate in candidates(text):
        try:
            return read_json(candidate)
        except Refused:
            pass
    raise Refused(1)


def elements_of(data, large=False):
    """The elements of a file's bytes, or of those of a large one."""
    if len(data) > (MOST_LARGE if large else MOST_BYTES):
        raise Refused(3)
    try:
        text = data.decode("utf-8")
    except UnicodeDecodeError:
        raise Refused(1) from None
    document = document_of(text)
    elements = document.get("traceEvents") if type(document) is dict else document
    if type(elements) is not list:
        raise Refused(2)
    if len(elements) > (MOST_LARGE if large else MOST_ELEMENTS):
        raise Refused(4)
    return elements


# The elements

PHASES = frozenset("BEXbnestfCiIM")
WITH_ID = frozenset("bnestfC")
LEAST_64, MOST_64 = -(2**63), 2**63 - 1
# The units of time, each with the greatest number of it that a time may be.
MICROSECONDS, NANOSECONDS = "microseconds", "nanoseconds"
MOST_TIME = {MICROSECONDS: 2**53 - 1, NANOSECONDS: 2**62 - 1}


def is_whole(value, least=LEAST_64, most=MOST_64):
    return type(value) is int and least <= value <= most


class Event:
    """A good event. Its id is a process, or none, and a text."""

    __slots__ = ("phase", "time", "length", "process", "thread", "name", "category", "id", "scope", "reach", "args")

    def __init__(self, element, phase, unit):
        """Reads the fields in the order of their faults."""
        self.phase = phase
        self.time = 0 if phase == "M" else time_of(element, unit)
        self.length = length_of(element, unit) if phase == "X" else 0
        self.process = whole_of(element, "pid")
        self.thread = (self.process, whole_of(element, "tid"))
        self.name = text_of(element, "name")
        self.category = text_of(element, "cat")
        self.id = id_of(element, self.process) if phase in WITH_ID else None
        self.scope = text_of(element, "scope") if phase in "bne" else ""
        if self.id is None and phase in "bnestf":
            raise Refused(17)
        self.reach = reach_of(element) if phase in "iI" else None
        self.args = args_of(element)
        if phase == "C" and not all(is_whole(value) for value in self.args.values()):
            raise Refused(19)


def time_in(unit, value, least):
    """A number of microseconds in the unit: as it is, or in nanoseconds the whole number nearest to it, of two as near the even one."""
    if unit == NANOSECONDS and type(value) in (int, float):
        value = round(Fraction(value) * 1000)
    if not is_whole(value, least, MOST_TIME[unit]):
        raise Refused(14)
    return value


def time_of(element, unit):
    if "ts" not in element:
        raise Refused(13)
    return time_in(unit, element["ts"], -MOST_TIME[unit])


def length_of(element, unit):
    if "dur" not in element:
        raise Refused(15)
    return time_in(unit, element["dur"], 0)


def whole_of(element, member):
    value = element.get(member, 0)
    if not is_whole(value):
        raise Refused(16)
    return value


def text_of(element, member):
    value = element.get(member, "")
    if type(value) is not str:
        raise Refused(16)
    return value


def id_of(element, process):
    """The id of an event, or none."""
    if "id" in element:
        return (None, id_text(element["id"]))
    if "id2" not in element:
        return None
    both = element["id2"]
    if type(both) is dict and "global" in both:
        return (None, id_text(both["global"]))
    if type(both) is dict and "local" in both:
        return (process, id_text(both["local"]))
    raise Refused(16)


def id_text(value):
    if type(value) is not str and not is_whole(value):
        raise Refused(16)
    return str(value)


def reach_of(element):
    reach = element.get("s", "t")
    if type(reach) is not str or reach not in ("g", "p", "t"):
        raise Refused(18)
    return reach


def args_of(element):
    args = element.get("args")
    return args if type(args) is dict else {}


def event_of(element, unit=MICROSECONDS):
    """The event of an element, or none where its phase isn't used."""
    if type(element) is not dict:
        raise Refused(11)
    phase = element.get("ph")
    if type(phase) is not str:
        raise Refused(12)
    return Event(element, phase, unit) if phase in PHASES else None
