"""Reads the elements of a trace piece by piece, for the scripts beside it."""

import json
import re

MOST_BYTES = 67_108_864
BLOCK = 1 << 20
BLANKS = re.compile(r"[ \t\r\n]*")
STRING = re.compile(r'"(?:[^"\\]|\\.)*"', re.DOTALL)
IN_STRING = re.compile(r'[^"\\]+')
OUT_OF_STRING = re.compile(r'[^"{}\[\]]+')


class NoTrace(Exception):
    """Why a text is not a trace that can be read so."""


class Cut(NoTrace):
    """A text is cut off within an element, or within the object around them. `at` is the byte at which the last whole one ends."""

    def __init__(self, at):
        super().__init__(f"not JSON: it is cut off behind byte {at}")
        self.at = at


def refuse_constant(name):
    """Python reads `NaN` and the like, which are not JSON."""
    raise ValueError(name)


class Source:
    """A JSON text that is read piece by piece, with a place in it. What is passed goes to `put`, as it stands."""

    def __init__(self, file, put=lambda text: None, parse_float=None):
        self.file, self.put = file, put
        self.text, self.at, self.put_to, self.ended = "", 0, 0, False
        # What was passed since `hold`, until `release`, and how many bytes were read.
        self.held, self.read = None, 0
        # What closes the text where it stands, once its elements have begun.
        self.closers = None
        self.decode = json.JSONDecoder(parse_constant=refuse_constant, parse_float=parse_float).raw_decode

    def put_passed(self):
        """Puts what was passed since the last time, or holds it."""
        passed = self.text[self.put_to : self.at]
        if self.held is None:
            self.put(passed)
        else:
            self.held.append(passed)
        self.put_to = self.at

    def hold(self):
        """From here on nothing is put, until it is known that more comes whole."""
        self.put_passed()
        self.held = []

    def release(self):
        """Puts what was held."""
        if self.held is not None:
            self.put("".join(self.held))
        self.held = None

    def cut(self):
        """The text ends where more is meant."""
        return Cut(self.read - size("".join(self.held or []) + self.text[self.put_to :]))

    def close(self):
        """Closes the text behind what was put."""
        self.held, self.put_to = None, self.at
        self.put(self.closers)

    def fill(self):
        """Reads on, as much as is still in hand, or a block; false at the end."""
        self.put_passed()
        self.text = self.text[self.at :]
        self.at = self.put_to = 0
        more = self.file.read(max(BLOCK, len(self.text)))
        self.read += size(more)
        self.text += more
        self.ended = not more
        return not self.ended

    def peek(self):
        """The next character that is no blank; empty at the end."""
        while True:
            self.at = BLANKS.match(self.text, self.at).end()
            if self.at < len(self.text):
                return self.text[self.at]
            if not self.fill():
                return ""

    def next(self):
        """The same, which is passed."""
        found = self.peek()
        self.at += len(found)
        return found

    def take(self, wanted):
        """Whether this character comes next; it is passed then."""
        found = self.peek() == wanted
        self.at += found
        return found

    def value(self):
        """The value that begins at the character last peeked at, and its text."""
        self.put_passed()
        while True:
            try:
                value, end = self.decode(self.text, self.at)
            except (ValueError, RecursionError) as error:
                if len(self.text) - self.at > MOST_BYTES or not self.fill():
                    is_cut = self.ended and is_open(self.text, self.at)
                    raise self.cut() if is_cut else NoTrace(f"not JSON: {error}") from error
                continue
            if end < len(self.text) or self.ended or not self.fill():
                text = self.text[self.at : end]
                self.at = end
                return value, text

    def replace(self, text):
        """Puts this in the place of the value that was passed last."""
        self.put(text)
        self.put_to = self.at

    def skip(self):
        """Passes over the next value, however long."""
        if self.peek() not in ("{", "["):
            return self.skip_string() if self.take('"') else self.value()
        depth = 0
        while True:
            found = self.peek()
            if found == '"':
                self.at += 1
                self.skip_string()
            elif found in ("{", "[", "}", "]"):
                self.at += 1
                depth += 1 if found in "{[" else -1
            elif found:
                self.at = OUT_OF_STRING.match(self.text, self.at).end()
            else:
                raise self.cut()
            if depth == 0:
                return None

    def skip_string(self):
        """Passes over the rest of a string."""
        while True:
            if self.at == len(self.text) and not self.fill():
                raise self.cut()
            found = self.text[self.at]
            if found == '"':
                self.at += 1
                return None
            if found != "\\":
                self.at = IN_STRING.match(self.text, self.at).end()
            elif self.at + 1 < len(self.text) or self.fill():
                self.at += 2
            else:
                raise self.cut()


def size(text):
    """How many bytes a text has."""
    return len(text.encode("utf-8", "surrogateescape"))


def is_open(text, at):
    """Whether the text ends within the value that begins there, by its brackets and quotes alone."""
    depth = 0
    while at < len(text):
        if text[at] == '"':
            end = STRING.match(text, at)
            if end is None:
                return True
            at = end.end()
        elif text[at] in "{}[]":
            depth += 1 if text[at] in "{[" else -1
            at += 1
        else:
            at = OUT_OF_STRING.match(text, at).end()
        if depth <= 0:
            return False
    return True


def elements_of_array(source, closers):
    """The elements of an array whose bracket was passed, each with its text. One that stands alone need not be closed."""
    source.closers = closers
    source.put_passed()
    if source.take("]"):
        return
    separator = ","
    while separator == "," and source.peek():
        element = source.value()
        source.release()
        yield element
        source.hold()
        separator = source.next()
    if separator in ("", ",") and closers != "]":
        raise source.cut()
    source.release()
    if separator not in ("", ",", "]"):
        raise NoTrace("not JSON: an array has no end")


def elements_of_object(source):
    """The elements of the member `traceEvents` of an object whose brace was passed; its other members are passed over."""
    ended = source.take("}")
    while not ended:
        name = source.peek() and source.value()[0]
        if not isinstance(name, str) or not source.take(":"):
            raise NoTrace("not JSON: a member has no name") if source.peek() else source.cut()
        if name != "traceEvents":
            source.skip()
        elif source.closers or not source.take("["):
            raise NoTrace("its traceEvents are no array, or stand twice")
        else:
            yield from elements_of_array(source, "]}")
        if source.closers:
            source.closers = "}"
            source.release()
            source.hold()
        ended = source.take("}")
        if not ended and not source.take(","):
            raise NoTrace("not JSON: an object has no end") if source.peek() else source.cut()
    source.release()
    if not source.closers:
        raise NoTrace("an object without traceEvents")


def elements_of(source):
    """The elements of a trace of either form, each with its text, as tracebook reads them."""
    if source.take("["):
        yield from elements_of_array(source, "]")
        source.take(",")
    elif source.take("{"):
        yield from elements_of_object(source)
    else:
        raise NoTrace("neither an array nor an object")
    if source.peek():
        raise NoTrace("not JSON: more stands behind its end")
    source.put_passed()


def is_whole(value):
    return isinstance(value, int) and not isinstance(value, bool)
