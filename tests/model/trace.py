"""What a trace says, or its first fault: docs/TRACE.md, read a second time. It knows nothing of the program."""
import collections
import re

MOST_BYTES, MOST_LINES = 1 << 20, 1 << 15
BAD_HEADER, BAD_LINE, BAD_NUMBER, OUT_OF_ORDER, TOO_LONG = 11, 12, 13, 14, 15
MOST_WORDS = {"1": 1 << 20, "2": 1 << 24}
DIGITS = re.compile(r"[0-9]+")
BYTES = re.compile(r"(?:[0-9A-Fa-f]{2}){1,64}")
MOST_LENGTH = (1 << 32) - 1
# The fields of a line by its word: where each goes, and its bounds. A worker is below those of the header; digits of bytes have no bounds.
WORKER, LABEL, LENGTH = ("worker", 0, None), ("label", 0, 65535), ("count", 0, MOST_LENGTH)
AT, COUNT, MOST_TAKES, GIVEN = ("at", 0, MOST_LENGTH), ("count", 1, 64), ("count", 1, 8192), ("given", None, None)
SHAPES = {
    "a": (WORKER, LABEL, LENGTH),
    "f": (WORKER, LABEL),
    "r": (WORKER, LABEL, LENGTH),
    "p": (WORKER, LABEL, AT, GIVEN),
    "g": (WORKER, LABEL, AT, COUNT),
    "d": (WORKER, MOST_TAKES),
    "phase": (),
}

Fault = collections.namedtuple("Fault", "number line")  # the line from 1 on, or 0 where the fault is of none
Trace = collections.namedtuple("Trace", "version workers words capacity lines")


class Line:
    """`count` is the length of an `a` or `r` line, the number of a `g` or `d` line; `given` the bytes of a `p` line."""

    def __init__(self, kind):
        self.kind, self.worker, self.label, self.at, self.count, self.given = kind, 0, 0, 0, 0, b""


def number_in(digits, least, most):
    """The number that these digits spell, or None where it has a leading zero or is out of its bounds."""
    if len(digits) > 18 or len(digits) > 1 and digits[0] == "0":
        return None
    number = int(digits)
    return number if least <= number <= most else None


def header_in(line):
    """The numbers of a header, or None."""
    word, *fields = line.split(" ")
    if word != "tlsf" or len(fields) != 4 or fields[0] not in MOST_WORDS or not all(map(DIGITS.fullmatch, fields)):
        return None
    bounds = ((1, 2), (1, 8), (4, MOST_WORDS[fields[0]]), (1, 1024))
    numbers = [number_in(field, *its) for field, its in zip(fields, bounds)]
    return None if None in numbers else numbers


def line_in(text, workers):
    """A line, or the number of its fault. A faulty shape comes before any faulty number."""
    word, *fields = text.split(" ")
    shape = SHAPES.get(word)
    if shape is None or len(fields) != len(shape):
        return BAD_LINE
    if not all((BYTES if place is GIVEN else DIGITS).fullmatch(field) for place, field in zip(shape, fields)):
        return BAD_LINE
    line = Line(word)
    for (name, least, most), field in zip(shape, fields):
        value = bytes.fromhex(field) if least is None else number_in(field, least, workers - 1 if most is None else most)
        if value is None:
            return BAD_NUMBER
        setattr(line, name, value)
    return line


class Labels:
    """Who made each label, and in which phase."""

    def __init__(self):
        self.phase, self.makers = 0, {}

    def take(self, line):
        """Whether the line makes and uses labels in their order."""
        if line.kind in ("phase", "d"):
            self.phase += line.kind == "phase"
            return True
        made = self.makers.get(line.label)
        if line.kind == "a":
            self.makers[line.label] = line.worker, self.phase
            return made is None
        return made is not None and (made[0] == line.worker or made[1] < self.phase)


def trace_in(text):
    """The trace of a text, or its first fault. Each character of the text stands for a byte."""
    *pieces, rest = text.split("\n")
    if len(text) > MOST_BYTES or len(pieces) + bool(rest) > MOST_LINES:
        return Fault(TOO_LONG, 0)
    header = header_in(pieces[0]) if pieces else None
    if header is None:
        return Fault(BAD_HEADER, 1)
    trace, labels = Trace(*header, []), Labels()
    for number, piece in enumerate(pieces[1:], 2):
        line = line_in(piece, trace.workers)
        if isinstance(line, int):
            return Fault(line, number)
        if not labels.take(line):
            return Fault(OUT_OF_ORDER, number)
        trace.lines.append(line)
    return Fault(BAD_LINE, len(pieces) + 1) if rest else trace
