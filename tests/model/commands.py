"""What each command writes for its words and its standard input: docs/COMMANDS.md and docs/SIZING.md, read again."""
import re

from model.answers import Yard, has_drain_lines, held_text, race_text, replay_text, text_of
from model.heap import LEAST, MOST_WORDS, NO_FIT, NO_ROOM, class_of, low, search_of, want
from model.merges import NO_REGION, cheapest, merged, pool_words, row_between, steps_of
from model.pictures import count_of, drawn
from model.trace import Fault, trace_in

# The options of each command, and which of them aren't given together.
OPTIONS = {
    "replay": "--held --kinds --heaps --least",
    "race": "--queues",
    "map": "--text --html --at --worst",
    "plot": "--text",
    "check": "",
    "size": "--blocks --bytes --level --split",
    "classes": "--level N",
}
APART = [
    "--held --least",
    "--held --kinds",
    "--held --heaps",
    "--least --kinds",
    "--least --heaps",
    "--html --text",
    "--html --at",
    "--html --worst",
    "--at --worst",
]
MANY = range(1, 1 << 32)
NUMBERS = {
    "--heaps": range(1, 9),
    "--at": MANY,
    "--blocks": MANY,
    "--bytes": MANY,
    "--level": range(4, 6),
    "N": range(4, MOST_WORDS[5] + 1),
}


class Untold(Exception):
    """What this reading doesn't tell, in words."""


def options_in(command, words):
    """The options of a command line, each with its numbers; none at all where it is refused."""
    found, left = {}, [it for it in words if it != "--"]
    while left:
        name, is_given, number = left.pop(0).replace("--sli", "--level").partition("=")
        if not name.startswith("-"):
            name, is_given, number = "N", True, name + is_given + number
        if name in NUMBERS and not is_given:
            number = left.pop(0) if left else ""
        if name not in OPTIONS[command].split() or name in found and name not in ("--blocks", "--bytes"):
            return None
        if name not in NUMBERS and is_given or name in NUMBERS and not re.fullmatch(r"\+?[0-9]+", number):
            return None
        if name in NUMBERS and int(number) not in NUMBERS[name]:
            return None
        found.setdefault(name, []).extend([int(number)] if name in NUMBERS else [])
    return None if any({*it.split()} <= found.keys() for it in APART) else found


# ---- commands that read no trace


def classes_text(size, level):
    if size > MOST_WORDS[level]:
        return ""
    number, search = class_of(size, level), search_of(size, level)
    return f"class {number} low {low(number, level)} search {search} low {low(search, level)}\n"


def words_text(words, kinds):
    held = sum(most * length for most, length in kinds)
    ratio = (1600 * words + held) // (2 * held)
    return f"words {words} bytes {8 * words} ratio {ratio // 100}.{ratio % 100:02}"


def law(kinds, level):
    """The words of the law for several kinds: docs/SIZING.md."""
    count = sum(most for most, _ in kinds)
    if all(length <= 8 for _, length in kinds):
        return 4 * count
    snug, wants = sum(most * (want(length) + 3) for most, length in kinds), [want(length) for _, length in kinds]
    return max(snug - (it + 3) + count * (low(search_of(it, level), level) - 1) + 1 for it in wants)


def only(tables):
    """The only one of these: nothing is told where several have as few words, or too many ways would be tried."""
    if len(tables) != 1:
        raise Untold("pools of which several ways have the fewest words")
    return tables[0]


def size_text(kinds, level, is_split):
    if not is_split:
        return f"{words_text(law(kinds, level), kinds)}\n" if law(kinds, level) <= MOST_WORDS[level] else ""
    if any(longer <= length for (_, length), (_, longer) in zip(kinds, kinds[1:])):
        return ""

    def row(first, last):
        return sum(most for most, _ in kinds[first : last + 1]), kinds[last][1]

    heaps = only(cheapest(len(kinds), 8, row, level))
    words = [pool_words(row, level) for _, _, row in heaps]
    lines = []
    for (first, last, (_, length)), its in zip(heaps, words):
        of = f"heap {len(lines)} kinds {first + 1} to {last + 1} up to {count_of(length, 'byte')}"
        lines.append(f"{of} {words_text(its, kinds[first : last + 1])}")
    return text_of([*lines, f"heaps {len(heaps)} {words_text(sum(words), kinds)}"]) if max(words) < NO_REGION else ""


# ---- commands that read one


def check_text(trace):
    phases = sum(line.kind == "phase" for line in trace.lines)
    counts = f"{count_of(len(trace.lines) - phases, 'call')}, {count_of(phases + 1, 'phase')}"
    return f"trace of version {trace.version}: {count_of(trace.workers, 'worker')} of {trace.words} words, {counts}\n"


def kinds_of(steps, level):
    """The most blocks and the longest of each kind of a worker: one class, or as many as make no more than 64 kinds."""
    lengths = sorted({length for more, length in steps if more})
    for grain in range(5):
        rows = {}
        for length in lengths:
            number = class_of(min(want(length), MOST_WORDS[level]), level) + (want(length) > MOST_WORDS[level])
            rows.setdefault(number >> grain, []).append(length)
        if len(rows) <= 64:
            return [row_between(steps, row[0] - 1, row[-1]) for row in rows.values()]


def kinds_text(trace, heaps):
    level, lines = trace.version + 3, []
    for steps in steps_of(trace):
        kinds = kinds_of(steps, level)
        if heaps and kinds:
            kinds = only(merged([length for _, length in kinds], steps, heaps, level))
        pairs = "".join(f" --blocks {most} --bytes {max(1, length)}" for most, length in kinds or [(1, 1)])
        lines.append(f"--level {level}{pairs}")
    return text_of(lines)


def is_served(trace, worker, words):
    """Whether heaps of so many words serve each request of a worker."""
    refused = re.compile(rf"{worker} (a \d+ refused {NO_FIT}|r \d+ refused {NO_ROOM})")
    steps = Yard(trace._replace(words=words)).steps()
    return not any(refused.fullmatch(reply) for _, replies in steps for reply in replies)


def search(serves, lacking, first, most):
    """The words that are found to serve, where so many lack room: begun with `first`, then by twice as many, then by halves. None where the
    most lack room."""
    found = first
    while not serves(found) and lacking < most:
        lacking, found = found, min(2 * found, most)
    while found - lacking > 1:
        middle = (lacking + found) // 2
        lacking, found = (lacking, middle) if serves(middle) else (middle, found)
    return found if lacking < found else None


def least_text(trace):
    most, first, lines = MOST_WORDS[trace.version + 3], trace.words, []
    for worker in range(trace.workers):
        words = search(lambda it, worker=worker: is_served(trace, worker, it), LEAST - 1, first, most)
        first = words or first
        held = held_text(trace._replace(words=words or most)).splitlines()[worker].split()
        lines.append(f"least {worker} words {words or 'none'} wanted {held[11]} law {held[7]}")
    return text_of(lines)


def trace_text(command, options, trace):
    if command == "replay":
        if "--kinds" in options or "--heaps" in options:
            return kinds_text(trace, *options.get("--heaps", [0]))
        return (held_text if "--held" in options else least_text if "--least" in options else replay_text)(trace)
    if command == "race":
        if has_drain_lines(trace) or "--queues" in options and trace.workers > 2:
            raise Untold("races that a schedule may decide")
        return race_text(trace)
    if command == "check":
        return check_text(trace)
    words = [word for name, numbers in options.items() for word in (name, *map(str, numbers))]
    return drawn(trace, [command, *words])


def answer_to(words, text):
    """What a command line writes to standard output, or nothing where it or its trace is refused. Each character of the
    text stands for a byte."""
    command, *rest = words or [""]
    if "--help" in words or "-h" in words or command == "help":
        raise Untold("helps")
    if command in ("--version", "-V"):
        raise Untold("the version")
    options = options_in(command, rest) if command in OPTIONS else None
    if options is None:
        return ""
    (level,) = options.get("--level", [4])
    if command == "classes":
        return classes_text(*options["N"], level) if "N" in options else ""
    if command == "size":
        most, lengths = options.get("--blocks", []), options.get("--bytes", [])
        is_well = 0 < len(most) == len(lengths) <= 64
        return size_text(list(zip(most, lengths)), level, "--split" in options) if is_well else ""
    trace = trace_in(text)
    return "" if isinstance(trace, Fault) else trace_text(command, options, trace)
