"""What `tools/sequence` answers to several traces: docs/COMMANDS.md, read a second time."""
import collections
import re

from model.answers import Asked, Yard, text_of
from model.commands import Untold, answer_to, is_served, kinds_of, search
from model.heap import MOST_WORDS, class_of, want
from model.merges import steps_of
from model.pictures import standings
from model.trace import Fault, trace_in

BEGIN = re.compile(r"^(?=tlsf )", re.M)


def traces_of(text):
    """The text of each trace, after the lines before it."""
    pieces = [it for it in BEGIN.split(text) if it]
    return [("".join(pieces[:at]).count("\n"), piece) for at, piece in enumerate(pieces)]


def fault_in(text):
    """The first fault of a sequence, with the line of the input; None where it has none."""
    for before, piece in traces_of(text):
        if isinstance(found := trace_in(piece), Fault):
            return found._replace(line=before + found.line) if found.line else found
    return None


def asked_of(traces, worker):
    """The greatest of what a worker's calls ask of its heap: the blocks, the bytes, and the words wanted."""
    one = Asked()
    for trace in traces:
        if worker < trace.workers:
            yard = Yard(trace)
            collections.deque(yard.steps(), 0)
            it = yard.asked[worker]
            one.most, one.longest, one.wanted = max(one.most, it.most), max(one.longest, it.longest), max(one.wanted, it.wanted)
    return one


def held_line(traces, worker, level):
    it, region = asked_of(traces, worker), max(it.words for it in traces if worker < it.workers)
    return f"held {worker} blocks {it.most} bytes {it.longest} words {it.law(level)} region {region} wanted {it.wanted}"


def kinds_line(traces, worker, level):
    lowest, greatest = min(it.version for it in traces) + 3, {}
    for trace in (it for it in traces if worker < it.workers):
        kinds, rows = kinds_of(steps_of(trace)[worker], trace.version + 3), {}
        for most, length in kinds:
            number = class_of(want(length), lowest)
            rows[number] = most + rows.get(number, (0, 0))[0], length
        greatest |= {it: tuple(map(max, row, greatest.get(it, row))) for it, row in rows.items()}
        if len(kinds) > 32 or len(greatest) > 64:
            raise Untold("kinds that are put together")
    pairs = "".join(f" --blocks {most} --bytes {length}" for _, (most, length) in sorted(greatest.items()))
    return f"--level {level}{pairs or ' --blocks 1 --bytes 1'}"


def least_line(traces, worker, level):
    having = [it for it in traces if worker < it.workers]

    def in_heaps(words):
        return [it._replace(words=min(words, MOST_WORDS[it.version + 3])) for it in having]

    def serves(words):
        return all(is_served(it, worker, it.words) for it in in_heaps(words))

    found = [search(lambda words, it=it: is_served(it, worker, words), 3, it.words, MOST_WORDS[it.version + 3]) for it in having]
    words = None if None in found else search(serves, max(found) - 1, max(found), MOST_WORDS[level])
    asked = asked_of(in_heaps(words or MOST_WORDS[level]), worker)
    return f"least {worker} words {words or 'none'} wanted {asked.wanted} law {asked.law(level)}"


LINES = {"--held": held_line, "--kinds": kinds_line, "--least": least_line}


def worst_of(traces):
    """The number of the trace that stands worst, from 1 on: the first of those that stand so."""
    return max(range(len(traces)), key=lambda it: max(how for how, _ in standings(traces[it]))) + 1


def answer_of(words, text):
    """What a command line writes of a sequence without a fault; each character of the text stands for a byte."""
    pieces = [piece for _, piece in traces_of(text)]
    if words[0] == "--trace":
        pieces, words = [pieces[int(words[1]) - 1]], words[2:]
    if len(pieces) == 1:
        return answer_to(words, pieces[0])
    if words[0] != "replay" or len(words) != 2:
        raise Untold("answers that are written trace by trace")
    traces = [trace_in(it) for it in pieces]
    level = max(it.version for it in traces) + 3
    return text_of(LINES[words[1]](traces, worker, level) for worker in range(max(it.workers for it in traces)))
