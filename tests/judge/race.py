"""Judges a text that `tlsf race` wrote for a trace, from the trace and the text alone.

Each worker's lines have to be those of its script, answered by its own sequential heap, in its order; takes stand where
the text has them. What was posted in a phase is what was taken in it, poster by poster and in order; some order of all
posts and takes keeps every lane, or every queue, within its capacity; and a look that found one full or empty isn't
behind what it would have had to see (order.py). The report lines are those of the heaps that this leaves.
"""
import functools

from judge import order
from judge.order import Act, Illegal
from model.answers import FULL, LAST, Calls
from model.trace import Line, trace_in


class Text:
    """The lines that are still to be judged."""

    def __init__(self, lines):
        self.lines, self.at = lines, 0

    def next(self):
        if self.at == len(self.lines):
            raise Illegal("the text ends too soon")
        self.at += 1
        return self.lines[self.at - 1]

    def expect(self, *choices):
        line = self.next()
        if line not in choices:
            raise Illegal(f"line {self.at}: '{line}', and not '{choices[0]}'")
        return line


class Race(Calls):
    def __init__(self, trace, over_queues):
        super().__init__(trace)
        self.count, self.capacity, self.over_queues = trace.workers, trace.capacity, over_queues

    def port(self, poster, owner):
        """What a poster's posts to an owner go through, in words."""
        return f"the queue of {owner}" if self.over_queues else f"the lane from {poster} to {owner}"

    def run(self, text, line):
        """Judges the lines of a call, and tells what it did to ports."""
        if line.kind == "d":
            return self.drain(text, line.worker, line.count)
        start, answer = f"{line.worker} {line.kind} {line.label} ", self.answer(line)
        if answer is not None:
            text.expect(start + answer)
            return []
        owner, name = self.labels[line.label]
        posted = text.expect(f"{start}posted", f"{start}refused {FULL}").endswith("posted")
        return [Act("post" if posted else "full", self.port(line.worker, owner), line.worker, name)]

    def drain(self, text, worker, most):
        took, acts, lane = 0, [], 0
        while (line := text.next()) != f"{worker} d drained {took}":
            fields = line.split(" ")
            if len(fields) < 8 or fields[:2] != [str(worker), "take"] or took == most:
                raise Illegal(f"line {text.at}: '{line}' in a drain that took {took}")
            poster, name = int(fields[2]), (int(fields[4]), int(fields[6]))
            refused = self.heaps[worker].release(name)
            if poster == worker or poster >= self.count:
                raise Illegal(f"line {text.at}: a take from {poster}")
            if line != (f"{worker} take {poster} at {name[0]} serial {name[1]} " + (f"refused {refused}" if refused else "freed")):
                raise Illegal(f"line {text.at}: '{line}', and the heap answers {refused}")
            if not self.over_queues:
                if poster < lane:
                    raise Illegal(f"line {text.at}: a take from {poster} behind one from {lane}")
                acts += self.looks(worker, range(lane, poster))
                lane = poster
            acts.append(Act("take", self.port(poster, worker), poster, name))
            took += 1
        return acts + (self.looks(worker, range(lane, self.count)) if took < most else [])

    def looks(self, worker, posters):
        """The looks that a drain ends with: at each of these lanes, or at the own queue."""
        ports = dict.fromkeys(self.port(poster, worker) for poster in posters if poster != worker)
        return [Act("empty", port) for port in ports]

    def phase(self, text, lines):
        scripts, drains = [], []
        for worker in range(self.count):
            scripts.append([act for line in lines if line.worker == worker for act in self.run(text, line)])
            drains.append(self.drain(text, worker, LAST))
        try:
            order.check(scripts, drains, self.capacity)
        except Illegal as why:
            raise Illegal(f"{why}, in the phase that ends at line {text.at}") from None


@functools.lru_cache(1)
def read(text):
    return trace_in(text)


def judge(trace, lines, over_queues):
    """Raises Illegal where the lines are none that a race of the trace may write."""
    trace = read("".join(f"{line}\n" for line in trace))
    race, text = Race(trace, over_queues), Text(lines)
    phase = []
    for line in [*trace.lines, Line("phase")]:
        if line.kind == "phase":
            race.phase(text, phase)
            phase = []
        else:
            phase.append(line)
    for number, heap in enumerate(race.heaps):
        text.expect(heap.report(number))
    if text.at < len(lines):
        raise Illegal(f"line {text.at + 1}: one too many")


def is_legal(trace, lines, over_queues):
    try:
        judge(trace, lines, over_queues)
    except (Illegal, ValueError, KeyError):
        return False
    return True
