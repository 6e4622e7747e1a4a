"""What `tlsf replay`, `tlsf race` and `tlsf plot` answer to a trace: docs/TRACE.md and docs/COMMANDS.md, read a second time."""
import collections
import itertools

from model.heap import FOREIGN, MOST_WORDS, Heap, low, search_of, want
from model.trace import Line

FULL, UNMADE, LAST = 8, 18, 8192
FAULTS = {11: "bad header", 12: "bad line", 13: "bad number", 14: "label out of order", 15: "trace too long"}
BARS = " ▁▂▃▄▅▆▇█"


def refused(number):
    return f"refused {number}"


class Calls:
    """The heaps of a trace, and the name of each label: the heap, and the place and the serial; none where it was refused."""

    def __init__(self, trace):
        self.heaps = [Heap(trace.words, trace.version + 3) for _ in range(trace.workers)]
        self.labels = {}

    def answer(self, line):
        """What a call is answered by the worker's own heap; None where it releases a block of another."""
        heap = self.heaps[line.worker]
        if line.kind == "a":
            made = heap.allocate(line.count)
            is_made = isinstance(made, tuple)
            self.labels[line.label] = (line.worker, made) if is_made else None
            return f"at {made[0]} serial {made[1]}" if is_made else refused(made)
        if self.labels[line.label] is None:
            return refused(UNMADE)
        owner, name = self.labels[line.label]
        if owner != line.worker:
            return None if line.kind == "f" else refused(FOREIGN)
        if line.kind == "g":
            found = heap.read(name, line.at, line.count)
            return refused(found) if isinstance(found, int) else f"got {found.hex()}"
        if line.kind == "p":
            refusal, done = heap.write(name, line.at, line.given), f"wrote {len(line.given)}"
        elif line.kind == "r":
            refusal, done = heap.resize(name, line.count), "resized"
        else:
            refusal, done = heap.release(name), "freed"
        return refused(refusal) if refusal else done


class Asked:
    """What one worker's calls asked of its heap."""

    def __init__(self):
        self.most, self.longest, self.wanted, self.words = 0, 0, 0, 0
        self.held = {}  # the bytes of each block that is held, by its serial

    def request(self, length):
        self.most = max(self.most, len(self.held) + 1)
        self.longest = max(self.longest, length)
        self.wanted = max(self.wanted, self.words + want(length))

    def drop(self, serial):
        self.words -= want(self.held.pop(serial))

    def hold(self, serial, length):
        if serial in self.held:
            self.drop(serial)
        self.held[serial] = length
        self.words += want(length)
        self.wanted = max(self.wanted, self.words)

    def law(self, level):
        """The words of the law for so many blocks of so many bytes: docs/SIZING.md, lines 3 to 5."""
        if self.most == 0:
            return 4
        words = want(self.longest)
        if words > MOST_WORDS[level]:
            return "none"
        # Blocks of up to 8 bytes have four words each, and every free block serves one.
        sure = low(search_of(words, level), level)
        words = 4 * self.most if words == 4 else (self.most - 1) * (words + 3) + self.most * (sure - 1) + 1
        return words if words <= MOST_WORDS[level] else "none"


class Yard(Calls):
    """The heaps with the lanes between them, whose calls are made one after the other."""

    def __init__(self, trace):
        super().__init__(trace)
        self.trace, self.lanes = trace, collections.defaultdict(collections.deque)
        self.asked = [Asked() for _ in self.heaps]

    def call(self, line):
        """The reply lines of a call."""
        if line.kind == "d":
            return self.drain(line.worker, line.count)
        asked = self.asked[line.worker]
        if line.kind == "a":
            asked.request(line.count)
        elif line.kind == "r" and self.labels[line.label]:
            asked.longest = max(asked.longest, line.count)
        answer = self.answer(line)
        if answer is None:
            owner, name = self.labels[line.label]
            answer = self.post(self.lanes[line.worker, owner], name)
        elif answer == "freed":
            asked.drop(self.labels[line.label][1][1])
        elif answer == "resized" or line.kind == "a" and self.labels[line.label]:
            asked.hold(self.labels[line.label][1][1], line.count)
        return [f"{line.worker} {line.kind} {line.label} {answer}"]

    def post(self, lane, name):
        if len(lane) == self.trace.capacity:
            return refused(FULL)
        lane.append(name)
        return "posted"

    def drain(self, worker, most=LAST):
        """Posts are taken lane by lane, in the rising number of their posters."""
        lines = []
        for poster in range(len(self.heaps)):
            lane = self.lanes[poster, worker]
            while lane and len(lines) < most:
                place, serial = lane.popleft()
                refusal = self.heaps[worker].release((place, serial))
                if not refusal:
                    self.asked[worker].drop(serial)
                lines.append(f"{worker} take {poster} at {place} serial {serial} {refused(refusal) if refusal else 'freed'}")
        return [*lines, f"{worker} d drained {len(lines)}"]

    def end_phase(self):
        return [line for worker in range(len(self.heaps)) for line in self.drain(worker)]

    def steps(self):
        """Each line of the trace, and last the end of it, with its reply lines."""
        for line in [*self.trace.lines, Line("phase")]:
            yield line, self.end_phase() if line.kind == "phase" else self.call(line)

    def reports(self):
        return [heap.report(number) for number, heap in enumerate(self.heaps)]


def text_of(lines):
    return "".join(f"{line}\n" for line in lines)


def replay_text(trace):
    yard = Yard(trace)
    return text_of([line for _, lines in yard.steps() for line in lines] + yard.reports())


def held_text(trace):
    yard = Yard(trace)
    collections.deque(yard.steps(), 0)
    return text_of(
        f"held {number} blocks {it.most} bytes {it.longest} words {it.law(trace.version + 3)} region {trace.words} wanted {it.wanted}"
        for number, it in enumerate(yard.asked)
    )


def has_drain_lines(trace):
    return any(line.kind == "d" for line in trace.lines)


def race_text(trace):
    """Without `d` lines posts are taken at the ends of phases alone, so no schedule changes what a call is answered: the calls of a phase
    may be made in the order of their lines."""
    yard, lines = Yard(trace), []
    records = [[] for _ in yard.heaps]
    for line in [*trace.lines, Line("phase")]:
        if line.kind != "phase":
            records[line.worker] += yard.call(line)
            continue
        for worker, record in enumerate(records):
            lines += record + yard.drain(worker)
            record.clear()
    return text_of(lines + yard.reports())


def kinds_of(lines):
    """What was answered, in words, each as often as it was."""
    for line in lines:
        fields = line.split(" ")
        if fields[0] == "held":
            yield "held, and no region has so many words" if fields[7] == "none" else "held"
        elif len(fields) > 2 and fields[0].isdecimal():
            answer = f" refused {fields[-1]}" if fields[-2] == "refused" else f" {fields[-1]}" if fields[1] in ("f", "take") else ""
            yield fields[1] + answer


def fault_text(fault):
    where = f"line {fault.line}: " if fault.line else ""
    return f"tlsf: {where}{FAULTS[fault.number]} ({fault.number})\n"


# A heap after a line, or several at the worst of each number.
Point = collections.namedtuple("Point", "live free largest fragmentation asked grant refused")
WORST = (max, min, min, max, max, min, max)


def curves_of(trace):
    """The points of each heap, before the first line, after each and after the end; and the longest request to each."""
    yard = Yard(trace)
    points, longest, seen = [[] for _ in yard.heaps], [0] * trace.workers, [(None, None)] * trace.workers
    for line, replies in itertools.chain([(Line("phase"), [])], yard.steps()):
        told = {int(reply[0]) for reply in replies if " refused " in reply}
        for worker, heap in enumerate(yard.heaps):
            length = line.count if line.kind == "a" and line.worker == worker else None
            longest[worker] = max(longest[worker], length or 0)
            if seen[worker][0] != heap.tick:
                seen[worker] = heap.tick, heap.room()
            largest, grant, apart = seen[worker][1]
            asked = 0 if length is None else want(length)
            points[worker].append(Point(heap.words - heap.free_words, heap.free_words, largest, apart, asked, grant, worker in told))
    return points, longest


def curve_of(points, most):
    """How many points in a row are one, so that at most so many are left; and these."""
    span = -(-len(points) // most)
    spans = [points[at : at + span] for at in range(0, len(points), span)]
    return span, [Point(*(worst(numbers) for worst, numbers in zip(WORST, zip(*some)))) for some in spans]


def look_at(points, length):
    """Where to look: of the lines after which the longest request finds no room the first with the most free words; or, where there is none,
    of those with the most live words the first with the most fragmentation. And whether it finds no room there."""
    lacking = [at for at, it in enumerate(points) if it.free == 0 or it.grant < length]
    if lacking:
        return max(lacking, key=lambda it: points[it].free), True
    return max(range(len(points)), key=lambda it: (points[it].live, points[it].fragmentation)), False


def peak_at(points):
    """The first line after which most words are live."""
    return max(range(len(points)), key=lambda it: points[it].live)


def look_lines(points, length):
    (at, is_worst), peak, of = look_at(points, length), peak_at(points), "byte" if length == 1 else "bytes"
    if is_worst:
        yield f"worst moment: line {at + 1}: {points[at].free} words free, and {length} {of} {'doesn' if length == 1 else 'don'}'t fit"
        yield f"  tlsf map --at {at + 1}"
    else:
        yield f"fullest moment: line {at + 1}: {points[at].live} words live, fragmentation {points[at].fragmentation}/1000"
        yield f"  and {length} {of} always fit{'s' * (length == 1)}: tlsf map --at {at + 1}"
    yield f"peak: line {peak + 1}: {points[peak].live} words ({8 * points[peak].live} bytes) live: tlsf map --at {peak + 1}"


def heap_lines(heap, words, points, length):
    span, curve = curve_of(points, 56)
    longest = f"{length} byte" + "s" * (length != 1)
    yield ""
    yield f"heap {heap}: {words} words, longest request {longest}; lines a column: {span}"
    yield from look_lines(points, length)
    top = max(1, *(max(it.live, it.asked) for it in curve))
    rows = {"live words": top, "asked for": top, "free words": words, "largest free": words, "fragmentation": 1000}
    for title, full in rows.items():
        bars = "".join(BARS[-(-8 * getattr(it, title.split()[0]) // full)] for it in curve)
        yield f"{title:14}|{bars}| {full}"
    yield "refused       |" + "".join("!" if it.refused else " " for it in curve) + "|"


def plot_text(trace):
    points, longest = curves_of(trace)
    lines = ["a bar stands for some lines at their worst, a full one for the number behind it"]
    for heap in range(trace.workers):
        lines += heap_lines(heap, trace.words, points[heap], longest[heap])
    return text_of(lines)


# What each command answers, in words of its command line.
TEXTS = {"replay": replay_text, "replay --held": held_text, "race": race_text, "plot --text": plot_text}
