"""Traces by chance, which have no fault."""
from .trace import MOST_LENGTH


class Maker:
    """Writes a trace that has no fault, line by line: of each kind this share."""

    shares = {"phase": 8, "d": 8, "a": 34, "f": 22, "r": 10, "p": 9, "g": 9}
    late = 70  # of a hundred uses those of the last labels

    def __init__(self, chance):
        self.chance, self.pick = chance, chance.randint
        self.workers = 1 if self.draws(30) else 2 if self.draws(50) else self.pick(3, 8)
        self.version = 2 if self.draws(30) else 1
        self.words = self.some_words()
        self.drains = self.draws(50)
        # Whether blocks mostly go to other workers, so that lanes become full.
        self.own_uses = 10 if self.draws(30) else 50
        self.labels = []  # label, maker and length of each block, and the phase that it is of
        self.phase = self.made = 0
        self.capacity = self.pick(1, 2) if self.draws(60) else self.pick(3, 40) if self.draws(90) else self.pick(41, 1024)
        self.count = self.pick(0, 40) if self.draws(93) else self.pick(41, 300) if self.draws(98) else self.pick(301, 3000)

    def draws(self, percent):
        return self.pick(1, 100) <= percent

    def make(self):
        lines = [f"tlsf {self.version} {self.workers} {self.words} {self.capacity}"]
        return "".join(f"{line}\n" for line in lines + [self.line() for _ in range(self.count)])

    def some_words(self):
        if self.draws(80):
            return self.pick(4, 160)
        if self.draws(95):
            return self.pick(161, 3000)
        last = 24 if self.version == 2 else 20
        power = self.pick(12, last)
        return (1 << power) - self.pick(0, 1) if power == last else (1 << power) + self.pick(-1, 1)

    def some_length(self):
        """Bytes that a block may have: few, about as many as some block has, or far too many."""
        if self.draws(60):
            return self.pick(0, 40)
        if self.draws(80):
            return self.pick(0, 2 * self.words)
        if self.draws(80):
            whole = 8 * (self.words - 3)
            return self.pick(max(0, whole - 8), whole + 16)
        greatest = 134217704 if self.version == 2 else 8388584
        return self.pick(greatest - 84, greatest + 116) if self.draws(50) else self.pick(MOST_LENGTH - 40, MOST_LENGTH)

    def another_length(self, length):
        """Bytes that a block may get: about as many as it was made with, or any."""
        return min(MOST_LENGTH, length + self.pick(0, 60) - min(length, 30)) if self.draws(60) else self.some_length()

    def some_offset(self, length):
        if self.draws(70):
            return self.pick(0, length)
        return min(MOST_LENGTH, length + self.pick(0, 9) - min(length, 4)) if self.draws(70) else self.pick(MOST_LENGTH - 70, MOST_LENGTH)

    def some_bytes(self):
        digits = "0123456789abcdef" if self.draws(50) else "0123456789ABCDEFabcdef"
        return "".join(self.chance.choices(digits, k=2 * (self.pick(1, 9) if self.draws(80) else self.pick(10, 64))))

    def line(self):
        (kind,) = self.chance.choices(list(self.shares), self.shares.values())
        if kind == "phase":
            self.phase += 1
            return "phase"
        if kind == "d" and self.drains:
            return f"d {self.pick(0, self.workers - 1)} {self.pick(1, 4) if self.draws(80) else self.pick(1, 8192)}"
        return self.allocate() if kind in "da" or not self.labels else self.use(kind)

    def allocate(self):
        # The two counts meet only behind 32,768 labels, and no trace has as many lines.
        label = self.made if self.draws(95) else 65535 - self.made
        self.made += 1
        worker, length = self.pick(0, self.workers - 1), self.some_length()
        self.labels.append((label, worker, length, self.phase))
        return f"a {worker} {label} {length}"

    def use(self, kind):
        """Labels of late are used more often, and by their makers."""
        count = len(self.labels)
        label, maker, length, phase = self.labels[count - self.pick(1, min(count, 6)) if self.draws(self.late) else self.pick(0, count - 1)]
        is_own = phase == self.phase or self.workers == 1 or self.draws(self.own_uses)
        who = maker if is_own else (maker + self.pick(1, self.workers - 1)) % self.workers
        if kind == "f":
            return f"f {who} {label}"
        if kind == "r":
            return f"r {who} {label} {self.another_length(length)}"
        if kind == "p":
            return f"p {who} {label} {self.some_offset(length)} {self.some_bytes()}"
        return f"g {who} {label} {self.some_offset(length)} {self.pick(1, 12) if self.draws(80) else self.pick(1, 64)}"
