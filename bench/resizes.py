"""An adversary that resizes: calls within a table of kinds, by which a heap as large as can be refuses the longest request."""
from model.heap import LEAST, MOST_WORDS, NO_FIT, low, search_of, want
from script import tlsf
from model.trace import MOST_LINES

LEAST_LEFT = 3  # blocks that come last: with fewer there are no kinds left for a filler and a hole


def payload(words):
    """The most bytes of a request that wants so many words."""
    return (words - 3) * 8


class Layout:
    """Blocks from left to right, with holes between them that are too small for the longest request.

    Each block comes as a longest one, which no hole serves, at the front of what is free behind all others. There it is resized to
    what it shall be, and counts for that kind. A table has the most blocks and the most bytes of each kind.
    """

    def __init__(self, table, level):
        self.table, self.free = table, [most for most, _ in table]
        self.shortest = [1] + [length + 1 for _, length in table[:-1]]
        self.last, self.longest = len(table) - 1, want(table[-1][1])
        self.hole = low(search_of(self.longest, level), level) - 1
        self.lines, self.kinds, self.words, self.short = [], [], 0, None

    def length(self, kind, words):
        """The most bytes of a block of that kind that wants so many words; 0 if there is none."""
        length = min(payload(words), self.table[kind][1])
        return length if length >= self.shortest[kind] and want(length) == words else 0

    def count(self, line, block, kind):
        """Has a block count for a kind from now on, or for none."""
        self.lines.append(line)
        for it, more in ((self.kinds[block], 1), (kind, -1)):
            if it is not None:
                self.free[it] += more
        self.kinds[block] = kind
        assert min(self.free) >= 0

    def allocate(self):
        """A longest block."""
        self.kinds.append(None)
        self.count(f"a 0 {len(self.kinds) - 1} {self.table[-1][1]}", len(self.kinds) - 1, self.last)
        return len(self.kinds) - 1

    def release(self, block):
        self.count(f"f 0 {block}", block, None)

    def resize(self, block, kind, words):
        self.count(f"r 0 {block} {self.length(kind, words)}", block, kind)

    def ways(self, block, sizes, kinds):
        """The kinds and sizes, of these, that the block may get."""
        return (
            (kind, size) for size in sizes for kind in kinds if self.length(kind, size) and (self.free[kind] or kind == self.kinds[block])
        )

    def shape(self, block, words, kinds):
        """Gives the longest block at the front so many words, as one of these kinds, and tells whether that could be."""
        steps = [*self.ways(block, [words], kinds)][:1]
        if steps and 0 < self.longest - words < LEAST:  # so few are not split off: first there are fewer words, and then more
            fewer = next(self.ways(block, range(self.longest - LEAST, LEAST - 1, -1), range(self.last + 1)), None)
            steps = [fewer, *steps] if fewer else []
        for kind, size in steps:
            self.resize(block, kind, size)
        return bool(steps)

    def spacers(self, kept):
        """Blocks that take the words of a hole, or as many as there are kinds left for, but for one of each kind that is kept."""
        parts, least, most = [], 0, 0
        for kind in range(self.last, -1, -1):
            fewest, many = want(self.shortest[kind]), want(self.table[kind][1])
            for _ in range(self.free[kind] - kept.count(kind)):
                if most < self.hole and least + fewest <= self.hole:
                    parts.append((kind, fewest, many))
                    least, most = least + fewest, most + many
        more, blocks = min(self.hole, most) - least, []
        for kind, fewest, many in parts:
            block, words = self.allocate(), min(many, fewest + more)
            if self.shape(block, words, [kind]):
                blocks.append(block)
                self.words, more = self.words + words, more - (words - fewest)
            else:
                self.release(block)
        return blocks

    def filler(self):
        """A block for the words that the last one lacks, which grows into them; none where there is no such one, or no kind for it."""
        if not self.short:
            return []
        filler = self.allocate()
        if self.shape(filler, self.short[2], range(self.last + 1)):
            return [filler]
        self.release(filler)
        self.words -= LEAST - 1
        self.grow()
        return []

    def grow(self):
        block, kind, _ = self.short
        self.resize(block, kind, want(self.table[kind][1]))
        self.short = None

    def place(self, kind, left):
        """A block of a kind behind a hole, of three words more than it wants where that can be: so few are not split off. With so many left
        it is too short at first, and later grows into the place of a filler."""
        filler, wants, kinds = self.filler(), want(self.table[kind][1]), range(self.last + 1)
        spacers = self.spacers([self.last, *[self.short[1] for _ in filler]])
        block, wide = self.allocate(), wants + LEAST - 1
        for it in filler:
            self.release(it)
            self.grow()
        for it in spacers:
            self.release(it)
        pairs = [(it, wide - it) for it in range(LEAST, wide - LEAST + 1) if left > LEAST_LEFT]
        if self.shape(block, wide, kinds[kind:]):
            self.resize(block, kind, wants)
        elif short := next((it for it in pairs if any(self.ways(block, it[1:], kinds)) and self.shape(block, it[0], kinds)), None):
            self.short = block, kind, short[1]
        else:
            sizes = (it for it in range(wide, wants - 1, -1) if self.shape(block, it, kinds[kind:] if it > wants else [kind]))
            wide = next(sizes, self.longest)
            self.resize(block, kind, wants)
        self.words += wide


def orders(table):
    """Orders of the blocks but the last of the longest kind: that kind first or last, and one of some short kinds behind all others."""
    last, counts = len(table) - 1, [most for most, _ in table]
    counts[last] -= 1
    for kinds in (range(last + 1), [last, *range(last)]):
        for kept in ((), {0}, {0, max(last - 1, 0)}):
            late = [kind for kind in sorted(kept) if counts[kind]]
            yield [kind for kind in kinds for _ in range(counts[kind] - (kind in late))] + late


def forced(table, level):
    """The most words of a heap, and the calls of which it refuses the last: by one of the orders, with or without the last kind."""
    table, found = [kind for kind in table if kind[0]], (0, [])
    for table, order in ((kinds, order) for kinds in (table[:-1], table) if kinds for order in orders(kinds)):
        layout = Layout(table, level)
        for left, kind in zip(range(len(order), 0, -1), order):
            words, lines, blocks, short = layout.words, len(layout.lines), len(layout.kinds), layout.short
            layout.place(kind, left)
            if layout.words + layout.hole > MOST_WORDS[level] or len(layout.lines) + 2 > MOST_LINES:  # no more blocks have room
                layout.words, layout.lines, layout.kinds = words - (short[2] if short else 0), layout.lines[:lines], layout.kinds[:blocks]
                break
        found = max(found, (layout.words + layout.hole, [*layout.lines, f"a 0 {len(layout.kinds)} {table[-1][1]}"]), key=lambda it: it[0])
    return found


def forced_in(line):
    """Of one heap for a line of `tlsf replay --kinds`: how many kinds it has, and the words forced."""
    words = line.split()[line.split().index("--level") :]
    level, table = int(words[1]), list(zip(map(int, words[3::4]), map(int, words[5::4])))
    most, lines = forced(table, level)
    replies = tlsf("replay", text="\n".join([f"tlsf {level - 3} 1 {most} 1", *lines, ""])).splitlines()[: len(lines)]
    assert [" refused " in it for it in replies] == [False] * (len(lines) - 1) + [True] and replies[-1].endswith(f" refused {NO_FIT}")
    return len(table), most
