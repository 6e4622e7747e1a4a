"""Kinds merged for a few pools, by trying each way: docs/COMMANDS.md, read a second time."""
import bisect
import collections
import functools
import itertools
import math

from model.answers import Asked, Yard
from model.heap import MOST_WORDS, low, search_of, want

NO_REGION = 1 << 32  # more than eight regions have
MOST_WAYS = 1 << 17  # that are tried


class Steps(Asked):
    """What one worker's calls asked of its heap, and the lengths that it held, step by step: one more, one fewer, or all at once."""

    def __init__(self):
        super().__init__()
        self.steps = []

    def request(self, length):
        super().request(length)
        self.steps += [(1, length), (0, 0), (-1, length)]

    def drop(self, serial):
        self.steps.append((-1, self.held[serial]))
        super().drop(serial)

    def hold(self, serial, length):
        super().hold(serial, length)
        self.steps += [(1, length), (0, 0)]


def steps_of(trace):
    """The steps of each worker of a trace."""
    yard = Yard(trace)
    yard.asked = [Steps() for _ in yard.heaps]
    collections.deque(yard.steps(), 0)
    return [it.steps for it in yard.asked]


def row_between(steps, above, upto):
    """The most blocks above one length, up to another, that are held at once, and the longest of them."""
    held = most = longest = 0
    for more, length in steps:
        if more and above < length <= upto:
            held += more
            longest = max(longest, length)
        most = max(most, held if not more else 0)
    return most, longest


def kinds_held(steps, table):
    """The rows of the kinds of a table, each with what is longer than the one before, and of all that is longer than these."""
    lengths, now, rows = [length for _, length in table], collections.Counter(), [(0, 0)] * (len(table) + 1)
    for more, length in steps:
        at = bisect.bisect_left(lengths, length)
        now[at] += more
        if more > 0:
            rows[at] = max(rows[at][0], now[at]), max(rows[at][1], length)
    return rows


def table_in(line):
    """The kinds of a line of `tlsf replay --kinds`, as pairs of blocks and bytes."""
    words = line.split()[2:]
    return [*zip(map(int, words[1::4]), map(int, words[3::4]))]


def pool_words(row, level):
    """The words of a pool for so many blocks of so many bytes."""
    most, longest = row
    if want(longest) > MOST_WORDS[level]:
        return NO_REGION
    words = max(4, most * low(search_of(want(longest), level), level))
    return words if words <= MOST_WORDS[level] else NO_REGION


def ways(count, heaps):
    """Each way of cutting so many kinds, in their order, into at most so many parts: the number of the last kind of each."""
    for cuts in range(min(heaps, count)):
        yield from ((*ends, count - 1) for ends in itertools.combinations(range(count - 1), cuts))


def cheapest(count, heaps, row, level):
    """Of all ways of cutting so many kinds into pools those with the fewest words, or none of too many ways. Each pool is its
    first kind, its last, and their row."""
    if sum(math.comb(count - 1, cuts) for cuts in range(heaps)) > MOST_WAYS:
        return []
    row = functools.cache(row)
    cuts = [list(zip((0, *(it + 1 for it in ends)), ends)) for ends in ways(count, heaps)]
    words = [sum(pool_words(row(*ends), level) for ends in cut) for cut in cuts]
    fewest = min(words)
    return [[(*ends, row(*ends)) for ends in cut] for cut, it in zip(cuts, words) if it == fewest]


def merged(lengths, steps, heaps, level):
    """Of all ways of merging the kinds of these lengths those whose pools have the fewest words: the rows of each."""

    def row(first, last):
        return row_between(steps, lengths[first - 1] if first else -1, lengths[last])

    return [[row for _, _, row in table] for table in cheapest(len(lengths), heaps, row, level)]


def fewest_words(lengths, steps, heaps, level):
    """Of all ways of merging the kinds of these lengths, the fewest words of their pools."""
    return sum(pool_words(row, level) for row in merged(lengths, steps, heaps, level)[0])
