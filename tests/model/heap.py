"""The heap as docs/MODEL.md tells it in words, for scripts: it shares nothing with the program."""

MOST_WORDS = {4: 1 << 20, 5: 1 << 24}
LEAST = 4  # words of the smallest block
NO_FIT, FOREIGN, STALE, RANGE, NO_ROOM = 1, 3, 4, 7, 10


def class_of(size, level=4):
    """The class of a size in words."""
    row = max(size.bit_length() - level, 0)
    return size if row == 0 else (row << level) + (size >> (row - 1)) - (1 << level)


def low(number, level=4):
    """The least size of a class, in words."""
    row = number >> level
    return number if row == 0 else number - ((row - 1) << level) << (row - 1)


def search_of(size, level=4):
    """The least class whose least size is at least the size."""
    number = class_of(size, level)
    return number if low(number, level) == size else number + 1


def want(length):
    """The words that a request of so many bytes wants."""
    return max(LEAST, 3 + (length + 7) // 8)


class Block:
    """A live block has the tick of its allocate, its serial; a free one that of the call that made it."""

    def __init__(self, place, size):
        self.place, self.size, self.tick, self.is_free = place, size, 0, True
        # The bytes of its payload, and by their offsets those that were written: all others are zero.
        self.length, self.written = 0, {}


class Heap:
    """Its blocks by their places, and of each class the free ones, the newest last."""

    def __init__(self, words, level=4):
        self.level, self.tick, self.words, self.free_words = level, 0, words, 0
        self.blocks, self.free_ends, self.lists = {}, {}, {}
        self.filled = 0  # a bit for each class that has a free block
        self.enlist(Block(0, words))

    def enlist(self, block):
        number = class_of(block.size, self.level)
        self.lists.setdefault(number, {})[block.place] = block
        self.filled |= 1 << number
        self.blocks[block.place] = self.free_ends[block.place + block.size] = block
        self.free_words += block.size
        block.is_free, block.tick, block.length, block.written = True, self.tick, 0, {}

    def unlist(self, block):
        number = class_of(block.size, self.level)
        del self.lists[number][block.place], self.blocks[block.place], self.free_ends[block.place + block.size]
        self.free_words -= block.size
        if not self.lists[number]:
            self.filled ^= 1 << number

    def free_behind(self, block):
        """The free block right behind this one, if there is one."""
        behind = self.blocks.get(block.place + block.size)
        return behind if behind and behind.is_free else None

    def join(self, block):
        """Makes one free block of a block that is no longer live and of its free neighbours."""
        del self.blocks[block.place]
        behind, before = self.free_behind(block), self.free_ends.get(block.place)
        if behind:
            self.unlist(behind)
            block.size += behind.size
        if before:
            self.unlist(before)
            block.place, block.size = before.place, before.size + block.size
        self.enlist(block)

    def cut(self, block, words):
        """Leaves a live block so many words, where as many are left as a block has at least."""
        rest = block.size - words
        if rest >= LEAST:
            block.size = words
            self.blocks[block.place + words] = Block(block.place + words, rest)
            self.join(self.blocks[block.place + words])

    def take(self, words):
        """A block of so many words, which is live from now on, or none."""
        search = search_of(words, self.level)
        above = self.filled >> search if words <= MOST_WORDS[self.level] else 0
        if not above:
            return None
        number = search + (above & -above).bit_length() - 1
        block = next(reversed(self.lists[number].values()))
        self.unlist(block)
        self.tick += 1
        self.blocks[block.place] = block
        block.is_free, block.tick = False, self.tick
        self.cut(block, words)
        return block

    def give_back(self, block):
        self.tick += 1
        self.join(block)

    def live(self, name):
        """The live block of that place and serial, or none."""
        block = self.blocks.get(name[0])
        return block if block and not block.is_free and block.tick == name[1] else None

    def allocate(self, length):
        """The place and the serial, or a refusal's number."""
        block = self.take(want(length))
        if block is None:
            return NO_FIT
        block.length = length
        return block.place, block.tick

    def release(self, name):
        """Nothing, or a refusal's number."""
        block = self.live(name)
        if block is None:
            return STALE
        self.give_back(block)
        return None

    def resize(self, name, length):
        """Nothing, or a refusal's number."""
        block, words = self.live(name), want(length)
        if block is None:
            return STALE
        behind = self.free_behind(block)
        if block.size + (behind.size if behind else 0) < words:
            return NO_ROOM
        self.tick += 1
        if block.size < words:
            self.unlist(behind)
            block.size += behind.size
        self.cut(block, words)
        block.length, block.written = length, {at: byte for at, byte in block.written.items() if at < length}
        return None

    def reached(self, name, end):
        """The live block of that name whose payload reaches to that byte, or a refusal's number."""
        block = self.live(name)
        if block is None:
            return STALE
        return RANGE if end > block.length else block

    def write(self, name, at, given):
        """Nothing, or a refusal's number."""
        block = self.reached(name, at + len(given))
        if isinstance(block, int):
            return block
        block.written.update(enumerate(given, at))
        return None

    def read(self, name, at, count):
        """The bytes, or a refusal's number."""
        block = self.reached(name, at + count)
        return block if isinstance(block, int) else bytes(block.written.get(it, 0) for it in range(at, at + count))

    def room(self):
        """The words of the largest free block, the bytes that it grants for sure, and the fragmentation in thousandths."""
        if not self.filled:
            return 0, 0, 0
        largest = max(block.size for block in self.lists[self.filled.bit_length() - 1].values())
        return largest, 8 * (low(class_of(largest, self.level), self.level) - 3), 1000 - 1000 * largest // self.free_words

    def numbers(self):
        """What a report tells: live blocks, their words and bytes, free blocks and words, the largest, its grant, fragmentation, waste, age."""
        live = [block for block in self.blocks.values() if not block.is_free]
        free = [block for block in self.blocks.values() if block.is_free]
        words, size = self.words - self.free_words, sum(block.length for block in live)
        largest, grant, apart = self.room()
        age = self.tick + 1 - min((block.tick for block in free), default=self.tick + 1)
        return len(live), words, size, len(free), self.free_words, largest, grant, apart, 8 * words - size, age

    def report(self, number):
        """The report line of the heap."""
        line = "heap {} live {} {} {} free {} {} largest {} grant {} fragmentation {} waste {} age {}"
        return line.format(number, *self.numbers())
