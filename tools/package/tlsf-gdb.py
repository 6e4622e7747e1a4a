"""Heaps of peachanchor.h and tlsf.hpp in gdb: `source PREFIX/share/gdb/tlsf-gdb.py`, then

    tlsf blocks HEAP            a line for each block: its place, where its payload lies, its words, what it is
    tlsf lists HEAP             a line for each list of free blocks, in the order in which they are taken
    tlsf whose HEAP POINTER     whose block the pointer leads into, and where in it

HEAP is an expression: a struct tlsf_heap or tlsf_near_heap, a tlsf::heap, or a pointer to one. `print` shows a heap in a line, and a
name.
All is read from the region's words (docs/LAYOUT.md), of a process or of a core file; no call is made."""
import struct

import gdb

NONE = 0xFFFFFFFF
HEADER = 3
MOST_WORDS = 1 << 24
MOST_SHOWN = 10000  # blocks that `print` looks at


class Block:
    def __init__(self, base, at):
        words = bytes(gdb.selected_inferior().read_memory(base + 8 * at, 8 * HEADER))
        tag, self.before, self.mark, self.low, self.high = struct.unpack("<IIQII", words)
        self.at, self.size, self.is_last, self.is_live = at, tag >> 2, tag & 2, not tag & 1
        self.payload = base + 8 * (at + HEADER)

    def __str__(self):
        if self.is_live:
            return f"live, {self.low} bytes, serial {self.mark}"
        return f"free since tick {self.mark}"


def handle_of(near):
    """The struct tlsf_heap of a near heap: it begins at the first multiple of 64."""
    at = int(near.address)
    return gdb.Value(at + -at % 64).cast(gdb.lookup_type("struct tlsf_heap").pointer()).dereference()


def raw_of(value):
    """The struct tlsf_heap of an expression's value."""
    value = value.referenced_value() if value.type.strip_typedefs().code in (gdb.TYPE_CODE_PTR, gdb.TYPE_CODE_REF) else value
    kind = value.type.strip_typedefs().unqualified()
    if kind.tag == "tlsf::heap":
        state = value["state_"]["state_"]
        if not int(state):
            raise gdb.GdbError("that heap is not open")
        return handle_of(state["held"])
    if kind.tag == "tlsf_near_heap":
        return handle_of(value)
    if kind.tag != "tlsf_heap":
        raise gdb.GdbError(f"a struct tlsf_heap or a tlsf::heap is wanted, and that is of type {value.type}")
    return value


def base_of(heap):
    base = int(heap["base"])
    if not base:
        raise gdb.GdbError("that heap is not open")
    if not heap["is_open"]:
        gdb.write("that heap is in a call or closed, so its words may be no more:\n")
    return base


def blocks(base):
    """The blocks of a region in their order. A header that doesn't agree with the one before it ends them."""
    at, before = 0, NONE
    while True:
        try:
            it = Block(base, at)
        except gdb.MemoryError as why:
            raise gdb.GdbError(f"damaged: the block at place {before} ends at {at}, which can't be read") from why
        if it.before != before or it.size <= HEADER or at + it.size > MOST_WORDS or (it.is_live and it.low > 8 * (it.size - HEADER)):
            raise gdb.GdbError(f"damaged: the header at place {at} ({base + 8 * at:#x}) doesn't agree with the block before it")
        yield it
        if it.is_last:
            return
        at, before = at + it.size, at


def lists(base):
    """The lists of free blocks, each from the block that has none before it."""
    free = {it.at: it for it in blocks(base) if not it.is_live}
    for it in [it for it in free.values() if it.high == NONE]:
        found = [it]
        while found[-1].low != NONE:
            following = free.get(found[-1].low)
            if not following or following.high != found[-1].at or len(found) > len(free):
                raise gdb.GdbError(f"damaged: the link of the free block at place {found[-1].at} leads astray")
            found.append(following)
        yield found


def whose(base, pointer):
    at = (pointer - base) // 8
    for it in blocks(base):
        if 0 <= at < it.at + it.size:
            byte = pointer - it.payload
            length = it.low if it.is_live else 8 * (it.size - HEADER)
            where = "in the header" if byte < 0 else f"byte {byte}" if byte < length else f"byte {byte - length} past the end"
            return f"{where} of the block at place {it.at}, payload at {it.payload:#x}: {it}"
    return f"outside the heap, whose words begin at {base:#x} and end at {base + 8 * (it.at + it.size):#x}"


class HeapPrinter:
    def __init__(self, heap):
        self.heap = heap

    def to_string(self):
        base, live, free = int(self.heap["base"]), [], []
        if not base or not self.heap["is_open"]:
            return "a heap that is closed, or in a call"
        try:
            for count, it in enumerate(blocks(base)):
                if count == MOST_SHOWN:
                    return f"a heap at {base:#x} of more than {count} blocks"
                (live if it.is_live else free).append(it.size)
        except gdb.GdbError as why:
            return f"a heap at {base:#x}, {why}"
        return f"a heap at {base:#x}: {len(live)} live blocks of {sum(live)} words, {len(free)} free of {sum(free)}"


class NamePrinter:
    def __init__(self, name):
        self.name = name

    def to_string(self):
        return f"heap {int(self.name['heap'])}, place {int(self.name['at'])}, serial {int(self.name['serial'])}"


class Command(gdb.Command):
    __doc__ = __doc__

    def __init__(self):
        super().__init__("tlsf", gdb.COMMAND_DATA, gdb.COMPLETE_SYMBOL)

    def invoke(self, text, from_tty):
        words = gdb.string_to_argv(text)
        kind = " ".join([words[0] if words else "", str(len(words))])
        if kind not in ("blocks 2", "lists 2", "whose 3"):
            raise gdb.GdbError("tlsf blocks HEAP, tlsf lists HEAP, or tlsf whose HEAP POINTER; help tlsf says more")
        base = base_of(raw_of(gdb.parse_and_eval(words[1])))
        if words[0] == "blocks":
            for it in blocks(base):
                gdb.write(f"{it.at:8} {it.payload:#x} {it.size:8} words, {it}\n")
        elif words[0] == "lists":
            for found in lists(base):
                gdb.write(", ".join(f"{it.size} words at {it.at}" for it in found) + "\n")
        else:
            gdb.write(whose(base, int(gdb.parse_and_eval(words[2]))) + "\n")


def printer_of(value):
    tag = value.type.strip_typedefs().unqualified().tag
    if tag in ("tlsf_heap", "tlsf_near_heap"):
        return HeapPrinter(value if tag == "tlsf_heap" else handle_of(value))
    return NamePrinter(value) if tag == "tlsf_name" else None


gdb.pretty_printers.append(printer_of)
Command()
