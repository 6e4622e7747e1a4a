#!/usr/bin/env python3
"""usage: tests/c/foreign.py LIBRARY

Makes calls of the shared library LIBRARY by their names alone, as any language
does that calls C: those by pointer too, which have no header here. The exit
status is 0 where each does what peachanchor.h says.
"""
import ctypes
import sys

POINTER, SIZE, NUMBER = ctypes.c_void_p, ctypes.c_size_t, ctypes.c_uint32


class Name(ctypes.Structure):
    _fields_ = [("heap", NUMBER), ("at", NUMBER), ("serial", ctypes.c_uint64)]


def call_of(library, name, answer, *parameters):
    call = getattr(library, f"tlsf_{name}")
    call.restype, call.argtypes = answer, parameters
    return call


def main(path):
    library = ctypes.CDLL(path)
    give = call_of(library, "malloc", POINTER, POINTER, SIZE)
    give_zeros = call_of(library, "calloc", POINTER, POINTER, SIZE, SIZE)
    resize = call_of(library, "realloc", POINTER, POINTER, POINTER, SIZE)
    give_aligned = call_of(library, "aligned_alloc", POINTER, POINTER, SIZE, SIZE)
    take_back = call_of(library, "free", NUMBER, POINTER, POINTER)
    usable = call_of(library, "usable_size", SIZE, POINTER, POINTER)
    name_of = call_of(library, "name_at", NUMBER, POINTER, POINTER, POINTER)
    payload = call_of(library, "payload", POINTER, POINTER, Name, POINTER)
    base, at_base = call_of(library, "base", POINTER, POINTER), call_of(library, "at", POINTER, POINTER, Name)
    text_of = call_of(library, "text_of", ctypes.c_char_p, NUMBER)
    near = call_of(library, "near", POINTER, POINTER)

    room, name = ctypes.create_string_buffer(2880), Name()
    assert call_of(library, "open_near", NUMBER, POINTER, NUMBER, NUMBER, NUMBER)(room, 4, 7, 4000) == 0
    heap = near(room)
    at, zeros, aligned = give(heap, 40), give_zeros(heap, 10, 10), give_aligned(heap, 1024, 10)
    assert at and at % 16 == 0 and usable(heap, at) >= 40
    assert ctypes.string_at(zeros, 100) == bytes(100) and aligned % 1024 == 0
    ctypes.memmove(at, b"kept", 5)
    moved = resize(heap, at, 5000)
    assert moved != at and ctypes.string_at(moved) == b"kept"
    assert name_of(heap, moved, ctypes.byref(name)) == 0 and name.heap == 7 and payload(heap, name, None) == moved
    assert at_base(base(heap), name) == moved and at_base(None, name) is None
    assert take_back(heap, moved) == 0 and payload(heap, name, None) is None
    assert text_of(take_back(heap, moved)) == b"no live block has that name or address"
    assert call_of(library, "close", NUMBER, POINTER)(heap) == 0


if __name__ == "__main__":
    main(*sys.argv[1:])
