#!/usr/bin/env python3
"""usage: tools/calls.py [--rust | --prefix | HEADER]

Prints the names of the calls that C's library has, one a line, as
include/peachanchor.h or another HEADER declares them, and those that some have
for the linker besides: that file is the one table of them. Of it are made what
--rust prints, bindings/rust/peachanchor-sys/src/proved.rs, and what --prefix
prints, include/tlsf_prefix.h. `tools/check` holds all else to the table that
lists calls.

The exit status is 0, 1 where the header can't be read, and 2 where the words
are others.
"""
import dataclasses
import pathlib
import re
import sys

sys.dont_write_bytecode = True
import script
from tree import TOP

HEADER = TOP / "include" / "peachanchor.h"
INLINE = TOP / "include" / "tlsf_inline.h"
REMARK = re.compile(r"/\*.*?\*/|^#.*?(?<!\\)$", re.S | re.M)
DECLARED = re.compile(
    r"(?:^|[;{}])\s*((?:TLSF_\w+ )*)(?:static inline )?([\w ]+?[ *]+)(tlsf_\w+)\(([^()]*)\)\s+TLSF_NOEXCEPT(?=(?:\s+TLSF_\w+\([^()]*\))*;)",
    re.M,
)
IN_RUST = {"uint8_t": "u8", "uint32_t": "u32", "uint64_t": "u64", "size_t": "usize", "void": "c_void", "char": "c_char"}
# What takes memory from malloc, so the archive without malloc refuses it.
TAKES_MALLOC = re.compile(r"tlsf_(?!poster)(\w+_)?open(_near)?")
RUST = """//! The calls that are in the archive, as `peachanchor.h` declares them: made by `tools/calls.py --rust`.

use crate::*;
use core::ffi::{{c_char, c_void}};

#[cfg(feature = "malloc")]
#[rustfmt::skip]
extern "C" {{
{malloc}
}}

#[rustfmt::skip]
extern "C" {{
{others}
}}

/// On Windows C hands structs over in memory, so there the calls with one by value are called as on Linux.
macro_rules! by_value {{
    ($($calls:tt)*) => {{
        #[cfg(not(all(windows, target_arch = "x86_64")))]
        extern "C" {{ $($calls)* }}
        #[cfg(all(windows, target_arch = "x86_64"))]
        extern "sysv64" {{ $($calls)* }}
    }};
}}

#[rustfmt::skip]
by_value! {{
{by_value}
}}
"""
PREFIX = """/* What the linker calls the calls where TLSF_PREFIX is defined before peachanchor.h, which includes this. Made by
 * `tools/calls.py --prefix`. */
#ifndef TLSF_PREFIX_H
#define TLSF_PREFIX_H

#if !defined(__PRAGMA_REDEFINE_EXTNAME) || defined(__APPLE__)
#error "TLSF_PREFIX is for gcc and clang, and for no macOS, where the pragma would leave out the mark in front of a name"
#endif

/* The prefix is replaced first, since it is a macro itself; so three steps are needed. */
#define TLSF_DO(text) _Pragma(#text)
#define TLSF_RENAME_BY(prefix, call, name) TLSF_DO(redefine_extname call prefix##name)
#define TLSF_RENAME_AS(prefix, call, name) TLSF_RENAME_BY(prefix, call, name)
#define TLSF_RENAME(call, name) TLSF_RENAME_AS(TLSF_PREFIX, call, name)

{proved}

/* These are of the file alone where they are inline. */
#ifndef TLSF_INLINE
{of_c}
#endif

#undef TLSF_RENAME
#undef TLSF_RENAME_AS
#undef TLSF_RENAME_BY
#undef TLSF_DO
#endif
"""


@dataclasses.dataclass(frozen=True)
class Value:
    """A parameter, or what a call answers: its type in C without `const` and `*`, and how many pointers lead to it."""

    name: str
    type: str
    pointers: int
    is_const: bool

    @classmethod
    def read(cls, text):
        is_const, kind, stars, name = re.fullmatch(r"(const )?(?:struct )?(\w+) ?(\**)(\w*)", " ".join(text.split())).groups()
        return cls(name, kind, len(stars), bool(is_const))

    @property
    def is_pair(self):
        """Whether it is a struct by value, which goes in two registers."""
        return not self.pointers and self.type.startswith("tlsf_")

    @property
    def in_rust(self):
        kind = "*const " if self.is_const else "*mut "
        return kind * self.pointers + IN_RUST.get(self.type, self.type)


@dataclasses.dataclass(frozen=True)
class Call:
    """A call that a header declares."""

    name: str
    answer: Value
    parameters: tuple
    is_of_c: bool  # C over proved calls, with a body in tlsf_inline.h
    is_looked_at: bool  # a compiler warns where its answer isn't
    says_by_value: bool

    @property
    def is_by_value(self):
        return any(it.is_pair for it in (self.answer, *self.parameters))

    @property
    def in_rust(self):
        given = ", ".join(f"{it.name}: {it.in_rust}" for it in self.parameters)
        return f"    {'#[must_use] ' * self.is_looked_at}pub fn {self.name}({given}) -> {self.answer.in_rust};"


def read(header=HEADER):
    """The calls of a header in their order."""
    text = REMARK.sub("", header.read_text(encoding="utf-8"))
    calls = []
    for said, answer, name, given in DECLARED.findall(text):
        parameters, words = tuple(Value.read(it) for it in given.split(",")), said.split()
        is_of_c = not {"TLSF_CALL", "TLSF_SHORT_CALL"}.isdisjoint(words)
        calls.append(Call(name, Value.read(answer), parameters, is_of_c, "TLSF_ANSWER" in words, "TLSF_BY_VALUE" in words))
    if not calls:
        raise ValueError(f"{header} declares no call")
    return calls


def renamed(header=HEADER):
    """The calls that have another name for the linker, and that name."""
    return dict(re.findall(r"^#pragma redefine_extname (\w+) (\w+)$", header.read_text(encoding="utf-8"), re.M))


def wrapped():
    """The calls that are called through an inline function of tlsf_inline.h."""
    return re.findall(r"^#define (tlsf_\w+)\(\.\.\.\)", INLINE.read_text(encoding="utf-8"), re.M)


def rust():
    """proved.rs of peachanchor-sys."""
    groups = {"malloc": [], "by_value": [], "others": []}
    for it in read():
        groups["by_value" if it.is_by_value else "malloc" if TAKES_MALLOC.fullmatch(it.name) else "others"].append(it.in_rust)
    return RUST.format(**{kind: "\n".join(lines) for kind, lines in groups.items()})


def prefix():
    """tlsf_prefix.h. A call that has another name for the linker keeps that one after the prefix."""
    groups, names = {"proved": [], "of_c": []}, renamed()
    for it in read():
        groups["of_c" if it.is_of_c else "proved"].append(f"TLSF_RENAME({it.name}, {names.get(it.name, it.name)})")
    return PREFIX.format(**{kind: "\n".join(lines) for kind, lines in groups.items()})


MADE = {"--rust": rust, "--prefix": prefix}


def main(words):
    try:
        if words and words[0] in MADE:
            sys.stdout.write(MADE[words[0]]())
        else:
            header = pathlib.Path(words[0]) if words else HEADER
            print("\n".join(sorted([*(it.name for it in read(header)), *renamed(header).values()])))
    except (OSError, ValueError) as why:
        print(f"calls.py: {why}", file=sys.stderr)
        return 1
    return 0


if __name__ == "__main__":
    sys.exit(main(script.words(__doc__, lambda it: not it or len(it) == 1 and (it[0] in MADE or not it[0].startswith("-")))))
