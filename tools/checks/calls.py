"""The calls of C's library are one table, include/peachanchor.h, which
tools/calls.py reads:

- each is a call of crates/tlsf_c with the same parameters, or one of
  c/memory.c, or one of C's, which TLSF_CALL or TLSF_SHORT_CALL says and whose
  body tlsf_inline.h has, and there are no others;
- TLSF_BY_VALUE stands before those that are given or answer a struct by value;
- proved.rs of peachanchor-sys and include/tlsf_prefix.h are as tools/calls.py
  makes them;
- the last table of docs/C.md names each call of C's, and each that is called
  through an inline function of the header;
- tests/c/steps.c counts the calls that have a bound."""
import re

import calls
import tree

PROVED, INLINE, PREFIX = "bindings/rust/peachanchor-sys/src/proved.rs", "include/tlsf_inline.h", "include/tlsf_prefix.h"
SOURCES, MEMORY, PAGE, STEPS = "crates/tlsf_c/src", "c/memory.c", "docs/C.md", "tests/c/steps.c"
CALL = re.compile(r'^pub extern "C" fn (tlsf_\w+)\(\s*(.*?),?\s*\) -> (\S+)', re.M | re.S)
OF_MEMORY = re.compile(r"^(?:[A-Z_]+ )*(?:uint32_t|size_t) (tlsf_\w+)\([^;]*?\) \{", re.M)
BODY = re.compile(r"^(?:TLSF_\w+ )+[\w *]*?\b(tlsf_\w+)\([^;{]*?\) TLSF_NOEXCEPT \{", re.M)
HEADING = "## Which calls are proved"
BOUND = re.compile(r"^library (\w+) ", re.M)
COUNTED = re.compile(r'\{"(\w+)", \(uintptr_t\)\1,')
ADDRESS, PAIR = "an address", "a pair"


def text_of(name):
    return tree.read(tree.TOP / name)


def in_source(kind):
    """What C's compiler makes of a type of Rattle's: an address, a pair, or a number of that type."""
    if kind.startswith(("&[", "&mut [")):
        return [ADDRESS, "usize"]
    return [ADDRESS if kind.startswith("&") else PAIR if kind[0].isupper() else kind]


def in_header(value):
    return ADDRESS if value.pointers else PAIR if value.is_pair else value.in_rust


def proved():
    """The calls of tlsf_c, and the kinds of what each answers and is given."""
    found = {}
    for file in sorted((tree.TOP / SOURCES).rglob("*.rt")):
        for name, given, answer in CALL.findall(tree.read(file)):
            kinds = [it.partition(": ")[2] for it in re.split(r",\s*", given)]
            found[name] = [*in_source(answer), *(kind for it in kinds if it != "Global" for kind in in_source(it))]
    return found


def differing(what, has, wanted):
    for it in sorted(has ^ wanted):
        yield f"{what}: {it} is {'one more' if it in has else 'not there'}"


def faults():
    declared = {it.name: it for it in calls.read()}
    of_source, of_memory = proved(), set(OF_MEMORY.findall(text_of(MEMORY)))
    of_c = {it.name for it in declared.values() if it.is_of_c}
    yield from differing(f"{SOURCES}, {MEMORY}", {*of_source} | of_memory, ({*declared} - of_c).union(calls.renamed().values()))
    for name in sorted(of_c.difference(BODY.findall(text_of(INLINE)))):
        yield f"{INLINE}: {name} has no body"
    for name, it in declared.items():
        wanted = [in_header(value) for value in (it.answer, *it.parameters)]
        if of_source.get(name, wanted) != wanted:
            yield f"include/peachanchor.h: {name} is of {', '.join(wanted)}, and in {SOURCES} of {', '.join(of_source[name])}"
        if it.is_by_value != it.says_by_value:
            yield f"include/peachanchor.h: {name} {'lacks' if it.is_by_value else 'needs no'} TLSF_BY_VALUE"
    if text_of(PROVED) != calls.rust():
        yield f"{PROVED}: tools/calls.py --rust prints other lines"
    if text_of(PREFIX) != calls.prefix():
        yield f"{PREFIX}: tools/calls.py --prefix prints other lines"
    told = set(re.findall(r"`(tlsf_\w+)`", text_of(PAGE).partition(HEADING)[2]))
    for name in sorted(of_c.union(calls.wrapped(), of_memory).difference(told, calls.renamed().values())):
        yield f"{PAGE}: '{HEADING[3:]}' doesn't name {name}"
    yield from differing(STEPS, set(COUNTED.findall(text_of(STEPS))), set(BOUND.findall(text_of("tools/longest_path.bounds"))))


def looked_at():
    return f"{len(calls.read())} calls"
