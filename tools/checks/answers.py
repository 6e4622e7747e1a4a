"""The numbers that calls from C answer are one list, wherever they stand:

- `enum tlsf_answer` of include/peachanchor.h, the constants of peachanchor-sys
  and the enum Error of peachanchor have the same numbers, and so have the
  definitions in crates/tlsf_c/specs/Refusals.antt and what c/memory.c answers;
- an answer that is named in the table of refusals of docs/TRACE.md has its
  number there. Others below 32 are those of `SHARED` here, and the rest begin
  at 32: so no number means one thing in a trace and another in C;
- ALL, in which Error::check finds an answer, has each variant of Error but
  Unknown;
- tlsf_text_of says something of each answer, and of no two answers the same."""
import re

import tree

OWN = 32
# What no reply of a trace refuses: what is no refusal, and numbers of faults of `tlsf` itself.
SHARED = {"OK": 0, "BAD_SIZE": 5, "NO_MEMORY": 6, "NOT_WRITTEN": 17}
HEADER, SOURCE, MEMORY = "include/peachanchor.h", "crates/tlsf_c/specs/Refusals.antt", "c/memory.c"
INLINE, RUST, ERROR = "include/tlsf_inline.h", "bindings/rust/peachanchor-sys/src/lib.rs", "bindings/rust/peachanchor/src/error.rs"
# Names of the definitions, and of Error, that are other words than C's.
OF_DEFINITION = {"CLOSED": "IS_CLOSED", "DAMAGE": "DAMAGED"}
OF_ERROR = {"CLOSED": "IS_CLOSED", "UNKNOWN": None}
# Refused by c/memory.c, or in the header alone.
UNPROVED = {"BAD_MEMORY"}


def found_in(name, pattern):
    return re.findall(pattern, tree.read(tree.TOP / name), re.M)


def upper(name):
    return re.sub(r"(?<=[a-z])(?=[A-Z])", "_", name).upper()


def numbers_in(name, pattern, other=None):
    """The numbers that a file gives to names, by C's names."""
    pairs = ((upper(it), int(number)) for it, number in found_in(name, pattern))
    return {(other or {}).get(it, it): number for it, number in pairs if (other or {}).get(it, it)}


def differing(name, has, wanted):
    for it in sorted(has.keys() | wanted.keys()):
        if has.get(it) != wanted.get(it):
            yield f"{name}: {it} is {has.get(it, 'not there')}, and {wanted.get(it, 'not there')} in {HEADER}"


def faults():
    answers = numbers_in(HEADER, r"^    TLSF_([A-Z_]+) = (\d+)\b")
    traced = {upper(it): int(number) for number, it in found_in("docs/TRACE.md", r"^\| (\d+) \| ([A-Z]\w+) \|")}
    shared = {**traced, **SHARED}
    for it, number in answers.items():
        if shared.get(it, number) != number or (it not in shared and number < OWN):
            yield f"{HEADER}: {it} is {number}, which is {shared.get(it, 'the number of no refusal of C')} in a trace"
    proved = {it: number for it, number in answers.items() if number >= OWN and it not in UNPROVED}
    defined = numbers_in(SOURCE, r"^([a-z_]+) = (\d+)$", OF_DEFINITION)
    yield from differing(SOURCE, defined, {**proved, **{it: answers.get(it) for it in ("BAD_SIZE", "NO_MEMORY", "FULL")}})
    yield from differing(
        MEMORY, numbers_in(MEMORY, r"^    (BAD_[A-Z]+) = (\d+)\b"), {it: answers.get(it) for it in ("BAD_SIZE", "BAD_MEMORY")}
    )
    yield from differing(RUST, numbers_in(RUST, r"^pub const TLSF_([A-Z_]+): u32 = (\d+);$"), {**answers, "UNFILLED": 1})
    of_error = numbers_in(ERROR, r"^    ([A-Z]\w+) = (\d+),$", OF_ERROR)
    yield from differing(ERROR, of_error, {it: number for it, number in answers.items() if it not in ("OK", "NOT_WRITTEN")})
    # `Error::check` finds an answer in this list alone.
    listed = found_in(ERROR, r"^        Self::([A-Z]\w+),$")
    if set(listed) != set(found_in(ERROR, r"^    ([A-Z]\w+) = \d+,$")) - {"Unknown"}:
        yield f"{ERROR}: ALL has not each error but Unknown, or one more"
    texts = dict(found_in(INLINE, r'^    case TLSF_(\w+): return "(.*)";$'))
    if texts.keys() != answers.keys():
        yield f"{INLINE}: tlsf_text_of doesn't know each answer, or one more"
    if len(set(texts.values())) != len(texts):
        yield f"{INLINE}: tlsf_text_of says the same of two answers"


def looked_at():
    return f"{len(found_in(HEADER, r'^    TLSF_[A-Z_]+ = [0-9]+'))} answers"
