"""Each stored answer of the program is the one that a second reading tells, and
so is each picture of a page that is one; but for helps and the version
(tools/cases). So no case is changed by hand alone. In a file of tests/cases/
they stand in the order of their names, each with `args`, one of `input` and
`trace` or none, and `stdout` last. Each recorded program has its picture."""
import itertools

import case_files
import stored
import tree
from model.commands import Untold

# The keys of a case, in their order.
FORMS = [[*keys, *last] for keys in (["args"], ["args", "input"], ["args", "trace"]) for last in ([], ["stdout"])]


def form_faults(case):
    """Why a case can't be read or written."""
    if [*case.table] not in FORMS:
        yield "has other keys than args, input or trace, and stdout, in this order"
    elif not all(isinstance(it, str) and it for it in case.table.values()):
        yield "has a key that is no text, or an empty one"
    elif "trace" in case.table and not (tree.TOP / case.table["trace"]).is_file():
        yield f"names {case.table['trace']}, which isn't there"


def file_faults():
    for file in sorted({*case_files.FOLDER.iterdir(), case_files.RECORDED}):
        if file.suffix != ".toml":
            yield f"{file.relative_to(tree.TOP)}: is no file of cases"
            continue
        found = case_files.cases_of(file)
        for it in found:
            yield from (f"{it.place} {fault}" for fault in form_faults(it))
        for before, it in itertools.pairwise(found):
            if before.name > it.name:
                yield f"{it.place} stands after {before.name}, and not in the order of names"


def recorded_faults():
    has_picture = {tree.TOP / it.table.get("trace", "") for it in case_files.cases_of(case_files.RECORDED)}
    for trace in sorted({*case_files.RECORDED.parent.glob("*.trace")} - has_picture):
        yield f"{trace.relative_to(tree.TOP)}: has no picture in {case_files.RECORDED.name}"


def faults():
    found = [*file_faults()]
    if found:
        yield from found
        return
    yield from recorded_faults()
    for it in stored.all_stored():
        try:
            told = it.tell()
        except Untold:
            continue
        if it.text != told:
            yield f"{it.place} isn't what a second reading tells: tools/cases {it.name} shows that"


def looked_at():
    return f"{len(stored.all_stored())} stored answers"
