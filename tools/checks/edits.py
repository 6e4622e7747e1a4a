"""Each wrong body of a crate's wrong_bodies.toml still applies: each text that it
changes stands once in its file, but for a proof that it brings whole, and it
changes something. They stand in the order of their names, and each says what
tries it; no file of its own has one. Where one turns a law, of a folder laws/
or of tlsf_yard_laws, its line `shown` says what shows that the law is false.

Each known wrong body of the table in docs/WRONG_BODIES.md is refused by what is
there: by a wrong body that ./test tries, by a test of public calls, by a stored
case, or by a file."""
import pathlib
import re

import tree
from bodies import TEST, TRIED_BY, WrongBody, tables_of, wrong_bodies
from case_files import cases
from checks.names import tests

KNOWN = tree.TOP / "docs" / "WRONG_BODIES.md"
HEADING = "## Known wrong allocators"
ROW = re.compile(r"^\| (.+) \| (.+) \|$", re.M)
# The line that a wrong body begins with, and that of each further change.
HEAD = re.compile(r"^\[{1,2}(\w+)(?:\.and\])?\]$", re.M)
PART, WHOLE = {"file", "old", "new"}, {"tried_by", "shown", "and", "file", "old", "new"}


def is_of_law(crate, changes):
    return crate.name == "tlsf_yard_laws" or any(pathlib.PurePath(file).parts[1] == "laws" for file, _, _ in changes)


def form_faults(wrong):
    """Why a wrong body's table can't be read."""
    if wrong.tried_by not in TRIED_BY:
        yield f"says by 'tried_by' none of {', '.join(TRIED_BY)}"
    if not isinstance(wrong.table.get("and", []), list) or not all(isinstance(it, dict) for it in wrong.parts):
        yield "has an 'and' that is no table as [[NAME.and]]"
        return
    for part in wrong.parts:
        for key in sorted(set(part) - (WHOLE if part is wrong.table else PART)):
            yield f"has a key that is read as nothing: {key}"
        is_whole = part is not wrong.table and "old" not in part and str(part.get("file")).startswith("proofs/")
        if "new" not in part or not is_whole and not part.get("old"):
            yield "has a change with no 'new', or with no 'old' that isn't a whole file below proofs/"
        lines = {"shown", "new"} if is_whole else {"shown"}
        if any(not isinstance(it, str) or key not in lines and "\n" in it for key, it in part.items() if key != "and"):
            yield "has a text that is no string of one line"


def faults_of(crate, wrong):
    """Why the wrong body does not apply to the crate; nothing where it does."""
    if told := list(form_faults(wrong)):
        yield from told
        return
    texts = {}
    for file, old, new in wrong.changes:
        if not file or pathlib.PurePath(file).parts[0] not in tree.PARTS:
            yield "has a change with no 'file' below src/, specs/ or proofs/"
            return
        if not old:
            texts[file] = new
            continue
        if not (crate / file).is_file():
            yield f"names {file}, which isn't there"
            return
        text = texts.get(file) or tree.read(crate / file)
        if text.count(old) != 1:
            yield f"changes a text that stands {text.count(old)} times in {file}, and not once: {old}"
            return
        texts[file] = text.replace(old, new)
    if all(old == new for _, old, new in wrong.changes):
        yield "changes nothing"
    if is_of_law(crate, wrong.changes) and not wrong.shown:
        yield "doesn't say by 'shown' what shows that the law is false"


def order_faults(crate):
    """Names that stand behind a greater one, and a change that stands in another wrong body."""
    names = HEAD.findall(tree.read(crate / "wrong_bodies.toml"))
    for before, name in zip(names, names[1:]):
        if before > name:
            yield f"{name} stands behind {before}, and not in the order of names"
    for name in sorted(set(tables_of(crate)) - set(names)):
        yield f"{name} has no line [{name}]"


def known():
    """The known wrong bodies, each with the names of what refuses it."""
    _, *rows = ROW.findall(tree.read(KNOWN).partition(HEADING)[2].partition("\n## ")[0])
    return {body: re.findall(r"`([^`]+)`", names) for body, names in rows}


def is_there(name):
    """Whether a wrong body that ./test tries, as CRATE/NAME, a test, a case or a file is there."""
    crate, _, wrong = name.rpartition("/")
    tried = {it.name for it in wrong_bodies(tree.TOP / "crates" / crate, [TEST])}
    return wrong in tried or name in tests() or name in cases() or (tree.TOP / name).is_file()


def known_faults():
    if not known():
        yield f"{KNOWN.name}: has no table under '{HEADING[3:]}'"
    for body, names in known().items():
        if not names:
            yield f"{KNOWN.name}: names nothing that refuses: {body}"
        for name in names:
            if not is_there(name):
                yield f"{KNOWN.name}: {name} isn't tried by ./test, is no test, no case and no file, and is to refuse: {body}"


def all_of(crate):
    """The wrong bodies of a crate, by whatever they are tried."""
    return [WrongBody(*it) for it in tables_of(crate).items()]


def faults():
    yield from known_faults()
    for crate in filter(tables_of, tree.crates()):
        told = (crate / "wrong_bodies.toml").relative_to(tree.TOP)
        yield from (f"{told}: {fault}" for fault in order_faults(crate))
        for wrong in all_of(crate):
            yield from (f"{told}: {wrong.name} {fault}" for fault in faults_of(crate, wrong))
    for file in sorted(tree.TOP.glob("crates/*/*/*.edit")):
        yield f"{file.relative_to(tree.TOP)}: is tried by nothing: a wrong body stands in wrong_bodies.toml"


def looked_at():
    return f"{sum(len(all_of(it)) for it in tree.crates())} wrong bodies, {len(known())} known ones"
