"""No folder of a crate names one that names it back, be it through others. A
folder is what has one name in src/, in specs/, in proofs/lemmas/ and in proofs/
(proofs of its functions), and names what its files bring in by `use`. Each
crate with folders in src/ is looked at."""
import graphlib
import re

import tree

CODE = re.compile(r"\bcrate::(\w+)")
PARTS = ("src", "specs", "proofs/lemmas", "proofs")


def folders_of(crate):
    def inside(part):
        return [it.name for it in sorted((crate / part).glob("*")) if it.is_dir()]

    # A folder of definitions alone has no code.
    return list(dict.fromkeys([*inside("src"), *inside("specs")])) if inside("src") else []


def named_in(crate, folder, folders):
    """Each folder that this one names, with the first file and line that do."""
    cited = re.compile(rf"Rattle\.{crate.name}\.(?:specs\.declared|specs|proofs\.lemmas|proofs)\.(\w+)")
    found = {}
    for file in (it for part in PARTS for it in sorted((crate / part / folder).rglob("*")) if it.suffix in (".rt", ".antt")):
        for number, line in enumerate(tree.read(file).split("\n"), 1):
            if not line.lstrip().startswith(("//", "--")):
                for name in CODE.findall(line) + cited.findall(line):
                    if name in folders and name != folder:
                        found.setdefault(name, f"{file.relative_to(tree.TOP).as_posix()}:{number}")
    return found


def circle_in(names):
    """Folders of which each names the next, and the last the first; nothing where no such are there."""
    try:
        graphlib.TopologicalSorter(names).prepare()
    except graphlib.CycleError as found:
        return found.args[1][::-1]
    return []


def faults():
    for crate in tree.crates():
        folders = folders_of(crate)
        names = {it: named_in(crate, it, folders) for it in folders}
        if way := circle_in(names):
            yield f"{crate.name}: " + ", ".join(f"{a} names {b} ({names[a][b]})" for a, b in zip(way, way[1:]))


def looked_at():
    return f"{sum(len(folders_of(it)) for it in tree.crates())} folders"
