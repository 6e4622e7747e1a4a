"""The wrong bodies of a crate, which stand in its wrong_bodies.toml, and the sum of all that they were tried on."""
import dataclasses
import functools
import hashlib

import tree
from case_files import tables_in

# What tries a wrong body: ./test, ./attack besides, and a test of what is drawn, of which no prover refuses any.
TRIED_BY = TEST, ATTACK, DRAWN = "./test", "./attack", "tools/wrong_pictures"
BY_PROVER = (TEST, ATTACK)


@dataclasses.dataclass(frozen=True)
class WrongBody:
    """A wrong body of a crate by its table in wrong_bodies.toml, whose parts are the texts that it changes."""

    name: str
    table: dict

    @property
    def tried_by(self):
        return self.table.get("tried_by")

    @property
    def shown(self):
        """What shows that a law is false under it, or what a reader needs to know of it, in one line."""
        return " ".join(self.table.get("shown", "").split("\n"))

    @property
    def parts(self):
        return [self.table, *self.table.get("and", [])]

    @property
    def changes(self):
        """The file, the old text and the new one of each part; one that names no file is of that of the part before. Where the old text is
        empty, the new one is the whole file."""
        found, file = [], None
        for part in self.parts:
            file = part.get("file", file)
            found.append((file, part.get("old", ""), part["new"]))
        return found

    @property
    def edit(self):
        """Its changes as `rt must-fail` reads them."""
        return "".join(f"{key}: {part[key]}\n" for part in self.parts for key in ("file", "old", "new") if key in part)


@functools.cache
def tables_of(crate):
    """The tables of the wrong bodies of a crate's folder, by their names in the order of the file."""
    file = crate / "wrong_bodies.toml"
    return tables_in(file) if file.is_file() else {}


def wrong_bodies(crate, tried_by=BY_PROVER):
    """The wrong bodies of a crate's folder that one of these tries, by their names in order."""
    found = [WrongBody(*it) for it in sorted(tables_of(crate).items())]
    return [it for it in found if it.tried_by in tried_by]


def text_sum(crate):
    """Seven digits that tell the text of a crate from another: of its sources, proofs and wrong bodies."""
    told = hashlib.sha256()
    files = [it for part in tree.PARTS for it in (crate / part).rglob("*") if it.is_file()]
    texts = sorted((it.relative_to(crate).as_posix(), it.read_bytes()) for it in files)
    for name, text in texts + [(f"{it.name}.edit", it.edit.encode()) for it in wrong_bodies(crate)]:
        told.update(f"{name}\n{len(text)}\n".encode() + text)
    return told.hexdigest()[:7]
