"""The fixed public surface is there as surface.txt has it. That file has a
line `crate NAME` before the items that users find in a crate, be it by
`pub use`. Each item has the names, parameters, types and results of the file:
a struct or an enum its public fields or variants and no others, a trait its
functions and no others. Indented below it stand its functions, and `is` before
the traits that it has. `instead of` says which form was wanted where the tree
has another one: docs/DECISIONS.md names each of those with the reason."""
import dataclasses
import re

import tree
from checks.reference import libraries
from reference_page.sources import balance

TABLE = tree.TOP / "tools" / "checks" / "surface.txt"
REASONS = tree.TOP / "docs" / "DECISIONS.md"
HEADING = "## The fixed public surface"
NAME = re.compile(r"(?:pub )?(?:const )?(?:fn|struct|enum|trait|type) (\w+)")
DERIVED = re.compile(r"#\[derive\((.*)\)\]")


@dataclasses.dataclass
class Row:
    """An item of the table, or a function of one, with what the table says of it."""

    crate: str
    owner: str
    text: str
    traits: list = dataclasses.field(default_factory=list)
    functions: list = dataclasses.field(default_factory=list)
    wanted: str = ""

    @property
    def name(self):
        return (self.owner and f"{self.owner}::") + NAME.match(self.text)[1]


def plain(text):
    """A signature in one line, and without the comma behind its last part."""
    text = " ".join(text.split())
    return re.sub(r",? ([)}])", lambda it: " }" if it[1] == "}" else ")", text).replace("( ", "(").replace("(, ", "(")


def statements():
    """The lines of the table, each with its indentation, and what is open at its end joined to what closes it."""
    open_text = ""
    for line in tree.read(TABLE).split("\n"):
        if line.startswith("#") or not line:
            continue
        open_text += "\n" * bool(open_text) + line
        if balance(open_text) == 0:
            yield len(open_text) - len(open_text.lstrip()), plain(open_text)
            open_text = ""
    if open_text:
        raise ValueError(f"{TABLE}: an item has no end: {open_text[:60]}")


def rows():
    """The items of the table, and below each its functions."""
    crate, found = "", []
    for indent, text in statements():
        if text.startswith("crate "):
            crate = text.removeprefix("crate ")
        elif text.startswith("is "):
            found[-1].traits += text.removeprefix("is ").split(", ")
        elif text.startswith("instead of "):
            of_function = indent > 4 and found[-1].functions
            (found[-1].functions[-1] if of_function else found[-1]).wanted = text.removeprefix("instead of ")
        elif not NAME.match(text):
            raise ValueError(f"{TABLE}: this is no item: {text}")
        elif indent:
            found[-1].functions.append(Row(crate, found[-1].name, text))
        else:
            found.append(Row(crate, "", text))
    return found


def shown(public):
    """An item of the sources as the table has it."""
    item = public.item
    text = item.head if item.kind == "struct" else item.head.removesuffix(";")
    parts = [part.text for part in item.parts if not part.ghost] if item.kind in ("struct", "enum") else []
    if parts:
        text += " { " + ", ".join(parts) + ", .." * item.hides + " }"
    return plain(text)


def traits_of(public):
    derived = [it for line in public.item.attributes if (found := DERIVED.match(line)) for it in found[1].split(", ")]
    return {*derived, *(re.sub(r"<.*", "", it).rpartition("::")[2] for it in public.traits)}


def faults_of(row):
    """What the sources have otherwise than a row."""
    public = libraries().find(row.crate, row.name.split("::"))
    if not public:
        yield f"{row.crate} has no public {row.name}"
        return
    if (text := shown(public)) != row.text:
        yield f"{row.crate} has `{text}`, and the table `{row.text}`"
    for trait in row.traits:
        if trait not in traits_of(public):
            yield f"{row.crate}: {row.name} is no {trait}"
    if public.item.kind == "trait":
        told = {it.name.rpartition("::")[2] for it in row.functions}
        for member in public.members:
            if member.item.name not in told:
                yield f"{row.crate}: {row.name} asks for {member.item.name}, which isn't in the table"
    for function in row.functions:
        yield from faults_of(function)


def reasons():
    """What DECISIONS says of what differs."""
    return tree.read(REASONS).partition(HEADING)[2].partition("\n## ")[0]


def faults():
    given = set(re.findall(r"`([\w:]+)`", reasons()))
    for row in rows():
        yield from faults_of(row)
        for one in (row, *row.functions):
            if one.wanted and one.name not in given:
                yield f"docs/DECISIONS.md: '{HEADING[3:]}' gives no reason for the form of `{one.name}`"
            if one.wanted == one.text:
                yield f"surface.txt: {one.name} stands instead of itself"


def looked_at():
    found = [one for row in rows() for one in (row, *row.functions)]
    return f"{len(found)} items, {sum(bool(it.wanted) for it in found)} of another form"
