"""What the sources say of a crate: its functions, types and constants with their docs and clauses, and the definitions of its specs/.

It reads by lines and indentation, as `rt fmt` sets them.
"""
import dataclasses
import itertools
import pathlib
import re

from tree import read

ITEM = re.compile(
    r"(?P<pub>pub(?:\([a-z]+\))? )?(?:unsafe (?=impl|trait))?(?:(?:const|unsafe|final|extern \"C\") (?=.*\bfn ))*"
    r"(?P<kind>fn|struct|enum|trait|impl|mod|use|const|static|type|ghost use|ghost)\b ?(?P<name>\w*)"
)
CLAUSE = re.compile(r"(requires|ensures|ghost)(\*?)(?: (\w+))?:? \{")
FIELD = re.compile(r"(pub(?:\([a-z]+\))? )?(ghost )?(\w+): ")
DEFINITION = re.compile(r"( *)(?:(?:abbrev|unfoldable) pub|pub (?:record|data)) (\S+)")
IMPL = re.compile(r"(?:unsafe )?impl(?:<(?:[^<>]|<[^<>]*>)*>)? (?:(?P<trait>.+) for )?(?P<owner>\w+)")


@dataclasses.dataclass
class Clause:
    kind: str
    name: str
    text: str


@dataclasses.dataclass
class Group:
    """Clauses that stand together, and the comment above them."""

    comment: str
    clauses: list


@dataclasses.dataclass
class Part:
    """A field, a variant, or a ghost member, as it is written."""

    name: str
    docs: str
    text: str
    ghost: bool = False
    shown: str = ""  # the text of an error


@dataclasses.dataclass
class Item:
    kind: str
    name: str
    docs: str
    head: str  # the signature, or the first line of a type
    public: bool
    file: pathlib.Path
    line: int
    attributes: list = dataclasses.field(default_factory=list)
    contract: list = dataclasses.field(default_factory=list)
    parts: list = dataclasses.field(default_factory=list)
    hides: bool = False  # has fields that aren't public
    items: list = dataclasses.field(default_factory=list)  # of an impl block or a trait
    uses: list = dataclasses.field(default_factory=list)  # the ghost use lines of that block

    def clauses(self):
        return [clause for group in self.contract for clause in group.clauses]


def balance(text, pairs="()[]{}"):
    return sum((text.count(a) - text.count(b)) for a, b in zip(pairs[::2], pairs[1::2]))


def plain(lines, mark):
    """The text of comment lines without their mark."""
    return "\n".join(it.strip()[len(mark) :].removeprefix(" ") for it in lines)


class Reader:
    """Reads the items of one file."""

    def __init__(self, file):
        self.file = file
        self.lines = read(file).split("\n")

    def docs(self):
        """The docs of the whole file."""
        return plain([it for it in self.lines if it.startswith("//!")], "//!")

    def items(self, at=0, end=None, indent=""):
        """The items of some lines that stand at one indentation."""
        end = len(self.lines) if end is None else end
        docs, attributes = [], []
        while at < end:
            line = self.lines[at]
            text = line.removeprefix(indent)
            if text.startswith("///"):
                docs.append(line)
            elif text.startswith("#[") or text.startswith("#!["):
                last = self.until(at, lambda it: balance(it) == 0)
                attributes.append(" ".join(it.strip() for it in self.lines[at : last + 1]))
                at = last
            elif not text:
                docs, attributes = [], []
            elif not text.startswith(("//", " ", "}")) and (found := ITEM.match(text)):
                item, at = self.item(found, at, indent, plain(docs, "///"), attributes)
                docs, attributes = [], []
                yield item
            at += 1

    def until(self, at, is_done):
        """The number of the line at which the text that begins at a line is done."""
        for last in range(at, len(self.lines)):
            if is_done("\n".join(self.lines[at : last + 1])):
                return last
        raise ValueError(f"{self.file}:{at + 1}: what begins here has no end")

    def closed(self, at, indent):
        """The number of the line that closes a block which is open at a line."""
        for last in range(at, len(self.lines)):
            if self.lines[last] == indent + "}":
                return last
        raise ValueError(f"{self.file}:{at + 1}: the block that is open here has no end")

    def item(self, found, at, indent, docs, attributes):
        """The item that begins at a line, and its last line."""
        kind, name = found["kind"], found["name"]
        public = found["pub"] == "pub "
        item = Item(kind, name, docs, "", public, self.file, at + 1, attributes)
        if kind == "fn":
            return item, self.function(item, at, indent)
        if kind in ("use", "ghost use", "mod", "const", "static", "type", "ghost"):
            last = self.until(at, lambda it: it.endswith(";") and (kind == "const" and it.count('"') % 2 == 0 or balance(it) == 0))
            item.head = "\n".join(it.removeprefix(indent) for it in self.lines[at : last + 1])
            return item, last
        opens = self.until(at, lambda it: it.endswith(("{", "}", ";")))
        item.head = "\n".join(it.removeprefix(indent) for it in self.lines[at : opens + 1])
        if not item.head.endswith("{"):
            return item, opens
        item.head = item.head.removesuffix(" {").removesuffix("\n{")
        last = self.closed(opens, indent)
        if kind in ("struct", "enum"):
            self.read_parts(item, opens + 1, last, indent + "    ")
        else:
            inner = list(self.items(opens + 1, last, indent + "    "))
            item.uses = [it.head for it in inner if it.kind == "ghost use"]
            item.items = [it for it in inner if it.kind != "ghost use"]
            item.parts = [ghost_part(it, self.lines) for it in inner if it.kind == "ghost"]
        return item, last

    def read_parts(self, item, at, end, indent):
        docs, attributes = [], []
        while at < end:
            text = self.lines[at].removeprefix(indent)
            if text.startswith("///"):
                docs.append(text)
            elif text.startswith("#["):
                attributes.append(text)
            elif text and not text.startswith("//"):
                last = self.until(at, lambda it: it.endswith(",") and balance(it) == 0)
                text = "\n".join(it.removeprefix(indent) for it in self.lines[at : last + 1]).removesuffix(",")
                field = FIELD.match(text) if item.kind == "struct" else None
                name = field[3] if field else re.match(r"\w+", text)[0]
                if item.kind == "enum" or field and field[1] == "pub ":
                    shown = [it for it in attributes if it.startswith("#[error(")]
                    item.parts.append(Part(name, plain(docs, "///"), text, bool(field and field[2]), *shown))
                else:
                    item.hides = True
                docs, attributes, at = [], [], last
            at += 1

    def function(self, item, at, indent):
        """Reads a function's signature and contract. The number of its last line."""
        inner = indent + "    "
        whole = lambda it: "(" in it and balance(it.replace("->", ""), "()[]<>") == 0
        last = self.until(at, whole)
        head = [it.removeprefix(indent) for it in self.lines[at : last + 1]]
        if self.lines[last + 1 : last + 2] == [indent + "where"]:
            last += 1
            head.append("where")
            while self.lines[last + 1].startswith(inner) and not CLAUSE.match(self.lines[last + 1].strip()):
                last += 1
                head.append(self.lines[last].removeprefix(indent))
        item.head = "\n".join(head)
        if item.head.endswith(("{}", ";")):
            item.head = item.head.removesuffix("{}").removesuffix(";").rstrip()
            return last
        if not item.head.endswith(" {"):
            last = self.contract(item, last + 1, indent)
            if self.lines[last].endswith((";", "{}")):
                return last
        item.head = item.head.removesuffix(" {")
        return self.closed(last, indent)

    def contract(self, item, at, indent):
        """Reads clauses up to the line that opens the body, or to the end of a trait's function; its number."""
        comment, fresh = [], True
        while at < len(self.lines) and self.lines[at] not in (indent + "{", indent + "{}"):
            text = self.lines[at].strip()
            if not text:
                comment, fresh = [], True
            elif text.startswith("//"):
                comment = [] if not fresh else comment
                comment.append(text)
                fresh = True
            elif found := CLAUSE.match(text):
                last = self.until(at, lambda it: balance(it, "{}") == 0)
                text = "\n".join(it.removeprefix(indent + "    ") for it in self.lines[at : last + 1])
                if fresh:
                    item.contract.append(Group(plain(comment, "//"), []))
                    comment, fresh = [], False
                inside = text[found.end() :].rstrip(";").removesuffix("}").strip()
                item.contract[-1].clauses.append(Clause(found[1] + found[2], found[3] or "", inside))
                at = last
                if text.endswith(";"):
                    return at
            else:
                raise ValueError(f"{self.file}:{at + 1}: this is no clause: {text}")
            at += 1
        return at


def ghost_part(item, lines):
    """A ghost member, with the comment above it as its docs."""
    at = item.line - 2
    while lines[at].strip().startswith("//"):
        at -= 1
    return Part(item.name, plain(lines[at + 1 : item.line - 1], "//"), item.head, True)


@dataclasses.dataclass(eq=False)
class Definition:
    crate: str
    module: str  # of specs/, as lanes.Yard
    name: str
    comment: str
    text: str


class Specs:
    """A file of specs/: what it defines, what it imports, and what it hands on."""

    def __init__(self, crate, module, file):
        self.crate, self.module, self.scope = crate, module, None
        lines = read(file).split("\n")
        self.uses = [it for it in joined(lines) if it.startswith("use ")]
        self.passed = [it.removeprefix("pub ") for it in joined(lines) if it.startswith("pub use ")]
        self.bound = bound_by_module(lines)
        self.definitions = {it.name: it for it in self.read(lines)}
        # What an import may name: a definition, or a way to make a value of one.
        self.names = {made: it for it in self.definitions.values() for made in makers(it.text)} | self.definitions
        head = itertools.takewhile(lambda it: it.startswith("--"), lines)
        self.comment = " ".join(it.removeprefix("--").strip() for it in head)

    def read(self, lines):
        for at, line in enumerate(lines):
            if not (found := DEFINITION.match(line)):
                continue
            indent, first, last = found[1], at, at + 1
            while lines[first - 1].startswith(f"{indent}--") and not lines[first - 1].startswith(f"{indent}-- ----"):
                first -= 1
            while last < len(lines) and (not lines[last] or not ends_definition(lines[last], indent)):
                last += 1
            text = "\n".join(it.removeprefix(indent) for it in lines[at:last]).rstrip()
            comment = " ".join(it.strip().removeprefix("--").strip() for it in lines[first:at] if first)
            yield Definition(self.crate, self.module, found[2], comment, text)


def bound_by_module(lines):
    """The variables of all definitions of a `module _ {T : Type 0} where`."""
    return {it for line in lines if line.startswith("module _") for it in re.findall(r"\{([\w' ]+) :", line)[0].split()}


def makers(text):
    """The names by which values of a definition are made."""
    return re.findall(r"^  (\w+) :", text, re.M) if text.startswith("pub data") else []


def ends_definition(line, indent):
    """Whether a line belongs to what comes after a definition at that indentation."""
    begun = DEFINITION.match(line)
    if not line.startswith(indent) or begun and begun[1] == indent:
        return True
    return line.startswith((f"{indent}--", "use ", "pub use ", "infix"))


def joined(lines):
    """The lines, each import in one."""
    text = "\n".join(lines)
    return re.sub(r"^((?:pub )?use [^\n{]*\{[^}]*\})", lambda it: " ".join(it[1].split()), text, flags=re.M).split("\n")
