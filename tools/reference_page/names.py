"""What is public in the crates, and what a name in a clause, a signature or a doc stands for."""
import dataclasses
import pathlib
import re

from tree import lines_of_crates, needed

from .sources import IMPL, Definition, Item, Reader, Specs

# Crates that nobody stands on.
NO_LIBRARY = re.compile(r"example_\w+|uses")
WORD = re.compile(r"[^\W\d][\w']*")
# Words of the logic and of Rust, which no line brings in.
BUILT_IN = set(
    "_ λ let in do record data Type if then else pub abbrev unfoldable where Unit tt absurd 𝓛 row result self Self true false "
    "u8 u16 u32 u64 usize i32 i64 bool char str Some None Ok Err".split()
)
DOC_LINK = re.compile(r"\[`([^`\n]+)`\](?:\(([\w:]+)\)|(?!\())")
OUTSIDE = "outside"
PRIVATE = "private"


@dataclasses.dataclass(eq=False)
class Public:
    """A public item where a user finds it."""

    crate: str
    path: str
    item: Item
    scope: "Scope"
    owner: "Public" = None
    members: list = dataclasses.field(default_factory=list)
    model: list = dataclasses.field(default_factory=list)  # (name, text, scope)
    traits: list = dataclasses.field(default_factory=list)

    @property
    def anchor(self):
        return f"{self.crate}.{self.path.replace('::', '.')}"

    @property
    def kind(self):
        kind = {"fn": "function", "const": "constant", "type": "alias"}.get(self.item.kind, self.item.kind)
        return "method" if self.owner and kind == "function" else kind


class Scope:
    """What names stand for in one file, or in one block of it."""

    def __init__(self, tree, crate, uses=(), ghosts=(), local=(), bound=(), modules=()):
        self.tree, self.crate, self.bound = tree, crate, set(bound)
        self.rust = {it: (crate, it) for it in local}
        self.ghost = {}
        for line in uses:
            for path, name in flatten(line, "::"):
                self.rust[name] = (crate if path[0] in ("crate", "self", "super", *modules) else path[0], path[-1])
        for line in ghosts:
            for path, name in flatten(line, "."):
                self.ghost[name] = path

    def inside(self, ghosts, bound):
        scope = Scope(self.tree, self.crate, (), ghosts, (), self.bound | set(bound))
        scope.rust = self.rust
        scope.ghost = {**self.ghost, **scope.ghost}
        return scope

    def type_named(self, name):
        """The public item that a name of Rust stands for, or OUTSIDE, PRIVATE or None."""
        if name in self.rust:
            crate, name = self.rust[name]
            if crate not in self.tree.all_crates:
                return OUTSIDE
            return self.tree.index.get((crate, name), PRIVATE)
        return self.tree.index.get((self.crate, name))

    def in_doc(self, path):
        """The public item that a link of a doc leads to, or OUTSIDE, PRIVATE or None."""
        first, *rest = path.removesuffix("()").split("::")
        if first == "crate" or first in self.tree.all_crates:
            return self.tree.find(self.crate if first == "crate" else first, rest)
        found = self.type_named(first)
        return self.tree.find(found.crate, [found.path, *rest]) if isinstance(found, Public) and rest else found

    def cited(self, text, bound=()):
        """The names of a clause or a definition: where each begins and ends, and what it stands for."""
        # Neither texts nor comments name anything.
        text = re.sub(r'"[^"]*"|(?:^| )-- .*', lambda it: " " * len(it[0]), text, flags=re.M)
        bound = self.bound | set(bound) | bound_in(text)
        before = None, -1
        for found in WORD.finditer(text):
            name, at = found[0], found.start()
            if at and text[at - 1] == "." and at > 1 and not text[at - 2].isspace():
                target = self.within(before[0], name) if before[1] == at - 1 else ""
            else:
                target = self.means(name, bound)
            before = target, found.end()
            yield found.start(), found.end(), target

    def means(self, name, bound):
        if name in bound:
            return ""
        if name in self.ghost:
            return self.tree.behind(self.ghost[name])
        return self.type_named(name) or ("" if name in BUILT_IN else None)

    def within(self, target, name):
        """What a name behind a dot stands for: in a module of specs/ or in a type; nothing for a field of a value."""
        if isinstance(target, tuple):
            return self.tree.behind([*target, name])
        if isinstance(target, Public) and target.item.kind in ("enum", "struct", "type"):
            return target if name == target.item.name else self.tree.find(target.crate, [target.path, name])
        return ""


def bound_in(text):
    """The variables that a text binds, and the fields that it sets."""
    found = re.findall(r"λ ([^.]*)\.", text) + re.findall(r"[({]([\w' ]+) : ", text)
    found += re.findall(r"\blet ([\w']+)", text) + re.findall(r"([\w']+) (?:=|←) ", text)
    return set(WORD.findall(" ".join(found)))


def shown(path):
    """A link of docs as readers of any crate see it."""
    return path.removeprefix("crate::")


def outside_code(docs, change):
    """Docs with what stands outside their blocks of code changed."""
    parts = re.split(r"(^```.*?^```$)", docs, flags=re.M | re.S)
    return "".join(it if it.startswith("```") else change(it) for it in parts)


def doc_links(docs):
    """The links of docs to code: what is shown, and the path that it leads to."""
    found = []
    outside_code(docs, lambda it: found.extend((one[1], one[2] or one[1]) for one in DOC_LINK.finditer(it)) or it)
    return found


def generics(head):
    """The names that a signature or the head of a block brings in."""
    names = set(re.findall(r"(\w+): ", head))
    if inside := re.search(r"(?:fn \w+|impl|trait \w+|struct \w+|enum \w+|type \w+)<(.*)", head, re.S):
        depth, start = 1, True
        for token in re.findall(r"->|\w+|[<>(),]", inside[1]):
            depth += {"<": 1, "(": 1, ">": -1, ")": -1}.get(token, 0)
            if depth == 0:
                break
            if start and re.match(r"\w", token) and token != "const":
                names.add(token)
            start = token == "," and depth == 1 or token == "const"
    return names


def flatten(line, dot):
    """Each name that an import brings in, with what it stands for, as a path."""
    line = " ".join(line.split()).removeprefix("pub ").removeprefix("ghost ").removeprefix("use ").rstrip(";")
    prefix, brace, inside = line.partition("{")
    for part in inside.rstrip("} ").split(",") if brace else [line]:
        path, _, name = part.strip().partition(" as ")
        if path:
            path = [it for it in (*(prefix.strip().split(dot) if brace else ()), *([path] if brace else path.split(dot))) if it]
            if brace and dot == "::":
                path = [*path[:-1], *path[-1].split(dot)]
            if path[-1] == "self":
                path.pop()
            yield path, name or path[-1]


class Crate:
    def __init__(self, tree, name, line):
        self.tree, self.name, self.line = tree, name, line
        self.folder = tree.top / "crates" / name
        self.files = {it: Reader(it) for it in sorted((self.folder / "src").rglob("*.rt"))}
        self.root = self.folder / "src" / "lib.rt"
        self.docs = self.files[self.root].docs()
        self.found = {file: list(reader.items()) for file, reader in self.files.items()}
        self.scopes = {file: self.scope_of(items) for file, items in self.found.items()}
        self.items, self.lost = [], []  # public items, and names of the root that weren't found
        self.passed_on = []  # (name, crate, name there) of another crate's items

    def scope_of(self, items):
        heads = lambda kind: [it.head for it in items if it.kind == kind]
        local = [it.name for it in items if it.kind in ("struct", "enum", "trait", "const", "static", "type", "fn")]
        modules = [it.name for it in items if it.kind == "mod"]
        return Scope(self.tree, self.name, heads("use"), heads("ghost use"), local, (), modules)

    def collect(self):
        """Finds what the crate shows: what its root has or hands on, and what it exports to C."""
        for item in self.found[self.root]:
            if item.kind == "use" and item.public:
                for path, name in flatten(item.head, "::"):
                    self.hand_on(path, name)
            elif item.public and item.kind not in ("mod", "use"):
                self.show(item)
        exported = [it for items in self.found.values() for it in items if any("no_mangle" in a for a in it.attributes)]
        # A static library's types are known to C by their fields alone.
        named = set(WORD.findall(" ".join(it.head for it in exported)))
        for file in sorted(self.files, key=lambda it: it.as_posix()):
            for item in self.found[file]:
                if item.kind == "impl" and not exported:
                    self.attach(item)
                elif item in exported or item.public and item.kind in ("struct", "enum") and item.name in named:
                    self.show(item)

    def hand_on(self, path, name):
        file = self.folder / "src" / pathlib.Path(*path[:-1]).with_suffix(".rt") if len(path) > 1 else self.root
        if file not in self.found:
            self.passed_on.append((name, path[0], path[-1]))
            return
        found = [it for it in self.found[file] if it.name == path[-1] and it.kind not in ("mod", "use", "impl")]
        for item in found:
            self.show(item)
        if not found:
            self.lost.append("::".join(path))

    def show(self, item):
        scope = self.scopes[item.file].inside(item.uses, generics(item.head) | {it.name for it in item.parts if item.kind == "trait"})
        public = Public(self.name, item.name, item, scope)
        self.items.append(public)
        self.tree.index[self.name, public.path] = public
        for part in item.parts:
            self.tree.index[self.name, f"{item.name}::{part.name}"] = public
        if item.kind == "trait":
            self.add_members(public, item.items, scope)

    def attach(self, block):
        found = IMPL.match(block.head)
        owner = self.tree.index.get((self.name, found["owner"]))
        if not owner or owner.crate != self.name:
            return
        trait = found["trait"]
        scope = self.scopes[block.file].inside(block.uses, generics(block.head))
        if trait == "Model":
            ghosts = [it for it in block.items if it.kind == "ghost"]
            owner.model += [(it.name, it.head.partition("= {")[2].removesuffix("};").strip(), scope) for it in ghosts]
        elif trait:
            known = self.scopes[block.file].type_named(WORD.search(trait.rpartition("::")[2])[0])
            if known != PRIVATE and trait not in owner.traits:
                owner.traits.append(trait)
        else:
            self.add_members(owner, [it for it in block.items if it.public], scope)

    def add_members(self, owner, items, scope):
        for item in items:
            if item.kind not in ("fn", "const", "type"):
                continue
            bound = generics(item.head) | {it.name for it in item.clauses() if it.kind == "ghost"}
            member = Public(self.name, f"{owner.path}::{item.name}", item, scope.inside((), bound), owner)
            if (self.name, member.path) in self.tree.index:
                raise ValueError(f"{item.file}:{item.line}: {member.path} is there twice")
            owner.members.append(member)
            self.tree.index[self.name, member.path] = member

    def publics(self):
        for item in self.items:
            yield item
            yield from item.members

    def cited(self):
        """What the public items name in clauses and models: each item with a name and what that stands for."""
        for public in self.publics():
            yield from self.cited_by(public)

    def cited_by(self, public):
        texts = [(it.text, public.scope) for it in public.item.clauses()] + [(text, scope) for _, text, scope in public.model]
        for text, scope in texts:
            for start, end, target in scope.cited(text):
                yield public, text[start:end], target


class Tree:
    """The libraries of a repository, by the lines of its crates.txt."""

    def __init__(self, top):
        self.top, self.index, self.specs = top, {}, {}
        self.lines = lines_of_crates(top)
        self.all_crates = set(self.lines)
        names = [it for it in self.lines if (top / "crates" / it / "src" / "lib.rt").exists() and not NO_LIBRARY.fullmatch(it)]
        self.crates = {name: Crate(self, name, self.lines[name]) for name in names}
        for crate in self.crates.values():
            crate.collect()
        for crate in self.crates.values():
            for name, other, there in crate.passed_on:
                if (other, there) in self.index:
                    self.index.setdefault((crate.name, name), self.index[other, there])
        for name in self.lines:
            folder = top / "crates" / name / "specs"
            for file in sorted(folder.rglob("*.antt")):
                module = file.relative_to(folder).with_suffix("").as_posix().replace("/", ".")
                self.specs[name, module] = Specs(name, module, file)

    def needed(self, crate):
        """The lines of crates.txt that a crate needs, lowest first."""
        return [self.lines[it] for it in needed(self.lines, crate)]

    def find(self, crate, path):
        """The public item of a path in a crate, None where there is none."""
        name = "::".join(path)
        if not name:
            return self.crates.get(crate)
        if found := self.index.get((crate, name)):
            return found
        head, _, last = name.rpartition("::")
        owner = self.index.get((crate, head))
        if owner and owner.item.kind == "type":
            target = re.search(r"= (?:\w+::)*(\w+)", owner.item.head)
            known = owner.scope.type_named(target[1]) if target else None
            return self.find(known.crate, [known.path, last]) if isinstance(known, Public) else None
        return self.index.get((owner.crate, f"{owner.path}::{last}")) if owner else None

    def only(self, path):
        """The one public item of a path in any crate, None where there are more or none."""
        found = {id(it): it for (_, name), it in self.index.items() if name == path}
        return next(iter(found.values())) if len(found) == 1 else None

    def behind(self, path):
        """What an import of the logic stands for: a definition, a type, a module as a tuple, OUTSIDE, or None where it leads nowhere."""
        if path[0] != "Rattle" or len(path) < 3 or path[1] not in self.all_crates or path[2] != "specs":
            return OUTSIDE
        crate, rest = path[1], list(path[3:])
        if rest[:1] == ["contracts"]:  # what the kit writes of a type, as its row
            return OUTSIDE
        if rest[:1] == ["declared"]:
            return self.declared(crate, rest[1:])
        if (crate, ".".join(rest)) in self.specs:
            return tuple(path)
        *module, name = rest
        if not module:
            return self.passed(crate, "Lib", name)
        specs = self.specs.get((crate, ".".join(module)))
        if not specs:
            other = self.passed(crate, "Lib", module[-1])
            return self.behind([*other, name]) if isinstance(other, tuple) else None
        return specs.names.get(name) or self.passed(crate, specs.module, name)

    def definitions(self, crates):
        """The definitions that the clauses of some crates rest on, by crate and file, as these have them."""
        left = [target for crate in crates for _, _, target in crate.cited() if isinstance(target, Definition)]
        return self.rest_on(left)

    def rest_on(self, left):
        found = set()
        while left:
            one = left.pop()
            if id(one) not in found:
                found.add(id(one))
                left += [it for _, _, it in self.cited_by(one) if isinstance(it, Definition)]
        chosen = [(specs, [it for it in specs.definitions.values() if id(it) in found]) for specs in self.specs.values()]
        return [(specs, some) for specs, some in chosen if some]

    def cited_by(self, one):
        """The names in a definition, and what each stands for."""
        specs = self.specs[one.crate, one.module]
        if not specs.scope:
            here = {name: ["Rattle", one.crate, "specs", *one.module.split("."), name] for name in specs.names}
            specs.scope = Scope(self, one.crate, (), [*specs.uses, *specs.passed], (), specs.bound)
            specs.scope.ghost |= here
        sides = re.findall(rf"^{re.escape(one.name)} (.*?)(?: =|$)", one.text, re.M)
        bound = {it for it in WORD.findall(" ".join(sides)) if it not in specs.scope.ghost}
        bound |= set(re.findall(r"^  (?:pub )?([\w']+) :", one.text, re.M)) | {one.name}
        return specs.scope.cited(one.text, bound)

    def passed(self, crate, module, name):
        specs = self.specs.get((crate, module))
        for line in specs.passed if specs else ():
            for path, known in flatten(line, "."):
                if known == name:
                    return self.behind(path)
        return None

    def declared(self, crate, rest):
        """A type of Rust, or its inside, one of its variants or a constant, as the logic sees it."""
        if "TheInside" in rest:
            rest = rest[: rest.index("TheInside")]
        if "-" in rest[-1]:  # what the kit writes of a type that holds itself
            return OUTSIDE
        at = next((rest.index(it) for it in ("TheVariants", "TheOpen") if it in rest), len(rest))
        name = [rest[at - 1], *rest[at + 1 :]]
        found = self.find(crate, name)
        items = self.crates[crate].found.values() if crate in self.crates else ()
        return found or (PRIVATE if any(it.name == name[0] for some in items for it in some) else None)
