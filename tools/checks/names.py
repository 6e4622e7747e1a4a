"""What pages claim of code by its name is so:

- each name in backticks, as `Heap::open`, stands in the sources, in a script or
  as a case or a file (the check of pages looks for paths and wrong bodies);
- each library of crates.txt has a README.md with the same sections, which says
  the lines of crates.txt that it needs and how to print its calls;
- each block of Rust, C or C++ under "Example" has at most 20 lines, which stand
  in a source that this section links, in order and apart from indentation; a
  line `// ..` marks what is left out;
- a function that a library's page names with its type is a public one of it;
- each name in parentheses, as (`no_fit`), is a clause: of a public function
  that its sentence, its point or its row names, where that names one, else of
  any of the crate; as (`heap` of `Pool::open`), of that function or type. Under
  "What isn't proved" it may be a test of tests/rattle."""
import functools
import re

import tree
from case_files import cases
from checks.pages import CODE, repository
from checks.reference import libraries
from reference_page.names import NO_LIBRARY
from reference_page.sources import IMPL

SECTIONS = ["Take it", "Example", "What is proved", "What isn't proved", "Why it is so"]
MOST_EXAMPLE_LINES = 20
CUT = "// .."
# Names of std and of the toolchain's crates, which no file here need have, and the prefix of the crates here.
OTHERS = {"Deref", "DerefMut", "pop_partial_slice", "tlsf_"}
NAME = re.compile(r"[A-Za-z_]\w*(?:(?:::|\.)\w+)*")
# Clauses in parentheses, each or several with the function or type that has them, where that is named.
CLAUSES = re.compile(r"\((?:clauses? )?((?:`[a-z_]+`(?: of `[\w:]+`)?(?:, | and |(?=\))))+)\)")
GROUP = re.compile(r"((?:`[a-z_]+`(?:, | and )?)+)(?: ?of `([\w:]+)`)?")
FENCED = re.compile(r"^```.*?^```$", re.M | re.S)
CODE_BLOCK = re.compile(r"^```(rust|c|cpp)\n(.*?)^```$", re.M | re.S)
SOURCE = re.compile(r"\]\(((?:\.\./|[\w./-])+\.(?:rt|source|c|h|cpp|hpp))\)")
# What clauses stand with: a point of a list, a row of a table, or a sentence.
POINT = re.compile(r"^(?:- |\d+\. )(.*(?:\n   ?.*)*)", re.M)
ROW = re.compile(r"^\|.*", re.M)
SENTENCE = re.compile(r"(?<=[.:?])\s+(?=[A-Z`])")


def words_of_tree():
    found = {*cases()}
    for file in repository().files:
        parts = file.relative_to(tree.TOP).parts
        if file.suffix in (".md", ".svg"):
            continue
        found.update(re.findall(r"\w+", " ".join(parts)))
        if parts[0] in ("crates", "tools", "bench", "bindings", "examples", "include", "tests") or len(parts) == 1:
            found.update(re.findall(r"[A-Za-z_]\w*", file.read_text(encoding="utf-8", errors="ignore")))
    return found


def functions_of(crate):
    """The clauses of each public function of a crate, by its name, with its type in front where it has one."""
    found = {}
    for item in (it for items in crate.found.values() for it in items):
        owner = f"{IMPL.match(item.head)['owner']}::" if item.kind == "impl" else ""
        for one in item.items if owner else [item]:
            if one.kind == "fn" and one.public:
                found.setdefault(owner + one.name, set()).update(it.name for it in one.clauses() if it.name and it.kind != "ghost")
    return found


def facts_of(crate):
    """The facts of each type of a crate, by its name."""
    found = {}
    for item in (it for items in crate.found.values() for it in items if it.kind in ("struct", "enum", "trait")):
        if facts := {it.name for it in item.parts if it.ghost}:
            found[item.name] = facts
    return found


def mend():
    """Makes the lines of crates.txt that a README.md shows those of today."""
    lines = tree.lines_of_crates()
    for page in sorted((tree.TOP / "crates").glob("*/README.md")):
        mended = re.sub(r"^(\w+)(?: [\w=+ ]*)?:.*$", lambda it: lines.get(it[1], it[0]), tree.read(page), flags=re.M)
        if mended != tree.read(page):
            page.write_text(mended, encoding="utf-8")
            print(f"check: mended {page.relative_to(tree.TOP).as_posix()}")
    tree.read.cache_clear()


def line_faults(crate, text):
    lines = tree.lines_of_crates()
    block = re.search(r"```text\n(.*?)\n```", text, re.S)
    shown = block[1].split("\n") if block else []
    for line in shown:
        if line not in lines.values():
            yield f"shows a line that isn't in crates.txt: {line}"
    said = {name for name, line in lines.items() if line in shown}
    said |= set(tree.needed(lines, *re.findall(r"\(\.\./(\w+)/README\.md\)", text.partition("```text")[0])))
    if "up to its own" in text:
        said |= set(list(lines)[: list(lines).index(crate) + 1])
    for name in sorted(said ^ set(tree.needed(lines, crate))):
        yield f"the line of {name} is {'not needed' if name in said else 'missing'}"


def units(text):
    """The points, the rows and the sentences of a text, each in one line."""
    for kind in (POINT, ROW):
        yield from (it[0] for it in kind.finditer(text))
        text = kind.sub("\n", text)
    for paragraph in re.split(r"\n\s*\n", text):
        yield from SENTENCE.split(re.sub(r"\s+", " ", paragraph))


@functools.cache
def tests():
    """The tests of public calls, by their names."""
    return {name for it in tree.RATTLE_TESTS.rglob("*.source") for name in tree.TEST.findall(tree.read(it))}


class Clauses:
    """What a page may name of its crate: public functions with their clauses, and types with their facts."""

    def __init__(self, crate):
        self.crate, self.functions = crate.name, functions_of(crate)
        self.everywhere = set().union(*self.functions.values())
        self.by_last = {}
        for name, clauses in self.functions.items():
            self.by_last.setdefault(name.rpartition("::")[2], set()).update(clauses)
        self.known = {**self.by_last, **facts_of(crate), **self.functions}
        self.owners = {name.rpartition("::")[0] for name in self.functions} - {""}

    def faults(self, text, others):
        for unit in units(text):
            unit = re.sub(r"\s+", " ", unit)
            named = [re.sub(r"\(.*", "", it) for it in CODE.findall(CLAUSES.sub("", unit))]
            for name in named:
                owner, _, last = name.rpartition("::")
                if owner in self.owners and last[0].islower() and name not in self.functions:
                    yield f"names {name}, which is no public function of {self.crate}"
            calls = [it for it in named if it in self.functions or it in self.by_last]
            for group in (it for found in CLAUSES.finditer(unit) for it in GROUP.finditer(found[1])):
                yield from self.group_faults(group, calls, others)

    def group_faults(self, group, calls, others):
        if group[2] and group[2] not in self.known:
            yield f"names clauses of {group[2]}, which is no public function or type with facts of {self.crate}"
            return
        here = self.known[group[2]] if group[2] else set().union(*(self.known[it] for it in calls)) if calls else self.everywhere
        of = group[2] or " or ".join(calls) or f"a public function of {self.crate}"
        for clause in CODE.findall(group[1]):
            if clause not in here and clause not in others:
                yield f"{clause} is no clause of {of}"


def stands_in(block, source):
    """Whether the lines of a block stand in a source, in order and apart from indentation, but for its cuts."""
    lines, at = [it.strip() for it in source.split("\n")], 0
    for part in re.split(rf"^\s*{re.escape(CUT)}\s*\n", block, flags=re.M):
        wanted = [it.strip() for it in part.strip("\n").split("\n")]
        ends = [it + len(wanted) for it in range(at, len(lines)) if lines[it : it + len(wanted)] == wanted]
        if not ends:
            return False
        at = ends[0]
    return True


def example_faults(page, text, needs_code):
    blocks = CODE_BLOCK.findall(text)
    if needs_code and not blocks:
        yield "shows no code under Example"
    sources = [(page.file.parent / it).resolve() for it in SOURCE.findall(FENCED.sub("", text))]
    texts = [tree.read(it) for it in sources if it.is_file() and it.is_relative_to(tree.TOP)]
    for _, block in blocks:
        first = block.strip().split("\n")[0]
        if len(block.strip("\n").split("\n")) > MOST_EXAMPLE_LINES:
            yield f"has an example of more than {MOST_EXAMPLE_LINES} lines: {first}"
        if not any(stands_in(block, it) for it in texts):
            yield f"has an example that stands in no source that is linked beside it: {first}"


def crate_faults(page, name):
    """What is wrong with the page of a library or a program."""
    if (found := re.findall(r"^## (.*)", page.text, re.M)) != SECTIONS:
        yield f"has the sections {', '.join(found)}, and not {', '.join(SECTIONS)}"
        return
    parts = re.split(r"^## .*\n", page.text, flags=re.M)
    crate = libraries().crates.get(name)
    yield from example_faults(page, parts[2], crate)
    if crate:
        yield from line_faults(name, parts[1])
        if f"`tools/reference {name}`" not in page.text:
            yield f"doesn't say that `tools/reference {name}` prints its calls"
        clauses = Clauses(crate)
        for title, part in zip(SECTIONS[2:], parts[3:]):
            yield from clauses.faults(FENCED.sub("", part), tests() if title == "What isn't proved" else set())


def faults():
    known = words_of_tree()
    pages = repository().pages
    for _, page in sorted(pages.items()):
        for code in CODE.findall(FENCED.sub("", page.text)):
            name = re.sub(r"\(.*\)$", "", code)
            for word in re.split(r"::|\.", name) if NAME.fullmatch(name) else ():
                if word not in known and word not in OTHERS and "__" not in word:
                    yield f"{page.name}: names {code}, and {word} stands nowhere"
    for name in (it for it in tree.lines_of_crates() if not NO_LIBRARY.fullmatch(it)):
        page = pages.get(tree.TOP / "crates" / name / "README.md")
        told = crate_faults(page, name) if page else ["isn't there"]
        yield from (f"crates/{name}/README.md: {fault}" for fault in told)


def looked_at():
    return f"{len(repository().pages)} pages"
