"""What the pages say of the tree is so, and reads well:

- each link of a page leads to a file, and to a heading where it names one;
- each path, file name and wrong body in backticks is there (words in capitals,
  as NAME, stand for any name);
- no line of a page has more than 120 characters, but for rows of tables and
  lines of crates.txt;
- each table begins with a header and a line of dashes: no blank line cuts one;
- a sentence has at most 25 words, and at most two numbers, beside which a table
  is easier to read. Code, tables, headings and quotations aren't counted, and
  no number that only names a thing, as in `level 4` or `Python 3.11`;
- a sentence that begins with What or That asks;
- no phrase is used that the list UNCLEAR of tools/prose.py has, 'as many' is
  compared with something, and behind is for places, after for time;
- the newest version of CHANGELOG.md is the one that `tlsf --version` names, and
  so is the one that the macros TLSF_VERSION_ of include/peachanchor.h make, and
  so are those of library.json and of esp-idf/peachanchor/idf_component.yml;
- figures of README.md's 'Why' are those of docs/MEASURED.md's 'In one table',
  word for word where they are rows, and both name the version that bench/front
  measured: the one that the revision beside that command has, as far as git
  knows it. Where an older one is named no fault is told, but the line of this
  check says it, unless only the last number is older;
- a function in backticks with a number after it, as `tlsf_put` 56, has the
  bound of tools/longest_path.bounds, and in the next column that on aarch64;
- who uses a payload in place is said in the words of rule 4 of peachanchor.h
  wherever the rule stands, and nowhere otherwise;
- a trace that a page shows beside its replies is examples/two_workers.trace,
  with the reply lines of the case two_workers."""
import functools
import itertools
import re
import shutil
import subprocess

import prose
import tree
from bodies import tables_of
from case_files import cases
from prose import CODE

MOST_LINE = 120

LINK = re.compile(r"(?<!!)\[[^\]]*\]\(([^)\s]+)\)|!\[[^\]]*\]\(([^)\s]+)\)")
NEWEST = re.compile(r"^## (\d+\.\d+\.\d+)$", re.M)
VERSION_FILE = "crates/tlsf_command/src/lib.rt"
VERSION = re.compile(r'const VERSION: &str = "(.*)"')
MACRO = re.compile(r"^#define TLSF_VERSION_(?:MAJOR|MINOR|PATCH) (\d+)$", re.M)
# What build systems of boards read: the line that names the version.
OF_RECIPES = (("library.json", '"version": "{}",\n'), ("esp-idf/peachanchor/idf_component.yml", "version: {}\n"))
# What README.md and docs/MEASURED.md say of their figures, and where the first has some besides those of its table.
MEASURED_AT = re.compile(r"`bench/front`\s+of\s+version\s+(\d+\.\d+\.\d+)")
REVISION = re.compile(r"^\|.*\| `bench/front[^|]*\| (\w+) \|", re.M)
FIGURE = re.compile(r"(?<![\w.])(?<!TLSF )\d+\.\d+(?: to \d+\.\d+)?(?![\w]|\.\d)")
PATH = re.compile(r"\.?[\w.*-]+(?:/[\w.*+-]+)*/?")
ENDINGS = (".rt", ".antt", ".md", ".sh", ".py", ".toml", ".txt", ".tsv", ".svg", ".source", ".c", ".h", ".cpp", ".hpp")
ANY_NAME = re.compile(r"[A-Z][A-Z_]+")
WRONG_BODY = re.compile(r"[a-z]\w*?__[a-z0-9]\w*")
QUOTED_BOUND = re.compile(r"`([^`\s]+)` (?:\| |takes at most )?(\d+)\b(?: \| (\d+)\b)?")
# Who uses a payload in place, in which files that stands, and what would be another rule.
RULE = "by whoever holds the block, in any thread, also during calls on the heap that aren't about this block"
STATE_RULE = ("include/peachanchor.h", "c/preload.c", "docs/C.md", "docs/THREADS.md", "bindings/rust/peachanchor/src/lib.rs")
OTHER_RULE = re.compile(r"in no call on (?:the|that) heap|no call on (?:the|that) heap (?:runs|is made)|while one of them is in a call")
DASHES = re.compile(r"\|[-:| ]*-[-:| ]*\|")
LINE_START = re.compile(r"\s*\n\s*(?:\*|//!?)?\s*")
# A trace beside its replies: the columns of its lines, and of the reply lines.
TRACE_BLOCK = re.compile(r"```text\n(tlsf 1 2 64 4 .*?)\n```", re.S)
LINES, REPLIES = slice(0, 22), slice(22, 54)
# What `rt` and make write, which no checkout has before they ran.
MADE = re.compile(r"(^|/)(out|build|\.git)(/|$)")


def program_version():
    return VERSION.search(tree.read(tree.TOP / VERSION_FILE))[1]


def version_at(revision):
    """The program's version in a revision; none where git, or that revision of it, isn't there, as in a clone of one commit."""
    if not shutil.which("git"):
        return None
    words = ["git", "-C", tree.TOP, "show", f"{revision}:{VERSION_FILE}"]
    found = VERSION.search(subprocess.run(words, capture_output=True, text=True, check=False).stdout)
    return found and found[1]


def numbers_of(version):
    return [int(it) for it in version.split(".")]


def slug(heading):
    """The anchor of a heading, as the forges make it."""
    return re.sub(r"[^\w\- ]", "", re.sub(r"[`*]|\[([^\]]*)\]\([^)]*\)", r"\1", heading).strip().lower()).replace(" ", "-")


class Page(prose.Text):
    def __init__(self, file):
        self.file, self.text = file, tree.read(file)
        super().__init__(file.relative_to(tree.TOP).as_posix(), self.text.removesuffix("\n").split("\n"))

    def anchors(self):
        """The anchors of its headings; one that comes again has a number."""
        found = {}
        for _, line in self.prose():
            if line.startswith("#"):
                anchor = slug(line.lstrip("#"))
                found[anchor] = found.get(anchor, 0) + 1
        return {f"{it}-{n}" if n else it for it, count in found.items() for n in range(count)}

    def section(self, title):
        """The lines below a heading, up to the next one."""
        lines = iter(self.lines)
        found = any(line.startswith("#") and line.lstrip("# ") == title for line in lines)
        return list(itertools.takewhile(lambda line: not line.startswith("#"), lines)) if found else []


class Repository:
    def __init__(self):
        files = list(tree.entries(tree.TOP))
        self.files = [it for it in files if it.is_file()]
        self.names = {it.name for it in files}
        self.pages = {it: Page(it) for it in self.files if it.suffix == ".md"}
        self.wrong_bodies = {it for crate in tree.crates() for it in tables_of(crate)}
        self.tops = {it.name for it in tree.TOP.iterdir()}
        self.crates = set(tree.lines_of_crates().values())

    def link_fault(self, page, target):
        path, _, anchor = target.partition("#")
        to = (page.file.parent / path).resolve() if path else page.file
        if not to.exists():
            return f"links to {target}, which isn't there"
        if anchor and to in self.pages and anchor not in self.pages[to].anchors():
            return f"links to {target}, and that page has no such heading"
        return None

    def has_path(self, page, path):
        """Whether the path is there from the top, from the page, or from the folder of a crate or of its sources."""
        folders = [tree.TOP, page.file.parent, *tree.crates(), *(it / part for it in tree.crates() for part in tree.PARTS)]
        patterns = {path.rstrip("/"), ANY_NAME.sub("*", path.rstrip("/"))}
        return any(next(folder.glob(pattern), None) for folder in folders for pattern in patterns)

    def code_fault(self, page, code):
        code = code.removeprefix("./")
        if WRONG_BODY.fullmatch(code):
            return None if code in self.wrong_bodies else f"names the wrong body {code}, which isn't there"
        if not PATH.fullmatch(code) or MADE.search(code):
            return None
        is_path = code.split("/")[0] in self.tops if "/" in code else False
        if not is_path and not code.endswith(ENDINGS):
            return None
        if "/" not in code and (code in self.names or "*" in code or ANY_NAME.search(code)):
            return None
        return None if self.has_path(page, code) else f"names {code}, which isn't there"

    def page_faults(self, page):
        for number, line in enumerate(page.lines, 1):
            if len(line) > MOST_LINE and not line.startswith("|") and line not in self.crates:
                yield f"{page.name}:{number}: {len(line)} characters, more than {MOST_LINE}"
        for number, line in page.prose():
            for link in LINK.finditer(CODE.sub("", line)):
                target = link[1] or link[2]
                if not re.match(r"[a-z]+:", target) and (fault := self.link_fault(page, target)):
                    yield f"{page.name}:{number}: {fault}"
            for code in CODE.finditer(line):
                if fault := self.code_fault(page, code[1]):
                    yield f"{page.name}:{number}: {fault}"

    def table_faults(self, page):
        lines = dict(page.prose())
        for number, line in lines.items():
            is_first = line.lstrip().startswith("|") and not lines.get(number - 1, "").lstrip().startswith("|")
            if is_first and not DASHES.fullmatch(lines.get(number + 1, "").strip()):
                yield f"{page.name}:{number}: a row of a table with no header above it, as below an empty line"

    def bound_faults(self):
        """Bounds of machine code that are quoted otherwise than they are stored; and stored ones that MEASURED lacks."""
        lines = [line.split() for line in tree.read(tree.TOP / "tools" / "longest_path.bounds").split("\n")]
        bounds = {it[1] + " on aarch64" * (it[0] == "aarch64"): it[2] for it in lines if it and it[0] != "#"}
        quoted = set()
        for page in self.pages.values():
            for found in QUOTED_BOUND.finditer(page.text):
                for name, told in ((found[1], found[2]), (f"{found[1]} on aarch64", found[3])):
                    if told and name in bounds:
                        quoted.add((page.name, name))
                        if told != bounds[name]:
                            yield f"{page.name}: says {told} for {name}, and {bounds[name]} is stored"
        for name in bounds:
            if ("docs/MEASURED.md", name) not in quoted:
                yield f"docs/MEASURED.md: lacks the bound of {name}"

    def trace_faults(self):
        trace = tree.read(tree.TOP / "examples" / "two_workers.trace").split("\n")
        told = cases()["two_workers"].stdout.split("\n")
        showing = set()
        for page in self.pages.values():
            for shown in TRACE_BLOCK.finditer(page.text):
                showing.add(page.name)
                header, *replies = [it[REPLIES].strip() for it in shown[1].split("\n")]
                lines = [it[LINES].strip() for it in shown[1].split("\n")]
                if [it for it in lines if it] != trace[:-1]:
                    yield f"{page.name}: the trace is another than examples/two_workers.trace"
                if header or [it for it in replies if it] != [it for it in told[:-1] if not it.startswith("heap ")]:
                    yield f"{page.name}: the replies are others than those of the case two_workers"
        if not showing:
            yield "no page shows a trace beside its replies"

    def rule_faults(self):
        stating = {name: LINE_START.sub(" ", tree.read(tree.TOP / name)) for name in STATE_RULE}
        for name, text in stating.items():
            if RULE not in text:
                yield f"{name}: doesn't say that a payload is used {RULE}"
        pages = {page.name: LINE_START.sub(" ", page.text) for page in self.pages.values() if page.name != "CHANGELOG.md"}
        for name, text in {**pages, **stating}.items():
            for found in OTHER_RULE.finditer(text):
                yield f"{name}: says '{found[0]}', which is another rule for payloads than that of peachanchor.h"

    def version_faults(self):
        newest = NEWEST.search(self.pages[tree.TOP / "CHANGELOG.md"].text)
        named = program_version()
        if not newest or newest[1] != named:
            yield f"CHANGELOG.md: its newest version is {newest and newest[1]}, and the program's {named}"
        macros = ".".join(MACRO.findall(tree.read(tree.TOP / "include" / "peachanchor.h")))
        if macros != named:
            yield f"include/peachanchor.h: its macros make version {macros}, and the program's is {named}"
        for file, line in OF_RECIPES:
            if line.format(named) not in tree.read(tree.TOP / file):
                yield f"{file}: it isn't of version {named}, as the program is"

    def front(self):
        """README.md and docs/MEASURED.md, and for each the version of which it says its figures are, or nothing."""
        pages = [self.pages[tree.TOP / name] for name in ("README.md", "docs/MEASURED.md")]
        return pages, [found and found[1] for found in (MEASURED_AT.search(it.text) for it in pages)]

    def figure_faults(self):
        (readme, measured), (named, of_table) = self.front()
        at = REVISION.search(measured.text)
        if not named or named != of_table or not at:
            yield f"README.md: its figures are of version {named}, those of docs/MEASURED.md of {of_table}, revision {at and at[1]}"
        elif numbers_of(named) > numbers_of(program_version()):
            yield f"README.md: its figures are of version {named}, and the program's is {program_version()}"
        elif (version := version_at(at[1])) not in (named, None):
            yield f"README.md: its figures are of version {named}, and revision {at[1]}, which bench/front measured, has {version}"
        rows = [it for it in measured.section("In one table") if it.startswith("|")]
        cells = {cell.strip().split(" (")[0] for row in rows for cell in row.split("|")[2:]}
        for line in readme.section("Why"):
            if line.startswith("|") and re.search(r"\| \d", line) and line not in rows:
                yield f"README.md: its row '{line.split('|')[1].strip()}' is none of docs/MEASURED.md, 'In one table'"
            for figure in [] if line.startswith("|") else FIGURE.findall(line):
                if figure not in cells:
                    yield f"README.md: its figure {figure} is in no cell of docs/MEASURED.md, 'In one table'"

    def said_of_figures(self):
        """What is said where the figures are of an older version. That is no fault: they are of the one that is named."""
        named = self.front()[1][0]
        is_older = named and numbers_of(named)[:2] < numbers_of(program_version())[:2]
        return f"; README.md's figures are of {named}: bench/front measures those of {program_version()}" if is_older else ""

    def faults(self):
        for _, page in sorted(self.pages.items()):
            yield from self.page_faults(page)
            yield from self.table_faults(page)
            yield from page.faults(prose.MOST_NUMBERS)
        yield from self.bound_faults()
        yield from self.trace_faults()
        yield from self.rule_faults()
        yield from self.version_faults()
        yield from self.figure_faults()


@functools.cache
def repository():
    return Repository()


def faults():
    return repository().faults()


def looked_at():
    return f"{len(repository().pages)} pages{repository().said_of_figures()}"
