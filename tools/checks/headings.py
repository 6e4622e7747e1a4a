"""A heading that a script, a program's text, a comment or a page names in quotes
beside its page is one of that page: as in README.md, 'From C', or under 'Use
it' in docs/C.md. CHANGELOG.md isn't read, since it speaks of older pages."""
import functools
import re

import tree
from checks.pages import Page

TOLD = r"'[A-Z](?:[^'\n]|'(?=[a-z]))*'"
SOME_TOLD = rf"(?P<told>{TOLD}(?:(?: and|,) {TOLD})*)"
PAGE = r"(?P<page>[\w/]*\w\.md)\b"
# No sentence ends between a page and its heading.
FORMS = (re.compile(rf"{PAGE}(?:(?!\.md\b|\.\s)[^;\n'])*?{SOME_TOLD}"), re.compile(rf"{SOME_TOLD} (?:in|of|under) {PAGE}"))
# The lines of a comment are read as one.
NEXT_LINE = re.compile(r"(?<=[^.\n])\n[ \t]*(?:#|\*|//[/!]?|--)?[ \t]*(?=[^\s#*/-])")
UNREAD = (".svg", ".toml", ".tsv", ".trace")


def plain(text):
    return text.replace("`", "")


@functools.cache
def files():
    """The texts of the repository, by their places."""
    found = {}
    for file in sorted(tree.entries(tree.TOP)):
        if file.is_file() and file.suffix not in UNREAD and file.name != "CHANGELOG.md":
            try:
                found[file] = tree.read(file)
            except UnicodeDecodeError:
                continue
    return found


@functools.cache
def headings():
    """The headings of each page, by its place from the top."""
    pages = (Page(it) for it in files() if it.suffix == ".md")
    return {it.name: {plain(line.lstrip("# ")) for _, line in it.prose() if line.startswith("#")} for it in pages}


def page_of(path):
    """The page that a path means: that of the longest end of the path which is a page's place."""
    parts = path.strip("/").split("/")
    return next((it for n in range(len(parts)) if (it := "/".join(parts[n:])) in headings()), None)


def named_in(text):
    """The headings that a text names in quotes, each with its page and the number of its line."""
    # A line that goes on stays as long as it was, so places are those of the text.
    joined = NEXT_LINE.sub(lambda it: " " + "\0" * (len(it[0]) - 1), text)
    for form in FORMS:
        for found in form.finditer(joined):
            for one in re.findall(TOLD, found["told"]):
                yield found["page"], one[1:-1].replace("\0", ""), text.count("\n", 0, found.start()) + 1


def faults():
    for file, text in files().items():
        at = file.relative_to(tree.TOP).as_posix()
        for path, heading, line in named_in(text) if ".md" in text else ():
            name = page_of(path)
            if name and plain(heading) not in headings()[name]:
                yield f"{at}:{line}: names '{heading}' of {name}, and that page has no such heading"


def looked_at():
    return f"{len(files())} files"
