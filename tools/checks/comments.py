"""The comments of crates (`///`, `//!`, `//` and `--`) read as pages do, since
tools/reference and the source show them:

- a sentence has at most 25 words. Code, tables and headings aren't counted;
- a sentence that begins with What or That asks;
- no phrase is used that the list UNCLEAR of tools/prose.py has, 'as many' is
  compared with something, and behind is for places, after for time."""
import functools
import re

import tree
from prose import Text

MARK = re.compile(r"\s*(///|//!|//|--)(?: (.*)|$)")
MARKS = {".rt": ("///", "//!", "//"), ".antt": ("--",)}
# In a comment that lists the files of a folder, one on each line.
FILE = re.compile(r"\s\s+[A-Z]\w*: ")


class Comments(Text):
    """The comments of a file with one mark, each in its line."""

    def __init__(self, file, mark):
        found = [MARK.match(line) for line in tree.read(file).split("\n")]
        lines = [it[2] or "" if it and it[1] == mark else "" for it in found]
        super().__init__(file.relative_to(tree.TOP).as_posix(), lines)

    def is_point(self, line):
        return FILE.match(line) or super().is_point(line)


@functools.cache
def files():
    return [it for crate in tree.crates() for part in tree.PARTS for it in sorted((crate / part).rglob("*")) if it.suffix in MARKS]


def faults():
    for file in files():
        for mark in MARKS[file.suffix]:
            yield from Comments(file, mark).faults()


def looked_at():
    return f"{len(files())} files"
