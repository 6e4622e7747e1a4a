#!/usr/bin/env python3
"""usage: tools/package/notices.py

Writes the notices of the toolchain's libraries on which C's library or the
program stands to standard output, as the toolchain states them: each licence
that lies in the folder of a ported crate there, word by word. dist/NOTICES is
what this wrote, and tests/package_test compares the two. Needs rt.
"""
import pathlib
import re
import sys

sys.dont_write_bytecode = True
sys.path.insert(0, str(pathlib.Path(__file__).resolve().parent.parent))
import tree

LINE = "-" * 80
HEAD = """What is written in the repository of Peachanchor is under the MIT licence or under
the Apache License 2.0, at your option: LICENSE-MIT, LICENSE-APACHE. That is all
that a person wrote here: headers, C, C++, Rust, tests, scripts, pages, and the
sources with their contracts and proofs.

What a compiler made is another matter: dist/*.s, and what you build of these. The
toolchain Rattle made them over libraries that it brings, and code of those is in
them.

- Ports of Rust crates: rtrb, crossbeam_queue and others. Their licences stand
  below, word by word. All are MIT, some also Apache License 2.0.
- Libraries of the toolchain's own. It states no licence of them, nor of itself.
  They are named near the end. Of these core follows other work, under the
  Unlicense and the Unicode License v3 too.

So nothing here says under which terms the toolchain's own may be passed on. Whoever
publishes a build of dist/ settles that with the makers of the toolchain first.
Whoever got one asks the one who published it.
"""
OWN = """
Of its other libraries the toolchain states no licence. Those on which the ones
for C or the program stand are:
{names}.
Files of core say whose work they follow: the Rust crate fast-float2 0.2.4 (MIT,
with the text that rtrb has, or Apache License 2.0), the Rust crate memchr 2.8.3
(Unlicense), and tables of Unicode's data (Unicode License v3), whose text is:
"""


def libraries(goal):
    """The libraries of the toolchain on which a crate stands."""
    lines = tree.lines_of_crates()
    return {*tree.uses_of_kit(it for crate in tree.needed(lines, goal) for it in tree.named_in(lines[crate]) if it not in lines)}


def told(folder, where):
    """Of a ported crate: what it follows, where its code may be, and under which licences it is."""
    page = tree.read(folder / "README.md")
    rust = " ".join(it for it in re.search(r"Rust crate `([\w-]+)`(?: (\d[\d.]*\d))?", page).groups() if it)
    apache = (folder / "LICENSE-APACHE").exists() or re.search(r"MIT or Apache", page)
    return f"{folder.name}, after the Rust crate {rust}, for {where}: MIT{' or Apache License 2.0' if apache else ''}"


def main():
    kit = tree.kit()
    of_c, of_program = libraries("tlsf_c"), libraries("tlsf_tool")
    texts, own = {}, []
    for name in sorted(of_c | of_program):
        folder = kit / "rattle" / name
        licences = [it for it in sorted(folder.glob("LICENSE*")) if it.name != "LICENSE-APACHE"]
        places = {"the libraries": name in of_c, "the program": name in of_program}
        for licence in licences:
            where = " and ".join(it for it, is_there in places.items() if is_there)
            texts.setdefault(tree.read(licence).strip(), []).append(told(folder, where))
        if not licences:
            own.append(name)
    print(HEAD)
    for text, names in texts.items():
        print(LINE, *names, "", text, "", sep="\n")
    print(LINE + OWN.format(names=", ".join(own)))
    print(tree.read(kit / "rattle" / "unicode" / "LICENSE-UNICODE").strip())


main()
