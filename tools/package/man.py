#!/usr/bin/env python3
"""usage: tools/package/man.py FOLDER

Writes the man pages of the program into FOLDER, one for it and one for each of
its commands. They are made of the helps that are stored in tests/cases/help.toml,
which ./test holds to the program, so there is no other text to keep in step.
Meson says in the environment where a FOLDER lies that isn't absolute.
"""
import os
import pathlib
import re
import subprocess
import sys

sys.dont_write_bytecode = True
HERE = pathlib.Path(__file__).resolve().parent
sys.path.insert(0, str(HERE.parent))
import case_files
import script

LISTED = ("Commands:", "Arguments:", "Options:")


def roff(line):
    """A line of text as roff reads it."""
    line = line.replace("\\", "\\e").replace("-", "\\-").replace("'", "\\(aq")
    return "\\&" + line if line.startswith(".") else line


def rows(lines):
    """The rows of a list of a help: a word and what it is, which may go on in further lines."""
    for line in lines:
        word, _, told = line.strip().partition("  ")
        yield [".TP", f"\\fB{roff(word)}\\fR", roff(told.strip())]


def text_of(block):
    """A paragraph; what is indented stands as it is."""
    if all(it.startswith("  ") for it in block):
        return [".PP", ".RS 2", ".nf", *map(roff, (it[2:] for it in block)), ".fi", ".RE"]
    return [".PP", *map(roff, block)]


def page(name, help_text, version, others):
    first, *blocks = [it.split("\n") for it in help_text.strip("\n").split("\n\n")]
    told = first[0][0].lower() + first[0][1:]
    lines = [f'.TH {roff(name.upper())} 1 "" "peachanchor {version}" "User Commands"', ".SH NAME", f"{roff(name)} \\- {roff(told)}"]
    lists, texts = [], []
    for block in blocks:
        if block[0].startswith("Usage: "):
            lines += [".SH SYNOPSIS", f"\\fB{roff(block[0].removeprefix('Usage: '))}\\fR"]
        elif block[0] in LISTED:
            lists += [f".SH {block[0].rstrip(':').upper()}", *(it for row in rows(block[1:]) for it in row)]
        else:
            texts += text_of(block)
    also = ", ".join(f"\\fB{roff(it)}\\fR(1)" for it in others if it != name)
    return "\n".join([*lines, ".SH DESCRIPTION", *texts, *lists, ".SH SEE ALSO", also, ""])


def main(folder):
    version = subprocess.run([HERE / "names", "--version"], stdout=subprocess.PIPE, text=True, check=True).stdout.strip()
    folder = pathlib.Path(os.environ.get("MESON_INSTALL_DESTDIR_PREFIX", ""), folder)
    folder.mkdir(parents=True, exist_ok=True)
    helps = {it.name: it.stdout for it in case_files.helps()}
    commands = re.findall(r"^  ([a-z]+)  ", helps["help"].partition("Commands:\n")[2].partition("\n\n")[0], re.M)
    names = {"help": "tlsf"} | {f"help_{it}": f"tlsf-{it}" for it in commands if it != "help"}
    if lacks := names.keys() ^ helps.keys():
        raise ValueError(f"tests/cases/help.toml has no help of its own, or one too many: {', '.join(sorted(lacks))}")
    for stem, name in names.items():
        (folder / f"{name}.1").write_text(page(name, helps[stem], version, names.values()), encoding="utf-8")


if __name__ == "__main__":
    try:
        main(*script.words(__doc__, lambda it: len(it) == 1))
    except (OSError, ValueError, subprocess.CalledProcessError) as why:
        print(f"man.py: {why}", file=sys.stderr)
        sys.exit(1)
