"""Sources are laid out as a formatter sets them: C and C++ by clang-format, Python
by black, shell by shfmt, Rust by rustfmt. Shellcheck finds nothing in a script.
Each is run where it is there, in the version of Debian 12, for another one sets
some lines otherwise; the line of this check names those that aren't there. With
--mend they set the sources first. How is said in .clang-format, pyproject.toml,
.editorconfig, .shellcheckrc and bindings/rust/rustfmt.toml."""
import concurrent.futures
import functools
import os
import re
import subprocess
import typing

import tree
from checks.pages import repository

# So many files are given to a tool at once. Black keeps in mind what it has seen, and has processes of its own.
TOGETHER = 8


class Tool(typing.NamedTuple):
    """A formatter or a linter: its version, the file that says how, and what it says of which files, by words for all or to set them."""

    name: str
    version: str
    config: str
    kind: str
    looks: tuple
    sets: tuple = ()
    together: int = TOGETHER


TOOLS = (
    Tool("clang-format", "version 14.", ".clang-format", "c", ("--dry-run", "--Werror"), ("-i",)),
    Tool("black", ", 23.", "pyproject.toml", "python", ("--check",), ("--quiet",), 1000),
    Tool("shfmt", "3.", ".editorconfig", "shell", ("-l",), ("-w",)),
    Tool("shellcheck", "version: 0.9", ".shellcheckrc", "shell", ("-f", "gcc")),
    Tool("rustfmt", "rustfmt 1.", "bindings/rust/rustfmt.toml", "rust", ("--check", "-l", "--edition", "2021"), ("--edition", "2021")),
)
KINDS = {".c": "c", ".h": "c", ".cpp": "c", ".hpp": "c", ".py": "python", ".sh": "shell", ".rs": "rust"}
SHEBANG = re.compile(rb"#!.*?(python|sh)")


def kind_of(file):
    """The language of a source: by its name, or of a script by its first line."""
    if file.suffix or not os.access(file, os.X_OK):
        return KINDS.get(file.suffix)
    with file.open("rb") as text:
        found = SHEBANG.match(text.readline())
    return {b"python": "python", b"sh": "shell"}[found[1]] if found else None


@functools.cache
def sources():
    """The sources by their language, as names from the top."""
    found = {}
    for file in sorted(repository().files):
        if file.is_file() and not file.is_symlink() and (kind := kind_of(file)):
            found.setdefault(kind, []).append(file.relative_to(tree.TOP).as_posix())
    return found


def told(*words):
    """What a tool says, and whether it ends well."""
    ran = subprocess.run(words, cwd=tree.TOP, stdin=subprocess.DEVNULL, capture_output=True, text=True, errors="replace", check=False)
    return ran.stdout + ran.stderr, ran.returncode == 0


@functools.cache
def is_there(tool):
    try:
        return tool.version in told(tool.name, "--version")[0]
    except OSError:
        return False


def jobs():
    """The tools that are there, each with some of its files."""
    for tool in TOOLS:
        files = sources().get(tool.kind, []) if (tree.TOP / tool.config).exists() and is_there(tool) else []
        yield from ((tool, files[at : at + tool.together]) for at in range(0, len(files), tool.together))


def faults_of(job):
    tool, files = job
    said, well = told(tool.name, *tool.looks, *files)
    if not tool.sets:
        return said.splitlines()
    # Each names the files in a form of its own.
    found = [it for it in files if re.search(rf"(^|[ /]){re.escape(it)}(:|$)", said, re.M)]
    return [f"{it}: {tool.name} sets it otherwise: tools/check --mend formats" for it in found] or (
        [] if well else [f"{tool.name}: {said[:200]}"]
    )


def mend():
    for tool, files in jobs():
        if tool.sets:
            told(tool.name, *tool.sets, *files)


def faults():
    with concurrent.futures.ThreadPoolExecutor(os.cpu_count()) as pool:
        for found in pool.map(faults_of, jobs()):
            yield from found


def looked_at():
    lacks = [it.name for it in TOOLS if not is_there(it)]
    absent = f"; not there in their versions: {', '.join(lacks)}" if lacks else ""
    return f"{sum(map(len, sources().values()))} sources{absent}"
