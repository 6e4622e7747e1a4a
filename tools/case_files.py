"""The stored cases of the program, each a table of a file of cases/: words, standard input, and what is to be written."""
import dataclasses
import functools
import json
import pathlib
import re
import shlex
import tomllib

from tree import TOP

FOLDER = TOP / "tests" / "cases"
# The pictures in characters of recorded programs, in the same form.
RECORDED = TOP / "examples" / "recorded" / "pictures.toml"
# A text that stands as it is between two lines of three quotes.
AS_IT_IS = re.compile(r"(?:(?!''')[^\x00-\x08\x0b-\x1f\x7f])*\n")


@dataclasses.dataclass(frozen=True)
class Case:
    """A case by its table. Its standard input stands there, or in a file that `trace` names from the top, or is empty."""

    name: str
    file: pathlib.Path
    table: dict

    @property
    def place(self):
        return f"{self.file.relative_to(TOP).as_posix()}: {self.name}"

    @property
    def words(self):
        return shlex.split(self.table["args"])

    @property
    def input(self):
        if "trace" in self.table:
            return (TOP / self.table["trace"]).read_bytes()
        return self.table.get("input", "").encode()

    @property
    def stdout(self):
        """What it has to write: nothing where its words or its trace are refused."""
        return self.table.get("stdout", "")


def tables_in(file):
    """The tables of a file, by their names in its order."""
    place = str(file).removeprefix(f"{TOP}/")
    try:
        tables = tomllib.loads(file.read_text(encoding="utf-8"))
    except tomllib.TOMLDecodeError as unread:
        raise ValueError(f"{place}: {unread}") from None
    if stray := [it for it, table in tables.items() if not isinstance(table, dict)]:
        raise ValueError(f"{place}: {stray[0]} is no table as [NAME]")
    return tables


def cases_of(file):
    return [Case(name, file, table) for name, table in tables_in(file).items()]


@functools.cache
def cases():
    """All cases, by their names in order."""
    found = sorted((it for file in sorted(FOLDER.glob("*.toml")) for it in cases_of(file)), key=lambda it: it.name)
    for before, it in zip(found, found[1:]):
        if before.name == it.name:
            raise ValueError(f"{it.place} stands in {before.file.name} too")
    return {it.name: it for it in found}


def helps():
    """The helps of the program and of its commands."""
    return [it for name, it in cases().items() if name.startswith("help")]


def lines_of(key, text):
    """A text as a key of a table has it: in one line where it has no line feed at its end, or what TOML takes no other way."""
    if not text:
        return ""
    value = f"'''\n{text}'''" if AS_IT_IS.fullmatch(text) else json.dumps(text, ensure_ascii=False)
    return f"{key} = {value}\n"


def store(case, stdout):
    """Has a case say that it has to write this, in its last key."""
    text, tables = case.file.read_text(encoding="utf-8"), tables_in(case.file)
    following = [*tables, ""][[*tables].index(case.name) + 1]
    head, begin, rest = f"\n{text}".partition(f"\n[{case.name}]\n")
    table, end, tail = rest.partition(f"\n[{following}]\n")
    keys = table.partition("\nstdout = ")[0].rstrip("\n")
    written = f"{head}{begin}{keys}\n{lines_of('stdout', stdout)}{end}{tail}"[1:]
    tables[case.name].pop("stdout", None)
    if stdout:
        tables[case.name]["stdout"] = stdout
    if tomllib.loads(written) != tables:
        raise ValueError(f"{case.place} isn't written: stdout is not its last key, or another text has a line [{case.name}]")
    case.file.write_text(written, encoding="utf-8")


def unpack(folder, some):
    """Writes cases as `rt try --cases` reads them, three files each."""
    folder.mkdir(parents=True, exist_ok=True)
    for case in some:
        (folder / case.name).write_bytes(case.input)
        (folder / f"{case.name}.args").write_text("".join(f"{word}\n" for word in case.words), encoding="utf-8")
        (folder / f"{case.name}.stdout").write_text(case.stdout, encoding="utf-8")
