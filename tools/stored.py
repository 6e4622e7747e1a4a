"""The answers of the program that are stored, and what a second reading tells of each (tests/model)."""
import collections
import functools
import json
import re
import sys
import tomllib

from case_files import RECORDED, cases, cases_of, store
from tree import TOP

sys.path.append(str(TOP / "tests"))
from model.answers import fault_text
from model.commands import answer_to
from model.trace import Fault, trace_in
import tables

TABLES = TOP / "tests" / "program"
TRACE = tables.TRACE.encode()
# The rows of arguments.toml whose whole text stands there, and of these one that is answered.
LINES = re.compile(r"^lines = \[\n.*?^\]", re.M | re.S)
ROW = re.compile(r'^(  \[(\[.*\]), 0, )".*"\],$', re.M)
FAULT = re.compile(r'(?<=^\[\[fault\]\]\n)line = ".*"\n(traces = \[\n(?:  .*\n)*\])', re.M)
# Pictures of pages, by the cases whose answers they are.
SHOWN = {"heap.svg": "map_labels", "plot.svg": "plot_fragmented"}
# What `rt ci` runs the program on: files beside its sources.
TOOL = TOP / "crates" / "tlsf_tool"

# An answer by its name and its place: the text that is stored, what tells it or raises Untold, and what stores another.
Stored = collections.namedtuple("Stored", "name place text tell store")


def stored_case(case):
    """The answer of a case."""

    def tell():
        return answer_to(case.words, case.input.decode("latin-1"))

    return Stored(case.name, case.place, case.stdout, tell, functools.partial(store, case))


def stored_file(name, file, tell):
    """An answer that is a file."""
    place, write = file.relative_to(TOP).as_posix(), functools.partial(file.write_text, encoding="utf-8")
    return Stored(name, place, kept(file), tell, write)


def run_by_rt_ci():
    """What the program writes where `rt ci` runs it."""
    return stored_file("stdout", TOOL / "stdout", lambda: answer_to(kept(TOOL / "args").split(), kept(TOOL / "stdin")))


def arguments():
    """arguments.toml, where the rows that are answered have what is told."""

    def row(it):
        told = answer_to(json.loads(it[2])[1:], tables.TRACE)
        return f"{it[1]}{json.dumps(told, ensure_ascii=False)}],"

    return LINES.sub(lambda lines: ROW.sub(row, lines[0]), kept(TABLES / "arguments.toml"))


def faults():
    """faults.toml, where the traces of each fault have the line that is told of them."""

    def fault(it):
        read = [trace_in(text.encode().decode("latin-1")) for text in tomllib.loads(it[1])["traces"]]
        told = {fault_text(it).strip() if isinstance(it, Fault) else "" for it in read}
        return f"line = {json.dumps(' or '.join(sorted(told)))}\n{it[1]}"

    return FAULT.sub(fault, kept(TABLES / "faults.toml"))


def kept(file):
    return file.read_text(encoding="utf-8", errors="replace") if file.exists() else ""


def all_stored():
    answers = [stored_case(it) for it in (*cases().values(), *cases_of(RECORDED))]
    shown = [stored_file(it, TOP / "docs" / it, stored_case(cases()[name]).tell) for it, name in SHOWN.items()]
    told = [stored_file(tell.__name__, TABLES / f"{tell.__name__}.toml", tell) for tell in (arguments, faults)]
    return [*answers, *shown, run_by_rt_ci(), *told, *map(table_by, (tables.moments, tables.sequences, tables.streams))]


def table_by(tell):
    """A table by the function that tells its text."""
    file = TABLES / f"{tell.__name__}.toml"
    return stored_file(tell.__name__, file, lambda: tell(kept(file)))
