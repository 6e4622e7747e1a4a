"""Tables of tests/program by their text, in which a second reading tells what it can (tests/model). All else stays as it is."""
import json
import re
import tomllib

from model.answers import fault_text
from model.commands import Untold, answer_to
from model.sequences import answer_of, fault_in, traces_of, worst_of
from model.trace import trace_in

TRACE = "tlsf 1 1 64 1\n"  # what the runs of arguments.toml and streams.toml read
MOMENT = re.compile(r'^  \[\["tlsf", (.*)\], (\d+)\],$', re.M)
FRONT = re.compile(r'^  \[\["tlsf", (.*)\], (".*")\],$', re.M)
ANSWERS = re.compile(r"^answers = \[\n.*?^\]", re.M | re.S)
ANSWER = re.compile(r'^  \[\[(.*)\], (".*")\],$', re.M)
OTHER = re.compile(r'^\[\[other\]\]\nwords = \[(.*)\]\nabout = .*\ntext = """\n([^"]*)"""\nwritten = ("""[^"]*"""|".*")$', re.M)
WORST = re.compile(r'^\[\[worst\]\]\nnumber = (\d+)\ntext = """\n([^"]*)"""$', re.M)
FAULT = re.compile(r'^\[\[fault\]\]\nwords = .*\n(?:about = .*\n)?text = """\n([^"]*)"""\ntold = "(?:""\n)?(tlsf: [^"\\\n]*)', re.M)


def words_in(row):
    return json.loads(f"[{row}]")


def retold(row, group, tell):
    """A row in which what this group of its has is told, if it is."""
    try:
        told = tell()
    except Untold:
        return row[0]
    start, end = (it - row.start() for it in row.span(group))
    return f"{row[0][:start]}{told}{row[0][end:]}"


def moments(text):
    """How many lines lead to the heaps that are drawn. Several may lead to the same heaps: then that many may stand there."""
    trace = tomllib.loads(text)["trace"]
    lines = trace.splitlines(keepends=True)
    fronts = [answer_to(["map", "--text"], "".join(lines[: at + 1])) for at in range(len(lines))]

    def count(row):
        told, stored = answer_to(words_in(row[1]), trace), int(row[2])
        return stored if fronts[stored - 1 : stored] == [told] else fronts.index(told) + 1

    return MOMENT.sub(lambda row: retold(row, 2, lambda: count(row)), text)


def streams(text):
    """The first bytes of what is answered."""
    return FRONT.sub(lambda row: retold(row, 2, lambda: json.dumps(answer_to(words_in(row[1]), TRACE)[:5])), text)


def sequences(text):
    """What is written, which trace stands worst, and the line of a fault."""

    def written(told):
        return f'"""\n{told}"""' if told.count("\n") > 2 else json.dumps(told)

    two = tomllib.loads(text)["two"]
    for rows, tell in (
        (OTHER, lambda row: (3, lambda: written(answer_of(words_in(row[1]), row[2])))),
        (WORST, lambda row: (1, lambda: worst_of([trace_in(it) for _, it in traces_of(row[2])]))),
        (FAULT, lambda row: (2, lambda: fault_text(fault_in(row[1])).strip())),
    ):
        text = rows.sub(lambda row, tell=tell: retold(row, *tell(row)), text)

    def answer(row):
        return retold(row, 2, lambda: json.dumps(answer_of(words_in(row[1]), two)))

    return ANSWERS.sub(lambda rows: ANSWER.sub(answer, rows[0]), text)
