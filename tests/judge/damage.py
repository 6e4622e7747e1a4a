"""Ways to make a text of a race wrong: each gives one that no race of its trace may write."""
from collections import Counter

FULL, STALE, NO_ROOM, UNMADE = 8, 4, 10, 18


def changed(lines, changes):
    """The text where each (first, last, new) puts new lines in the place of those from first to before last."""
    new = list(lines)
    for first, last, put in sorted(changes, reverse=True):
        new[first:last] = put
    return new


def ways(trace, lines, over_queues):
    """What is done in each wrong form, in words, and its changes."""
    for at, line in enumerate(lines):
        fields = line.split(" ")
        yield "a line is missing", [(at, at + 1, [])]
        yield "a line stands twice", [(at, at + 1, [line, line])]
        if at + 1 < len(lines) and not may_change_places(line, lines[at + 1], over_queues):
            yield "two lines change places", [(at, at + 2, [lines[at + 1], line])]
        if fields[0] == "heap":
            for field in range(1, len(fields)):
                if fields[field].isdecimal():
                    yield "a number of a report", [(at, at + 1, [with_more(fields, field)])]
            continue
        for field in ("serial", "at"):
            if field in fields:
                yield f"another {field}", [(at, at + 1, [with_more(fields, fields.index(field) + 1)])]
        for other in other_answers(fields):
            yield "another answer", [(at, at + 1, [other])]
        if fields[1] == "take":
            yield from wrong_takes(lines, at, fields)
    yield from full_too_soon(trace, lines, over_queues)


def may_change_places(line, other, over_queues):
    """Whether the text may be right with two neighbours exchanged: a release tried twice, posted once; or, over queues, takes of what two
    workers posted."""
    if line.replace("posted", f"refused {FULL}") == other.replace("posted", f"refused {FULL}"):
        return True
    takes = [it.split(" ") for it in (line, other) if " take " in it]
    return over_queues and len(takes) == 2 and takes[0][2] != takes[1][2]


def with_more(fields, field):
    """The line with one added to a number in it."""
    return " ".join(fields[:field] + [str(int(fields[field]) + 1)] + fields[field + 1 :])


def other_answers(fields):
    """The line of a call or a take with another answer."""
    start, answer = " ".join(fields[:-1]), fields[-1]
    if fields[-2] == "refused":
        start = " ".join(fields[:-2])
        yield f"{start} refused {int(answer) + 1}"
        yield from [f"{start} posted"] if fields[1] == "f" and answer == str(FULL) else []
        yield from [f"{start} freed"] if fields[1] in ("f", "take") and answer == str(STALE) else []
        yield from [f"{start} resized"] if fields[1] == "r" else []
    elif answer in ("freed", "posted", "resized"):
        for refusal in (STALE, FULL, NO_ROOM, UNMADE):
            yield f"{start} refused {refusal}"
    elif fields[-2] == "got":
        yield start + " " + answer[:-1] + ("1" if answer[-1] == "0" else "0")
    elif fields[-2] in ("wrote", "drained"):
        yield with_more(fields, len(fields) - 1)


def without_take(lines, at):
    """What leaves a take out, so that its drain counts one fewer."""
    end = next(it for it in range(at, len(lines)) if lines[it].split(" ")[1] == "d")
    fields = lines[end].split(" ")
    return [(at, at + 1, []), (end, end + 1, [" ".join(fields[:3] + [str(int(fields[3]) - 1)])])]


def wrong_takes(lines, at, fields):
    """A take that is lost, comes twice, or is told of another worker."""
    end = next(it for it in range(at, len(lines)) if lines[it].split(" ")[1] == "d")
    yield "a take is lost", without_take(lines, at)
    yield "a take comes twice", [(at, at + 1, [lines[at]] * 2), (end, end + 1, [with_more(lines[end].split(" "), 3)])]
    yield "a take from another", [(at, at + 1, [with_more(fields, 2)])]
    yield "a take from another", [(at, at + 1, [" ".join([*fields[:2], "0" if fields[2] != "0" else "7", *fields[3:]])])]


def full_too_soon(trace, lines, over_queues):
    """A post told as full, its take left out, where no more posts went through that port in the phase than it holds."""
    capacity = int(trace[0].split(" ")[4])
    makers = {it.split(" ")[2]: it.split(" ")[1] for it in trace if it.startswith("a ")}
    posts, takes, through = {}, {}, Counter()
    for at, (phase, line) in enumerate(zip(phases_of(trace, lines), lines)):
        fields = line.split(" ")
        if fields[1] == "take":
            takes.setdefault((phase, fields[2], fields[0]), []).append(at)
        elif fields[1] == "f" and fields[-1] == "posted":
            pair = phase, fields[0], makers[fields[2]]
            posts.setdefault(pair, []).append(at)
            through[pair[::2] if over_queues else pair] += 1
    for pair, all_at in posts.items():
        if through[pair[::2] if over_queues else pair] > capacity:
            continue
        for at, taken in zip(all_at, takes[pair]):
            full = " ".join(lines[at].split(" ")[:-1] + ["refused", str(FULL)])
            yield "a post is full too soon", [(at, at + 1, [full])] + without_take(lines, taken)


def phases_of(trace, lines):
    """The number of the phase of each line of the text, up to the reports."""
    own = [Counter()]
    for line in trace[1:]:
        if line == "phase":
            own.append(Counter())
        else:
            own[-1][line.split(" ")[1]] += 1
    at = 0
    for phase, calls in enumerate(own):
        for worker in range(int(trace[0].split(" ")[2])):
            left = calls[str(worker)] + 1
            while left > 0:
                left -= lines[at].split(" ")[1] != "take"
                at += 1
                yield phase
