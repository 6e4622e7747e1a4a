"""How the sentences of a text read, for the checks of pages and of comments."""
import re

MOST_WORDS = 25
MOST_NUMBERS = 2

CODE = re.compile(r"`([^`\n]+)`")
FENCE = re.compile(r" *(```|~~~)")
# What has no sentences: headings, tables, quotations, pictures.
NO_SENTENCE = re.compile(r"\s*(#|\||>|!\[|<|----)")
POINT = re.compile(r"\s*(?:[-*]|\d+\.) ")
SHOWN_LINK = re.compile(r"!?\[([^\]]*)\](?:\([^)]*\))?")
# No end of a sentence: initials and what is short for other words.
SHORT = re.compile(r"(?:^|[\s(])(?:[A-Z]|e\.g|i\.e|etc|vs|cf|pp|no)\.$")
ENDS = re.compile(r"(?<=[.?!])[)\"”]*\s+(?=[\"“(]*[A-Z0-9`])")
NUMBER = re.compile(r"[(\"~-]*\d[\d,.^/]*%?(?:\*\*)?[)\",;:.?!]*")
# The number after one of these is a part of a name.
NAMES = re.compile(
    r"(?:level|line|heap|worker|rule|point|bit)s?|block|field|fault|tick|place|serial|step|section|case|phase|label|moment|status"
    r"|version|python|ecrts|tlsf"
)
NO_QUESTION = re.compile(r"(What|That)\b.*[^?]$", re.S)
UNCLEAR = re.compile(
    r"\b(so many|theirs|behind that|(?<=, )of which|as it were|else as|is had|are had|(?:is|are) as (?:there|here)|are (?:these|those)(?=[.,;]?$))\b"
    r"|^So (?:is|are|does|do|has|have)\b(?= that\b)",
    re.I,
)
# A number that is compared with nothing, as in 'and takes as many'.
AS_MANY = re.compile(r"(?<!twice )(?<!times )\bas many\b(?![^.;:]*\bas\b)", re.I)
# Things may lie behind others in memory, or behind a lock. Whatever comes later in time or in a text comes after.
BEHIND = re.compile(r"\bbehind\b", re.I)
LIES = re.compile(
    r"\b(?:block|word|byte|unit|cell|place|zero|slot|lock|handle|pair|payload|region|span|pointer|size|bit|piece|rest|four)s?\b", re.I
)


class Text:
    """Lines of prose, with what says so in no block of code."""

    def __init__(self, name, lines):
        self.name, self.lines = name, lines

    def prose(self):
        """The lines that stand in no block of code, with their numbers from 1."""
        fence = None
        for number, line in enumerate(self.lines, 1):
            found = FENCE.match(line)
            if found and fence in (None, found[1]):
                fence = None if fence else found[1]
            elif not fence:
                yield number, line

    def is_point(self, line):
        """Whether a line begins a point of a list."""
        return POINT.match(line)

    def blocks(self):
        """The paragraphs and points of a list, each in one line without its links, with the number of its first line."""
        block, first, last = [], 0, 0
        for number, line in [*self.prose(), (0, "")]:
            ends = not line.strip() or NO_SENTENCE.match(line) or self.is_point(line) or number != last + 1
            if ends and block:
                yield first, SHOWN_LINK.sub(r"\1", CODE.sub("`code`", " ".join(block)))
                block = []
            if line.strip() and not NO_SENTENCE.match(line):
                block, first = (block, first) if block else ([], number)
                mark = POINT.match(line)
                block.append(line[mark.end() if mark else 0 :].strip())
            last = number

    def sentences(self):
        for number, block in self.blocks():
            start = 0
            for end in [*(it.start() for it in ENDS.finditer(block)), len(block)]:
                if end == len(block) or not SHORT.search(block[start:end]):
                    yield number, block[start:end].strip()
                    start = end

    def faults(self, most_numbers=None):
        """What is wrong with the sentences, which may have so many numbers."""
        for number, sentence in self.sentences():
            words = [it for it in sentence.split() if re.search(r"\w", it)]
            where, begin = f"{self.name}:{number}", " ".join(words[:5])
            if len(words) > MOST_WORDS:
                yield f"{where}: a sentence of {len(words)} words, more than {MOST_WORDS}: {begin} .."
            if most_numbers is not None and (count := numbers_in(words)) > most_numbers:
                yield f"{where}: a sentence of {count} numbers, more than {most_numbers}: {begin} .."
            if NO_QUESTION.match(sentence):
                yield f"{where}: begins with {words[0]} and asks nothing: {begin} .."
            for said in phrases_in(sentence):
                yield f"{where}: says '{said}': {begin} .."


def numbers_in(words):
    """How many numbers there are among the words of a sentence, but those that name something."""
    return sum(1 for before, it in zip(["", *words], words) if NUMBER.fullmatch(it) and not NAMES.fullmatch(before.strip('("').lower()))


def phrases_in(sentence):
    """What a sentence says that is read twice."""
    found = [it[0] for rule in (UNCLEAR, AS_MANY) for it in rule.finditer(sentence)]
    return found if LIES.search(sentence) else found + BEHIND.findall(sentence)
