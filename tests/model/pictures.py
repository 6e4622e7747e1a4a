"""What `tlsf map` and `tlsf plot` draw, a second time, from plain tables of a heap's blocks and points: docs/COMMANDS.md, read again. Styles, keys
and the script of a page are those of stored cases."""
import bisect
import collections
import functools
import itertools

from case_files import cases
from model.answers import Yard, curve_of, curves_of, look_at, peak_at, plot_text

# A row of the table of a heap: a free block has the tick since which it is free, a live one its bytes, its serial, and its label or none.
Block = collections.namedtuple("Block", "place size free_since length serial label")
Table = collections.namedtuple("Table", "number words tick blocks report")
Table.__hash__, Table.__eq__ = object.__hash__, object.__eq__


def stored(name):
    return cases()[name].stdout


def between(name, begin, end):
    """What a stored case has between two texts."""
    return stored(name).partition(begin)[2].partition(end)[0]


def count_of(number, one, many=None):
    return f"{number} {one if number == 1 else many or one + 's'}"


# ---- tables


def report_of(heap):
    live, words, size, free, free_words, largest, grant, apart, waste, age = heap.numbers()
    held = f"live {count_of(live, 'block')}, {count_of(words, 'word')}, {count_of(size, 'byte')}; waste {count_of(waste, 'byte')}"
    left = f"free {count_of(free, 'block')}, {count_of(free_words, 'word')}; largest {count_of(largest, 'word')}, grant {count_of(grant, 'byte')}"
    return [held, left, f"fragmentation {apart}/1000; age {count_of(age, 'tick')}"]


def table_of(yard, number):
    """A heap as it stands: each of its blocks, in the order of their places."""
    heap = yard.heaps[number]
    labels = {name[1][1]: label for label, name in yard.made.items() if name[0] == number}
    blocks = [
        Block(it.place, it.size, it.tick, 0, 0, None)
        if it.is_free
        else Block(it.place, it.size, None, it.length, it.tick, labels.get(it.tick))
        for _, it in sorted(heap.blocks.items())
    ]
    return Table(number, heap.words, heap.tick + 1, blocks, report_of(heap))


class Drawn(Yard):
    """A yard that remembers which label made a block."""

    def __init__(self, trace):
        super().__init__(trace)
        self.made = {}

    def call(self, line):
        lines = super().call(line)
        if line.kind == "a" and self.labels[line.label]:
            self.made[line.label] = self.labels[line.label]
        return lines

    def moments(self):
        """The tables of the heaps after each line of the text, whose header is line 1, and after the end."""
        for number, _ in enumerate(itertools.chain([None], self.steps()), 1):
            yield number, lambda: [table_of(self, it) for it in range(len(self.heaps))]


def tables_at(trace, lines):
    """The tables after these lines; the end counts as one line more than the last."""
    end = len(trace.lines) + 2
    wanted = {min(it, end) for it in lines}
    found = {number: tables() for number, tables in Drawn(trace).moments() if number in wanted}
    return [(line, found[min(line, end)]) for line in lines]


@functools.lru_cache(maxsize=8)
def stamps_of(table):
    stamps = [it.free_since for it in table.blocks if it.free_since is not None]
    return min(stamps), max(stamps)


def shade_of(table, stamp):
    """How dark a block is drawn that is free since a tick: from the oldest, 85 hundredths, to the newest, 15."""
    oldest, newest = stamps_of(table)
    return 85 if newest == oldest else 15 + 70 * (newest - stamp) // (newest - oldest)


@functools.lru_cache(maxsize=8)
def largest_of(table):
    return max((it.size for it in table.blocks if it.free_since is not None), default=0)


def used_words(block):
    return 3 + -(-block.length // 8)


def title_of(table):
    return f"heap {table.number}: {table.words} words at tick {table.tick}"


# ---- characters


def columns(span, place):
    """How many characters begin before a place."""
    return -(-place // span)


class Characters:
    """A heap in characters of so many words: up to 64 words each shows the first of them, and beyond that how many are live."""

    def __init__(self, table, span):
        self.table, self.span, self.is_dense = table, span, span > 64
        self.places = [it.place for it in table.blocks]
        self.count = columns(span, table.words)

    def run_of(self, block):
        """The characters alike of a block, from one up to another: those of a payload, or of free words behind the first."""
        first, end = columns(self.span, block.place), columns(self.span, block.place + block.size)
        if self.is_dense:
            return first, end - 1
        if block.free_since is not None:
            return first + 1, end
        return max(first + 1, columns(self.span, block.place + 3)), columns(self.span, block.place + used_words(block))

    def folds(self, runs):
        """The rows, from one up to another, of which a line stands for all: three or more whole ones of a run."""
        rows = ((-(-first // 64), end // 64) for first, end in runs)
        return {first: end for first, end in rows if end - first >= 3}

    def row_count(self):
        return -(-self.count // 64) - sum(end - first - 1 for first, end in self.folds(map(self.run_of, self.table.blocks)).items())

    def label_of(self, block):
        """The label of a live block, where the row and the block have room for it behind the first character."""
        label = "" if block.label is None else str(block.label)
        first, end = columns(self.span, block.place), columns(self.span, block.place + block.size)
        return label if first % 64 + len(label) < 64 and first + len(label) < end else ""

    def shown_run(self, block):
        first, end = self.run_of(block)
        labelled = block.free_since is None and not self.is_dense
        return max(first, columns(self.span, block.place) + 1 + len(self.label_of(block))) if labelled else first, end

    def mark(self, number):
        begin, end = number * self.span, min((number + 1) * self.span, self.table.words)
        block = self.table.blocks[bisect.bisect_right(self.places, begin) - 1]
        if self.is_dense:
            return self.density(begin, end)
        at = number - columns(self.span, block.place)
        if block.free_since is not None:
            first = "*" if block.size == largest_of(self.table) else "("
            return first if at == 0 else "." if shade_of(self.table, block.free_since) < 50 else ":"
        begun = "[" + self.label_of(block)
        return begun[at] if at < len(begun) else "#" if begin < block.place + 3 else "=" if begin < block.place + used_words(block) else "-"

    def density(self, begin, end):
        """The mark of some words by how many of them are live."""
        live, at = 0, bisect.bisect_right(self.places, begin) - 1
        while at < len(self.places) and self.places[at] < end:
            block, at = self.table.blocks[at], at + 1
            live += (min(end, block.place + block.size) - max(begin, block.place)) * (block.free_since is None)
        return "." if live == 0 else "@" if live == end - begin else ":-=+*#%"[7 * live // (end - begin)]

    def lines(self):
        folds, row = self.folds(map(self.shown_run, self.table.blocks)), 0
        while 64 * row < self.count:
            place, behind = 64 * row * self.span, folds.get(row, row + 1)
            begin = f"{place:7}" + " " * (place < 10_000_000)
            marks = "".join(map(self.mark, range(64 * row, min(64 * row + 64, self.count)))) if behind == row + 1 else self.mark(64 * row)
            yield begin + (
                f"|{marks}" if behind == row + 1 else f"~ {behind - row} rows of {marks} alone, {64 * (behind - row) * self.span} words"
            )
            row = behind
        unseen = sum(columns(self.span, it.place) == columns(self.span, it.place + it.size) for it in self.table.blocks)
        if unseen and not self.is_dense:
            yield (
                f"{unseen} block is not shown: it has the first word of no character"
                if unseen == 1
                else f"{unseen} blocks are not shown: none of them has the first word of a character"
            )


def characters_for(table):
    """As few words a character as may be, by powers of two up to 16,384, where at most 16 rows are written."""
    return next((it for it in (Characters(table, 1 << power) for power in range(14)) if it.row_count() <= 16), None) or Characters(
        table, 1 << 14
    )


def map_text(tables):
    lines = [stored("map_text_header_alone").partition("\n")[0]]
    for table in tables:
        shown = characters_for(table)
        dense = ["live words of a character: . none  : - = + * # % sevenths  @ all"] if shown.is_dense else []
        lines += ["", f"{title_of(table)}, words a character: {shown.span}", *table.report, *dense, *shown.lines()]
    return "".join(f"{it}\n" for it in lines)


# ---- SVG files: lengths are in sixteenths of a pixel


class Rows:
    """A heap in rows of so many words, and the rows that are drawn for many alike."""

    def __init__(self, table, row):
        self.table, self.row, self.hidden = table, row, 0
        self.folds = {it.place: self.fold_of(it) for it in table.blocks}
        self.count = -(-table.words // row) - sum(self.left_out(it) for it in table.blocks)

    def fold_of(self, block):
        """The rows that show a block's payload alone, or free words behind the first: the first of them and the one behind."""
        is_free = block.free_since is not None
        begin, end = (
            (block.place + 1, block.place + block.size) if is_free else (block.place + 3, block.place + min(used_words(block), block.size))
        )
        return -(-begin // self.row), end // self.row

    def left_out(self, block):
        first, behind = self.folds[block.place]
        return behind - first - 1 if behind - first >= 3 else 0

    def top(self, place):
        return 800 + 640 * (place // self.row - self.hidden)

    def left(self, place):
        return place % self.row * 16384 // self.row

    def width(self, place, words):
        column = place % self.row
        return (column + words) * 16384 // self.row - column * 16384 // self.row

    def place_text(self, place):
        return f"<text class='place' x='-96' y='{self.top(place) + 328}'>{place}</text>"

    def spread(self, place, end, is_placed):
        """A rectangle for each row that these words touch."""
        while place < end:
            words = min(end, (place // self.row + 1) * self.row) - place
            yield self.place_text(place) * (is_placed and place % self.row == 0)
            yield f"<rect x='{self.left(place)}' y='{self.top(place)}' width='{self.width(place, words)}' height='560'/>"
            place += words

    def block_rows(self, block):
        """The rectangles of a block's words, and how many rows are left out behind them."""
        end, left_out = block.place + block.size, self.left_out(block)
        if not left_out:
            return "".join(self.spread(block.place, end, True))
        first, behind = (it * self.row for it in self.folds[block.place])
        text = "".join(self.spread(block.place, first, True)) + self.place_text(first)
        y, rows = self.top(first), (behind - first) // self.row
        text += f"<rect class='fold' y='{y}' width='16384' height='560'/><g class='caption'><text class='fold' x='8192' y='{y + 336}'>"
        text += f"{rows} rows, {behind - first} words</text></g>"
        self.hidden += left_out
        text += "".join(self.spread(behind, end, True))
        self.hidden -= left_out
        return text

    def caption(self, block, name, amount):
        words = min(block.size, self.row - block.place % self.row)
        if self.width(block.place, words) < 1280:
            return ""
        x, y = self.left(block.place) + 64, self.top(block.place) + 240
        return f"<g class='caption'><text x='{x}' y='{y}'>{name}</text><text x='{x}' y='{y + 224}'>{amount}</text></g>"

    def free_text(self, block):
        kind = "free largest" if block.size == largest_of(self.table) else "free"
        text = f"<g class='{kind}' fill-opacity='.{shade_of(self.table, block.free_since)}'><title>free since tick {block.free_since}, "
        text += f"place {block.place}, {block.size} words</title>" + self.block_rows(block)
        return text + self.caption(block, "free", f"{block.size} words") + "</g>\n"

    def live_text(self, block):
        name = "live" if block.label is None else f"label {block.label}"
        amount, end, used = count_of(block.length, "byte"), block.place + block.size, block.place + used_words(block)
        text = f"<g class='live'><title>{name}, place {block.place}, {block.size} words, {amount}, serial {block.serial}</title>"
        text += self.block_rows(block) + "<g class='head'>" + "".join(self.spread(block.place, block.place + 3, False)) + "</g>"
        self.hidden += self.left_out(block)
        text += "<g class='slack'>" + "".join(self.spread(used, end, False)) + "</g>"
        self.hidden -= self.left_out(block)
        return text + self.caption(block, name, amount) + "</g>\n"

    def joined_text(self, group):
        words, live = (sum(it.size for it in some) for some in (group, [it for it in group if it.free_since is None]))
        text = (
            f"<g class='joined' fill-opacity='.{15 + 70 * live // words}'><title>{len(group)} blocks drawn as one, place {group[0].place}, "
        )
        text += f"{words} words, {live} of live blocks</title>"
        return text + "".join(self.spread(group[0].place, group[0].place + words, True)) + "</g>\n"

    def groups(self):
        """Neighbours that are less than 4 pixels wide are one until they are 16 pixels wide."""
        group = []
        for block in self.table.blocks:
            words = sum(it.size for it in group)
            if group and not (all(256 * it.size < self.row for it in (*group, block)) and 64 * words < self.row):
                yield group
                group = []
            group = [*group, block]
        if group:
            yield group

    def text(self):
        """The blocks, and how many are drawn as one with others."""
        text, joined = "", 0
        for group in self.groups():
            if len(group) > 1:
                text, joined = text + self.joined_text(group), joined + len(group)
                continue
            text += self.live_text(group[0]) if group[0].free_since is None else self.free_text(group[0])
            self.hidden += self.left_out(group[0])
        return text, joined


def rows_for(table):
    return next((it for it in (Rows(table, 64 << power) for power in range(12)) if it.count <= 64), None) or Rows(table, 64 << 12)


def map_svg(tables):
    y, text = 1088, ""
    for table in tables:
        rows = rows_for(table)
        blocks, joined = rows.text()
        text += f"<g transform='translate(1024 {y})'><text class='name' y='320'>{title_of(table)}, {rows.row} words a row</text>\n"
        text += f"<text class='numbers' y='608'>{'; '.join(table.report)}</text>\n{blocks}"
        if joined:
            note = f"{joined} blocks, each under 4 pixels wide, are drawn as one with neighbours"
            text += f"<text class='numbers' text-anchor='end' x='16384' y='320'>{note}</text>\n"
        text += "</g>\n"
        y += 1280 + 640 * rows.count
    key = between("map_header_alone", ">\n", "<g transform='translate(1024 1088)'>")
    return f"<svg xmlns='http://www.w3.org/2000/svg' width='1104' height='{y // 16}' viewBox='0 0 17664 {y}'>\n{key}{text}</svg>\n"


# ---- pages


def item_of(block):
    if block.free_since is not None:
        return f"f{block.size},{block.free_since};"
    label = "" if block.label is None else f",{block.label}"
    return f"l{block.size},{block.length},{block.serial}{label};"


def page_text(trace):
    """The page: 200 moments at most, spread evenly, and besides these the lines that are named of each heap."""
    points, longest = curves_of(trace)
    named = [(peak_at(some) + 1, look_at(some, length)[0] + 1, length) for some, length in zip(points, longest)]
    end = len(trace.lines) + 1
    count = min(200, end + 1)
    lines = sorted({it * end // (count - 1) + 1 for it in range(count)} | {it for peak, look, _ in named for it in (peak, look)})
    text = stored("map_html_header_alone").partition("line 1\n")[0]
    for line, tables in tables_at(trace, lines):
        text += f"line {line}\n"
        for table in tables:
            text += f"{title_of(table)}\n{'; '.join(table.report)}\n{''.join(map(item_of, table.blocks))}\n"
    items = "".join(f"[{peak},{look},{length}]," for peak, look, length in named)
    begin, script = "</script><script>'use strict';\nconst named=[", stored("map_html_header_alone").partition("];\n")[2]
    return f"{text}{begin}{items}];\n{script}"


# ---- plots as an SVG file


def step_for(lines):
    """The least of 1, 2, 5, 10 and so on of which at most ten are in so many lines; 5,000 is the greatest."""
    return next((it for it in (digit * 10**power for power in range(4) for digit in (1, 2, 5)) if lines <= 10 * it), 5000)


def frame_text(box, turn, inner):
    y, height, count, high = box
    text = f"<svg x='80' y='{y}' width='960' height='{height}' viewBox='0 0 {count} {high}' preserveAspectRatio='none'>"
    return (
        text + f"<rect class='frame' width='{count}' height='{high}'/><g transform='matrix(1 0 0 -{turn} 0 {high})'>\n{inner}</g></svg>\n"
    )


def curve_text(name, curve):
    steps = "".join(f"V{getattr(it, name)}H{at}" for at, it in enumerate(curve, 1))
    return f"<path class='{name}' d='M0 0{steps}V0'/>\n"


def words_text(y, words, top, names, curve):
    """A chart of words from 0 to a top, which it names where that is not the words of the heap."""
    scale = f"<text class='scale' x='72' y='{y + 24}'>{top}</text><text class='scale' x='72' y='{y + 38}'>words</text>"
    scale += f"<text class='scale' x='72' y='{y + 180}'>0</text><text class='bytes' x='1046' y='{y + 24}'>{8 * top}</text>"
    scale += f"<text class='bytes' x='1046' y='{y + 38}'>bytes</text>"
    capacity = f"<path class='capacity' d='M0 {words}H{len(curve)}'/>\n" * (top == words)
    note = f"<text class='scale' x='1032' y='{y + 24}'>words 0 to {top} of {words}</text>\n" * (top < words)
    return scale + frame_text((y, 180, len(curve), 9 * top), 8, capacity + "".join(curve_text(it, curve) for it in names)) + note


def look_text(points, length):
    (at, is_worst), peak = look_at(points, length), peak_at(points)
    point, live = points[at], points[peak].live
    if is_worst:
        fit = "byte doesn't fit" if length == 1 else "bytes don't fit"
        text = f"<text x='80' y='40'>worst moment: line {at + 1}: {point.free} words ({8 * point.free} bytes) free, and {length} {fit}</text>\n"
    else:
        fit = "byte always fits" if length == 1 else "bytes always fit"
        text = f"<text x='80' y='40'>fullest moment: line {at + 1}: {point.live} words ({8 * point.live} bytes) live, "
        text += f"fragmentation {point.fragmentation}/1000, and {length} {fit}</text>\n"
    return text + f"<text x='80' y='58'>peak: line {peak + 1}: {live} words ({8 * live} bytes) live</text>\n"


def axis_text(points, length):
    """The ticks at round numbers of lines, and the marks at the line to look at and at the peak."""
    lines, (look, _), peak = len(points), look_at(points, length), peak_at(points)

    def x_of(line):
        """The middle of what a line has of 960 pixels."""
        return 80 + 480 * (2 * line - 1) // lines

    text = "<text class='scale' x='72' y='600'>line</text>"
    for line in range(step_for(lines), lines + 1, step_for(lines)):
        text += f"<path class='tick' d='M{x_of(line)} 580v6'/><text class='at' x='{x_of(line)}' y='600'>{line}</text>"
    x, y = x_of(look + 1), x_of(peak + 1)
    text += "<text class='bytes' x='1060' y='600'>end</text>\n"
    text += f"<path class='mark' d='M{x} 78V580'/><text class='at' x='{x}' y='74'>line {look + 1}</text>"
    return text + f"<path class='peak' d='M{y} 80V264'/><text class='at' x='{y}' y='276'>peak: line {peak + 1}</text>\n"


def chart_text(y, number, words, points, length):
    span, curve = curve_of(points, 2000)
    of = "byte" if length == 1 else "bytes"
    text = f"<g transform='translate(0 {y})'><text class='name' x='80' y='22'>heap {number}: {words} words ({8 * words} bytes), "
    text += f"longest request {length} {of}, {count_of(span, 'line')} a point</text>\n" + look_text(points, length)
    top = min(words, 10 * points[peak_at(points)].live or words)
    text += words_text(80, words, top, ("live", "asked"), curve) + words_text(292, words, words, ("free", "largest"), curve)
    text += "<text class='scale' x='72' y='504'>1000</text><text class='scale' x='72' y='556'>0</text>"
    text += frame_text((492, 64, len(curve), 1000), 1, curve_text("fragmentation", curve))
    marks = "".join(f"M{at} 0h1v1h-1z" for at, it in enumerate(curve) if it.refused)
    return text + frame_text((568, 12, len(curve), 1), 1, f"<path class='refused' d='{marks}'/>\n") + axis_text(points, length) + "</g>\n"


def plot_svg(trace):
    height = 96 + 632 * trace.workers
    charts = [chart_text(96 + 632 * it, it, trace.words, *of) for it, of in enumerate(zip(*curves_of(trace)))]
    key = between("plot_header_alone", ">\n", "<g transform='translate(0 96)'>")
    return f"<svg xmlns='http://www.w3.org/2000/svg' width='1104' height='{height}' viewBox='0 0 1104 {height}'>\n{key}{''.join(charts)}</svg>\n"


# ---- all forms


def standings(trace):
    """How badly each heap stands where it stands worst, and the line before that."""
    found = []
    for points, length in zip(*curves_of(trace)):
        at, is_worst = look_at(points, length)
        found.append(((is_worst, points[at].free, 0) if is_worst else (is_worst, points[at].live, points[at].fragmentation), at + 1))
    return found


def worst_line(trace):
    """The line after which a heap stands worst: the first of those heaps that stand worst."""
    return max(standings(trace), key=lambda it: it[0])[1]


def map_at(trace, line, is_text):
    ((_, tables),) = tables_at(trace, [line])
    return (map_text if is_text else map_svg)(tables)


def drawn(trace, words):
    """What the words of a command line have drawn of a trace."""
    command, *options = words
    is_text = "--text" in options
    if command == "map":
        if "--html" in options:
            return page_text(trace)
        at = options[options.index("--at") + 1 :][:1] if "--at" in options else []
        line = worst_line(trace) if "--worst" in options else int(at[0]) if at else len(trace.lines) + 2
        return map_at(trace, line, is_text)
    return plot_text(trace) if is_text else plot_svg(trace)
