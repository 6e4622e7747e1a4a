"""What bench/peers measures: of each row and column the figures of each run."""
import collections
import concurrent.futures
import os
import re
import statistics

from allocators.columns import COLUMNS, NEAR, OURS, tell
from script import TOP

PLAIN = [it for it in COLUMNS if it not in NEAR]
AT_LEVEL_4 = [it for it in PLAIN if it != "level5"]
ONE_OF_EACH = [it for it in COLUMNS if it not in ("level5", "near5")]
# Of each word of the command line the program in C, and the columns that it has.
ROWS = {
    "calls": ("peers", list(COLUMNS)),
    "holes": ("peers", list(COLUMNS)),
    "resets": ("peers", ["level4", "level5"]),
    "full": ("peers", PLAIN),
    "time": ("peers", list(COLUMNS)),
    "recorded": ("replay", ONE_OF_EACH),
    "tail": ("tail", ONE_OF_EACH),
    "threads": ("threads", AT_LEVEL_4),
    "first": ("first", AT_LEVEL_4),
    "frees": ("frees", AT_LEVEL_4),
    "busy": ("frees", AT_LEVEL_4),
    "lanes": ("frees", ["level4"]),
    "cold": ("cold", list(COLUMNS)),
    "opens": ("cold", ["level4", "level5", "authors", "mattconte"]),
}
POSTS = {
    "alone": "a post and its take, one thread",
    "stream": "a post, two threads, in a stream",
    "echo": "a post, two threads, to and fro",
    "line": "one cache line, two threads",
}
# The calls of bench/c/cold.c, and the marks that its traces have.
COLD_CALLS = ["allocate", "release", "malloc", "free"]
OWN, ENDED, TOLD, LENGTHS = 0x20000000, 0x20000040, 0x20000041, 0x20000080
# The ways of frees.c besides a lock, as rows call them. In the second the archive's own call drains the lanes, in the third the owner's handle
# has no cache line of its own.
WAYS = {
    "lanes": "over lanes",
    "called": "over lanes, drained by the archive's call",
    "beside": "over lanes, the handle beside what posters read",
    "queue": "over a queue",
    "ring": "over a ring in C",
}
# What frees.c prints of each pattern.
BUSY = {
    "works": ("frees while the owner works, {}", "pairs of the owner meanwhile, {}"),
    "turns": ("bursts: a free, {}", "bursts: a drained name, {}"),
    "full": ("drain of a full lane, {}",),
}
# The words for frees.c of an order in which blocks are freed, and its name in a row.
ORDERS = {(): "", ("random",): ", by chance"}
FIGURES = ["p50", "p99", "p99.9", "p99.99", "worst"]
TAIL_CALLS, TAIL_ROUNDS = 10_000_000, 3
TRACES = sorted((TOP / "examples/recorded").glob("*.trace"))
RECORDED = {"allocate": ("malloc", "allocate"), "release": ("free", "release"), "resize": ("realloc", "reallocate")}
PROGRAMS_OF_THREADS = ["larson", "xmalloc", "mstress"]
MEMORIES = {"new": "new memory", "huge": "huge pages", "locked": "locked memory", "written": "written memory"}


def lines_of(accesses):
    """The number of cache lines of a call's accesses to data."""
    stack, payload, length = [at for kind, at, size in accesses if kind == "L" and size == 1][-3:]
    zeros = range(payload + 16, payload + (length - LENGTHS + 15) // 16 * 16)
    lines = set()
    for _, at, size in accesses[: [at for _, at, _ in accesses].index(ENDED)]:
        if abs(at - stack) >> 16 and at >> 24 != OWN >> 24 and at not in zeros:
            lines.update(range(at // 64, (at + size - 1) // 64 + 1))
    return len(lines)


def hows(column):
    """The ways to call it: only this heap has names."""
    return ["pointer", "name"] if column in OURS else ["pointer"]


class Rows:
    """Runs the programs, and keeps what they told. A row is known by its text."""

    thread_counts = (2, 4)
    over = {"frees": ("lanes", "called", "beside", "queue"), "busy": ("lanes", "called", "beside", "ring")}

    def __init__(self, built, words, rounds):
        self.built, self.words, self.rounds = built, words, rounds
        self.told = collections.defaultdict(lambda: collections.defaultdict(list))

    def columns(self, row):
        return [it for it in self.built.columns if it in ROWS[row][1]] if row in self.words else []

    def all_columns(self):
        """The columns of the table."""
        return [it for it in self.built.columns if any(it in ROWS[row][1] for row in self.words)]

    def run(self, column, *words, is_pinned=False):
        """What a program of a column writes; COLUMN among its words is what it calls that."""
        return self.built.output(column, self.built.words(words[0], column, *words[1:]), is_pinned=is_pinned)

    def keep_lines(self, column, text):
        """Keeps 'ROW: FIGURE..' of each line. All but this heap write and read by one memcpy, which stands once, in the column malloc."""
        for line in text.splitlines():
            row, figures = line.split(": ")
            if row.startswith(("write,", "read,")) and COLUMNS[column].loads:
                continue
            self.told[row][column].append([float(figure) for figure in figures.split(" ")])

    def keep(self, row, column, *figures):
        self.told[row][column].append([float(it) for it in figures])

    # --- Rows that are the same beside other work ---

    def count(self):
        """All columns side by side; what they told is kept in the order of the table."""
        counted = ("calls", "holes", "resets", "full")
        ways = [(column, "peers", way, "COLUMN") for way in counted for column in self.columns(way)]
        with concurrent.futures.ThreadPoolExecutor(len(os.sched_getaffinity(0))) as pool:
            # malloc beside holes takes minutes, so holes begin.
            told = {it: pool.submit(self.run, *it) for it in sorted(ways, key=lambda it: "holes" not in it)}
            for it in ways:
                self.keep_lines(it[0], told[it].result())
            list(pool.map(self.count_lines, self.columns("cold")))
            self.count_recorded(pool)

    def count_lines(self, column):
        """Of each call of cold.c the cache lines that it touches, by the trace that valgrind's lackey writes."""
        touched, call, accesses = collections.defaultdict(list), None, []
        path = self.built.work / f"trace_{column}"
        valgrind = ["valgrind", "--tool=lackey", "--trace-mem=yes", f"--log-file={path}"]
        self.built.output(column, [*valgrind, *self.built.words("cold", column, "lines", "COLUMN")])
        with open(path, encoding="ascii") as trace:
            for line in trace:
                if line[0] != " " or (call is None and not line.startswith(f" S {OWN >> 4:x}")):
                    continue
                at, size = int(line[3:].split(",")[0], 16), int(line.split(",")[1])
                if call is None and at < OWN + len(COLD_CALLS):
                    call, accesses = COLD_CALLS[at - OWN], []
                elif call and at == TOLD:
                    touched[call].append(lines_of(accesses))
                    call = None
                elif call:
                    accesses.append((line[1], at, size))
        path.unlink()
        for call in COLD_CALLS:
            self.told[f"lines, {call}"][column].append([statistics.mean(touched[call]), max(touched[call])])

    def count_recorded(self, pool):
        """The mean instructions of each call of recorded programs, by pointer and, of this heap, by name; less what the loop itself takes."""
        columns = self.columns("recorded")
        loops = [(columns[0], "nothing", "pointer", call) for call in RECORDED if columns]
        ways = [(it, "COLUMN", how, call) for it in columns for how in hows(it) for call in RECORDED]
        counted = list(pool.map(lambda way: self.instructions(*way), loops + ways))
        loop = dict(zip(RECORDED, counted))
        for (column, _, how, call), figure in zip(ways, counted[len(loops) :]):
            self.keep(f"recorded, {RECORDED[call][how == 'name']}", column, figure - loop[call])

    def instructions(self, column, memory, how, call):
        """The mean of a call, counted by valgrind's callgrind."""
        path = self.built.work / f"counts_{column}_{memory}_{how}_{call}"
        valgrind = ["valgrind", "--tool=callgrind", "--callgrind-out-file=/dev/null", f"--toggle-collect=do_{call}_*", f"--log-file={path}"]
        told = self.built.output(column, [*valgrind, *self.built.words("replay", column, memory, how, "1", *TRACES)])
        collected = int(re.search(r"Collected *: *(\d+)", path.read_text(encoding="utf-8"))[1])
        path.unlink()
        return collected / float(told.split()[list(RECORDED).index(call)])

    # --- Rows of times, which take turns ---

    def time_all(self):
        most = max(self.rounds, TAIL_ROUNDS * ("tail" in self.words))
        for number in range(1, most + 1):
            tell(f"round {number} of {most}")
            if number <= TAIL_ROUNDS:
                self.time_tail(number == TAIL_ROUNDS)
            if number <= self.rounds:
                self.time_once()

    def time_once(self):
        for column in self.columns("time"):
            self.keep_lines(column, self.run(column, "peers", "time", "COLUMN", is_pinned=True))
        for way in ("cold", "opens"):
            for column in self.columns(way):
                self.keep_lines(column, self.run(column, "cold", way, "COLUMN", is_pinned=True))
        self.time_recorded()
        self.time_threads()
        self.time_first()
        self.time_frees()
        for pattern in BUSY:
            for column in self.columns("busy"):
                self.time_busy(pattern, column)
        for way, row in POSTS.items():
            for column in self.columns("lanes"):
                self.keep(row, column, self.run(column, "frees", way, is_pinned=True).split()[0])

    def time_tail(self, is_last):
        """Of 10^7 calls by pointer the least of each in three rounds, and as each round came."""
        for column in self.columns("tail"):
            path = self.built.work / f"least_{column}"
            words = ["tail", "COLUMN", "pointer", str(TAIL_CALLS), path, str(int(is_last))]
            for line in self.run(column, *words, is_pinned=True).splitlines():
                call, figures = line.split(": ")
                for name, figure in zip(FIGURES, figures.split()):
                    self.keep(f"tail, {call}, {name}", column, figure)
            if is_last:
                path.unlink()

    def time_recorded(self):
        for column in self.columns("recorded"):
            for how in hows(column):
                told = self.run(column, "replay", "COLUMN", how, "5", *TRACES, is_pinned=True).split()
                self.keep(f"time of a call, recorded{', by name' if how == 'name' else ''}", column, told[4])
                if float(told[3]):
                    tell(f"{told[3]} recorded calls are refused in {COLUMNS[column].title}")

    def time_threads(self):
        for program in PROGRAMS_OF_THREADS:
            for count in self.thread_counts:
                for column in self.columns("threads"):
                    told = self.run(column, "threads", "COLUMN", program, str(count), is_pinned=True)
                    self.keep(f"{program}, {count} threads", column, told)

    def time_first(self):
        for memory, text in MEMORIES.items():
            for column in self.columns("first"):
                if memory != "new" and COLUMNS[column].memory == "system":
                    continue
                opening, opened, faults, worst, mean = self.run(column, "first", "COLUMN", memory, is_pinned=True).split()
                self.keep(f"opening in {text}", column, opening)
                self.keep(f"page faults in {text}", column, opened, faults)
                self.keep(f"first mallocs in {text}", column, mean, worst)

    def time_frees(self):
        for posters in (1, 3):
            for order, by_chance in ORDERS.items():
                threads = f"{posters + 1} threads{by_chance}"
                for column in self.columns("frees"):
                    told = self.run(column, "frees", "lock", "COLUMN", "waits", str(posters), *order, is_pinned=True)
                    self.keep(f"frees under a lock, {threads}", column, told.split()[0])
                for way in self.over["frees"]:
                    if "level4" in self.columns("frees"):
                        told = self.run("level4", "frees", way, "level4", "waits", str(posters), *order, is_pinned=True)
                        self.keep(f"frees {WAYS[way]}, {threads}", "level4", told.split()[0])

    def time_busy(self, pattern, column):
        """Frees beside the owner's work. Only this heap has lanes and rings, and a lane alone is full."""
        memory = COLUMNS[column].memory
        ways = {it: WAYS[it] for it in self.over["busy"] if column == "level4"}
        if pattern != "full":
            ways["lock"] = "under a lock" if memory != "system" else "by free"
        for way, text in ways.items():
            for order, by_chance in ORDERS.items():
                figures = self.run(column, "frees", way, memory, pattern, "1", *order, is_pinned=True).split()
                for row, figure in zip(BUSY[pattern][: 1 if way == "lock" and pattern == "turns" else 2], figures):
                    self.keep(row.format(text) + by_chance, column, figure)
