"""The columns of bench/peers. Another peer is one more line of COLUMNS, and a file of bench/c/heaps where it has no malloc to be loaded."""
import os
import pathlib
import re
import subprocess
import sys
import typing

from allocators import mattconte
from script import TOP, TUNABLES, library, stop

FLAGS = ["-std=gnu11", "-O2", "-Wall", "-Wextra", "-Wl,-z,now", "-pthread"]
VERSION = re.compile(r"^#define TLSF_VERSION_(?:MAJOR|MINOR|PATCH) (\d+)$", re.M)
FIFO = 5
LONGEST = 300  # seconds; a program that keeps its processors may hang for longer than anybody waits


class Column(typing.NamedTuple):
    title: str
    memory: str  # what the programs in C call it
    loads: tuple = ()  # shared libraries that stand before the C library
    source: str = ""  # a C file that has the calls of TLSF 2.4


COLUMNS = {
    "level4": Column("Level 4", "level4"),
    "near4": Column("Near, 4", "near4"),
    "level5": Column("Level 5", "level5"),
    "near5": Column("Near, 5", "near5"),
    "magazine": Column("Magazine, 4", "authors", source="heaps/magazine.c"),
    "checked": Column("Checked, 4", "authors", source="heaps/checked.c"),
    "locked": Column("Locked, 4", "authors", source="heaps/locked.c"),
    "canary": Column("Canary, 4", "authors", source="heaps/canary.c"),
    "quarantine": Column("Quarantine, 4", "authors", source="heaps/quarantine.c"),
    "authors": Column("TLSF 2.4", "authors", source="tlsf.c"),
    "mattconte": Column("mattconte", "authors", source="heaps/mattconte.c"),
    "malloc": Column("malloc", "system"),
    "mimalloc": Column("mimalloc 2", "system", loads=("libmimalloc.so.2",)),
    "mimalloc3": Column("mimalloc 3", "system", loads=("libmimalloc.so.3",)),
    "tbbmalloc": Column("tbbmalloc", "system", loads=("libtbbmalloc.so.2", "libtbbmalloc_proxy.so.2")),
    "jemalloc": Column("jemalloc", "system", loads=("libjemalloc.so.2",)),
}
# What guards a heap of level 4 more: no column unless it is named.
GUARDED = ["checked", "locked", "canary", "quarantine"]
NEAR = ["near4", "near5"]
OURS = ["level4", "near4", "level5", "near5"]
# The programs in C, and whether TLSF 2.4 has its lock there.
PROGRAMS = {"peers": 0, "frees": 1, "cold": 0, "tail": 0, "replay": 0, "threads": 0, "first": 0}

# What TLSF 2.4 calls these is a call of our library too. So the programs know them by other names.
RENAMED = [f"-Dtlsf_{it}=authors_{it}" for it in ("malloc", "calloc", "realloc", "free")]


def tell(text):
    """Says what a script does, beside what it prints."""
    print(f"{pathlib.Path(sys.argv[0]).name}: {text}", file=sys.stderr)


def revision():
    done = subprocess.run(["git", "-C", TOP, "rev-parse", "--short=7", "HEAD"], capture_output=True, text=True, check=False)
    return done.stdout.strip() or "unknown"


def compile_c(*words):
    if subprocess.run(["cc", *words], check=False).returncode:
        stop("a C file isn't compiled")


class Built:
    """The programs in C, compiled for each column that is there."""

    def __init__(self, work, options, programs):
        self.work, self.is_fifo = pathlib.Path(work), options.fifo
        self.prefix = pathlib.Path(library(work, options.library))
        header = (self.prefix / "include/peachanchor.h").read_text(encoding="utf-8")
        self.revision, self.version = revision(), ".".join(VERSION.findall(header))
        self.peers = pathlib.Path(options.peers or work).resolve()
        wanted = options.columns
        if not options.peers and set(wanted) - {*OURS, *GUARDED, "magazine", "malloc"}:
            self.fetch()
        self.columns = self.find(wanted)
        compile_c("-O2", "-shared", "-fPIC", "-o", self.work / "pin.so", TOP / "bench/c/pin.c", "-ldl")
        for program in programs:
            for source in {COLUMNS[it].source for it in self.columns} | {""}:
                self.compile(program, source)

    def fetch(self):
        with open(self.work / "log", "w", encoding="utf-8") as log:
            subprocess.run(["sh", TOP / "bench/fetch_peers.sh", self.peers], stdout=log, stderr=log, check=False)

    def find(self, wanted):
        """The columns that are wanted and there. What isn't is told."""
        if "mattconte" in wanted:
            try:
                (self.work / "mattconte_tlsf.c").write_text(mattconte.source(self.peers / "kamailio"), encoding="utf-8")
            except (OSError, ValueError) as why:
                tell(f"{COLUMNS['mattconte'].title} isn't there, and left out: {why}")
                wanted = [it for it in wanted if it != "mattconte"]
        lacking = [it for it in wanted if not all(file.is_file() for file in self.files(COLUMNS[it]))]
        for name in lacking:
            tell(f"{COLUMNS[name].title} isn't there, and left out")
        return [it for it in COLUMNS if it in wanted and it not in lacking]

    def files(self, column):
        """What a column needs."""
        return [*(self.peers / it for it in column.loads), *[self.source(column.source)] * bool(column.source)]

    def source(self, name):
        return TOP / "bench/c" / name if "/" in name else self.peers / name

    def path(self, program, source):
        return self.work / f"{program}_of_{pathlib.Path(source).stem or 'none'}"

    def compile(self, program, source):
        own = [f"-I{self.prefix}/include", "-o", self.path(program, source), TOP / f"bench/c/{program}.c"]
        if source:
            made = self.path(program, source).with_suffix(".o")
            defined = [
                f"-DTLSF_USE_LOCKS={PROGRAMS[program]}",
                *RENAMED * ("/" not in source),
                "-DUSE_MMAP=0",
                "-DUSE_SBRK=0",
                f"-I{self.work}",
                f"-I{self.prefix}/include",
            ]
            compile_c("-O2", "-w", *defined, "-c", "-o", made, self.source(source))
            own += ["-DAUTHORS", made]
        compile_c(*FLAGS, *own, self.prefix / "lib/libpeachanchor.a")

    def words(self, program, column, *words):
        """The command line of a program with the words of a column: COLUMN stands for what the program calls that."""
        return [self.path(program, COLUMNS[column].source), *(COLUMNS[column].memory if it == "COLUMN" else it for it in words)]

    def output(self, column, command, is_pinned=False):
        """What a command writes with the memory of a column. One that is pinned has a processor for each thread."""
        loaded = [self.work / "pin.so"] * is_pinned + [self.peers / it for it in COLUMNS[column].loads]
        environment = {**os.environ, "GLIBC_TUNABLES": TUNABLES, "LD_PRELOAD": " ".join(map(str, loaded))}
        before = self.keep_processor if self.is_fifo and is_pinned else None
        try:
            done = subprocess.run(
                command,
                env=environment,
                stdout=subprocess.PIPE,
                text=True,
                check=False,
                timeout=LONGEST if is_pinned else None,
                preexec_fn=before,
            )
        except (subprocess.TimeoutExpired, subprocess.SubprocessError) as why:
            stop(f"{' '.join(map(str, command))}: {why}")
        return done.stdout if done.returncode == 0 else stop(f"{' '.join(map(str, command))} ended with {done.returncode}")

    @staticmethod
    def keep_processor():
        """Before a program begins: its threads, each pinned by pin.so, give their processors to no ordinary work."""
        os.sched_setscheduler(0, os.SCHED_FIFO, os.sched_param(FIFO))
