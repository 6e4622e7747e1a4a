"""What scripts share: their help, the programs that they run, and what they say where something lacks."""
import argparse
import collections
import functools
import multiprocessing
import os
import pathlib
import re
import shutil
import subprocess
import sys
import time

from tree import TOP

TUNABLES = "glibc.cpu.x86_rep_stosb_threshold=1073741824:glibc.cpu.x86_rep_movsb_threshold=1073741824"
CALLGRIND = ["valgrind", "--tool=callgrind", "--callgrind-out-file=/dev/null"]


class Reader(argparse.ArgumentParser):
    """Reads the command line of a script, whose own text is the help. What it refuses it says in one line, with status 2."""

    def __init__(self, doc):
        super().__init__(allow_abbrev=False)
        self.doc = doc

    def format_help(self):
        return f"{self.doc.strip()}\n"

    def error(self, message):
        stop(f"{message}; --help says more")


def words(doc, are_well=lambda given: not given):
    """The words of the command line. Where they ask for help, or aren't well, the script ends here."""
    given = sys.argv[1:]
    if given[:1] in (["-h"], ["--help"]):
        print(doc.strip())
        sys.exit(0)
    if not are_well(given):
        print(doc.strip(), file=sys.stderr)
        sys.exit(2)
    return given


def are_counts(given, most):
    """Whether the words are COUNT, SEED and JOBS, or the first of them, and then a PROGRAM, as its place says."""
    return len(given) <= most and all(word.isdecimal() and word != "0" for word in given[: most - 1])


def stop(text):
    """Ends a script that could try nothing."""
    print(f"{pathlib.Path(sys.argv[0]).name}: {text}", file=sys.stderr)
    sys.exit(2)


def lacks(*tools):
    """What is said of those tools that aren't there: nothing where all are."""
    absent = [it for it in dict.fromkeys(tools) if not shutil.which(it)]
    leads = "; README.md, 'Where rt comes from', says more" if "rt" in absent else ""
    return f"{', '.join(absent)}, which it needs, {'are' if absent[1:] else 'is'} not on the path{leads}" if absent else ""


def need(*tools):
    if said := lacks(*tools):
        stop(said)


@functools.cache
def program(named=None):
    """The path of the program: that which is named, or else that of what is proved, which ./tlsf builds where need be."""
    named = named or os.environ.get("TLSF")
    if named:
        return str(pathlib.Path(named).resolve()) if os.access(named, os.X_OK) else stop(f"{named} isn't there, or can't be run")
    done = subprocess.run([TOP / "tlsf", "--version"], stdout=subprocess.DEVNULL, check=False)
    return str(TOP / "build" / "tlsf") if done.returncode == 0 else stop("the program isn't built, and none is named")


def library(folder, named=None):
    """The folder that has C's library: that which is named, or else one into which make puts it, with what it builds beside it."""
    words = ["make", "-s", "-C", TOP, "install", f"BUILD={folder}/build", f"PREFIX={folder}"]
    if not named and subprocess.run(words, stdout=sys.stderr, check=False).returncode:
        stop("the library isn't built, and none is named")
    return str(named or folder)


def tlsf(*given, text="", status=0):
    """What the program writes, given these words and this text."""
    done = subprocess.run([program(), *given], input=text, capture_output=True, text=True, check=False)
    return done.stdout if done.returncode == status else stop(f"tlsf {' '.join(given)} ended with {done.returncode}: {done.stderr.strip()}")


def own_program(name, folder, named=None):
    """The path of a program of bench/programs: that which is named, or else proved and built in a folder."""
    if named:
        return program(named)
    need("rt")
    done = subprocess.run([TOP / "bench/own_program", name, folder], stdout=subprocess.PIPE, text=True, check=False)
    return done.stdout.strip() if done.returncode == 0 else stop(f"bench/programs/{name} isn't proved or built")


def counted(command, **how):
    """The instructions of a run of a command, whose memset and memcpy are kept from instructions that move many bytes each."""
    done = subprocess.run([*CALLGRIND, *command], capture_output=True, env={**os.environ, "GLIBC_TUNABLES": TUNABLES}, check=False, **how)
    return (
        int(re.search(rb"Collected *: *(\d+)", done.stderr)[1])
        if done.returncode == 0
        else stop(f"{command[0]} ended with {done.returncode}")
    )


class Runner:
    """Runs a built program with no environment. Its streams are files without a name, so many runs take little time."""

    def __init__(self, path):
        self.path = path
        self.streams = [os.memfd_create(name) for name in ("input", "output", "errors")]

    def run(self, words, text):
        """The status, the output and the errors."""
        for stream in self.streams:
            os.ftruncate(stream, 0)
            os.lseek(stream, 0, os.SEEK_SET)
        os.pwrite(self.streams[0], text, 0)
        actions = [(os.POSIX_SPAWN_DUP2, stream, number) for number, stream in enumerate(self.streams)]
        child = os.posix_spawn(self.path, ["tlsf", *words], {}, file_actions=actions)
        status = os.waitstatus_to_exitcode(os.waitpid(child, 0)[1])
        return status, *(os.pread(stream, os.fstat(stream).st_size, 0) for stream in self.streams[1:])

    def run_through_pipes(self, words, text):
        """As `run`, with pipes for streams."""
        done = subprocess.run(["tlsf", *words], executable=self.path, input=text, capture_output=True, env={}, check=False)
        return done.returncode, done.stdout, done.stderr


def in_share(share):
    judge, path, seed, numbers = share
    runner, tally, faults = Runner(path), collections.Counter(), []
    for number in numbers:
        faults += judge(runner, seed, number, tally)
    return len(numbers), tally, faults


def in_shares(judge, path, seed, count, jobs):
    """Has so many processes judge numbers below a count, each of which may add to a tally and tells what is wrong. The tally, and how much is
    wrong. Lines tell how far it is."""
    done, tally, faults, told = 0, collections.Counter(), 0, time.monotonic()
    shares = [(judge, path, seed, range(first, min(first + 500, count))) for first in range(0, count, 500)]
    with multiprocessing.Pool(jobs) as pool:
        for some, seen, wrong in pool.imap_unordered(in_share, shares):
            done += some
            tally += seen
            faults += len(wrong)
            print("".join(f"{it}\n" for it in wrong), end="")
            if time.monotonic() - told > 20:
                told = time.monotonic()
                print(f"{done:,} of {count:,} traces, {faults} faults", flush=True)
    return tally, faults
