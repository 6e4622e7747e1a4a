"""Each script that can be run answers --help and -h at once, with its use on
standard output from the first line on, no line of more than 80 characters,
nothing on standard error and status 0, and starts neither `rt` nor a compiler.
No line of a stored help of the program, of tests/cases/help.toml, is longer."""
import os
import pathlib
import resource
import subprocess
import tempfile

import case_files
import tree

MOST_WIDTH = 80
# Of processor time, and of any: beside other work a script may wait long.
MOST_SECONDS, MOST_WAIT = 5, 60
SCRIPTS = ("test", "attack", "library", "bench/*", "tools/*", "tests/*", "tests/*/run")
# What no script may start for its help.
TOOLS = ("rt", "cc", "c++", "valgrind", "perf", "taskset")


def scripts():
    found = [it for pattern in SCRIPTS for it in sorted(tree.TOP.glob(pattern))]
    return [it.relative_to(tree.TOP).as_posix() for it in found if it.is_file() and os.access(it, os.X_OK)]


def fault_of(script, word, folder):
    """What is wrong with the answer of a script; nothing where it is right. What may not be started leaves a mark in the folder."""
    mark = pathlib.Path(folder, "started")
    mark.unlink(missing_ok=True)
    path = {**os.environ, "PATH": f"{folder}:{os.environ['PATH']}"}
    try:
        ran = subprocess.run(
            [f"./{script}", word],
            cwd=tree.TOP,
            env=path,
            stdin=subprocess.DEVNULL,
            capture_output=True,
            timeout=MOST_WAIT,
            check=False,
            preexec_fn=lambda: resource.setrlimit(resource.RLIMIT_CPU, (MOST_SECONDS, MOST_SECONDS)),
        )
    except subprocess.TimeoutExpired:
        return f"doesn't end in {MOST_WAIT} seconds"
    lines = ran.stdout.split(b"\n")
    if ran.returncode or ran.stderr or not lines[0].startswith((f"usage: {script}".encode(), f"usage: ./{script}".encode())):
        return f"doesn't show its use, and ends with status {ran.returncode}"
    if any(len(it) > MOST_WIDTH for it in lines):
        return f"shows a line of more than {MOST_WIDTH} characters"
    return "starts something" if mark.exists() else None


def faults():
    with tempfile.TemporaryDirectory() as folder:
        for tool in TOOLS:
            stand_in = pathlib.Path(folder, tool)
            stand_in.write_text(f'#!/bin/sh\n: > "{folder}/started"\nexit 1\n')
            stand_in.chmod(0o755)
        for script in scripts():
            for word in ("--help", "-h"):
                if fault := fault_of(script, word, folder):
                    yield f"{script} {word} {fault}"
    for help in case_files.helps():
        for number, line in enumerate(help.stdout.encode().split(b"\n"), 1):
            if len(line) > MOST_WIDTH:
                yield f"{help.place}, line {number}: {len(line)} characters, more than {MOST_WIDTH}"


def looked_at():
    return f"{len(scripts())} scripts"
