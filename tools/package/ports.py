"""Lowers the library for processors and systems that no verdict of the checker
names, riscv64, Windows, macOS and those of 32 bits, and compiles what is C of it:
c/pointers.c, and c/memory.c with malloc, without, and for no system. tools/dist
calls this, and tools/port for one target.

Only what a target has for itself is changed in an LLVM module of the proved
library: its layout, what names a processor, how C extends a result of 32 bits,
and on Windows the convention of calls that are given or answer a pair. Then each
call's result and arguments have to be those that the toolchain's clang gives it
by peachanchor.h or c/memory.c for that target. For 32 bits more is changed, by
tools/package/bits32.py, and held to the same.
"""
import concurrent.futures
import dataclasses
import pathlib
import re
import subprocess
import sys
import tempfile

TOP = pathlib.Path(__file__).resolve().parent.parent.parent
sys.dont_write_bytecode = True
sys.path.insert(0, str(TOP / "tools"))
import calls
from package import bits32

# Lines of LLVM's that GNU's assembler or an older one doesn't know, or that say nothing. Which processor and which convention of floats an
# object file is for says who assembles it: of ARM's attributes those stay that say how data and the stack are aligned. Its unwinder's table
# would say of each function that it has no exceptions, as the linker does where there is none.
DROPPED = re.compile(
    r"\s*(#|//|@(?:\s|(?:NO_)?APP$)|\.addrsig|\.file\b|\.attribute\b|\.build_version\b|\.seh_((start|end)epilogue|unwindversion)|\.section\s+\.llvm|"
    r"\.p2align\s+0\b|\.(cpu|arch|fpu|fnstart|fnend|save|pad|setfp|cantunwind)\b|\.eabi_attribute\s+(?!2[45],)|$)"
)
# What stands behind an instruction; and what is quoted, where nothing is a remark.
REMARK = re.compile(r'("(?:\\.|[^"\\])*")|[ \t]+(?:#|//)[ \t].*$|[ \t]+$')
# The name of a function of Rattle's.
QUOTED = re.compile(r'"([^"\n]*::[^"\n]*)"')
# The same on Windows: a flag of the linker's for 32 bits, and which compiler it was.
SAID = re.compile(r'^\t\.def\t@feat\.00;\n(?:.*\n)*?@feat\.00 = .*\n|^\t\.section\t\.debug\$S,"dr"\n(?:(?!\t\.section).*\n)*', re.M)
# How the library's files of C are compiled, by no header but those of put_headers.
OF_C = ["-std=c11", "-ffreestanding", "-nostdinc", "-fno-stack-protector"]
NO_SYSTEM = ("-DTLSF_NO_MALLOC", "-DTLSF_NO_TLS")
# For few bytes LLVM makes no function a part of its callers that takes 50 instructions. A heap that is opened would then lie on the stack
# first, with all its own fields. From 180 on it is made in its box, and the code is 5 % longer. On riscv32 that helps by -O3 alone, which
# makes no more bytes there.
SHORT = ("-mllvm", "-inline-threshold=180")
# What stands before the calls, which dist/tlsf.S leads to; and before each file of C, with the flags by which that is compiled.
BEFORE_CALLS = "#ifndef TLSF_ONLY_MEMORY\n/* The calls in Rattle. */\n"
BEFORE_C = (
    ("/* The calls in C: c/pointers.c. */", "pointers.c", []),
    ("#endif\n/* c/memory.c */\n#ifdef TLSF_ONLY_CALLS\n#elif defined(TLSF_NO_TLS)", "memory.c", NO_SYSTEM),
    ("#elif defined(TLSF_NO_MALLOC)", "memory.c", ["-DTLSF_NO_MALLOC"]),
    ("#else", "memory.c", []),
)
BEFORE_C_OF_BARE = (
    BEFORE_C[0],
    ("/* What lanes, queues and tlsf_next_number call: c/atomics64.c. */", "atomics64.c", []),
    ("#endif\n/* c/memory.c */\n#ifndef TLSF_ONLY_CALLS", "memory.c", NO_SYSTEM),
)
# The headers that peachanchor.h asks of a compiler, which the toolchain's lacks.
HEADERS = {
    "stdbool.h": "#define bool _Bool\n#define true 1\n#define false 0\n",
    "stddef.h": "typedef __SIZE_TYPE__ size_t;\n#define NULL ((void *)0)\n#define offsetof(type, field) __builtin_offsetof(type, field)\n",
    "stdint.h": "".join(
        f"typedef __{it.upper()}_TYPE__ {it}_t;\n" for it in ("uint8", "uint16", "uint32", "uint64", "int32", "int64", "uintptr")
    )
    + "#define SIZE_MAX __SIZE_MAX__\n#define UINT32_MAX 0xffffffffu\n#define UINT64_C(n) n##ull\n",
}


Failed = bits32.Failed


@dataclasses.dataclass(frozen=True)
class Port:
    """A target of LLVM's with the flags of its least processor; the module that is lowered; how C extends a result of 32 bits; the
    convention of calls with a pair, where it isn't C's; whether a pointer has 32 bits; whether there is never a system; and whether there is
    level 4 alone."""

    target: str
    flags: tuple
    module: str
    extends: str = ""
    of_pairs: str = ""
    is_narrow: bool = False
    is_bare: bool = False
    one_level: bool = False

    @property
    def machine_flags(self):
        """How code is made for it. With 32 bits a frame is for debuggers alone, since a table of ARM's or of C++'s would lie in flash."""
        place = () if "windows" in self.target or self.is_bare else ("-fPIC",)
        return place + (("-fforce-dwarf-frame", "-ffunction-sections", "-fdata-sections") if self.is_narrow else ())

    @property
    def optimised(self):
        return "-Os" if self.is_bare and self.target.startswith("thumb") else "-O3"

    @property
    def flags_of_c(self):
        tables = "no-" if self.is_narrow else ""
        return (f"-f{tables}asynchronous-unwind-tables", *self.machine_flags, "-Os" if self.is_bare else "-O2")


BARE = {"module": "x86_64", "is_narrow": True, "is_bare": True}


NO_SYSTEM_OF_32 = {
    "thumbv6m": Port("thumbv6m-none-eabi", ("-mcpu=cortex-m0", "-meabi", "gnu"), **BARE),
    "thumbv7m": Port("thumbv7m-none-eabi", ("-mcpu=cortex-m3", "-meabi", "gnu"), **BARE),
    "riscv32": Port("riscv32-unknown-elf", ("-march=rv32imc", "-mabi=ilp32"), **BARE),
}
OF_LEVEL_4 = {f"{name}-level4": dataclasses.replace(port, one_level=True) for name, port in NO_SYSTEM_OF_32.items()}
PROVED = {
    "x86_64": Port("x86_64-unknown-linux-gnu", ("-march=x86-64",), "x86_64"),
    "aarch64": Port("aarch64-unknown-linux-gnu", ("-march=armv8-a",), "aarch64"),
}
# What tools/port lowers. dist/ has all of these but those of BY_HAND, whose boards mostly have flash enough.
PORTS = {
    "riscv64": Port("riscv64-unknown-linux-gnu", ("-march=rv64imac", "-mabi=lp64"), "aarch64", "signext"),
    "x86_64-windows": Port("x86_64-pc-windows-gnu", ("-march=x86-64",), "x86_64", of_pairs="x86_64_sysvcc"),
    "arm64-macos": Port("arm64-apple-macosx13", (), "aarch64"),
    "armv7": Port("armv7-unknown-linux-gnueabihf", ("-mthumb", "-mfpu=vfpv3-d16"), "x86_64", is_narrow=True),
    **NO_SYSTEM_OF_32,
    **OF_LEVEL_4,
}
BY_HAND = ("riscv32-level4",)


def portable(text):
    """Assembly of LLVM's as GNU's assembler takes it too, and the C preprocessor before: without remarks."""
    return "".join(REMARK.sub(r"\1", it) + "\n" for it in SAID.sub("", text).split("\n") if not DROPPED.match(it))


def plainly_named(text):
    """Assembly whose names want no quotes: for riscv64 LLVM took none of these before version 22."""
    names = {it: re.sub(r"[^\w.$]+", ".", it).rstrip(".") for it in QUOTED.findall(text)}
    if len({*names.values()}) < len(names):
        raise Failed("two functions would have one name")
    return QUOTED.sub(lambda it: names[it[1]], text)


def told(*words, text=None):
    ran = subprocess.run([str(it) for it in words], input=text, capture_output=True, text=True, check=False)
    if ran.returncode:
        raise Failed(f"{' '.join(map(str, words))}: {ran.stderr.strip()}")
    return ran.stdout


def put_headers(folder):
    """Puts the headers there that peachanchor.h asks of a compiler."""
    for name, text in HEADERS.items():
        pathlib.Path(folder, name).write_text(text, encoding="utf-8")


def text_of_c(clang, file, port, flags):
    """A file of C for a target by these flags, with labels that the proved calls, which stand in the same file, don't have."""
    with tempfile.TemporaryDirectory() as headers:
        put_headers(headers)
        words = [clang, f"--target={port.target}", *port.flags, *OF_C, *port.flags_of_c, "-fno-verbose-asm", f"-isystem{headers}", *flags]
        text = portable(told(*words, "-S", file, "-o", "-"))
    return re.sub(r"(?<![\w.$])(L|\.L)(?=[A-Za-z_])", rf"\1{file.stem[0]}_", text)


def moved(clang, port, text):
    """A module as it is for another target."""
    own = told(clang, f"--target={port.target}", *port.flags, "-x", "c", "-", "-S", "-emit-llvm", "-o", "-", text="int x;")
    for kind in ("datalayout", "triple"):
        line = re.search(rf"^target {kind} = .*$", own, re.M)[0]
        text = re.sub(rf"^target {kind} = .*$", lambda _, line=line: line, text, flags=re.M)
    text = re.sub(r' "(target-cpu|target-features|tune-cpu|probe-stack|stack-probe-size)"="[^"]*"', "", text)
    if port.extends:
        text = re.sub(r"^(define [^@\n]*)i32 (?=@tlsf)", rf"\1{port.extends} i32 ", text, flags=re.M)
    if port.of_pairs:
        names = "|".join(["tlsf_memory_(?:re)?alloc", *(it.name for it in calls.read() if it.is_by_value)])
        text = re.sub(rf"(?<=call |fine |lare )([^@\n]*@(?:{names})\()", rf"{port.of_pairs} \1", text)
    return text


def calls_text(clang, port, module, optimised=None):
    """The proved calls for a target, in which what fills and copies has names of the library's own."""
    how = optimised or port.optimised
    flags = [f"--target={port.target}", *port.flags, *port.machine_flags, how, *SHORT * (how == "-Os"), "-fno-verbose-asm"]
    text = told(clang, *flags, "-x", "ir", "-S", "-", "-o", "-", text=module)
    return plainly_named(portable(re.sub(r"(\s_?)mem(set|cpy|move)((?:@\w+)?\s)", r"\1tlsf_memory_\2\3", text)))


# --- The convention of calls ------------------------------------------------------------------------------------------

HEAD = re.compile(r"^(declare|define) ([^@\n]*)@(tlsf_\w+)\((.*?)\)(?: [^)\n]*)?$", re.M)
# Of what stands in front of a name or a parameter: what machine code is made by.
SAYS = re.compile(
    r"x86_64_sysvcc|win64cc|fastcc|signext|zeroext|inreg|sret\([^)]*\)|byval\([^)]*\)|void|\[2 x i64\]|\{[^}]*\}|\bi\d+\b|\bptr\b"
)


def said(words):
    """A pair is a pair, and an address a number of 64 bits, as far as registers go."""
    text = re.sub(r"\([^()]*\)", "", words) if "sret" not in words and "byval" not in words else words
    found = " ".join(SAYS.findall(text))
    return found.replace("[2 x i64]", "{ i64, i64 }").replace("ptr", "i64")


def heads(text, kind):
    """The functions that a module declares or defines for others: what each answers, and what it is given."""
    found = {}
    for it in HEAD.finditer(text):
        if it[1] == kind and not re.search(r"\b(internal|private)\b", it[2]):
            found[it[3]] = (said(it[2]), [said(one) for one in re.split(r",(?![^{(]*[})])", it[4]) if one.strip()])
    return found


def modules_of_c(clang, port, names):
    """What clang makes of the calls of peachanchor.h that have these names, and of c/memory.c."""
    with tempfile.TemporaryDirectory() as folder:
        put_headers(folder)
        words = [
            clang,
            f"--target={port.target}",
            *port.flags,
            "-std=c11",
            "-O1",
            "-ffreestanding",
            "-nostdinc",
            f"-I{folder}",
            f"-I{TOP / 'include'}",
        ]
        listed = ", ".join(f"(call *){it}" for it in sorted(names))
        source = f"#include <peachanchor.h>\ntypedef void call(void);\nextern call *all[];\ncall *all[] = {{{listed}}};\n"
        header = told(*words, "-x", "c", "-S", "-emit-llvm", "-", "-o", "-", text=source)
        memory = told(*words, "-S", "-emit-llvm", TOP / "c" / "memory.c", "-o", "-")
    return header, memory


def as_called(head):
    """A function as who calls it extends what it gives: one that is called need not trust in it."""
    return head and (head[0], [re.sub(r" (sign|zero)ext", "", it) for it in head[1]])


def faults(clang, port, module):
    """What a call of a module is otherwise than C makes it for that target."""
    own, wanted = heads(module, "define"), heads(module, "declare")
    of_header, of_memory = modules_of_c(clang, port, own)
    header, memory, of_memory = heads(of_header, "declare"), heads(of_memory, "define"), heads(of_memory, "declare")
    pairs = [(name, as_called(own.get(name)), as_called((header | of_memory).get(name))) for name in own | of_memory]
    pairs += [(name, wanted[name], memory.get(name)) for name in wanted]
    if "tlsf_memory_alloc" not in wanted or "tlsf_queue_drain" not in own:
        yield "it is no module of the library"
    for name, here, there in pairs:
        if here is None or there is None:
            yield f"{name} is called, and isn't there"
        elif here != there:
            yield f"{name} answers {here[0]} for {', '.join(here[1])}, and C has {there[0]} for {', '.join(there[1])}"


# --- Processors of 32 bits --------------------------------------------------------------------------------------------


class Narrow:
    """A module for a target of 32 bits, of one for 64."""

    def __init__(self, clang, port, text):
        self.text = moved(clang, port, text)
        self.known = {it.name: it for it in calls.read()}
        header, memory = modules_of_c(clang, port, bits32.heads(self.text, "define"))
        self.of_c = bits32.heads(header, "declare") | bits32.heads(memory, "declare")
        self.of_memory = bits32.heads(memory, "define")

    def made(self, **how):
        return bits32.narrow(self.text, self.known, self.of_c, **how)[0]

    def faults(self, module):
        return bits32.faults(module, self.of_c, self.of_memory)


def narrow_module(clang, name, port, text, **how):
    """The module for a target of 32 bits, held to what is known there; and for the first of them the check notices a module that lacks any of
    the edits."""
    narrow = Narrow(clang, port, text)
    module = narrow.made(one_level=port.one_level, **how)
    if wrong := list(narrow.faults(module)):
        raise Failed(f"{name}: " + f"\n{name}: ".join(wrong[:20]))
    # The edits are the same for each of these targets.
    for edit in bits32.EDITS if name == next(it for it in PORTS if PORTS[it].is_narrow) else ():
        if not next(narrow.faults(narrow.made(lacks=edit)), None):
            raise Failed(f"{name}: nothing notices a module without the edit '{edit}'")
    return module


# --- What is written --------------------------------------------------------------------------------------------------


def held_module(clang, name, port, text, **how):
    """A module for another target, held to C's convention; and what the target has for itself is what the check asks for. For 32 bits it
    may be asked for otherwise than bits32 makes it."""
    if port.is_narrow:
        return narrow_module(clang, name, port, text, **how)
    module = moved(clang, port, text)
    if wrong := list(faults(clang, port, module)):
        raise Failed(f"{name}: " + f"\n{name}: ".join(wrong))
    for own in ("extends", "of_pairs"):
        if getattr(port, own) and not list(faults(clang, port, moved(clang, dataclasses.replace(port, **{own: ""}), text))):
            raise Failed(f"{name}: nothing notices calls that lack {getattr(port, own)}")
    return module


def library_text(clang, port, calls_of_it):
    """The library for a target: the calls, and what is C."""
    files, more = BEFORE_C_OF_BARE if port.is_bare else BEFORE_C, ["-DTLSF_ONE_LEVEL"] * port.one_level
    of_c = [f"{it}\n{text_of_c(clang, TOP / 'c' / file, port, [*flags, *more])}" for it, file, flags in files]
    return "".join([BEFORE_CALLS, calls_of_it, *of_c, "#endif\n"])


def write(clang, proved, folder):
    """Writes the library for each target into a folder. `proved` has by its processor the proved archive, beside which tools/prove left the
    assembly and the module."""

    def write_one(name, port):
        if name in PROVED:
            calls_of_it = portable(pathlib.Path(f"{proved[name]}.s").read_text(encoding="utf-8"))
        else:
            module = held_module(clang, name, port, pathlib.Path(f"{proved[port.module]}.ll").read_text(encoding="utf-8"))
            calls_of_it = calls_text(clang, port, module)
        (folder / f"library-{name}.s").write_text(library_text(clang, port, calls_of_it), encoding="utf-8")

    with concurrent.futures.ThreadPoolExecutor() as pool:
        kept = {name: port for name, port in (PROVED | PORTS).items() if name not in BY_HAND}
        for made in [pool.submit(write_one, name, port) for name, port in kept.items()]:
            made.result()
