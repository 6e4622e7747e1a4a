"""Edits an LLVM module of the proved library for processors of 32 bits, which no
verdict of the checker names. tools/package/ports.py calls this.

Bytes lie where they lay: a pointer keeps its place of 8 bytes, and has the first
four of them. Each edit is of one line, and is counted:

alloca   a pointer's place has 8 bytes, as all that copies or fills it counts
address  an address is a number of 32 bits, with zeros in front
pair     what is loaded or stored at once lies where it lay: each value by itself
length   of what is filled or copied: 32 bits
call     C calls a function by its own types, and that calls the module's
memory   what takes memory, which is C, is called likewise

Then each line of the result has to be of a form that means the same on 32 bits.
What isn't known is refused, and so is a module that lacks one of these edits.

A temporary of 1,000 bytes or more isn't set to zeros first: all of it that is
read was written. LLVM leaves most of these out by itself. It kept two heaps of
tlsf_pools_open's, which took 5 kB of stack.

With `one_level` each call takes level 5 for one that isn't there, and refuses it.
Then nothing leads to the functions for that level, and LLVM leaves them out. What
has room for the heads of level 5's lists has room for those of level 4.
"""
import re

EDITS = ("alloca", "address", "pair", "length", "call", "memory")
# What a pointer's other half holds in a module with `poison`: whoever reads it is led astray, and noticed.
POISON = -559038737
BYTES = {"i1": 1, "i8": 1, "i32": 4, "i64": 8, "ptr": 8}
ALIGN = {"i1": 1, "i8": 1, "i32": 4, "i64": 8, "ptr": 4}


class Failed(Exception):
    """What can't be edited."""


def parted(text):
    """A list by its commas that stand in no brackets."""
    found, depth = [""], 0
    for one in text:
        depth += (one in "([{") - (one in ")]}")
        if one == "," and not depth:
            found.append("")
        else:
            found[-1] += one
    return [it.strip() for it in found if it.strip()]


# --- A line at a time -------------------------------------------------------------------------------------------------

NAME = r'(?:"[^"\n]*"|[\w.$-]+)'
VALUE = rf"(?:%{NAME}|@{NAME}|-?\d+|true|false|null|poison|inttoptr \(i64 \d+ to ptr\))"
PAIR = r"\{ (\w+), (\w+) \}"


class Lines:
    """The edits of single lines, with names for what they make besides."""

    def __init__(self, lacks, poison):
        self.count, self.made = dict.fromkeys(EDITS, 0), 0
        edits = [
            ("alloca", rf"  (%{NAME}) = alloca ptr, align 8", self.place),
            ("address", rf"  (%{NAME}) = ptrto(addr|int) ptr ({VALUE}) to i64", self.address),
            ("pair", rf"  (%{NAME}) = load {PAIR}, ptr ({VALUE}), align \d+", self.pair_loaded),
            ("pair", rf"  store {PAIR} ({VALUE}), ptr ({VALUE}), align \d+", self.pair_stored),
            ("length", r"  (?:tail )?call void @llvm\.mem(set|cpy|move)\.(p0(?:\.p0)?)\.i64\((.*)\)(?: #\d+)?", self.filled),
            ("length", r"declare void @llvm\.mem(set|cpy|move)\.(p0(?:\.p0)?)\.i64\((.*)\)(?: #\d+)?", self.declared),
        ]
        if poison:
            edits.append(("poison", rf"  store ptr {VALUE}, ptr ({VALUE}), align \d+", self.poisoned))
        self.edits = [(kind, re.compile(pattern), edit) for kind, pattern, edit in edits if kind != lacks]

    def edited(self, text):
        return "\n".join(map(self.line, text.split("\n")))

    def line(self, line):
        if "ptr" in line:
            for kind, pattern, edit in self.edits:
                if it := pattern.fullmatch(line):
                    self.count[kind] = self.count.get(kind, 0) + 1
                    return edit(it)
        return line

    def fresh(self):
        self.made += 1
        return f"%narrow.{self.made}"

    @staticmethod
    def place(it):
        return f"  {it[1]} = alloca i64, align 8"

    def address(self, it):
        own = self.fresh()
        return f"  {own} = ptrto{it[2]} ptr {it[3]} to i32\n  {it[1]} = zext i32 {own} to i64"

    @staticmethod
    def second(kinds, at, own):
        """What finds the second value of a pair: it begins at a multiple of its own size."""
        if not BYTES.keys() >= {*kinds}:
            raise Failed(f"a pair of {' and '.join(kinds)}")
        size = BYTES[kinds[1]]
        return f"  {own}.at = getelementptr i8, ptr {at}, i32 {-(-BYTES[kinds[0]] // size) * size}"

    def pair_loaded(self, it):
        own, made, kinds, at = self.fresh(), it[1], it.group(2, 3), it[4]
        pair = f"{{ {kinds[0]}, {kinds[1]} }}"
        return "\n".join(
            [
                f"  {own}.0 = load {kinds[0]}, ptr {at}, align {ALIGN[kinds[0]]}",
                self.second(kinds, at, own),
                f"  {own}.1 = load {kinds[1]}, ptr {own}.at, align {ALIGN[kinds[1]]}",
                f"  {own} = insertvalue {pair} poison, {kinds[0]} {own}.0, 0",
                f"  {made} = insertvalue {pair} {own}, {kinds[1]} {own}.1, 1",
            ]
        )

    def pair_stored(self, it):
        own, kinds, value, at = self.fresh(), it.group(1, 2), it[3], it[4]
        pair = f"{{ {kinds[0]}, {kinds[1]} }}"
        return "\n".join(
            [
                f"  {own}.0 = extractvalue {pair} {value}, 0",
                f"  {own}.1 = extractvalue {pair} {value}, 1",
                self.second(kinds, at, own),
                f"  store {kinds[0]} {own}.0, ptr {at}, align {ALIGN[kinds[0]]}",
                f"  store {kinds[1]} {own}.1, ptr {own}.at, align {ALIGN[kinds[1]]}",
            ]
        )

    def filled(self, it):
        """The length of what lies in memory: so 32 bits hold it."""
        given, before = parted(it[3]), ""
        kind, _, value = given[2].partition(" ")
        if kind != "i64":
            raise Failed(it[0])
        if not value.isdigit():
            own = self.fresh()
            before, value = f"  {own} = trunc i64 {value} to i32\n", own
        given[2] = f"i32 {value}"
        return f"{before}  call void @llvm.mem{it[1]}.{it[2]}.i32({', '.join(given)})"

    @staticmethod
    def declared(it):
        given = parted(it[3])
        given[2] = "i32"
        return f"declare void @llvm.mem{it[1]}.{it[2]}.i32({', '.join(given)})"

    def poisoned(self, it):
        own = self.fresh()
        return f"{it[0]}\n  {own} = getelementptr i8, ptr {it[1]}, i32 4\n  store i32 {POISON}, ptr {own}, align 4"


# --- How C calls ------------------------------------------------------------------------------------------------------

HEAD = re.compile(r"^(define|declare) ([^@\n]*)@(tlsf_\w+)\((.*)\)(?: [^()\n]*)?$", re.M)
KIND = re.compile(
    r"sret\([^()]*\)|byval\([^()]*\)|\[2 x i64\]|\{ ?i64, i64 ?\}|\bi\d+\b|\bptr\b|\bvoid\b|\bsignext\b|\bzeroext\b|\binreg\b"
)


def kinds_in(text):
    """What machine code is made by of what stands in front of a name. A struct that is answered is 16 bytes, whatever it is called."""
    return re.sub(r"sret\([^()]*\)", "sret", " ".join(KIND.findall(text)))


def heads(text, kind):
    """The functions that a module declares or defines for others: what each answers, and what it is given."""
    found = HEAD.finditer(text)
    return {it[3]: (kinds_in(it[2]), [kinds_in(one) for one in parted(it[4])]) for it in found if it[1] == kind and "internal" not in it[2]}


class Crossing:
    """The body of a function that has C's types, and calls the module's own."""

    def __init__(self, call, own, of_c, one_level):
        self.call, (self.answer, self.own), (self.c_answer, self.given), self.one_level = call, own, of_c, one_level
        self.body, self.passed, self.after, self.taken = [], [], [], []

    def differs(self, why):
        raise Failed(f"{self.call.name}: {why}")

    def written(self):
        given = list(self.given)
        if answers_in_memory := given[:1] == ["ptr sret"]:
            self.taken.append("ptr sret([16 x i8]) align 8 %told")
            given.pop(0)
        if len(given) != len(self.call.parameters):
            self.differs(f"C gives {len(given)} values for {len(self.call.parameters)}")
        for n, (value, kind) in enumerate(zip(self.call.parameters, given)):
            self.taken.append(f"{kind} %c{n}")
            (self.pair if value.is_pair else self.value)(value, kind, f"%c{n}")
        if len(self.passed) != len(self.own):
            self.differs(f"it takes {len(self.own)} values, and C gives {len(self.passed)}")
        self.body += [f"%answer = call {self.answer} @{self.call.name}.own({', '.join(self.passed)})", *self.after]
        self.answered(answers_in_memory)
        body = "".join(f"  {it}\n" for it in self.body)
        return f"define {self.c_answer} @{self.call.name}({', '.join(self.taken)}) nounwind {{\nstart:\n{body}}}\n"

    def next_kind(self):
        return self.own[len(self.passed)] if len(self.passed) < len(self.own) else "nothing"

    def pair(self, value, kind, name):
        """A struct of 16 bytes: the module takes two numbers, and C gives them in registers or in memory."""
        for half in range(2):
            if self.next_kind() != "i64":
                self.differs(f"{value.name} is {self.next_kind()}")
            own = f"{name}.{half}"
            if kind == "[2 x i64]":
                self.body.append(f"{own} = extractvalue [2 x i64] {name}, {half}")
            elif kind == "ptr":
                self.body += [f"{own}.at = getelementptr i8, ptr {name}, i32 {8 * half}", f"{own} = load i64, ptr {own}.at, align 8"]
            else:
                self.differs(f"C passes {value.name} as {kind}")
            self.passed.append(f"i64 {own}")

    def value(self, value, kind, name):
        own = self.next_kind()
        if own == "ptr" and value.pointers == 1 and value.type == "size_t":
            self.through(name, "i64", f"{name}.wide = zext i32 {name}.had to i64", f"{name}.cut = trunc i64 {name}.got to i32", "i32")
        elif own == "ptr" and value.pointers == 2:
            self.through(name, "ptr", "", "", "ptr")
        elif own == kind and value.name == "level" and self.one_level:
            self.body += [f"{name}.is_5 = icmp eq {kind} {name}, 5", f"{name}.own = select i1 {name}.is_5, {kind} 0, {kind} {name}"]
            self.passed.append(f"{kind} {name}.own")
        elif own == kind:
            self.passed.append(f"{kind} {name}")
        elif (own, kind, value.type, value.pointers) == ("i64", "i32", "size_t", 0):
            self.body.append(f"{name}.wide = zext i32 {name} to i64")
            self.passed.append(f"i64 {name}.wide")
        else:
            self.differs(f"{value.name} is {own}, and in C {kind}")

    def through(self, name, own, widened, cut, kind):
        """What the call writes through a pointer of C's has 8 bytes in the module, and 4 in C."""
        wide, narrow = f"{name}.wide" if widened else f"{name}.had", f"{name}.cut" if cut else f"{name}.got"
        self.body += [f"{name}.place = alloca i64, align 8", f"{name}.had = load {kind}, ptr {name}, align 4"]
        self.body += [widened] * bool(widened) + [f"store {own} {wide}, ptr {name}.place, align {ALIGN[own]}"]
        self.passed.append(f"ptr {name}.place")
        self.after += [f"{name}.got = load {own}, ptr {name}.place, align {ALIGN[own]}", *[cut] * bool(cut)]
        self.after.append(f"store {kind} {narrow}, ptr {name}, align 4")

    def answered(self, in_memory):
        if in_memory and self.answer == "{ i64, i64 }":
            for half in range(2):
                self.body.append(f"%half{half} = extractvalue {self.answer} %answer, {half}")
                self.body.append(f"%told{half} = getelementptr i8, ptr %told, i32 {8 * half}")
                self.body.append(f"store i64 %half{half}, ptr %told{half}, align 8")
            self.body.append("ret void")
        elif (self.answer, self.c_answer, self.call.answer.type) == ("i64", "i32", "size_t"):
            self.body += ["%cut = trunc i64 %answer to i32", "ret i32 %cut"]
        elif self.answer == self.c_answer and self.answer != "void":
            self.body.append(f"ret {self.answer} %answer")
        else:
            self.differs(f"it answers {self.answer}, and in C {self.c_answer}")


# What takes memory. C answers a struct {uint64_t, void *} in memory, and the module takes two values. A request past 32 bits is one for
# 2^32 - 1 bytes, which c/memory.c refuses.
MEMORY = """
define internal {{ i64, i64 }} @tlsf_memory_{name}.own({given}) nounwind {{
start:
  %piece = alloca [16 x i8], align 8
{cuts}  call void @tlsf_memory_{name}(ptr sret([16 x i8]) align 8 %piece, {passed})
  %is_there = load i64, ptr %piece, align 8
  %at = getelementptr i8, ptr %piece, i32 8
  %low = load i32, ptr %at, align 8
  %wide = zext i32 %low to i64
  %first = insertvalue {{ i64, i64 }} poison, i64 %is_there, 0
  %both = insertvalue {{ i64, i64 }} %first, i64 %wide, 1
  ret {{ i64, i64 }} %both
}}

declare void @tlsf_memory_{name}(ptr sret([16 x i8]) align 8, {types})
"""
CUT = """  %{it}.is_long = icmp ugt i64 %{it}, 4294967295
  %{it}.least = select i1 %{it}.is_long, i64 4294967295, i64 %{it}
  %{it}.cut = trunc i64 %{it}.least to i32
"""


def memory_call(name, pointers, sizes):
    return MEMORY.format(
        name=name,
        given=", ".join([*(f"ptr %{it}" for it in pointers), *(f"i64 %{it}" for it in sizes)]),
        cuts="".join(CUT.format(it=it) for it in sizes),
        passed=", ".join([*(f"ptr %{it}" for it in pointers), *(f"i32 %{it}.cut" for it in sizes)]),
        types=", ".join(["ptr"] * len(pointers) + ["i32"] * len(sizes)),
    )


def with_memory(text):
    text = re.sub(r"^declare [^\n]*@tlsf_memory_(?:re)?alloc\(.*\n", "", text, flags=re.M)
    text = re.sub(r"@tlsf_memory_(re)?alloc\(", r"@tlsf_memory_\1alloc.own(", text)
    return text + memory_call("alloc", [], ["bytes", "align"]) + memory_call("realloc", ["from"], ["kept", "bytes", "align"])


def with_calls(text, known, of_c, one_level):
    """A module in which C calls functions of its own types, and those call what was defined for others."""
    own = heads(text, "define")
    if strange := own.keys() - known.keys():
        raise Failed(f"no call of peachanchor.h's: {', '.join(sorted(strange))}")
    if lacking := own.keys() - of_c.keys():
        raise Failed(f"C has none of {', '.join(sorted(lacking))}")
    names = "|".join(own)
    text = re.sub(rf"@({names})(?=\()", r"@\1.own", text)
    text = re.sub(rf"^define (?:dso_local )?([^@\n]*)@({names})\.own(?=\()", r"define internal \1@\2.own", text, flags=re.M)
    return text + "\n" + "\n".join(Crossing(known[it], own[it], of_c[it], one_level).written() for it in own)


# --- What the result may have -----------------------------------------------------------------------------------------

INTEGER = r"i(?:1|8|32|64)"
TYPE = rf"(?:{INTEGER}|ptr)"
BOTH = rf"\{{ {TYPE}, {TYPE} \}}"
ANY = rf"(?:{TYPE}|{BOTH}|void)"
SAID = r"(?: (?:noundef|nonnull|zeroext|signext|readonly|writeonly|align \d+|sret\(\[16 x i8\]\)))*"
GIVEN = rf"{TYPE}{SAID} {VALUE}|\[2 x i64\] {VALUE}"
END = r"(?:, ![\w.]+ !\d+)*(?: #\d+)?"
FORMS = "|".join(
    [
        rf"%{NAME} = alloca (?:{INTEGER}|\[\d+ x i8\]), align \d+",
        rf"%{NAME} = load {TYPE}, ptr {VALUE}, align \d+{END}",
        rf"store {TYPE} {VALUE}, ptr {VALUE}, align \d+{END}",
        rf"%{NAME} = load atomic i64, ptr {VALUE} seq_cst, align 8",
        rf"store atomic i64 {VALUE}, ptr {VALUE} seq_cst, align 8",
        rf"%{NAME} = atomicrmw (?:add|sub|xchg) ptr {VALUE}, i64 {VALUE} seq_cst, align 8",
        rf"%{NAME} = cmpxchg (?:weak )?ptr {VALUE}, i64 {VALUE}, i64 {VALUE} seq_cst seq_cst, align 8",
        rf"%{NAME} = getelementptr (?:inbounds |nuw |nusw )*i8, ptr {VALUE}, i(?:32|64) {VALUE}",
        rf"%{NAME} = (?:add|sub|mul|udiv|urem|and|or|xor|shl|lshr|ashr)(?: nuw| nsw| exact| disjoint)* {INTEGER} {VALUE}, {VALUE}",
        rf"%{NAME} = icmp (?:eq|ne|[us][lg][te]) {TYPE} {VALUE}, {VALUE}",
        rf"%{NAME} = (?:zext|sext|trunc)(?: nneg| nuw| nsw)* {INTEGER} {VALUE} to {INTEGER}",
        rf"%{NAME} = ptrto(?:addr|int) ptr {VALUE} to i32",
        rf"%{NAME} = select i1 {VALUE}, {TYPE} {VALUE}, {TYPE} {VALUE}",
        rf"%{NAME} = phi {TYPE} (?:\[ {VALUE}, %{NAME} \](?:, )?)+",
        rf"%{NAME} = extractvalue (?:{BOTH}|\[2 x i64\]) {VALUE}, [01]",
        rf"%{NAME} = insertvalue {BOTH} {VALUE}, {TYPE} {VALUE}, [01]",
        rf"(?:%{NAME} = )?(?:tail )?call (?:noundef |zeroext )*{ANY} @{NAME}\((?:(?:{GIVEN})(?:, |(?=\))))*\){END}",
        r'call void asm sideeffect "", "~\{memory\}"\(\)(?: #\d+)?',
        rf"br i1 {VALUE}, label %{NAME}, label %{NAME}{END}|br label %{NAME}{END}",
        rf"switch {INTEGER} {VALUE}, label %{NAME} \[|  {INTEGER} -?\d+, label %{NAME}|\]",
        rf"ret (?:void|(?:{TYPE}|{BOTH}) {VALUE})|unreachable",
    ]
)
LINE = re.compile(f"  (?:{FORMS})")
TAKEN = rf"(?:{TYPE}{SAID}|\[2 x i64\]) %{NAME}"
OUTSIDE = re.compile(
    "|".join(
        [
            rf"define (?:internal |dso_local |noundef |zeroext )*{ANY} @{NAME}\((?:{TAKEN}(?:, |(?=\))))*\)(?: nounwind)?(?: #\d+)? \{{|\}}",
            r"declare [^@]*@(?:tlsf_memory_(?:re|de)?alloc|llvm\.[\w.]+)\(.*",
            rf"{NAME}:(?: +;.*)?",
            rf"@{NAME} = (?:private |internal )?unnamed_addr constant \[\d+ x i8\] .*",
            r"target (?:datalayout|triple) = .*|source_filename = .*|attributes #\d+ = \{.*|![\w.]+ = .*|;.*|",
        ]
    )
)
DECLARED = re.compile(rf"declare [^@]*(@{NAME}\()")
# What the module may name of LLVM's: whose types are those of 32 bits.
INTRINSIC = re.compile(r"@llvm\.(?:mem(?:set\.p0|cpy\.p0\.p0|move\.p0\.p0)\.i32|c[lt][tl]z\.i(?:8|32|64)|u(?:min|max)\.i64|trap)\(")


def strange_lines(text):
    """The lines that aren't of a form that is known to mean the same on 32 bits. What is declared may be anything while nobody calls it."""
    for line in text.split("\n"):
        if (it := DECLARED.match(line)) and text.count(it[1]) == 1:
            continue
        if not (LINE if line.startswith("  ") else OUTSIDE).fullmatch(line):
            yield line
        elif "@llvm." in line and not INTRINSIC.search(line):
            yield line


def other_calls(text, of_c, of_memory):
    """The calls that C makes, or is asked for, by other types than this module has them."""
    own, wanted = heads(text, "define"), heads(text, "declare")
    if "tlsf_memory_alloc" not in wanted or "tlsf_queue_drain" not in own:
        yield "it is no module of the library"
    for name, here, there in [*((it, own[it], of_c.get(it)) for it in own), *((it, wanted[it], of_memory.get(it)) for it in wanted)]:
        if here != there:
            yield f"{name} has {here[0]} for {', '.join(here[1])}, and C {f'{there[0]} for ' + ', '.join(there[1]) if there else 'none'}"


def faults(text, of_c, of_memory):
    for line in strange_lines(text):
        yield f"not known on 32 bits: {line.strip()[:160]}"
    yield from other_calls(text, of_c, of_memory)


OF_LEVEL_5 = re.compile(r'^(define internal [^@\n]*@"[^"\n]*<=5>[^"\n]*"\([^\n]*\{\n)(?:[^}\n].*\n|\n)*\}$', re.M)


# The bytes of the heads of level 5's lists, for which each heap has room, and how many fewer level 4's take. Numbers from HEADS on to PAST are
# the bytes of these and of what has them: a heap, its box, an arena, a heap with its table. They stand in these forms, and in no other.
HEADS, FEWER, PAST = 4 * 641, 4 * (641 - 273), 2880
NUMBER = re.compile(r"(?<![\w.!#])\d{4}(?![\w.])")
OF_BYTES = re.compile(
    rf"  (?:{VALUE} = )?(?:alloca \[\d+ x i8\], align [48]|getelementptr i8, ptr {VALUE}, i64 \d+|mul i64 {VALUE}, \d+|icmp eq i64 {VALUE}, \d+|"
    rf"store i64 \d+, ptr {VALUE}, align 8|call void @llvm\.mem(?:set|cpy|move)\.[\w.]+\([^()]*, i64 \d+, i1 false\)|"
    rf'call [^@\n]*@"std_heap::GlobalAllocator::(?:de)?allocate"\((?:ptr {VALUE}, )+i64 \d+, i64 8\))'
)


def with_few_heads(line):
    """A line of a module in which a heap has room for the heads of level 4 alone."""
    long = [it[0] for it in NUMBER.finditer(line) if HEADS <= int(it[0]) < PAST]
    if long and not OF_BYTES.fullmatch(line):
        raise Failed(f"no size of what has heads: {line.strip()[:160]}")
    return NUMBER.sub(lambda it: str(int(it[0]) - FEWER) if it[0] in long else it[0], line)


def of_one_level(text):
    """A module in which no way leads into a function for level 5, and a heap has no room for that. A heap's level is in its handle, and only
    calls that open write it there."""
    text, count = OF_LEVEL_5.subn(r"\1start:\n  unreachable\n}", text)
    if not count:
        raise Failed("no function is for level 5 alone")
    few = "\n".join(map(with_few_heads, text.split("\n")))
    if few == text:
        raise Failed("nothing has room for the heads of level 5")
    return few


ZEROS = re.compile(r"^  call void @llvm\.memset\.p0\.i64\(ptr (%[\w.]+), i8 0, (i64 (\d{4,})), i1 false\)\n", re.M)


def without_zeros(text, poison):
    """A module in which no long temporary is set to zeros; with `poison` it has a pattern, which nobody may read."""

    def edited(it, function):
        if f"  {it[1]} = alloca [{it[3]} x i8]" not in function:
            raise Failed(f"no temporary: {it[0].strip()}")
        return it[0].replace("i8 0", f"i8 {POISON % 128}") if poison else ""

    functions = re.split(r"^(?=define )", text, flags=re.M)
    return "".join(ZEROS.sub(lambda it, one=one: edited(it, one), one) for one in functions)


def narrow(text, known, of_c, lacks=None, poison=False, one_level=False):
    """A module of the library that was moved to a target of 32 bits, with these edits but that which it `lacks`; and how many there are of each.
    `known` are the calls of peachanchor.h by their names, and `of_c` has how C makes them there."""
    lines = Lines(lacks, poison)
    text = re.sub(r' "frame-pointer"="[^"]*"', "", text)
    text = re.sub(r"(?<=[ {])uwtable(?:\(\w+\))? ", "", text)
    text = without_zeros(of_one_level(text) if one_level else text, poison)
    text = lines.edited(re.sub(r"^(attributes #\d+ = \{) *\}", r"\1 nounwind }", text, flags=re.M))
    if lacks != "call":
        lines.count["call"] = len(heads(text, "define"))
        text = with_calls(text, known, of_c, one_level)
    if lacks != "memory":
        lines.count["memory"] = 2
        text = with_memory(text)
    return text, lines.count
