"""mattconte/tlsf 3.0 as one C file, out of the copy in Kamailio's sources."""
import re

HEADER, BITS, CODE = "tlsf_malloc.h", "tlsf_malloc_bits.h", "tlsf_malloc.c"
# What Kamailio added to the code: what is to be found, what stands in its place, and how often it is there.
ADDED = [
    (r'#include "[^"]*"\n', "", 8),
    (r"#define (TLSF_INCREASE_REAL_USED\(\w+, \w+\)) .*", r"#define \1 ((void)0)", 1),
    (r"#define (TLSF_INCREASE_FRAGMENTS\(\w+\)) .*", r"#define \1 ((void)0)", 1),
    (r"\tcontrol->fragments--;\n", "", 1),
    (r"\t+control->real_used -= \(block_size\(block\) \+ \(ptr.*\n.*\n.*;\n", "", 1),
    (r"\t+control->(allocated|real_used) ?[-+]= ?block_size\(block\);\n", "", 5),
    # A free looks whether its block is free already; upstream that is an assertion.
    (r"\t\tif \(block_is_free\(block\)\) \{\n\t\t\tLOG\(L_CRIT, \"BUG: tlsf_free(?s:.*?)\n\t\t\}\n", "", 1),
    (r"LOG\(L_WARN, .*?\);", ";", 2),
]
# Its small functions are made inline, which gains it a fifth of the instructions: it is measured at its best.
INLINE = r"(?m)^static (?=[\w* ]+\()", "static inline "


def edited(text, pattern, into, times):
    text, count = re.subn(pattern, into, text)
    if count != times:
        raise ValueError(f"Kamailio's copy of tlsf has {pattern!r} {count} times, not {times}")
    return text


def source(folder):
    """The text of upstream's code and header, with no statistics and no messages of Kamailio's."""
    header, bits, code = ((folder / name).read_text(encoding="utf-8") for name in (HEADER, BITS, CODE))
    code = code[: code.index("\nvoid tlsf_meminfo(")]
    for pattern, into, times in ADDED:
        code = edited(code, pattern, into, times)
    header = edited(header, r'#include "meminfo.h"\n', "", 1)
    text = header.replace("void tlsf_meminfo(tlsf_t pool, struct mem_info *info);\n", "") + bits + code + "\n#endif\n"
    return "#define TLSF_MALLOC\n" + re.sub(*INLINE, text.replace("#define tlsf_decl static", "#define tlsf_decl static inline"))
