"""The calls of crates as text, which is Markdown. `Plain` writes it for a terminal; `page.Linked` writes the same for a page, with links."""
import re
import textwrap

from .names import DOC_LINK, outside_code, shown

WIDTH = 80


def indented(text, by="    "):
    return textwrap.indent(text, by, lambda line: bool(line.strip()))


def wrapped(docs):
    """Docs in lines of at most 80 characters. Code, tables and headings stay as they are."""
    lines, paragraph, fence = [], [], False

    def end():
        if paragraph:
            text = " ".join(paragraph)
            hang = re.match(r"(?:[-*] |\d+\. )?", text)
            lines.extend(textwrap.wrap(text, WIDTH, subsequent_indent=" " * hang.end(), break_long_words=False, break_on_hyphens=False))
            paragraph.clear()

    for line in docs.split("\n"):
        if line.startswith("```"):
            fence = not fence
        if fence or line.startswith(("```", "|", "#", "    ")) or not line.strip():
            end()
            lines.append(line)
        else:
            if re.match(r"[-*] |\d+\. ", line):
                end()
            paragraph.append(line.strip())
    end()
    return "\n".join(lines)


class Plain:
    """How each kind of text is written: code of Rust in a scope, code of the logic whose names are cited, a name with a place of its own."""

    def code(self, text, scope=None, own=None):
        return text

    def logic(self, text, cited):
        return text

    def place(self, name, anchor):
        return name

    def block(self, text, anchor=""):
        return indented(text)

    def docs(self, text, scope=None, public=None):
        return wrapped(outside_code(text, lambda it: DOC_LINK.sub(lambda one: f"`{shown(one[1])}`", it)))

    def heading(self, level, text, anchor, kind=""):
        return f"{text}\n{'=-'[level - 1] * len(text)}"


def clause_anchor(public, clause):
    return f"{public.anchor}.{clause.kind.rstrip('*')}.{clause.name}"


def definition_anchor(one):
    return f"{one.crate}.specs.{one.module}.{one.name}"


def contract(public, by):
    """A function's clauses, as they are written."""
    groups = []
    for group in public.item.contract:
        lines = [by.code(f"// {it}") for it in group.comment.split("\n") if it]
        for clause in group.clauses:
            name = f" {by.place(clause.name, clause_anchor(public, clause))}" if clause.name else ""
            colon = ":" if clause.kind == "ghost" else ""
            lines += f"{clause.kind}{name}{colon} {{ {by.logic(clause.text, public.scope.cited(clause.text))} }}".split("\n")
        groups.append(indented("\n".join(lines)))
    return "\n\n".join(groups)


def declaration(public, by):
    """An item as it is written, without its body and without what isn't public of it."""
    item = public.item
    lines = [it for it in item.attributes if it.startswith(("#[derive", "#[repr"))] + [by.code(item.head, public.scope, public)]
    if item.kind == "fn":
        return "\n".join([*lines, *([contract(public, by)] if item.contract else [])])
    if item.kind not in ("struct", "enum", "trait") or item.head.endswith(";"):
        return "\n".join(lines)
    mark = "//" if item.kind == "trait" else "///"
    inside = []
    for part in item.parts:
        inside += [by.code(f"{mark} {it}") for it in part.docs.split("\n") if it]
        inside += [by.code(part.shown)] if part.shown else []
        before, name, after = part.text.partition(part.name)
        inside.append(
            by.code(before)
            + by.place(name, f"{public.anchor}.{name}")
            + by.code(after, None if part.ghost else public.scope)
            + ("" if item.kind == "trait" else ",")
        )
    if item.kind == "trait":
        inside.append("// and the functions below" if inside else "// the functions below")
    if item.hides:
        inside.append("// and private fields" if inside else "// private fields")
    if not inside:
        return "\n".join(lines) + " {}"
    return "\n".join([*lines[:-1], lines[-1] + " {", indented("\n".join(inside)), "}"])


def item_parts(public, by, alone=False):
    """The paragraphs on one item."""
    item = public.item
    yield by.heading(2, f"{public.crate}::{public.path}", public.anchor, public.kind)
    if item.docs:
        yield by.docs(item.docs, public.scope, public)
    yield by.block(declaration(public, by))
    if public.model:
        yield "Contracts see it as:"
        yield by.block("\n".join(f"ghost {name} = {{ {by.logic(text, scope.cited(text))} }};" for name, text, scope in public.model))
    if public.traits:
        yield by.docs("Implements " + ", ".join(f"`{it}`" for it in public.traits) + ".")
    if alone and public.members:
        yield "Its methods:"
        yield by.block("\n".join(re.sub(r"\s+", " ", it.item.head) for it in public.members))


def crate_parts(crate, by):
    yield by.heading(1, crate.name, crate.name)
    yield by.docs(crate.docs, crate.scopes[crate.root])
    yield "The lines of crates.txt that it needs:"
    yield by.block("\n".join(crate.tree.needed(crate.name)))
    for other in dict.fromkeys(it[1] for it in crate.passed_on):
        names = ", ".join(f"`{name}`" for name, one, _ in crate.passed_on if one == other)
        yield by.docs(f"It hands on {names} of `{other}`.")
    for public in crate.publics():
        yield from item_parts(public, by)


def definitions_parts(tree, files, by):
    """The paragraphs on the definitions of some files."""
    for specs, some in files:
        path = f"{specs.crate}, specs/{specs.module.replace('.', '/')}.antt"
        yield by.heading(2, path, f"{specs.crate}.specs.{specs.module}")
        if specs.comment:
            yield by.docs(specs.comment)
        for one in some:
            comment = "".join(f"-- {it}\n" for it in textwrap.wrap(one.comment, WIDTH - 7))
            yield by.block(by.code(comment) + by.logic(one.text, tree.cited_by(one)), definition_anchor(one))
