"""The calls of crates as one HTML page, which needs no network: pandoc makes it of the Markdown of text.py."""
import html
import pathlib
import re
import subprocess
import urllib.parse

from .names import DOC_LINK, WORD, Public, outside_code, shown
from .sources import Definition
from .text import Plain, clause_anchor, crate_parts, definition_anchor, definitions_parts

TEMPLATE = pathlib.Path(__file__).resolve().parent / "page.html"
PANDOC = [
    "pandoc",
    "-f",
    "commonmark+pipe_tables+attributes",
    "-t",
    "html5",
    "-s",
    "--template",
    TEMPLATE,
    "--toc",
    "--toc-depth=2",
    "--section-divs",
    "--wrap=none",
    "--no-highlight",
    "-M",
    "title=Peachanchor: the calls and their contracts",
]
CODE_SPAN = re.compile(r"(`+[^`]+`+)")
CODE_POINT = re.compile(r"^([-*] )`(\w+)`(?!\])", re.M)
CODE_PATH = re.compile(r"(?<!\[)`(\w+(?:::\w+)+)`")

# How to read a clause: what is written, and what it says.
NOTATION = r"""
| Written | It says |
|---|---|
| `requires name { p }` | The caller has to know p before the call. |
| `ensures name { p }` | p holds when the call returns. The name tells the clause from the others of its function. |
| `requires*`, `ensures*` | The same of memory: who owns which bytes. |
| `ghost x: { T }` | x is any value of T, which no code holds: the contract holds for each. |
| `result` | The value that the function returns. |
| `x.old`, `x.new` | What a `&mut` parameter x points to when the call begins, and when it returns. |
| `x.now` | What a `&` parameter x points to. |
| `x.entry` | The parameter x as it was passed. |
| `f a b` | The definition f of the arguments a and b. |
| `p → q`, `p ↔ q` | If p then q; p exactly where q. |
| `p × q`, `p ⊎ q`, `¬ p` | Both p and q; p or q; not p. |
| `a ≡ b`, `a ≢ b`, `a ≤ b` | a equals b; a differs from b; a is at most b. |
| `(k : ℕ) → p`, `(k : ℕ) × p` | p for each natural number k; p for some k. |
| `IfOk result (λ v. p)` | If the result is `Ok`, p holds of its value v. `IfSome` is for a `Some`. |
| `OnOk result p`, `OnErr result p` | If the result is `Ok`, or an `Err`, then p. |
| `IsOk result`, `IsErrOf result e` | The result is `Ok`; it is the error e. |
| `MatchResult result (λ v. p) (λ e. q)` | p of the value if the result is `Ok`, otherwise q of the error. |
| `a - b` | The difference of two natural numbers, which is 0 where b is larger. |
| `[]`, `x ∷ xs`, `xs ++ ys`, `length xs` | The empty list; x before the list xs; two lists joined; the number of elements. |
"""


class NoPandoc(Exception):
    pass


class Linked(Plain):
    """Writes for a page on which some items and definitions stand: names of these are links."""

    def __init__(self, tree, publics, defined):
        self.tree = tree
        self.publics, self.defined = {id(it) for it in publics}, {id(it) for it in defined}

    def anchor_of(self, target, last=""):
        """The anchor of what a name stands for, or of the field or variant of it that is named last; None where it isn't on this page."""
        if isinstance(target, Definition):
            return definition_anchor(target) if id(target) in self.defined else None
        if not isinstance(target, Public) or id(target) not in self.publics:
            return None
        is_part = last and last != target.item.name and any(it.name == last for it in target.item.parts)
        return f"{target.anchor}.{last}" if is_part else target.anchor

    def logic(self, text, cited):
        made, at = [], 0
        for start, end, target in cited:
            if anchor := self.anchor_of(target, text[start:end]):
                title = f' title="{html.escape(target.comment)}"' if isinstance(target, Definition) and target.comment else ""
                name = html.escape(text[start:end], quote=False)
                made += [html.escape(text[at:start], quote=False), f'<a href="#{urllib.parse.quote(anchor)}"{title}>{name}</a>']
                at = end
        return "".join(made) + html.escape(text[at:], quote=False)

    def code(self, text, scope=None, own=None):
        found = ((it.start(), it.end(), scope.type_named(it[0])) for it in WORD.finditer(text) if scope and it[0][0].isupper())
        return self.logic(text, (it for it in found if it[2] is not own))

    def place(self, name, anchor):
        return f'<a id="{anchor}" href="#{urllib.parse.quote(anchor)}"><b>{name}</b></a>'

    def block(self, text, anchor=""):
        # Markdown ends a block of HTML at an empty line, unless it is a <pre>, which ends at its own end.
        place = f' id="{html.escape(anchor)}"' if anchor else ""
        return f"<pre{place}><code>{text}</code></pre>"

    def docs(self, text, scope=None, public=None):
        clauses = {it.name: clause_anchor(public, it) for it in reversed(public.item.clauses())} if public else {}

        def link(name, path, target):
            anchor = self.anchor_of(target, path.rpartition("::")[2])
            return f"[`{name}`](#{urllib.parse.quote(anchor)})" if anchor else f"`{name}`"

        def linked(part):
            part = CODE_POINT.sub(lambda it: f"{it[1]}[`{it[2]}`](#{clauses[it[2]]})" if it[2] in clauses else it[0], part)
            if scope:
                part = CODE_PATH.sub(lambda it: link(it[1], it[1], scope.in_doc(it[1]) or self.tree.only(it[1])), part)
                part = DOC_LINK.sub(lambda it: link(shown(it[1]), it[2] or it[1], scope.in_doc(it[2] or it[1])), part)
            part = "".join(it if it.startswith("`") else it.replace("<", "\\<") for it in CODE_SPAN.split(part))
            return re.sub("^#", "###", part, flags=re.M)

        return outside_code(text, linked)

    def heading(self, level, text, anchor, kind=""):
        return f"{'#' * level} {text.replace('_', chr(92) + '_')}{f' *{kind}*' if kind else ''} {{#{anchor}}}"


def first_sentence(docs):
    paragraph = docs.split("\n\n")[0].replace("\n", " ")
    return re.split(r"(?<=[a-z)`][.])\s", paragraph)[0]


def page_of(tree, crates):
    """The page, and how many items and definitions it has."""
    files = tree.definitions(crates)
    publics, defined = [it for crate in crates for it in crate.publics()], [it for _, some in files for it in some]
    by = Linked(tree, publics, defined)
    parts = [
        "# Crates {#crates}",
        "Each public item of these crates, with its docs and the clauses that are proved of it, as the sources have "
        "them. A name in a clause leads to its definition.",
    ]
    parts.append("\n".join(f"- [{it.name}](#{it.name}): {by.docs(first_sentence(it.docs), it.scopes[it.root])}" for it in crates))
    parts += ["# How to read a clause {#notation}", NOTATION]
    for crate in crates:
        parts += crate_parts(crate, by)
    parts += ["# Definitions {#definitions}", *definitions_parts(tree, files, by)]
    try:
        made = subprocess.run(PANDOC, input="\n\n".join(parts), stdout=subprocess.PIPE, text=True, encoding="utf-8", check=True).stdout
    except FileNotFoundError as error:
        raise NoPandoc from error
    check_links(made)
    return made, len(publics), len(defined)


def full_name(one):
    if isinstance(one, Public):
        return f"{one.crate}::{one.path}"
    return definition_anchor(one).replace(".", "::")


def check_links(page):
    """Each link within the page leads to one place of it."""
    anchors = [html.unescape(it) for it in re.findall(r' id="([^"]+)"', page)]
    if twice := {it for it in anchors if anchors.count(it) > 1} if len(set(anchors)) < len(anchors) else ():
        raise ValueError(f"the page has an anchor twice: {', '.join(sorted(twice))}")
    if lost := {urllib.parse.unquote(html.unescape(it)) for it in re.findall(r'href="#([^"]+)"', page)} - set(anchors):
        raise ValueError(f"the page has links that lead nowhere: {', '.join(sorted(lost))}")
