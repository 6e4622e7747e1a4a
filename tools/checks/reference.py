"""What tools/reference shows of a crate is whole: a public function with
clauses has docs, each link of docs and each name in a clause or a definition
leads somewhere, a crate has items, and each function and clause was read."""
import functools
import re

import tree
from reference_page import names, page

CLAUSE_LINE = re.compile(r"^ {4,8}(?:requires|ensures)\*?(?: \w+)? \{", re.M)


@functools.cache
def libraries():
    """The libraries of crates.txt, as tools/reference reads them."""
    return names.Tree(tree.TOP)


def unread(crate):
    """Functions and clauses of the files of a crate that weren't read."""
    for file, reader in crate.files.items():
        functions = [it for it in walked(crate.found[file]) if it.kind == "fn"]
        clauses = sum(1 for it in functions for one in it.clauses() if one.kind != "ghost")
        headers = sum(1 for it in reader.lines if (found := tree.HEADER.match(it)) and len(found[1]) <= 4)
        written = len(CLAUSE_LINE.findall("\n".join(reader.lines)))
        if (headers, written) != (len(functions), clauses):
            where = file.relative_to(tree.TOP).as_posix()
            yield f"{where}: {len(functions)} of {headers} functions and {clauses} of {written} clauses were read"


def walked(items):
    for item in items:
        yield item
        yield from walked(item.items)


def hidden_links(docs, scope):
    """The links of docs that lead to nothing public."""
    return [shown for shown, path in names.doc_links(docs) if scope.in_doc(path) in (None, names.PRIVATE)]


def faults_of(crate):
    """What is wrong with the docs and the clauses of a crate."""
    yield from unread(crate)
    passed_on = [(other, there) for _, other, there in crate.passed_on if other in crate.tree.crates]
    for name in crate.lost + ["::".join(it) for it in passed_on if it not in crate.tree.index]:
        yield f"{crate.name}: its lib.rt shows {name}, which isn't there"
    if not crate.items:
        yield f"{crate.name}: has no public items"
    for shown in hidden_links(crate.docs, crate.scopes[crate.root]):
        yield f"{crate.name}: its docs link {shown}, which isn't public"
    for public in crate.publics():
        if public.item.clauses() and not public.item.docs:
            yield f"{page.full_name(public)}: has clauses and no docs"
        for shown in (it for part in (public.item, *public.item.parts) for it in hidden_links(part.docs, public.scope)):
            yield f"{page.full_name(public)}: its docs link {shown}, which isn't public"
    for public, name, target in crate.cited():
        if target is None:
            yield f"{page.full_name(public)}: a clause names {name}, which stands nowhere"


def definitions():
    return [it for _, some in libraries().definitions(libraries().crates.values()) for it in some]


def faults():
    for crate in libraries().crates.values():
        yield from faults_of(crate)
    for one in definitions():
        for start, end, target in libraries().cited_by(one):
            if target is None:
                yield f"{page.full_name(one)}: names {one.text[start:end]}, which stands nowhere"


def looked_at():
    publics = [it for crate in libraries().crates.values() for it in crate.publics()]
    clauses = sum(len(it.item.clauses()) for it in publics)
    return f"{len(libraries().crates)} crates, {len(publics)} items, {clauses} clauses, {len(definitions())} definitions"
