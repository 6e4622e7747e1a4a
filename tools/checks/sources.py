"""No function but a test, which may be a table, is longer than 40 lines from
brace to brace, no source file longer than 800, and each example, with its test,
shorter than 100."""
import tree

MOST_BODY_LINES = 40
MOST_FILE_LINES = 800
MOST_EXAMPLE_LINES = 99


def files():
    found = [it for it in tree.entries(tree.TOP / "crates") if it.suffix in (".rt", ".antt") and it.is_file()]
    return found + sorted(tree.RATTLE_TESTS.rglob("*.source"))


def faults():
    for file in files():
        name, text = file.relative_to(tree.TOP).as_posix(), tree.read(file)
        most = MOST_EXAMPLE_LINES if name.startswith(("crates/example_", "crates/uses/")) else MOST_FILE_LINES
        if (count := text.count("\n")) > most:
            yield f"{name}: {count} lines, more than {most}"
        lines = text.split("\n")
        for body in tree.bodies_in(name, text) if file.suffix != ".antt" else ():
            is_test = "#[test]" in lines[body.first : body.opens]
            if (count := body.last - body.opens - 1) > MOST_BODY_LINES and not is_test:
                yield f"{name}:{body.opens + 1}: {body.name} has {count} lines, more than {MOST_BODY_LINES}"


def looked_at():
    return f"{len(files())} files"
