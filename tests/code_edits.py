"""Which small edits there are of the code under crates/*/src: bodies of functions and values of constants, never a contract. Found by a scan, not by a parser.

`tests/mutants` makes the edits and asks the prover of them.
"""
import re

import source

COMPARISONS = ["<", "<=", ">", ">=", "==", "!="]

# What is put for an operator.
OTHERS = {
    "<": ["<=", ">"],
    "<=": ["<", ">="],
    ">": [">=", "<"],
    ">=": [">", "<="],
    "==": ["!="],
    "!=": ["=="],
    "+": ["-"],
    "-": ["+"],
    "*": ["+"],
    "/": ["%", "*"],
    "%": ["/"],
    "+=": ["-="],
    "-=": ["+="],
    "&": ["|"],
    "|": ["&"],
    "^": ["|"],
    "<<": [">>"],
    ">>": ["<<"],
    "!": [""],
}

# What is put for a name.
LIKE = {"true": "false", "false": "true", "high": "low", "low": "high", "high_byte": "low_byte", "low_byte": "high_byte"}

# An operand or argument that is exchanged with its neighbour.
SIMPLE = r"(?:\w+(?:::\w+)*(?:\.\w+)*(?:\([\w.:, ]*\))?)"


def operators(text):
    """Binary operators stand between blanks in the repository's layout, a negation stands before its operand."""
    for found in re.finditer(r"(?<= )(<=|>=|==|!=|\+=|-=|<<|>>|[-<>+*/%&|^])(?= )|(?<!\w)!(?=[\w(])", text):
        kind = "comparison" if found.group() in COMPARISONS else "operator"
        for other in OTHERS[found.group()]:
            yield kind, found.start(), found.group(), other


def off_by_one(digits):
    number = int(digits, 0)
    for other in (number + 1, number - 1):
        if other >= 0:
            yield f"0x{other:0{len(digits) - 2}X}" if digits.startswith("0x") else str(other)


def constants(text):
    """Not the number of a tuple's field, and not the length in an array's type or value."""
    for found in re.finditer(r"(?<![\w])(?<!\w\.)(?<!; )(0x[0-9A-F]+|\d+)(?=u8|\b)", text):
        for other in off_by_one(found.group()):
            yield "constant", found.start(), found.group(), other


def names(text):
    for found in re.finditer(r"(?<![.\w])(?:wire::)?(\w+)\b", text):
        if found.group(1) in LIKE:
            yield "byte or truth", found.start(1), found.group(1), LIKE[found.group(1)]


def exchanges(text):
    """Two operands of - / %, and two neighbours in a list of arguments."""
    for sign in (" [-/%] ", ", "):
        for found in re.finditer(rf"(?<![\w.])(?=({SIMPLE})({sign})({SIMPLE})(?![\w.(:]))", text):
            left, between, right = found.groups()
            if left != right:
                yield "exchange", found.start(), left + between + right, right + between + left


def conditions(text):
    """A truth that is asked by its name alone."""
    for found in re.finditer(rf"\b(?:if|while) ({SIMPLE}) \{{", text):
        yield "condition", found.start(1), found.group(1), "!" + found.group(1)


def calls(text):
    """A call whose answer nobody takes, or takes for more than an error, is left out. `prove!` does nothing when it runs."""
    for found in re.finditer(r"^ *((?!prove!)(?:\w+(?:::|\.))*\w+!?)\(", text, re.M):
        end = source.behind(text, found.end() - 1)
        tail = re.compile(r"\??;").match(text, end)
        if tail:
            yield "call left out", found.start(1), text[found.start(1):tail.end()], ""


def like_fields(crates):
    """For each field's name, the fields of the same type in the structs that have it."""
    others = {}
    for crate in crates:
        for _, items in source.declared(crate, "struct"):
            fields = [tuple(re.sub(r"^pub\s+", "", item).split(": ")) for item in items]
            for name, kind in fields:
                others.setdefault(name, set()).update(other for other, its in fields if its == kind and other != name)
    return others


def fields(text, like):
    for found in re.finditer(r"(?<=\w)\.(\w+)\b(?!\()", text):
        for other in sorted(like.get(found.group(1), ())):
            yield "field", found.start(1), found.group(1), other


def like_cases(crates):
    """For each case of an enum, the others that carry as much."""
    others = {}
    for crate in crates:
        for enum, items in source.declared(crate, "enum"):
            cases = [re.match(r"(\w+)(.*)", item, re.S).groups() for item in items]
            for name, carried in cases:
                others[enum, name] = [other for other, its in cases if its == carried and other != name]
    return others


def cases(text, like):
    """Of answers, not of patterns."""
    for found in re.finditer(r"\b(\w+)::(\w+)\b(?!(?:\([^()]*\)|\s*\{[^{}]*\})?\s*=>)", text):
        for other in like.get(found.groups(), ()):
            yield "case", found.start(2), found.group(2), other


def stretches(crate):
    """Name, file, begin and end of what may be edited."""
    for function in source.functions(crate):
        yield function.name, function.file, function.begin, function.end
    for file in source.code_files(crate):
        for found in re.finditer(r"\bconst (\w+): [^=]*= ([^;]*);", source.blank(file.read_text())):
            yield "::".join(filter(None, [source.module_of(crate, file), found.group(1)])), file, found.start(2), found.end(2)


def edits_of(crate):
    """All edits of a crate, by the function or constant that they are made in: file, kind, place, old and new text."""
    field, case = like_fields(source.known_to(crate)), like_cases(source.known_to(crate))
    edits = {}
    for where, file, begin, end in stretches(crate):
        text = source.blank(file.read_text())[begin:end]
        found = [*operators(text), *constants(text), *names(text), *exchanges(text), *conditions(text), *calls(text), *fields(text, field), *cases(text, case)]
        edits[where] = [(file, kind, begin + at, old, new) for kind, at, old, new in found]
    return edits
