#!/usr/bin/env python3
"""Holds examples/ together: NAME.txt, the text of a trace; NAME.trace, what it assembles to; NAME.out, what is printed for it.

    examples.py [PROGRAM]    checks each against tools/trace's assembler, the model of 01 and, where it is built or named, the program
    examples.py --write      writes NAME.trace and NAME.out anew, from NAME.txt and the model
"""
import sys

import model
import program
from trace_text import Mistake, decoded, text_of, trace_of

EXAMPLES = program.TOP / "examples"
MADE = (".trace", ".out")       # from a text


def texts():
    return sorted(EXAMPLES.glob("*.txt"))


def assembled(text):
    return trace_of(decoded(text.read_bytes(), text.name), text.name)


def write():
    """Writes nothing unless every text is right."""
    try:
        traces = [(text, assembled(text)) for text in texts()]
    except Mistake as mistake:
        sys.exit(str(mistake))
    for text, trace in traces:
        text.with_suffix(".trace").write_bytes(trace)
        text.with_suffix(".out").write_text(model.trace_output(trace))
    if not traces:
        sys.exit(NONE)
    print(f"{len(traces)} examples are written")


# ---- What is not there

NONE = "examples/ has no text of an example"


def missing():
    return [f"examples/{text.stem}{suffix} is missing" for text in texts() for suffix in MADE if not text.with_suffix(suffix).is_file()]


def strays():
    """What belongs to no text."""
    known = {text.with_suffix(suffix) for text in texts() for suffix in (".txt", *MADE)}
    found = sorted(set(EXAMPLES.iterdir()) - known) if EXAMPLES.is_dir() else []
    return [f"examples/{path.name} belongs to no text" + f": examples/{path.stem}.txt is missing" * (path.suffix in MADE) for path in found]


# ---- What is wrong

def first_troubles():
    first = EXAMPLES / "first.txt"
    if first not in texts():
        return ["examples/first.txt, the trace that 01 prints, is missing"]
    same = first.with_suffix(".trace").read_bytes() == model.PRINTED_TRACE and first.with_suffix(".out").read_text() == model.PRINTED_OUTPUT
    return [] if same else ["first is not what 01 prints"]


def text_trouble(text, trace):
    try:
        return [] if assembled(text) == trace else [f"{text.name} does not assemble to {text.stem}.trace"]
    except Mistake as mistake:
        return [str(mistake)]


def troubles(text, words):
    trace, printed = text.with_suffix(".trace").read_bytes(), text.with_suffix(".out").read_bytes()
    yield from text_trouble(text, trace)
    if trace_of(text_of(trace)) != trace:
        yield f"{text.stem}.trace, shown as text, does not assemble to itself"
    if model.trace_output(trace).encode() != printed:
        yield f"the model does not print {text.stem}.out"
    if words and program.run(words, trace) != printed:
        yield f"the program does not print {text.stem}.out"


def found_wrong(words):
    """What is there is looked at only where nothing is missing."""
    if not texts():
        return [NONE]
    return strays() + missing() or first_troubles() + [trouble for text in texts() for trouble in troubles(text, words)]


def check(path):
    words = program.command(path) if path else None
    found = found_wrong(words)
    print("\n".join(found) or f"{len(texts())} examples are right; {'the program was run' if words else 'no program is built'}")
    return 1 if found else 0


if __name__ == "__main__":
    if sys.argv[1:] == ["--write"]:
        write()
    elif len(sys.argv) > 2:
        sys.exit(__doc__)
    else:
        sys.exit(check(program.chosen(*sys.argv[1:])))
