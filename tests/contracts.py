#!/usr/bin/env python3
"""Holds every public function under crates/ against docs/CONTRACTS.md and against the proofs that one answer fits its contract.

No `pub fn` has a `requires`, wherever it stands: one that has is `pub(crate)` at most. And each public function of a crate in crates.txt (a method as
Type::method; `source.py` says what is public)
- has an `ensures`;
- stands in docs/CONTRACTS.md, in a row below the heading of its crate, with what it answers and at least two wrong answers that are ruled out;
- has a theorem NAME_determined in its crate's proofs/Determined.antt, which speaks of the contract of this very function and of each thing that it is
  lent to change, and which proofs/Lib.antt declares, so that it is checked.
The table below "Exceptions" in docs/CONTRACTS.md names, as `crate::function`, those for which none of the three holds, each with its cause. A row that
names no public function is wrong too.
"""
import re
import sys

import source
from source import TOP

PAGE = TOP / "docs" / "CONTRACTS.md"
EXCEPTIONS = "Exceptions"


# ---- The page


def cells(line):
    return [cell.strip() for cell in re.split(r"(?<!\\)\|", line)[1:-1]]


def sections():
    """Each heading of the page with the rows of its tables."""
    found = {}
    for line in PAGE.read_text().split("\n"):
        if line.startswith("## "):
            rows = found.setdefault(line[3:].strip(), [])
        elif line.startswith("|"):
            rows.append(cells(line))
    return {title: [row for row in rows if "`" in row[0]] for title, rows in found.items()}


def named(cell):
    """The functions that a row's first cell names. After a method a name alone is a method of the same type."""
    owner = ""
    for text in re.findall(r"`([^`]*)`", cell):
        name = text.partition("(")[0].strip()
        kind = re.match(r"(?:[a-z]\w*::)?[A-Z]\w*::", name)
        if kind:
            owner = kind.group()
        yield name if "::" in name else owner + name


def documented(public):
    """Which functions have a row, and what is wrong with the rows. A name without its crate is looked for in the crates of the heading."""
    known, wrong = set(), []
    for title, rows in sections().items():
        if title == EXCEPTIONS:
            continue
        crates = [word for word in re.findall(r"\w+", title) if word in source.crates()]
        for row in rows:
            wrong += row_faults(title, row)
            for name in named(row[0]):
                fits = [(crate, each) for crate, each in public if crate in crates and name in (each, f"{crate}::{each}")]
                known.update(fits)
                if len(fits) != 1:
                    wrong.append(f"docs/CONTRACTS.md, {title}: `{name}` fits {len(fits)} public functions of {', '.join(crates) or 'no crate'}")
    return known, wrong


def row_faults(title, row):
    if len(row) != 3 or not all(row):
        return [f"docs/CONTRACTS.md, {title}: the row of {row[0]} has not the three cells function, answer, ruled out"]
    if ";" not in row[2]:
        return [f"docs/CONTRACTS.md, {title}: the row of {row[0]} rules out fewer than two wrong answers (they stand with ; between)"]
    return []


def exceptions(public):
    """The functions that the table of exceptions names, and what is wrong with the table."""
    excepted, wrong = set(), []
    for row in sections().get(EXCEPTIONS, []):
        if len(row) != 2 or not all(row):
            wrong.append(f"docs/CONTRACTS.md, {EXCEPTIONS}: the row of {row[0]} has not the two cells function, cause")
        for name in re.findall(r"`([^`]*)`", row[0]):
            pair = tuple(name.split("::", 1))
            excepted.add(pair)
            if pair not in public:
                wrong.append(f"docs/CONTRACTS.md, {EXCEPTIONS}: `{name}` is no public function, as crate::function")
    return excepted, wrong


# ---- The theorems


def read(crate, file):
    path = TOP / "crates" / crate / "proofs" / file
    return path.read_text() if path.is_file() else ""


def theorem_names(function):
    short = function.name.rpartition("::")[2]
    long = function.name.lower().replace("::", "_")
    return [f"{long}_determined", f"{short}_determined"]


def statement(text, theorem):
    """What a theorem says, up to the line that proves it."""
    found = re.search(rf"^pub {re.escape(theorem)} :(.*?)^{re.escape(theorem)} ", text, re.M | re.S)
    return found and found.group(1)


def theorem_fault(function, others):
    """What is missing for the proof that one answer fits the function; None where nothing is."""
    text = read(function.crate, "Determined.antt")
    names = theorem_names(function)
    if any(theorem_names(other)[1] == names[1] for other in others):
        names = names[:1]
    says = next(filter(None, (statement(text, name) for name in names)), None)
    if says is None:
        return f"no theorem {names[-1]} in crates/{function.crate}/proofs/Determined.antt"
    if not re.search(r"^(pub )?mod Determined$", read(function.crate, "Lib.antt"), re.M):
        return f"crates/{function.crate}/proofs/Lib.antt does not declare Determined"
    alias = re.search(rf"^use Rattle\.{function.crate}\.proofs\.{re.escape(function.proof)}\.Reads as (\S+)$", text, re.M)
    if not alias or not re.search(rf"[ (]{re.escape(alias.group(1))}\.Post\b", says) or "OneAnswer" not in says:
        return f"the theorem {names[-1]} does not say OneAnswer of the contract of {function.name}"
    lent, left = function.parameters.count("&mut "), len(re.findall(r"\bs(?:\.\d)+\.now\b", says))
    if lent != left:
        return f"{function.name} is lent {lent} things to change, and the theorem {names[-1]} speaks of {left}"
    return None


# ---- All


def faults(function, functions, known, excepted):
    pair = function.crate, function.name
    if pair in excepted:
        return []
    others = [other for other in functions if other.crate == function.crate and other is not function]
    found = [
        None if re.search(r"\bensures\b", function.contract) else "it has no `ensures`",
        None if pair in known else "no row in docs/CONTRACTS.md",
        theorem_fault(function, others),
    ]
    return [fault for fault in found if fault is not None]


def where(function):
    return f"{function.file.relative_to(TOP)}:{function.line}: {function.crate}::{function.name}"


def main():
    declared = [each for crate in source.crates() for each in source.functions(crate)]
    functions = [each for each in declared if each.public]
    public = [(each.crate, each.name) for each in functions]
    known, wrong = documented(public)
    excepted, more = exceptions(public)
    wrong += more
    wrong += [f"{where(each)}: it is `pub` and has a `requires`" for each in declared if each.pub and re.search(r"\brequires\b", each.contract)]
    wrong += [f"{where(each)}: {fault}" for each in functions for fault in faults(each, functions, known, excepted)]
    return source.verdict(f"{len(functions)} public functions: {len(known)} in docs/CONTRACTS.md, {len(excepted)} exceptions", wrong)


if __name__ == "__main__":
    sys.exit(main())
