#!/usr/bin/env python3
"""Spells this repository's definitions and lemmas as Rattle does: words in snake case, types and modules in camel case.

usage: tools/spell_names.py        at the top of a checkout that the kit's port.py has turned, once

A name turns where a file of specs/ or proofs/ declares it: `highByte` and `high-byte` become `high_byte`. It turns in specs/ and proofs/, in the clauses of
src/, in must-fail edits, and between backticks in comments and documents. What Rattle makes, as the names of goals, keeps its dashes, and so does a name that a
file takes from a library. A lemma that would have the name of a definition ends in `_lem`.
"""
import collections
import os
import re

MODIFIERS = r"(?:(?:abbrev|unfoldable|pattern|axiom|pub|record|data) +)*"
NAME = r"[^\s(){}.;,@\"«»`]+"
BINDERS = r"(?: +(?:\([^()\n]*(?:\([^()\n]*\)[^()\n]*)*\)|\{[^{}\n]*\}))*"
DECLARED = re.compile(rf"^ *{MODIFIERS}({NAME}){BINDERS} :(?=\s)", re.M)
GOAL = re.compile(r"\s*(?:tie|goal)\.")
ALIAS = re.compile(rf"\bas ({NAME})")
WORD = re.compile(NAME)
IMPORT = re.compile(r"^(?: *pub)? *use ([^\s{]+?)(?:\.\{([^}]*)\})?(?: as \S+)?$", re.M)
SPELLED = {
    "without5A": "without_5a",
    "without-5A-refused": "without_5a_refused",
    "settingOf003": "setting_of_003",
    "settingOf004": "setting_of_004",
    "writeOf003": "write_of_003",
}


def without_comments(text):
    return re.sub(r"--(?=\s|$)[^\n]*", "", text)


def snake(name):
    return SPELLED.get(name) or re.sub(r"(?<=[a-z0-9])([A-Z])", lambda found: "_" + found.group(1).lower(), name).replace("-", "_")


def texts(top, endings):
    for folder, folders, names in os.walk(top):
        folders[:] = sorted(f for f in folders if f not in ("out", ".git", "target"))
        for name in sorted(names):
            if name.endswith(endings):
                yield os.path.join(folder, name)


def table():
    """Each name that is declared and turns, with its new spelling; and each name that is declared, as it is spelled then."""
    declared, defined, lemmas, words_of = set(), collections.defaultdict(set), collections.defaultdict(set), {}
    for path in texts("crates", ".antt"):
        text = without_comments(open(path).read())
        for found in DECLARED.finditer(text):
            name = found.group(1)
            if GOAL.match(text[found.end():]) or "◌" in name:
                continue
            declared.add(name)
            (defined if "/specs/" in path or re.search("[A-Z]", name) else lemmas)[name].add(path.split("/")[1])
        declared.update(found for found in ALIAS.findall(text) if "◌" not in found)
        words_of[path] = set(WORD.findall(text))
    turned = {name: snake(name) for name in declared if not name[0].isupper() and snake(name) != name}
    spelled = collections.defaultdict(set)
    for name in defined:
        spelled[turned.get(name, name)].add(name)
    for name in lemmas.keys() - defined.keys():
        meets = spelled.get(turned.get(name), set())
        if any(lemmas[name] & defined[other] for other in meets) or any(name in words and words & meets for words in words_of.values()):
            turned[name] += "_lem"
    return turned, {turned.get(name, name) for name in declared}


def taken(text):
    """The names that a file takes from a library."""
    found = set()
    for module, names in IMPORT.findall(text):
        if not re.match(r"Rattle\.(?!std\b|core\b|io\b|os\b|libc\b)", module):
            found.update(name.split(" as ")[0].strip().split(".")[-1] for name in names.split(","))
    return found


def main():
    turned, spelled = table()

    def plain(found):
        """A name in a text that the kit's script leaves, which may have the spelling of before."""
        name = found.group()
        if name in turned or name[0].isupper():
            return turned.get(name, name)
        return snake(name) if snake(name) in spelled else name

    for path in texts(".", (".antt", ".rt", ".edit", ".md")):
        before = open(path).read()
        if path.endswith(".antt"):
            code = without_comments(before)
            here = {found.group(1) for found in DECLARED.finditer(code) if not GOAL.match(code[found.end():])}
            goals = {found.group(1) for found in DECLARED.finditer(code) if GOAL.match(code[found.end():])}
            kept = (taken(code) - here) | goals
            aliases = set(ALIAS.findall(code))

            def turn(found):
                name = found.group()
                if name in kept or name not in turned:
                    return name
                return snake(name) if name in aliases else turned[name]

            after = WORD.sub(turn, before)
        elif path.endswith(".rt"):
            after = re.sub(r"\b[a-z]\w*[A-Z]\w*\b", lambda found: turned.get(found.group(), found.group()), before)
            after = re.sub(r"`[^`\n]*`", lambda span: WORD.sub(plain, span.group()), after)
        elif path.endswith(".edit"):
            lines = before.split("\n")
            after = "\n".join(
                re.sub(r"`[^`\n]*`", lambda span: WORD.sub(plain, span.group()), line) if line.startswith("#") else WORD.sub(plain, line)
                for line in lines
            )
        else:
            after = re.sub(r"`[^`\n]*`", lambda span: WORD.sub(plain, span.group()), before)
        if after != before:
            open(path, "w").write(after)


main()
