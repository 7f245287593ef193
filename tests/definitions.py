#!/usr/bin/env python3
"""Tells the definitions that have to be believed from those that only hold the code together, and holds crates/*/specs/ to it.

    tests/definitions.py [--list] [--paper FILE ..]

A definition has to be believed where the promise (`ensures`) of a public function, or a theorem that docs/CLAIMS.md names, speaks of it or of another one
that does, or where docs/CLAIMS.md names it. Then a comment stands right above it: it quotes the sentence that the definition states or, where there is
none, says what word of ours it is. Every other definition of specs/ stands in a file called Inner.antt, which says so in its first line; and no promise or
claim may come to speak of one that stands there. Where a claim has words of its own, defined beside it in proofs/, they have a comment as well.

--list prints each definition that has to be believed and quotes nothing, with its comment. --paper holds every quotation of specs/ and proofs/ to the printed
text: what stands in quotation marks, part by part between ".." or [our own words], must stand in one of the files. An entry of a table is quoted with | between
its columns, or with : behind its number.
"""
import argparse
import collections
import dataclasses
import functools
import pathlib
import re
import sys

import source
from source import TOP

INNER = "Inner.antt"
INNER_BEGINS = "-- No public promise cites this file: "
WORD = r"[^\s(){};,.λ→]+"
# The first line of a declaration; a clause and what it unfolds are none.
DECLARES = re.compile(r"((?:(?:abbrev|unfoldable|pub) )*)(?:(data|record) (%s)|(%s) :(?=\s|$))" % (WORD, WORD))
COMPUTES = {"abbrev", "unfoldable", "data", "record"}


# ---- Declarations


@dataclasses.dataclass(frozen=True)
class Declaration:
    crate: str
    file: pathlib.Path
    name: str
    # Which of `pub`, `abbrev`, `unfoldable`, `data`, `record` stand before the name.
    words: frozenset
    # The comment right above it, and where its text, without that, begins and ends in the file.
    comment: str
    begin: int
    end: int
    # What it says, comments left out: of a definition all, of a theorem what is proved; and the parameters of the modules around it.
    says: str

    def text(self):
        return self.file.read_text()[self.begin:self.end]

    def told(self):
        return f"{self.file.relative_to(TOP)}: {self.name}"

    def beside(self, other):
        """The two as one, where another module of the file declares the name too."""
        return self if other is None else dataclasses.replace(self, comment=self.comment and other.comment, says=f"{other.says}\n{self.says}")


def without_comments(text):
    """The text with comments as spaces, each other character at its place."""
    return re.sub(r"--(?=\s|$)[^\n]*", lambda found: " " * len(found.group()), text)


def comment_above(lines, at):
    """The comment right above a line; declarations of fixity may stand between."""
    while at > 0 and lines[at - 1].startswith("infix"):
        at -= 1
    found = []
    while at > 0 and lines[at - 1].lstrip().startswith("--"):
        at -= 1
        found.insert(0, lines[at].strip().removeprefix("--").strip())
    return " ".join(found)


def outlined(lines):
    """Each declaration of a file: its first line's number and the one behind its last line, and the parameters of the modules around it."""
    modules, found, at = [], [], 0
    while at < len(lines):
        first, body = at, lines[at].lstrip()
        at += 1
        if not body or body.startswith(("--", "use ", "mod ", "pub mod ", "infix")):
            continue
        depth = len(lines[first]) - len(body)
        while modules and depth <= modules[-1][0]:
            modules.pop()
        top = depth == (modules[-1][0] + 2 if modules else 0)
        if top and body.startswith("module "):
            while not lines[at - 1].rstrip().endswith("where"):
                at += 1
            modules.append((depth, " ".join(lines[first:at])))
        elif top and DECLARES.match(body):
            found.append([first, at, [parameters for _, parameters in modules]])
        elif found:
            found[-1][1] = at
    return found


def statement(lines):
    """The lines of a theorem before those that prove it, which stand as far to the right as its first."""
    depth = len(lines[0]) - len(lines[0].lstrip())
    count = next((n for n, line in enumerate(lines) if n and line[depth:depth + 1].strip()), len(lines))
    return lines[:count]


def declarations_in(crate, side, file):
    text = file.read_text()
    lines = text.split("\n")
    begins = [0]
    for line in lines:
        begins.append(begins[-1] + len(line) + 1)
    for first, behind, parameters in outlined(lines):
        form = DECLARES.match(lines[first].lstrip())
        words = frozenset(filter(None, [*form.group(1).split(), form.group(2)]))
        body = lines[first:behind]
        says = without_comments("\n".join([*parameters, *(body if side == "specs" or words & COMPUTES else statement(body))]))
        yield Declaration(crate, file, form.group(3) or form.group(4), words, comment_above(lines, first), begins[first], min(begins[behind], len(text)), says)


@functools.cache
def declarations():
    """Each declaration of specs/ and proofs/, by its crate, the one of the two, its module and its name."""
    found = {}
    for crate in source.crates():
        for side in ("specs", "proofs"):
            folder = TOP / "crates" / crate / side
            for file in sorted(folder.rglob("*.antt")):
                module = ".".join(file.relative_to(folder).with_suffix("").parts)
                for each in declarations_in(crate, side, file):
                    key = crate, side, module, each.name
                    found[key] = each.beside(found.get(key))
    return found


def definitions(side="specs"):
    """What specs/ declares, or what proofs/ declares and does not prove."""
    return {key: each for key, each in declarations().items() if key[1] == side and (side == "specs" or each.words & COMPUTES)}


# ---- What a text speaks of


@functools.cache
def members():
    """The constructors of each `data`: a name of one stands for its type. Fields need not be looked for: what has one has its type named."""
    found = {}
    for key, each in declarations().items():
        if "data" in each.words:
            for member in re.findall(r"^ +(?:pub )?(%s) :" % WORD, each.says, re.M):
                found[(*key[:3], member)] = key
    return found


@functools.cache
def uses(file):
    """What each name that a file uses stands for, and which of them stand for whole modules."""
    names, modules = {}, {}
    form = r"^\s*(?:ghost )?use Rattle\.(\w+)\.(specs|proofs)\.(\w+(?:\.\w+)*)(?:\.\{([^}]*)\}| as (\S+?));?$"
    for crate, side, module, listed, alias in re.findall(form, file.read_text(), re.M):
        for name in source.split_items(listed):
            old, _, new = name.partition(" as ")
            names[(new or old).strip()] = (crate, side, module, old.strip())
        if alias:
            modules[alias] = (crate, side, module)
    return names, modules


def spoken_of(text, file, own=()):
    """The declarations that a text of a file names; `own` is the crate, side and module that the file is."""
    names, modules = uses(file)
    keys = [(*modules[alias], name) for alias, name in re.findall(r"(?<![^\s(){};,])(%s)\.(%s)" % (WORD, WORD), text) if alias in modules]
    for word in set(re.findall(WORD, text)):
        # An operator stands between or around what it is applied to.
        for name in {word, f"◌{word}◌", f"◌{word}", f"{word}◌"}:
            keys.append(names.get(name) or (*own, name))
    return {members().get(key, key) for key in keys} & declarations().keys()


@functools.cache
def cites(key):
    """The declarations that a declaration speaks of."""
    each = declarations()[key]
    return spoken_of(each.says, each.file, key[:3]) - {key}


# ---- What has to be believed


def promised():
    """What the promises of public functions speak of, each with those functions."""
    found = collections.defaultdict(set)
    for crate in source.crates():
        for function in source.functions(crate):
            if function.public:
                for key in spoken_of(function.contract, function.file):
                    found[key].add(f"the promise of {crate}::{function.name}")
    return found


def claimed():
    """The theorems and definitions that docs/CLAIMS.md names. Of crates that share a name the one is meant that stands before it, as in `text::longest_line`;
    else those that the section speaks of, where there are such."""
    named = collections.defaultdict(list)
    for key, each in declarations().items():
        if "pub" in each.words:
            named[each.name].append(key)
    found = collections.defaultdict(set)
    for section in re.split(r"^## ", (TOP / "docs" / "CLAIMS.md").read_text(), flags=re.M):
        crates = {crate for crate in source.crates() if re.search(rf"(?<![\w/]){crate}/|[Cc]rates? `?{crate}\b", section)}
        for text in re.findall(r"`([^`\s]+)`", section):
            crate, _, name = text.rpartition("::")
            meant = [key for key in named[name] if key[0] in ({crate} if crate else crates)]
            for key in meant or named[text]:
                found[key].add(f"the claim {key[0]} {name}")
    return found


def reached_from(causes):
    """Each declaration that is spoken of, by a cause or by another that is, with what first led to it."""
    reached = {key: min(each) for key, each in sorted(causes.items())}
    todo = list(reached)
    while todo:
        key = todo.pop()
        for other in sorted(cites(key) - reached.keys()):
            reached[other] = reached[key]
            todo.append(other)
    return reached


@functools.cache
def believed():
    """Each declaration that has to be believed, with what first led to it."""
    return reached_from({**claimed(), **promised()})


# ---- Quotations


def plain(text):
    """A text without marks of form, and with one blank between any two words."""
    return " ".join(re.sub(r"[*`\\|]", " ", text).split()).replace("“", '"').replace("”", '"')


def quotations(comment):
    """The parts of what a comment quotes, as `plain` has them."""
    for quoted in re.findall(r'"([^"]*)"', comment):
        for part in re.split(r"\.\.|\[[^\]]*\]", re.sub(r"^(\d+): ", r"\1 ", quoted)):
            part = plain(part).strip(" .,;:")
            if part:
                yield part


def comments_of(text):
    """The comments of a file, each with the lines that belong to it as one."""
    return [re.sub(r"\n *--", " ", found) for found in re.findall(r"^ *--(?:\s[^\n]*(?:\n *--\s[^\n]*)*)?", text, re.M)]


def misquoted(papers):
    printed = " ".join(plain(pathlib.Path(paper).read_text()) for paper in papers)
    for file in sorted({each.file for each in declarations().values()}):
        for comment in comments_of(file.read_text()):
            for part in quotations(comment):
                if part not in printed and part.replace("'", '"') not in printed:
                    yield f'{file.relative_to(TOP)}: "{part}" is not printed'


# ---- All


def to_be_believed(side):
    return [each for key, each in definitions(side).items() if key in believed()]


def faults():
    for key, each in definitions("specs").items():
        inner, cause = each.file.name == INNER, believed().get(key)
        if inner and cause:
            yield f"{each.told()}: {cause} speaks of it, and it stands among the inner ones"
        if not inner and not cause:
            yield f"{each.told()}: no promise and no claim speaks of it, and it does not stand in {INNER}"
    for each in [*to_be_believed("specs"), *to_be_believed("proofs")]:
        if not each.comment:
            yield f"{each.told()}: nothing stands above it"
    for file in sorted((TOP / "crates").glob(f"*/specs/{INNER}")):
        if not file.read_text().startswith(INNER_BEGINS):
            yield f"{file.relative_to(TOP)}: its first line does not begin with '{INNER_BEGINS.strip()}'"


def quotes(each):
    return re.search(r'".+"', each.comment) is not None


def main():
    parser = argparse.ArgumentParser(description=__doc__.split("\n")[0])
    parser.add_argument("--list", action="store_true", help="print each definition that has to be believed and quotes nothing")
    parser.add_argument("--paper", nargs="+", default=[], metavar="FILE", help="hold every quotation to these texts")
    asked = parser.parse_args()
    if asked.list:
        found = [*to_be_believed("specs"), *to_be_believed("proofs")]
        print("\n".join(f"{each.told()}: {each.comment}" for each in found if not quotes(each)))
    wrong = [*faults(), *(misquoted(asked.paper) if asked.paper else [])]
    outer = to_be_believed("specs")
    return source.verdict(f"{len(definitions('specs'))} definitions: {len(outer)} to be believed, {sum(map(quotes, outer))} of them under a quotation", wrong)


if __name__ == "__main__":
    sys.exit(main())
