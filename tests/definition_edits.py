"""Which small edits there are of the definitions under crates/*/specs/ that the promise of a public function speaks of. Found by a scan, not by a parser.

Only right sides are edited, never a type. `tests/mutants --definitions` makes the edits and asks the prover of them.
"""
import itertools
import re

import code_edits
import definitions
import source

# What is put for a name or a sign. For `not` there is nothing.
OTHERS = {
    "ltb": "leb", "leb": "ltb", "lt_z": "le_z", "le_z": "lt_z", "<": "≤", "≤": "<", "&&": "||", "||": "&&", "true": "false", "false": "true", "not": "",
}

# Where a file has to take the names from that an edit may bring in.
FROM = {
    **dict.fromkeys(["ltb", "leb", "◌<◌", "◌≤◌", "◌&&◌", "◌||◌", "true", "false"], "Rattle.std.specs.Prelude"),
    **dict.fromkeys(["lt_z", "le_z"], "Rattle.std.specs.Int.Signed"),
}

SIGNS = {"∷", "++", "&&", "||", "+", "-", "*", "/", "%", "^", "+ℤ", "-ℤ", "≡", "<", "≤", "×", "⊎", "when"}
NUMBER = r"0x[0-9A-F]+|\d+"

# The definitions that say the number of an answer, or list the conditions in order.
ANSWERS = re.compile(r"number_of_\w+|\w+_number|\w+_said|\w+_listed")


class Part:
    """A word, or a bracket with the parts inside it, at its place in the text."""

    def __init__(self, text, begin, end, inside=None):
        self.text, self.begin, self.end, self.inside = text[begin:end], begin, end, inside


def parts(text, begin, end):
    """The words and brackets of a stretch of text, brackets kept whole."""
    found = []
    while True:
        word = re.compile(r"[(){}]|[;,]|[^\s(){};,]+").search(text, begin, end)
        if word is None:
            return found
        begin = word.end()
        if word.group() in source.CLOSING:
            begin = source.behind(text, word.start())
            found.append(Part(text, word.start(), begin, parts(text, word.end(), begin - 1)))
        else:
            found.append(Part(text, *word.span()))


def divides(part):
    """`let`, `in` and the like, and the dot behind the names that a λ binds."""
    return part.text in ("let", "=", "in", ";", ",", "λ", "→", ":") or re.fullmatch(r"[^.]+\.", part.text)


def split(these, divider):
    """What stands between the dividers, in order, empty stretches left out."""
    return [list(group) for is_divider, group in itertools.groupby(these, key=lambda part: bool(divider(part))) if not is_divider]


def expressions(these):
    """Every expression of a right side, as the parts that it is made of; those inside brackets too."""
    yield from split(these, divides)
    for part in these:
        if part.inside is not None:
            yield from expressions(part.inside)


def every(these):
    for part in these:
        yield part
        yield from every(part.inside or [])


def exchanged(text, one, other):
    """Two stretches, the first before the second, with what stands between them kept."""
    (begin, middle), (onward, end) = one, other
    old = text[begin:end]
    return begin, old, text[onward:end] + text[middle:onward] + text[begin:middle]


def span(these):
    return these[0].begin, these[-1].end


# ---- What is edited in a right side


def numbers(these):
    before = None
    for part in every(these):
        if re.fullmatch(NUMBER, part.text) and before != "Type":
            for other in code_edits.off_by_one(part.text):
                yield "number", part.begin, part.text, other
        before = part.text


def bounds(these):
    for part in every(these):
        if part.text in OTHERS:
            yield "bound", part.begin, part.text, OTHERS[part.text]


def is_test(expression):
    return len(expression) == 4 and expression[0].text == "cond"


def tests(text, these):
    """`cond`: the two branches exchanged; and the first two tests of a list of which the first that holds counts, each with what it leads to."""
    for expression in expressions(these):
        if is_test(expression):
            yield "branches", *exchanged(text, *([part.begin, part.end] for part in expression[2:]))
            later = expression[3].inside
            if later and is_test(later):
                yield "order", *exchanged(text, span(expression[1:3]), span(later[1:3]))


def lists(text, these):
    """Two neighbours of a list, and the two sides of ++."""
    for expression in expressions(these):
        signs = {part.text for part in expression if part.text in SIGNS}
        entries = split(expression, lambda part: part.text == "∷")[:-1] if "∷" in signs and "++" not in signs else []
        joined = split(expression, lambda part: part.text == "++") if "++" in signs and "∷" not in signs else []
        for one, other in [*itertools.pairwise(entries), *itertools.pairwise(joined)]:
            yield "order", *exchanged(text, span(one), span(other))


def differences(text, these):
    for expression in expressions(these):
        operands = split(expression, lambda part: part.text in SIGNS)
        for one, other in itertools.pairwise(operands):
            if text[one[-1].end:other[0].begin].strip() in ("-", "-ℤ"):
                yield "difference", *exchanged(text, span(one), span(other))


def fields(text, these, like):
    """A field for another of the same type, and the values of two neighbours of the same type."""
    for part in every(these):
        for found in re.finditer(r"\.(\w+)", part.text) if part.inside is None else ():
            for other in sorted(like.get(found.group(1), ())):
                yield "field", part.begin + found.start(1), found.group(1), other
        if part.inside and part.text.startswith("{"):
            given = split(part.inside, lambda each: each.text == ";")
            for one, other in itertools.pairwise(given):
                if other[0].text in like.get(one[0].text, ()):
                    yield "field", *exchanged(text, span(one[2:]), span(other[2:]))


def clauses(text, begin, end):
    """The left and the right side of each clause of a definition, as parts."""
    starts = [found.start() for found in re.compile(r"^\S", re.M).finditer(text, begin, end)][1:]
    for start, after in zip(starts, [*starts[1:], end]):
        these = parts(text, start, after)
        equals = next(at for at, part in enumerate(these) if part.text == "=")
        yield these[:equals], these[equals + 1:]


def cases(text, sides):
    """The right sides of two neighbouring clauses, where neither speaks of what only its own left side binds."""
    for (one, first), (other, second) in itertools.pairwise(sides):
        left, right = ({part.text for part in every(each)} for each in (one, other))
        free = not any(part.text.partition(".")[0] in left ^ right for part in every([*first, *second]))
        if free and [part.text for part in first] != [part.text for part in second]:
            yield "cases", *exchanged(text, span(first), span(second))


# ---- Types


def plain(kind):
    """A field's type as definitions see it: every number is a whole number."""
    return "ℕ" if re.fullmatch(r"[ui](8|16|32|64|size)", kind) else kind


def like_fields(crates):
    """For each field's name, the fields of the same type in the structs and records that have it."""
    declared = [[re.sub(r"^pub\s+", "", item).split(": ", 1) for item in items] for crate in crates for _, items in source.declared(crate, "struct")]
    for each in definitions.definitions().values():
        if each.crate in crates and re.match(r"(pub )?record ", each.text()):
            declared.append(re.findall(r"^  (?:pub )?(\S+) : (.*)$", each.text(), re.M))
    others = {}
    for these in declared:
        for name, kind in these:
            others.setdefault(name, set()).update(other for other, its in these if plain(its) == plain(kind) and other != name)
    return others


# ---- A crate


def promised(crate):
    """The definitions of a crate that the promise of a public function speaks of, or another such definition; types left out."""
    reached = definitions.reached_from(definitions.promised())
    for key, each in definitions.definitions().items():
        if each.crate == crate and key in reached and not re.match(r"(pub )?(data|record) ", each.text()):
            yield each


def edits(each, like):
    """All edits of one definition: file, kind, place, old and new text."""
    text = definitions.without_comments(each.file.read_text())
    sides = list(clauses(text, each.begin, each.end))
    found = list(cases(text, sides))
    for _, these in sides:
        found += [*numbers(these), *bounds(these), *tests(text, these), *lists(text, these), *differences(text, these), *fields(text, these, like)]
    whole = each.file.read_text()
    for kind, begin, old, new in found:
        if old != new and whole[begin:begin + len(old)] == old:
            yield each.file, kind, begin, old, new


def edits_of(crate):
    """All edits of a crate's definitions, by their names."""
    like = like_fields(source.known_to(crate))
    found = {}
    for each in promised(crate):
        found.setdefault(each.name, []).extend(edits(each, like))
    return found


def with_names(text):
    """A file that takes in all the names of `FROM` that it uses."""
    code = re.sub(r"^use .*$", "", definitions.without_comments(text), flags=re.M)
    used = set(re.findall(r"[^\s(){};,]+", code))
    for name, module in FROM.items():
        if name.strip("◌") in used and not re.search(r"^use .*[{ ]%s[,}]" % re.escape(name), text, re.M):
            text = re.sub(r"^(use %s\.\{)" % re.escape(module), r"\g<1>%s, " % name, text, count=1, flags=re.M)
    return text
