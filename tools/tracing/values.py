"""The values that a text may give, each with what is allowed in words; and the fields of a statement."""
import re

from .records import NO_PAGE, PARTS

NUMBER = re.compile("-?[0-9]{1,20}|0[xX][0-9A-Fa-f]{1,16}")     # longer ones are out of every range
BYTE = re.compile("[0-9A-Fa-f]{2}")
LONGEST_QUOTE = 40
MOST_KNOWN = 1 << 17


class Mistake(Exception):
    """What is wrong with a text."""


def quoted(word):
    """A word of the text, fit for a terminal."""
    return repr(word if len(word) <= LONGEST_QUOTE else word[:LONGEST_QUOTE] + "...")


class Value:
    """`read` gives None for what is not allowed. What was read once is known: a long text has few values, each of them often."""
    count = 1

    def __init__(self, allowed, read):
        self.allowed, self.read, self.known = allowed, read, {}

    def of(self, word):
        value = self.known.get(word)
        if value is None:
            value = self.read(word)
            if value is None:
                raise Mistake(f"{quoted(word)}: allowed is {self.allowed}")
            if len(self.known) < MOST_KNOWN:
                self.known[word] = value
        return value


class Several:
    """So many values of one kind; none for a field that its name says all of."""

    def __init__(self, count, value):
        self.count, self.value = count, value
        self.allowed = f"{value.allowed}, {count} times"

    def of(self, words):
        return [self.value.of(word) for word in words]


def read_number(word, least, greatest):
    if not NUMBER.fullmatch(word):
        return None
    value = int(word, 16 if word[:2] in ("0x", "0X") else 10)
    return value if least <= value <= greatest else None


def number(least, greatest):
    return Value(f"a number, decimal or hex after 0x, from {least} to {greatest}", lambda word: read_number(word, least, greatest))


def read_signed(word):
    """Decimal numbers have a sign; hex gives the two bytes themselves."""
    if word[:2] not in ("0x", "0X"):
        return read_number(word, -32768, 32767)
    value = read_number(word, 0, 65535)
    return value if value is None or value < 32768 else value - 65536


def read_byte(word):
    return int(word, 16) if BYTE.fullmatch(word) else None


def read_next(word):
    return NO_PAGE if word == "none" else read_number(word, 0, 65535)


def read_mode(word):
    """A part's name, or the mode byte as a number."""
    return word if word in PARTS else read_number(word, 0, 255)


TWO_DIGITS = Value("a byte of two hex digits", read_byte)
WORD = number(0, 65535)
SIGNED = Value("a decimal number from -32768 to 32767, or the two bytes in hex, 0x0000 to 0xFFFF", read_signed)
NEXT = Value("none or " + WORD.allowed, read_next)
MODE = Value("word, high, low or " + number(0, 255).allowed, read_mode)
HEADER = Several(2, TWO_DIGITS)
AREA = Several(4, WORD)
FLAG = Several(0, WORD)


def some_bytes(words):
    """Bytes of two hex digits each, at least one."""
    if not words:
        raise Mistake(f"bytes are missing: allowed is {TWO_DIGITS.allowed}, once or more often")
    try:
        if set(map(len, words)) == {2}:
            return bytes.fromhex("".join(words))
    except ValueError:
        pass
    return bytes(TWO_DIGITS.of(word) for word in words)


# ---- Fields

def leading_fields(words, known):
    """The values of the fields that stand in front, and the words behind the last of them."""
    found, at, name = {}, 0, ""
    try:
        while at < len(words) and words[at] in known:
            name, begin = words[at], at + 1
            value = known[name]
            at = begin + value.count
            if name in found:
                raise Mistake("stands here twice: allowed is once")
            if at > len(words):
                raise Mistake(f"{len(words) - begin} of {value.count} given: allowed is {value.allowed}")
            found[name] = value.of(words[begin] if value.count == 1 else words[begin:at])
    except Mistake as mistake:
        raise Mistake(f"{name}: {mistake}") from None
    return found, words[at:]


class Fields:
    """The fields of a statement that has nothing else."""

    def __init__(self, words, known):
        self.known = known
        self.found, rest = leading_fields(words, known)
        if rest:
            raise Mistake(f"{quoted(rest[0])} is no field here: allowed is {', '.join(known)}")

    def __contains__(self, name):
        return name in self.found

    def of(self, name):
        if name not in self.found:
            raise Mistake(f"{name}: is missing: allowed is {self.known[name].allowed}")
        return self.found[name]

    def either(self, first, second):
        """True for the first."""
        if (first in self.found) == (second in self.found):
            raise Mistake(f"{first}, {second}: {'both' if first in self.found else 'none'} given: allowed is one of the two")
        return first in self.found

    def refuse_beside(self, name, others, reason):
        for other in others:
            if other in self.found:
                raise Mistake(f"{other}: stands beside {name}: allowed is one of the two: {reason}")
