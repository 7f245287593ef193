"""The statements of a text that stand for themselves: the words behind the name, into the bytes of the trace."""
import struct

from .layout import CONTACT_KIND, FLAG_WORDS, LIFT_KIND, QUIET_KIND, RECORD, RECORD_KIND, SECOND_KIND, SETUP_KIND, Setup, on_line, setup_bytes
from .records import KEY, NO_PAGE, PARTS, SLIDER, STEP, key_rest, record, slider_rest, step_rest
from .values import AREA, FLAG, HEADER, MODE, NEXT, SIGNED, TWO_DIGITS, WORD, Fields, Mistake, quoted, some_bytes

TOUCH = bytes([RECORD_KIND])
CONTACT = struct.Struct(">BHH")
SETUP_FIELDS = {"header": HEADER, **dict.fromkeys(FLAG_WORDS, FLAG), "flags": TWO_DIGITS, "pages": WORD, "width": WORD, "height": WORD}
RECORD_FIELDS = {"page": WORD, "area": AREA, "next": NEXT, "word": WORD, "mode": MODE}
KEY_FIELDS = {**RECORD_FIELDS, "code": WORD}
STEP_FIELDS = {**RECORD_FIELDS, "up": FLAG, "down": FLAG, "stop": FLAG, "round": FLAG, "by": WORD, "least": SIGNED, "greatest": SIGNED}
SLIDER_FIELDS = {**RECORD_FIELDS, "across": FLAG, "down": FLAG, "begin": SIGNED, "end": SIGNED}


def setup(words):
    fields = Fields(words, SETUP_FIELDS)
    flags = sum(1 << bit for bit, name in enumerate(FLAG_WORDS) if name in fields)
    if "flags" in fields:
        fields.refuse_beside("flags", FLAG_WORDS, "flags is the whole flag byte")
        flags = fields.of("flags")
    return bytes([SETUP_KIND]) + setup_bytes(Setup(*fields.of("header"), flags, *(fields.of(name) for name in ("pages", "width", "height"))))


def record_of(code, fields, mode, rest):
    after = fields.of("next") if "next" in fields else NO_PAGE
    return TOUCH + record(code, fields.of("page"), fields.of("area"), after, fields.of("word"), mode, rest)


def part(fields):
    mode = fields.of("mode")
    return PARTS.get(mode, mode)


def key(words):
    fields = Fields(words, KEY_FIELDS)
    return record_of(KEY, fields, part(fields), key_rest(fields.of("code")))


def step(words):
    fields = Fields(words, STEP_FIELDS)
    ways = fields.either("up", "down"), fields.either("round", "stop")
    return record_of(STEP, fields, part(fields), step_rest(*ways, *(fields.of(name) for name in ("by", "least", "greatest"))))


def slider_mode(fields):
    """The axis stands in the mode byte."""
    mode = fields.of("mode")
    if mode not in PARTS:
        fields.refuse_beside("mode", ("across", "down"), "a number is the whole mode byte")
        return mode
    return PARTS[mode] * 16 + (not fields.either("across", "down"))


def slider(words):
    fields = Fields(words, SLIDER_FIELDS)
    rest = slider_rest(fields.of("area"), fields.of("begin"), fields.of("end"))
    return record_of(SLIDER, fields, slider_mode(fields), rest)


def plain_record(words):
    body = some_bytes(words)
    if len(body) != RECORD:
        raise Mistake(f"{len(body)} bytes: allowed are {RECORD}")
    return TOUCH + body


def contact(words):
    if len(words) != 2:
        raise Mistake(f"{len(words)} values: allowed are two, X and Y, each {WORD.allowed}")
    return CONTACT.pack(CONTACT_KIND, WORD.of(words[0]), WORD.of(words[1]))


def alone(kind):
    """A statement of its name and nothing else."""
    def statement(words):
        if words:
            raise Mistake(f"{quoted(words[0])}: allowed is nothing behind this statement's name")
        return bytes([kind])
    return statement


def line(words):
    return on_line(some_bytes(words))


STATEMENTS = {"setup": setup, "key": key, "step": step, "slider": slider, "record": plain_record, "contact": contact,
              "quiet": alone(QUIET_KIND), "lift": alone(LIFT_KIND), "second": alone(SECOND_KIND), "line": line, "bytes": some_bytes}
