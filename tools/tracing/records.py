"""A touch record: its fields in bytes, and in words where the words say every byte."""
import struct
from typing import NamedTuple

from .layout import spelled

KEY, STEP, SLIDER = 0xFE05, 0xFE02, 0xFE03
NAMES = {KEY: "key", STEP: "step", SLIDER: "slider"}
PARTS = {"word": 0, "high": 1, "low": 2}
PART_NAMES = {part: name for name, part in PARTS.items()}
NO_PAGE = 0xFF00
IGNORED = 0xFF00        # what is written where 01 ignores the field 0C
MARK = 0xFE             # the byte at 10

HEAD = struct.Struct(">HHHHHHHHBHB")        # the fields 00 to 13, as Head names them
KEY_REST = struct.Struct(">H10x")
STEP_REST = struct.Struct(">BBHhhB3x")
SLIDER_REST = struct.Struct(">HHHHhh")


class Head(NamedTuple):
    page: int
    xs: int
    ys: int
    xe: int
    ye: int
    next: int
    ignored: int
    code: int
    mark: int
    word: int
    mode: int


# ---- Into bytes

def record(code, page, area, after, word, mode, rest):
    return HEAD.pack(page, *area, after, IGNORED, code, MARK, word, mode) + rest


def key_rest(code):
    return KEY_REST.pack(code)


def step_rest(up, around, by, least, greatest):
    return STEP_REST.pack(up, around, by, least, greatest, 1)


def slider_rest(area, begin, end):
    return SLIDER_REST.pack(*area, begin, end)


# ---- Into words

def part_text(mode):
    return PART_NAMES.get(mode, mode)


def key_text(head, rest):
    code, = KEY_REST.unpack(rest)
    return f"mode={part_text(head.mode)} code=0x{code:04X}", key_rest(code)


def step_text(head, rest):
    up, around, by, least, greatest, _ = STEP_REST.unpack(rest)
    ways = f"{'up' if up else 'down'} {'round' if around else 'stop'}"
    return f"mode={part_text(head.mode)} {ways} by={by} least={least} greatest={greatest}", step_rest(up > 0, around > 0, by, least, greatest)


def slider_text(head, rest):
    *_, begin, end = SLIDER_REST.unpack(rest)
    part, axis = divmod(head.mode, 16)
    name = f"{PART_NAMES[part]} {('across', 'down')[axis]}" if part in PART_NAMES and axis < 2 else head.mode
    return f"mode={name} begin={begin} end={end}", slider_rest(head[1:5], begin, end)


KIND_TEXTS = {KEY: key_text, STEP: step_text, SLIDER: slider_text}


def next_text(page):
    """Nothing where none is what is written for it; another FFxx in hex."""
    if page == NO_PAGE:
        return ""
    return f" next=0x{page:04X}" if page > NO_PAGE else f" next={page}"


def record_text(body):
    """As key, step or slider where that says every byte, else byte by byte."""
    head, rest = Head(*HEAD.unpack_from(body)), body[HEAD.size:]
    if head.code in KIND_TEXTS and head.ignored == IGNORED and head.mark == MARK:
        words, said = KIND_TEXTS[head.code](head, rest)
        if said == rest:
            area = f"area={head.xs},{head.ys}..{head.xe},{head.ye}"
            return f"{NAMES[head.code]} page={head.page} {area}{next_text(head.next)} word=0x{head.word:04X} {words}"
    return f"record {spelled(body)}"
