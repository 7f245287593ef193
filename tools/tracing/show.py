"""A trace as text that assembles to the same bytes, whatever they are.

The trace is cut into pieces of many records, and what costs a step of Python for each record of one or two bytes is kept small: a trace of 10 MB
has up to ten million of them.
"""
import functools
import re
import struct

from . import clock
from .checks import Checks, check_value
from .layout import BODIES, BYTE_KIND, CONTACT_KIND, FLAG_WORDS, LIFT_KIND, QUIET_KIND, RECORD_KIND, SECOND_KIND, SETUP_KIND, bodies, setup_of, spelled
from .records import record_text

LINE_WIDTH = 16
SHORT = 64
PLAIN = {QUIET_KIND: "quiet\n", LIFT_KIND: "lift\n", SECOND_KIND: "second\n"}
FLAGS = ["".join(f" {name}" for bit, name in enumerate(FLAG_WORDS) if flags >> bit & 1) if flags < 1 << len(FLAG_WORDS) else f" flags={flags:02X}"
         for flags in range(256)]
HOW = {0x0000: "", 0x4000: "badly "}      # by what is turned over of the check value
LEAST_FRAME = 4
ONE_BYTE = [f"line {byte:02X}\n" for byte in range(256)]


def setup_text(h1, h2, flags, pages, width, height):
    return f"setup header={h1:02X} {h2:02X}{FLAGS[flags]} pages={pages} width={width} height={height}\n"


def setup_lines(run):
    return "".join([setup_text(*values) for values in struct.iter_unpack(">xBBBHHH", run)])


def record_lines(run):
    return "".join(record_text(body) + "\n" for body in bodies(RECORD_KIND, run))


def contact_text(body):
    return "contact %d %d" % struct.unpack(">HH", body)


@functools.lru_cache(1 << 10)
def plain_lines(run):
    """Marks, lifts and seconds; short runs of them are often the same."""
    return run.decode().translate(PLAIN)


def byte_lines(name, given):
    if len(given) <= LINE_WIDTH:
        return f"{name} {spelled(given)}\n"
    return "".join([f"{name} {spelled(given[at:at + LINE_WIDTH])}\n" for at in range(0, len(given), LINE_WIDTH)])


# ---- Line bytes

def checks_of(line):
    """The check value of a piece; in a short stretch nothing is gained by working out all of them at once."""
    return Checks(line).of if len(line) > SHORT else lambda begin, end: check_value(line[begin:end])


def frame_text(how, content):
    """A frame that sets the clock has beside it to what."""
    said = content[0] == 0x80 and not how and clock.setting_text(content[1:])
    return f"frame {how}{spelled(content)}{f'    # {said}' if said else ''}\n"


def frames(setup, line):
    """The frames that a `frame` statement of few words gives: where each begins and ends, and its text."""
    header, ending, size = setup.header, 2 if setup.checking else 0, len(line)
    p, check_of = line.find(header), None
    while 0 <= p <= size - LEAST_FRAME:
        length, how = line[p + 2], None
        end = p + 3 + length
        if length > ending and end <= size:
            if ending:
                check_of = check_of or checks_of(line)
                how = HOW.get(check_of(p + 3, end - 2) ^ line[end - 2] ^ line[end - 1] << 8)
            else:
                how = ""
        if how is None:
            p = line.find(header, p + 1)
        else:
            yield p, end, frame_text(how, line[p + 3:end - ending])
            p = line.find(header, end)


def framed_lines(setup, line):
    """The text of line bytes that stand together and have frames among them, or what looks like one."""
    texts, begun = [], 0
    for begin, end, text in frames(setup, line):
        if begun < begin:
            texts.append(byte_lines("line", line[begun:begin]))
        texts.append(text)
        begun = end
    if begun < len(line):
        texts.append(byte_lines("line", line[begun:]))
    return "".join(texts)


@functools.lru_cache(1 << 14)
def short_framed_lines(setup, line):
    """The same, kept: short stretches between other events are often the same few frames."""
    return framed_lines(setup, line)


def line_lines(setup, line):
    """The text of line bytes that stand together."""
    if not setup or len(line) < LEAST_FRAME or setup.header not in line:
        return byte_lines("line", line)
    return (short_framed_lines if len(line) <= SHORT else framed_lines)(setup, line)


# ---- The whole

def one_of(kind):
    return b"(?:%s%s)" % (re.escape(bytes([kind])), b"." * BODIES[kind])


def named(patterns):
    return b"|".join(rb"(?P<%s>%s)" % (name.encode(), pattern) for name, pattern in patterns.items())


# Line bytes, or none, and behind them marks, lifts and seconds, or a contact.
LINE, PLAIN_RUN, CONTACT = one_of(BYTE_KIND) + b"*+", b"[%s]{1,4096}" % re.escape(bytes(PLAIN)), one_of(CONTACT_KIND)
TURN = re.compile(b"(%s)(?:(%s)|(%s))" % (LINE, PLAIN_RUN, CONTACT), re.DOTALL)

# A stretch of line bytes is always whole, since frames are looked for in it.
PIECE = re.compile(named({
    "turns": b"(?:%s(?:%s|%s)){1,256}" % (LINE, PLAIN_RUN, CONTACT),
    "line": one_of(BYTE_KIND) + b"++",
    "setups": one_of(SETUP_KIND) + b"{1,256}",
    "records": one_of(RECORD_KIND) + b"{1,256}",
    "rest": b".+",
}), re.DOTALL)


def turn_lines(setup, turns):
    texts = []
    for line, plain, contact in TURN.findall(turns):
        if len(line) == 2:
            texts.append(ONE_BYTE[line[1]])
        elif line:
            texts.append(line_lines(setup, line[1::2]))
        texts.append(plain_lines(plain) if plain else contact_text(contact[1:]) + "\n")
    return "".join(texts)


def piece_lines(name, setup, piece):
    if name == "turns":
        return turn_lines(setup, piece)
    if name == "line":
        return line_lines(setup, piece[1::2])
    if name == "setups":
        return setup_lines(piece)
    return record_lines(piece) if name == "records" else byte_lines("bytes", piece)


def shown(trace):
    """The text of a trace, in pieces of whole lines."""
    setup = None
    for found in PIECE.finditer(trace):
        name, piece = found.lastgroup, found[0]
        if name == "setups":
            setup = setup_of(piece[-BODIES[SETUP_KIND]:])
        yield piece_lines(name, setup, piece)


def text_of(trace):
    return "".join(shown(trace))
