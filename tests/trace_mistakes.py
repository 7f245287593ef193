#!/usr/bin/env python3
"""Texts that tools/trace must not assemble, and what it says to each: the line, the field, the value and what is allowed; and what right
ones mean and are shown as.

How the tool is called, and what comes of its pipes and files, is tried in trace_calls.py.
"""
import itertools
import sys

from trace_text import Mistake, decoded, text_of, trace_of

SETUP = "setup header=5A A5 checking pages=2 width=800 height=480\n"
BARE = SETUP.replace("checking ", "")
FIELDS = " page=0 area=0,0..9,9 word=0x10 mode=word"
KEY, STEP, SLIDER = f"key{FIELDS}", f"step{FIELDS} up stop by=1", f"slider{FIELDS} across"
WORD = "allowed is a number, decimal or hex after 0x, from 0 to 65535"
SIGNED = "allowed is a decimal number from -32768 to 32767, or the two bytes in hex, 0x0000 to 0xFFFF"
BYTE = "allowed is a byte of two hex digits"

MISTAKES = [
    # Statements
    ("lin 00", "line 1: 'lin' is no statement: allowed is setup, key, step,"),
    ("# a comment\n\nline", "line 3: line: bytes are missing: " + BYTE),
    ("line 5", "line 1: line: '5': " + BYTE),
    ("line 5A G0", "line 1: line: 'G0': " + BYTE),
    ("line 5 5", "line 1: line: '5': " + BYTE),
    ("line 00 5AA5", "line 1: line: '5AA5': " + BYTE),
    (SETUP + "record 00 01", "line 2: record: 2 bytes: allowed are 32"),
    (SETUP + "contact 1", "line 2: contact: 1 values: allowed are two, X and Y, each a number"),
    (SETUP + "contact 1 65536", "line 2: contact: '65536': " + WORD),
    (SETUP + "quiet 1", "line 2: quiet: '1': allowed is nothing behind"),
    (SETUP + "second 5", "line 2: second: '5': allowed is nothing behind"),
    (SETUP + "seconds", "line 2: 'seconds' is no statement: allowed is setup, key, step, slider, record, contact, quiet, lift, second, line"),
    ("lift \x85\u202e\u00e4", r"line 1: lift: '\u202eä': allowed is nothing behind"),
    ("lift " + "1" * 1000, f"line 1: lift: '{'1' * 40}...': allowed is nothing behind"),
    # Fields
    ("setup header=5A A5 pages=2 width=800", "line 1: setup: height: is missing: " + WORD),
    ("setup header=5A", f"line 1: setup: header: 1 of 2 given: {BYTE}, 2 times"),
    ("setup header=5A A5 pages=65536 width=1 height=1", "line 1: setup: pages: '65536': " + WORD),
    ("setup header=5A A5 pages=many width=1 height=1", "line 1: setup: pages: 'many': " + WORD),
    (f"setup header=5A A5 pages={'9' * 5000} width=1 height=1", f"line 1: setup: pages: '{'9' * 40}...': {WORD}"),
    (SETUP + "setup pages=1 pages=2", "line 2: setup: pages: stands here twice: allowed is once"),
    ("setup header=5A A5 flags=07 checking pages=2 width=1 height=1", "line 1: setup: checking: stands beside flags: allowed is one of the two"),
    ("setup header=5A A5 acknowledging flags=00 pages=2 width=1 height=1", "line 1: setup: acknowledging: stands beside flags: allowed is one"),
    ("setup header=5A A5 revised flags=04 pages=2 width=1 height=1", "line 1: setup: revised: stands beside flags: allowed is one of the two"),
    ("setup header=5A A5 revised revised pages=2 width=1 height=1", "line 1: setup: revised: stands here twice: allowed is once"),
    ("setup header=5A A5 old pages=2 width=1 height=1", "line 1: setup: 'old' is no field here: allowed is header, checking, acknowledging, revised, flags"),
    ("setup header=5A A5 flags=7 pages=2 width=1 height=1", "line 1: setup: flags: '7': " + BYTE),
    (SETUP + KEY, "line 2: key: code: is missing: " + WORD),
    (SETUP + KEY + " code=1 by=2", "line 2: key: 'by' is no field here: allowed is page, area, next, word, mode, code"),
    (SETUP + KEY + " code=1 next=some", "line 2: key: next: 'some': " + WORD.replace(" is ", " is none or ")),
    (SETUP + KEY + " code=1 next=65536", "line 2: key: next: '65536': " + WORD.replace(" is ", " is none or ")),
    (SETUP + KEY.replace("word=0x10", "word=-1") + " code=1", "line 2: key: word: '-1': " + WORD),
    (SETUP + KEY.replace("9,9", "9,70000") + " code=1", "line 2: key: area: '70000': " + WORD),
    (SETUP + KEY.replace("mode=word", "mode=256") + " code=1", "line 2: key: mode: '256': allowed is word, high, low or a number, "
     "decimal or hex after 0x, from 0 to 255"),
    (SETUP + STEP + " least=0 greatest=40000", "line 2: step: greatest: '40000': " + SIGNED),
    (SETUP + STEP + " least=-32769 greatest=0", "line 2: step: least: '-32769': " + SIGNED),
    (SETUP + STEP + " down least=0 greatest=9", "line 2: step: up, down: both given: allowed is one of the two"),
    (SETUP + SLIDER + " begin=40000 end=9", "line 2: slider: begin: '40000': " + SIGNED),
    (SETUP + SLIDER + " begin=32768 end=9", "line 2: slider: begin: '32768': " + SIGNED),
    (SETUP + SLIDER + " begin=0x10000 end=9", "line 2: slider: begin: '0x10000': " + SIGNED),
    (SETUP + SLIDER.replace(" across", "") + " begin=0 end=9", "line 2: slider: across, down: none given: allowed is one of the two"),
    (SETUP + SLIDER.replace("mode=word", "mode=0") + " begin=0 end=9", "line 2: slider: across: stands beside mode: allowed is one of the two"),
    # Frames
    ("frame 81 00 01", "line 1: frame: no setup stands before it"),
    (SETUP + "frame badly", "line 2: frame: its command is missing: " + BYTE),
    (SETUP + "frame 81 cut=2", "line 2: frame: 'cut': " + BYTE),
    (SETUP + "frame length=256 81", "line 2: frame: length: '256': allowed is a number, decimal or hex after 0x, from 0 to 255"),
    (SETUP + "frame cut=0 81", "line 2: frame: cut: '0': allowed is a number, decimal or hex after 0x, from 1 to 257"),
    (SETUP + "frame cut=8 81 00 01", "line 2: frame: cut: '8': allowed is less than the frame's 8 bytes"),
    (SETUP + "frame badly cut=1 81 00 01", "line 2: frame: badly: stands beside cut: allowed is one of the two"),
    (SETUP + "frame 82" + " 00" * 253, "line 2: frame: 253 bytes of data: allowed are 252 by the setup before it"),
    (BARE + "frame 82" + " 00" * 255, "line 2: frame: 255 bytes of data: allowed are 254 by the setup before it"),
    (BARE + "frame badly 81 00 01", "line 2: frame: badly: the setup before it is without checking"),
    # Repeats
    (SETUP + "repeat 3", "line 2: repeat: a number or a statement is missing"),
    (SETUP + "repeat 0 lift", "line 2: repeat: '0': allowed is a number, decimal or hex after 0x, from 1 to 16777216"),
    (SETUP + "repeat 16777216 repeat 16777216 lift", "line 2: the trace would have 281474976710656 bytes or more up to here: allowed are 268435456"),
    ("repeat 1 " * 5000 + "lift 1", "line 1: lift: '1': allowed is nothing behind"),
]

# Bytes that are no text, and what is said of them.
GARBAGE = [
    (b"\xff\xfes\0e\0t\0u\0p\0", "garbage, line 1: byte FF is no text: allowed is UTF-8"),
    (b"lift\nlift # \xe4\n", "garbage, line 2: byte E4 is no text: allowed is UTF-8"),
    (b"\xef\xbb\xbflift\nlift # \xe4\n", "garbage, line 2: byte E4 is no text: allowed is UTF-8"),
    (bytes(range(128)), "garbage, line 1: byte 00 is a control character: allowed are tabs, and line feeds"),
    (b"lift\nlift \x1b[31m\n", "garbage, line 2: byte 1B is a control character"),
    (b"\r\n# a comment\rlift\rlift\r", "garbage, line 2: byte 0D is a control character"),
    (b"# a comment\x0blift\n", "garbage, line 1: byte 0B is a control character"),
]

SLIDER_BYTES = "05 0000 0000 0000 0009 0009 FF00 FF00 FE03 FE 0010 00 0000 0000 0009 0009 "
# Texts that two readings could be thought of, and the bytes of the one that is meant.
MEANT = [
    ("\ufeffquiet\r\nlift\r\n", "02 04"),
    ("lift\t# twice\r\n\tlift", "04 04"),
    ("second\nrepeat 3 second # a comment\nquiet\nsecond", "06 06 06 06 02 06"),
    ("lift # first\u2028lift\n", "04"),
    (SLIDER + " begin=0x9C40 end=-1", SLIDER_BYTES + "9C40 FFFF"),
    (SLIDER + " begin=0x8000 end=0x7FFF", SLIDER_BYTES + "8000 7FFF"),
    (SLIDER + " begin=-32768 end=32767", SLIDER_BYTES + "8000 7FFF"),
    (SLIDER + " begin=0x0000 end=0", SLIDER_BYTES + "0000 0000"),
    (KEY + " next=none code=1", "05 0000 0000 0000 0009 0009 FF00 FF00 FE05 FE 0010 00 0001" + "00" * 10),
    (KEY + " next=0xFF12 code=1", "05 0000 0000 0000 0009 0009 FF12 FF00 FE05 FE 0010 00 0001" + "00" * 10),
    (KEY + " next=0 code=65535", "05 0000 0000 0000 0009 0009 0000 FF00 FE05 FE 0010 00 FFFF" + "00" * 10),
    (KEY.replace("mode=word", "mode=255") + " next=65535 code=0", "05 0000 0000 0000 0009 0009 FFFF FF00 FE05 FE 0010 FF 0000" + "00" * 10),
    (KEY.replace("=word", "=high") + " code=1", "05 0000 0000 0000 0009 0009 FF00 FF00 FE05 FE 0010 01 0001" + "00" * 10),
    (STEP.replace("=word", "=low") + " least=-2 greatest=300", "05 0000 0000 0000 0009 0009 FF00 FF00 FE02 FE 0010 02 01 00 0001 FFFE 012C 01 000000"),
    ("step down round by=65535 least=0 greatest=0" + FIELDS, "05 0000 0000 0000 0009 0009 FF00 FF00 FE02 FE 0010 00 00 01 FFFF 0000 0000 01 000000"),
    (SLIDER.replace("word across", "high down") + " begin=1 end=2", SLIDER_BYTES.replace("0010 00", "0010 11") + "0001 0002"),
    (SLIDER.replace("word across", "low across") + " begin=1 end=2", SLIDER_BYTES.replace("0010 00", "0010 20") + "0001 0002"),
    (BARE + "frame 82" + " 00" * 254, "00 5A A5 00 0002 0320 01E0 015A 01A5 01FF 0182" + "0100" * 254),
    ("contact 65535 0", "03 FFFF 0000"),
    (SETUP + "frame length=255 cut=7 81 00 01", "00 5A A5 01 0002 0320 01E0 015A"),
    (SETUP + "frame length=0 81", "00 5A A5 01 0002 0320 01E0 015A 01A5 0100 0181 017F 0120"),
    ("setup header=00 FF flags=07 pages=0 width=65535 height=1", "00 00FF 07 0000 FFFF 0001"),
    ("setup header=00 FF flags=0C pages=0 width=65535 height=1", "00 00FF 0C 0000 FFFF 0001"),
    ("setup header=00 FF revised pages=2 width=3 height=1", "00 00FF 04 0002 0003 0001"),
    ("setup revised header=00 FF checking pages=2 width=3 height=1", "00 00FF 05 0002 0003 0001"),
    ("setup header=00 FF pages=2 width=3 height=1 acknowledging revised checking", "00 00FF 07 0002 0003 0001"),
    ("repeat 3 setup header=00 FF pages=0 width=0 height=1\nframe 00", "00 00FF 00 0000 0000 0001" * 3 + "0100 01FF 0101 0100"),
    ("repeat 2 repeat 2 lift", "04 04 04 04"),
]

# Texts that `show` prints as they stand, each line behind those before it.
SHOWN = """\
line 00 01
setup header=5A A5 flags=08 pages=0 width=65535 height=1
setup header=5A A5 flags=0F pages=0 width=65535 height=1
setup header=5A A5 revised pages=2 width=800 height=480
setup header=5A A5 acknowledging revised pages=2 width=800 height=480
setup header=5A A5 checking acknowledging revised pages=2 width=800 height=480
frame 81 00 01
setup header=5A A5 pages=2 width=800 height=480
frame 82 00 10 00
line 5A A5 00 82
setup header=5A A5 checking acknowledging pages=2 width=800 height=480
frame 81 00 01
frame badly 81 00 01
line 5A A5 05 81 00 01 E0 29 5A A5 02 81 00 5A A5 03
line 81 00
frame 80 1F 5A 13 11 08 00 18 56 00    # sets the clock to 2013-11-08 18:56:00, a Friday
frame 80 1F 5A 99 12 31 FF 23 59 59    # sets the clock to 2099-12-31 23:59:59, a Thursday
frame 80 1F 5A 01 02 29 00 00 00 00    # no such moment: refused with 6
frame 80 1F 5A 13 0A 08 00 18 56 00    # no such moment: refused with 6
frame badly 80 1F 5A 13 11 08 00 18 56 00
frame 80 1F 5B 13 11 08 00 18 56 00
frame 80 1F 5A 13 11 08 00 18 56
frame 80 20 13 11 08 00 18 56 00
frame 82 1F 5A 13 11 08 00 18 56 00
key page=0 area=0,0..9,9 word=0x7000 mode=high code=0x00FF
key page=65535 area=65535,0..9,9 next=65279 word=0xFFFF mode=3 code=0x0000
key page=0 area=0,0..9,9 next=0xFF01 word=0x0000 mode=255 code=0x0000
step page=0 area=0,0..9,9 next=0 word=0x0010 mode=low down round by=65535 least=-32768 greatest=32767
step page=0 area=0,0..9,9 next=1 word=0x0010 mode=16 up stop by=0 least=0 greatest=-1
slider page=0 area=0,1..2,3 word=0x0010 mode=word across begin=0 end=255
slider page=0 area=0,1..2,3 word=0x0010 mode=low down begin=-1 end=1
slider page=0 area=0,1..2,3 word=0x0010 mode=2 begin=0 end=0
slider page=0 area=0,1..2,3 word=0x0010 mode=48 begin=0 end=0
record 00 00 00 00 00 00 00 09 00 09 FF 00 FF 00 FE 05 FE 00 10 00 00 01 00 00 00 00 00 00 00 00 00 01
record 00 00 00 00 00 00 00 09 00 09 FF 00 FF 01 FE 05 FE 00 10 00 00 01 00 00 00 00 00 00 00 00 00 00
record 00 00 00 00 00 00 00 09 00 09 FF 00 FF 00 FE 05 FF 00 10 00 00 01 00 00 00 00 00 00 00 00 00 00
record 00 00 00 00 00 00 00 09 00 09 FF 00 FF 00 FE 04 FE 00 10 00 00 01 00 00 00 00 00 00 00 00 00 00
record 00 00 00 00 00 00 00 09 00 09 FF 00 FF 00 FE 02 FE 00 10 00 02 00 00 01 00 00 00 09 01 00 00 00
record 00 00 00 00 00 00 00 09 00 09 FF 00 FF 00 FE 02 FE 00 10 00 01 02 00 01 00 00 00 09 01 00 00 00
record 00 00 00 00 00 00 00 09 00 09 FF 00 FF 00 FE 02 FE 00 10 00 01 00 00 01 00 00 00 09 02 00 00 00
record 00 00 00 00 00 00 00 09 00 09 FF 00 FF 00 FE 03 FE 00 10 00 00 00 00 00 00 09 00 08 00 00 00 00
frame 81
quiet
line 5A A5 02 FF FF
contact 65535 0
setup header=5A 5A flags=FC pages=2 width=800 height=480
line 5A
frame 81 00 01
lift
second
second
line 5A
second
bytes 07 04 04 04 04 04 04 04 04 04 04 04 04 04 04 04
bytes 04
"""


def said(make):
    try:
        return f"it was taken, as {make()[:80]!r}"
    except Mistake as mistake:
        return str(mistake)


def troubles():
    for text, words in MISTAKES:
        if not (found := said(lambda: trace_of(decoded(text.encode(), "text"), "text"))).startswith("text, " + words):
            yield f"{text[:200]!r}: {found[:300]}; expected {words}"
    for data, words in GARBAGE:
        if not (found := said(lambda: trace_of(decoded(data, "garbage"), "garbage"))).startswith(words):
            yield f"{data[:200]!r}: {found[:300]}; expected {words}"
    for text, meant in MEANT:
        if (found := trace_of(decoded(text.encode(), "text"))) != bytes.fromhex(meant):
            yield f"{text!r} gives {found.hex(' ')}, meant is {meant}"
    for line, shown in itertools.zip_longest(SHOWN.splitlines(), text_of(trace_of(SHOWN)).splitlines()):
        if line != shown:
            yield f"{line} is shown as {shown}"


def main():
    wrong = list(troubles())
    print("\n".join(wrong) or f"{len(MISTAKES) + len(GARBAGE)} mistakes in a text are told as they should be")
    return 1 if wrong else 0


if __name__ == "__main__":
    sys.exit(main())
