#!/usr/bin/env python3
"""Scripted calls of a whole panel, and what tests/model.py answers to them: the cases of the program panel_cases.

    panel_model.py              what panel_cases must print (crates/panel_cases/stdout)
    panel_model.py --input      the script it reads (crates/panel_cases/stdin)
    panel_model.py --reached    how often each number was given, and to what

Each fails where something on REQUIRED was never reached. `watch_cases.py` has the cases of watched words, `clock_calls.py` those of the clock, `panel_script.py`
the calls; `tests/random panel` draws other sessions.
"""
import random
import sys

import clock_calls
import clock_reach
import model
import scale_sheets
import watch_cases
from model import CHANNELS, KEPT, RECORD, Setup, curve_data, two
from panel_script import ALL_CURVES, END, NOTHING_WRONG, WRONG, Script, key, slider, spelled, step


# ---- The cases

def starts(s):
    s.title("start: 11 at each limit")
    base = NOTHING_WRONG
    for flags in (*range(10), 12, 16, 32, 64, 128, 132, 248, 255):
        s.start(base._replace(flags=flags), b"")
        s.register(0x12)
        s.register(0x1C)
    for field, numbers in (("pages", (0, 1, 65280, 65281, 65535)), ("width", (0, 1, 1024, 1025)), ("height", (0, 1, 768, 769))):
        for n in numbers:
            s.start(base._replace(**{field: n}), b"")
    s.title("start: 11 before 12 before 13, the first wrong record named")
    for setup in (base, base._replace(flags=4), base._replace(flags=8)):
        for table in (key() * 128, key() * 129, key()[:31], WRONG + b"\0", key() + WRONG + WRONG, END + WRONG, key() * 127 + WRONG, key() + END + b"\0"):
            s.start(setup, table)
    s.title("what a started panel reads")
    s.start(base._replace(h1=0xC3, h2=0x3C, flags=3), b"")
    s.all()


def lengths(s):
    s.title("command and data length: 2, 3")
    for command in (0x00, 0x7F, 0x85, 0xFF):
        for data in (b"", b"\x01\x02", b"\xFF" * 4):
            s.send(command, data)
    for command in (0x80, 0x81, 0x82, 0x83, 0x84):
        for n in range(7):
            s.send(command, [0x01] * n)
        for n in (model.data_limit(s.panel.setup) - 1, model.data_limit(s.panel.setup)):
            s.send(command, [0x05] * n)
    s.all()
    s.title("3 before 4: past the end and a wrong length")
    s.send(0x81, [0xFF, 0xFF, 0x00])
    s.send(0x82, [0xFF, 0xFF])
    s.send(0x82, [0xFF, 0xFF, 1, 2, 3])
    s.send(0x83, [0xFF, 0xFF])
    s.send(0x83, [0xFF, 0xFF, 1, 1])


def register_writes(s):
    s.title("write registers: each address, one byte and two")
    for address in [*range(0x29), 0x4F, 0xEA, 0xEB, 0xEC, 0xFE, 0xFF]:
        s.send(0x80, [address, 0x07])
        s.send(0x80, [address, 0x00, 0x06])
    s.all()
    s.title("write registers: 4 before 5, 5 before 6, 6")
    for data in ([0xFF, 1, 2], [0xFE, 1, 2, 3], [0x0B] + [1] * 246, [0x0B] + [1] * 245, [0x06] + [0] * 250, [0x06] + [0] * 251):
        s.send(0x80, data[:model.data_limit(s.panel.setup)])
    for data in ([0x00, 0x40], [0x00, 0x10, 0x40], [0x01, 0x40, 0, 0], [0x01, 0x40, 0x00, 0xFF], [0x04, 0xFF], [0x03, 0xFF], [0x03, 0xFF, 0xFF, 0, 0]):
        s.send(0x80, data)
    for light in (0x00, 0x3E, 0x3F, 0x40, 0xFF):
        s.send(0x80, [0x01, light])
        s.register(0x01)
    s.title("write the page: both bytes, half, in a longer run, below P and not")
    for data in ([0x03, 0, 15], [0x03, 0, 16], [0x03, 1, 0], [0x03, 0xFF, 0xFF], [0x03, 0], [0x04, 1], [0x02, 9, 0], [0x04, 1, 2],
                 [0x02, 8, 0, 3], [0x03, 0, 4, 0x11], [0x01, 0x20, 7, 0, 5, 0x22], [0x01, 0x40, 7, 0, 6, 0x22], [0x01, 0x20, 7, 0, 16, 0x22],
                 [0x01, 0x20, 7, 0, 5, 0x22, 0], [0x02, 8, 0, 16]):
        s.send(0x80, data)
        s.send(0x81, [0x00, 0x0D])
    s.all()


def register_reads(s):
    s.title("read registers: the end, 7 at the limit, 4 before 7")
    most = 250 if s.panel.setup.checking else 252
    for address, count in ((0, 0), (255, 0), (255, 1), (255, 2), (254, 2), (0, 1), (3, 2), (0x10, 0x0D), (0, 248), (0, 249), (0, 250), (0, 251),
                           (0, 252), (0, 253), (0, 254), (0, 255), (1, 255), (2, 255), (256 - most, most), (256 - most, most + 1),
                           (255 - most, most + 1), (128, 128), (128, 129), (0xFF, 0xFF)):
        s.send(0x81, [address, count])


def word_calls(s):
    s.title("write words: the end")
    for address, values in ((0x0000, [0x0102]), (0x6FFF, [0xABCD]), (0x6FFF, [1, 2]), (0x7000, [1]), (0xFFFF, [1]), (0x6FFE, [3, 4]),
                            (0x1000, range(100)), (0x6F84, range(124)), (0x6F85, range(124)), (0x6F84, range(125))):
        s.send(0x82, (two(address) + b"".join(two(v) for v in values))[:model.data_limit(s.panel.setup) // 2 * 2])
    s.word(0x6FFE)
    s.word(0x6FFF)
    s.word(0x7000)
    s.all()
    s.title("read words: the end, 7 at the limit, 4 before 7")
    for address, count in ((0x0000, 1), (0x6FFF, 1), (0x6FFF, 2), (0x7000, 0), (0x7001, 0), (0x7000, 1), (0xFFFF, 0), (0xFFFF, 255), (0x0000, 0),
                           (0x0000, 123), (0x0000, 124), (0x0000, 125), (0x0000, 126), (0x0000, 255), (0x6F84, 124), (0x6F85, 124), (0x6F83, 125),
                           (0x6F84, 125), (0x6F82, 126), (0x6F01, 255), (0x6F02, 255), (0x1000, 100)):
        s.send(0x83, two(address) + bytes([count]))


def curve_calls(s):
    s.title("curves: the manuals' frame, and their modes 45 and 83")
    s.send(0x80, [0xEB, 0x55])
    s.send(0x84, [0x01, 0x00, 0x01, 0x00, 0x10])
    s.curve(0)
    for mode in (0x45, 0x83):
        s.send(0x84, curve_data(mode, range(mode * 256, mode * 256 + 6)))
        s.curve_all()
    s.title("curves: 3 for no mode byte, mode 00, no round, an unfinished round, an odd byte")
    for data in (b"", b"\x00", b"\x00\x00\x01", curve_data(0x00, range(125)), b"\x01", b"\xFF", b"\x01\x00", b"\x01\x00\x01\x00", b"\x03\x00\x01",
                 b"\x03\x00\x01\x00", curve_data(0x03, (1, 2, 3)), curve_data(0x83, range(125)), curve_data(0xFF, range(124)), curve_data(0xFF, range(8)) + b"\x07",
                 curve_data(0x80, range(125)) + b"\x07"):
        s.send(0x84, data)
    s.curve_all()
    s.title("EB: 3 before 4, 4 before 5, 5 before 6, 6; nothing is cleared")
    for data in ([0xEB], [0xEB] + [0x55] * 22, [0xEB] + [0x55] * 21, [0xEB, 0x55, 0x55], [0xEB, 0x00, 0x00], [0xEA, 0x55, 0x55], [0xEA, 0x00, 0x00],
                 [0xEA, 0x55], [0xEC, 0x55], [0xEA, 0x55, 0x55, 0x55], [0xEB, 0x00], [0xEB, 0x01], [0xEB, 0x54], [0xEB, 0x5E], [0xEB, 0xAA], [0xEB, 0xD5],
                 [0xEB, 0xFF]):
        s.send(0x80, data)
    s.curve_all()
    s.title("EB: clears one channel, and it reads 00; numbers that come then are its first")
    for value, mode in ((0x56, 0x01), (0x58, 0x05), (0x59, 0x08)):
        s.send(0x80, [0xEB, value])
        s.register(0xEB)
        s.send(0x81, [0xEB, 0x01])
        s.curve_all()
        s.send(0x84, curve_data(mode, range(value, value + 2)))
        s.curve_all()
    s.title("EB: clears all channels, also where they have nothing")
    for _ in range(2):
        s.send(0x80, [0xEB, 0x55])
        s.send(0x81, [0xEA, 0x03])
        s.curve_all()
    s.send(0x84, curve_data(0xFF, range(8)))
    s.curve_all()


def checks(s):
    s.title("bad checks, and a good frame inside one")
    for command in (0x81, 0x82, 0x00):
        s.send_bad(command, [0x00, 0x01])
    s.send_bad(0x84, [0x01, 0x00, 0x01])
    s.send_bad(0x80, [0xEB, 0x55])
    inner = model.frame(s.panel.setup, 0x81, [0x03, 0x02])
    s.send_bad(0x82, b"\x00\x20" + inner + b"\x00")
    s.send_bad(0x82, b"\x00\x20" + inner * 3 + inner[:5])
    s.all()


def commands(s):
    for flags in range(4):
        s.start(NOTHING_WRONG._replace(flags=flags), b"")
        s.title(f"commands with flags {flags}")
        s.lend()
        for group in (lengths, register_writes, register_reads, word_calls, curve_calls):
            group(s)
        if s.panel.setup.checking:
            checks(s)
    for h1, h2 in ((0x81, 0x81), (0xFF, 0xFF), (0x00, 0x00)):
        s.start(NOTHING_WRONG._replace(h1=h1, h2=h2, flags=3), b"")
        s.title(f"header {h1:02X} {h2:02X}")
        s.send(0x81, [0x12, 0x09])
        s.send(0x82, [0, 5, h1, h2, h1, h2])
        s.send(0x83, [0, 5, 2])


# Words, curve words and room, right or wrong.
LENT = ((28671, 8192, 265), (28673, 8192, 265), (28672, 8192, 264), (28671, 8192, 264), (0, 0, 0), (28672, 8192, 0),
        *((28672, curves, 265) for curves in (0, 1, 1024, 8191, 8193, 8200)), (28671, 8191, 265), (28672, 8191, 264), (8192, 8192, 265),
        (28672, 8192, 300), (28672, 8192, 266), (28672, 8192, 265))


def lent(s):
    for flags in (0, 3):
        s.start(NOTHING_WRONG._replace(flags=flags), b"")
        s.title(f"asking, lent too little, flags {flags}")
        for waits in ("nothing", "a read", "a bad check", "an unknown command", "a write", "a curve frame", "a clear"):
            if waits == "a bad check" and not s.panel.setup.checking:
                continue
            s.title(f"{waits} waits")
            for words, curves, room in LENT:
                if waits == "a read":
                    s.send(0x81, [0, 13], ask=False)
                elif waits == "a bad check":
                    s.send_bad(0x81, [0, 13], ask=False)
                elif waits == "an unknown command":
                    s.send(0x77, [0, 13], ask=False)
                elif waits == "a write":
                    s.send(0x82, [0, 9, words % 256, room % 256], ask=False)
                elif waits == "a curve frame":
                    s.send(0x84, curve_data(0x81, (curves, room)), ask=False)
                elif waits == "a clear":
                    s.send(0x84, curve_data(0x01, (1, 2, 3)))
                    s.send(0x80, [0xEB, 0x56], ask=False)
                s.lend(words, curves, room)
                s.ask()
                s.curve(0)
                s.lend()
                s.ask_all()
                s.mark()
                s.ask_all()
                s.word(9)
                s.curve(0)


def waiting(s):
    s.title("inputs while a report waits")
    s.start(NOTHING_WRONG._replace(flags=3), slider() + key(page=1))
    for what in range(2):
        (s.send_bad if what else s.send)(0x80, [0x02, 0x09], ask=False)
        s.byte(0x5A)
        s.bytes(b"\x5A\xA5")
        s.mark()
        s.contact(150, 100)
        s.contact(900, 900)
        s.lift()
        s.title("contact: 14 before 1, 1 before 12 and 13")
        s.lend(words=28671)
        s.contact(150, 100)
        s.lend(curves=0)
        s.contact(150, 100)
        s.lend()
        for table in (b"\0", WRONG):
            s.lend_table(table)
            s.contact(150, 100)
        s.lend_table(slider() + key(page=1))
        s.all()
        s.ask_all()
        s.mark()
        s.ask_all()
        s.all()
    s.title("lift while down and a report waits")
    s.contact(150, 100)
    s.send(0x81, [0x05, 0x06], ask=False)
    s.lift()
    s.contact(200, 100)
    s.ask_all()
    s.lift()
    s.lift()
    s.title("bytes given at once stop at the report")
    many = b"".join(model.frame(s.panel.setup, 0x82, [0, n, 1, n]) for n in range(4))
    while many:
        many = many[s.bytes(many):]
        s.ask_all()
    s.title("several reports of a closed stretch, inputs between")
    outer = bytearray(model.frame(s.panel.setup, 0x80, [2]))[:3]
    outer[2] = 0xF0
    s.bytes(bytes(outer))
    s.bytes(b"".join(model.frame(s.panel.setup, 0x82, [1, n, 2, n]) for n in range(3)))
    s.mark()
    for _ in range(4):
        s.byte(0x11)
        s.mark()
        s.contact(1, 1)
        s.lift()
        s.ask()
    s.mark()
    s.mark()
    s.all()


def refused_contacts(s):
    s.title("contact: 12 before 13 before 9 before 8, up and down")
    s.start(NOTHING_WRONG, b"")
    good = slider() + key(page=1)
    for down in (False, True):
        if down:
            s.lend_table(good)
            s.send(0x80, [0x0B, 0x01])
            s.contact(150, 100)
        for enable in (0x01, 0x00):
            s.send(0x80, [0x0B, enable])
            for x, y in ((150, 100), (799, 479), (800, 0), (0, 480), (799, 480), (800, 479), (65535, 65535)):
                for table in (good, good + b"\0", good + WRONG, WRONG[1:], WRONG + b"\0", good + END + WRONG):
                    s.lend_table(table)
                    s.contact(x, y)
                    if not down:
                        s.lift()
            s.lend(words=28671)
            s.contact(800, 480)
            s.lend(words=28673)
            s.contact(150, 100)
            s.lend()
            s.all()
    s.title("contact: 14 is not for the curve area, which is not lent there")
    s.send(0x80, [0x0B, 0x01])
    s.lend_table(good)
    for x, curves in ((150, 0), (151, 1024), (152, 8191), (153, 8200)):
        s.lend(curves=curves)
        s.contact(x, 100)
        s.word(0x10)
    s.lend()
    s.send(0x80, [0x0B, 0x00])
    s.title("lift with touch off")
    s.lift()
    s.lift()
    s.all()
    s.send(0x80, [0x0B, 0xFF])
    s.title("tables at contact: lengths and the end record")
    for table in (b"", key() * 128, key() * 129, key()[:31], key() + key()[:1], END, END + key(), key() * 127 + WRONG, key() * 3 + WRONG + key() + WRONG,
                  END + bytes(RECORD * 128), WRONG + END):
        s.lend_table(table)
        s.contact(100, 50)
        s.lift()
    s.all()


def acting(s):
    s.title("keys and steps in each mode, edges, first record, next page")
    s.start(NOTHING_WRONG, b"")
    for mode in (0, 1, 2):
        s.set_word(0x10, 0xABCD)
        s.lend_table(key(code=0x5678, mode=mode))
        s.contact(100, 50)
        s.lift()
        s.word(0x10)
        for up in (0, 1):
            for around in (0, 1):
                for old in (0x0000, 0x0303, 0x5F60, 0x6464, 0x6262, 0x6060, 0xFFFF, 0x7FFF, 0x8000):
                    s.set_word(0x10, old)
                    s.lend_table(step(up=up, around=around, mode=mode))
                    s.contact(300, 250)
                    s.lift()
                    s.word(0x10)
        if mode == 0:
            for up, by, least, greatest, old in ((1, 1000, -32768, 32767, 32000), (0, 1000, -32768, 32767, 33000), (1, 32767, -5, 5, 0), (0, 32767, -5, 5, 0)):
                for around in (0, 1):
                    s.set_word(0x10, old)
                    s.lend_table(step(up=up, around=around, by=by, least=least, greatest=greatest))
                    s.contact(200, 200)
                    s.lift()
                    s.word(0x10)
    s.title("the edges, and the first record of the current page")
    s.lend_table(key(code=1, page=1) + key(code=2, area=(100, 50, 100, 50)) + key(code=3, area=(100, 50, 101, 51), after=1) + key(code=4, area=(0, 0, 799, 479)))
    for x, y in ((100, 50), (101, 50), (101, 51), (99, 50), (102, 51), (100, 49), (100, 52)):
        s.set_word(0x10, 0)
        s.contact(x, y)
        s.lift()
        s.word(0x10)
        s.register(0x04)
        s.send(0x80, [0x03, 0, 0])
    s.title("key, step with a next page, also its own; the page they name acts next")
    s.lend_table(key(code=1, page=0, after=1) + step(page=1, after=2) + key(code=9, page=2, after=2, address=0x6FFF))
    for _ in range(4):
        s.contact(150, 100)
        s.contact(151, 100)
        s.lift()
        s.all()
    s.send(0x81, [0x00, 0x20])


def sliding(s):
    for flags, sheet in ((1, "old"), (5, "revised")):
        s.title(f"sliders in each mode by the {sheet} sheet, pressed and dragged")
        s.start(NOTHING_WRONG._replace(flags=flags), b"")
        for mode in (0x00, 0x01, 0x10, 0x11, 0x20, 0x21):
            for begin, end in ((0, 255), (255, 0), (7, 7), (0, 7), (7, 0)) + (((-30000, 30000), (30000, -30000), (-10, 10), (9, -8)) if mode < 0x10 else ()):
                s.set_word(0x10, 0xABCD)
                s.lend_table(slider(begin=begin, end=end, mode=mode))
                for x, y in ((100, 50), (101, 51), (150, 100), (200, 150), (299, 249), (300, 250), (0, 0), (799, 479), (200, 479), (0, 150)):
                    s.contact(x, y)
                    s.word(0x10)
                s.lift()
        pressed_about_halves(s, sheet)
        through_all_words(s, sheet)


def pressed_about_halves(s, sheet):
    s.title(f"pressed on a half, just below one and just above by the {sheet} sheet, over 200 points and 201")
    for mode, w in ((0x00, 200), (0x11, 200), (0x20, 200), (0x01, 201), (0x10, 201), (0x21, 201)):
        for far in (99, 100, 101, 199):
            for begin, end in ((0, far), (far, 0)):
                s.set_word(0x10, 0xABCD)
                s.lend_table(slider(begin=begin, end=end, mode=mode, area=(100, 50, 100 + w, 50 + w)))
                for d in (1, w - 1, w):
                    s.contact(100 + d, 50 + d)
                    s.lift()
                    s.word(0x10)


def through_all_words(s, sheet):
    s.title(f"through all words over the widest screen by the {sheet} sheet")
    s.start(s.panel.setup._replace(width=1024, height=768), b"")
    for begin, end in ((-32768, 32767), (32767, -32768)):
        s.lend_table(slider(begin=begin, end=end, area=(0, 0, 1023, 767)))
        for x in (*range(0, 1024, 93), 341, 511, 512, 682, 1, 1022, 1023):
            s.contact(x, 500)
            s.word(0x10)
        s.lift()


def sheet_kept(s):
    s.title("the sheet is the panel's: a refused start leaves it, another panel has its own, a caught slider keeps to it under another table")
    for flags, refused in ((5, 9), (1, 13), (4, 8), (0, 12)):
        s.start(NOTHING_WRONG._replace(flags=flags), slider(begin=0, end=7))
        s.start(NOTHING_WRONG._replace(flags=refused))
        for x in (299, 200, 300):
            s.contact(x, 100)
            s.word(0x10)
        s.lend_table(b"")
        for x in (299, 200):
            s.contact(x, 100)
            s.word(0x10)
        s.send(0x80, [0x02, 5])
        s.contact(299, 100)
        s.word(0x10)
        s.lift()


def catching(s):
    def caught(table=slider(), x=150):
        """A slider caught at x."""
        s.lend_table(table)
        s.contact(x, 100)
        s.word(0x10)

    def moved(x):
        s.contact(x, 100)
        s.word(0x10)

    s.title("the catch is kept: moving, off its area, off the screen, under another table and an empty one")
    s.start(NOTHING_WRONG, b"")
    caught()
    for x in (200, 99, 0, 301, 799, 800, 250):
        moved(x)
    s.lend_table(slider(begin=500, end=0, address=0x11) + key(page=0))
    moved(220)
    s.lend_table(b"")
    moved(230)
    s.word(0x11)
    s.title("a wrong table while caught is refused, and the catch is kept")
    for table in (WRONG, b"\0"):
        s.lend_table(table)
        moved(120)
    s.lend_table(b"")
    moved(121)
    s.title("dropped by a lift")
    s.lift()
    moved(200)
    moved(210)
    s.lift()
    s.title("kept by writes that are not of the page, and by refused ones")
    caught()
    for data in ([0x02, 5], [0x05, 0], [0x01, 0x10, 0x10], [0x03, 0], [0x03, 0, 16], [0x04, 0], [0x01, 0x40, 0, 0, 0]):
        s.send(0x80, data)
        moved(160 + data[0])
        s.send(0x81, [3, 2])
    s.send(0x82, [0, 0x10, 0x11, 0x11])
    s.send(0x83, [0, 0x10, 1])
    moved(190)
    s.send(0x84, curve_data(0x01, (1, 2)))
    s.send(0x84, [0x00])
    s.send(0x80, [0xEB, 0x55])
    s.send(0x80, [0xEB, 0x00])
    moved(195)
    s.lift()
    for data in ([0x03, 0, 0], [0x03, 0, 7], [0x03, 0, 7], [0x02, 1, 0, 0], [0x01, 0x3F, 0, 0, 0, 0], [0x03, 0, 0, 0x5A]):
        s.title(f"dropped by the page write{spelled(data)}")
        s.send(0x80, [0x03, 0, 0])
        caught()
        s.send(0x80, data)
        moved(250)
        moved(260)
        s.lift()
    s.title("no catch from a key or a step; a next page of the same number")
    s.send(0x80, [0x03, 0, 0])
    for table in (key(), step(), key(after=0), step(after=0) + slider()):
        caught(table)
        moved(220)
        s.lift()
    s.title("touch off while dragging: 9, the catch kept")
    caught()
    s.send(0x80, [0x0B, 0])
    moved(200)
    s.send(0x80, [0x0B, 0x55])
    moved(210)
    s.send(0x80, [0x0B, 0])
    s.lift()
    s.send(0x80, [0x0B, 1])
    moved(220)
    s.lift()
    s.title("off the screen while caught: 8, the catch kept")
    caught()
    for x in (800, 65535):
        moved(x)
    moved(180)
    s.lift()
    s.title("the flag 5A freezes the place, not the status nor what is stored")
    for flag in (0x5A, 0x00, 0xFF, 0x5B, 0xA5):
        s.send(0x80, [0x05, flag])
        for x in (110, 120):
            s.lend_table(slider())
            moved(x)
            s.send(0x81, [0x05, 0x06])
        s.send(0x80, [0x05, flag])
        moved(130)
        s.send(0x81, [0x05, 0x06])
        s.lift()
        s.send(0x81, [0x05, 0x06])
        s.lift()
    s.all()


def reading(s):
    s.title("noise, cut frames, marks; only what is a frame takes effect")
    for flags in (0, 1, 3):
        s.start(NOTHING_WRONG._replace(flags=flags), b"")
        one = model.frame(s.panel.setup, 0x82, [0, 1, 0, 1])
        two_ = model.frame(s.panel.setup, 0x81, [0x00, 0x02])
        for line in (one + two_, b"\x5A" + one, b"\x5A\xA5" + one, b"\x5A\xA5\xFF" + one + two_, b"\x00\xFF" + one[:-1] + two_, one[:-1], b"\x5A\xA5\x00" + one,
                     b"\x5A\xA5\x02" + two_, b"\x5A\xA5\x03" + two_, b"\x5A\xA5\x01" + two_, b"\x5A\x5A\xA5" + two_[2:]):
            rest = line
            while rest:
                rest = rest[s.bytes(rest):]
                s.ask_all()
            s.mark()
            s.ask_all()
        for b in two_:
            s.byte(b)
        s.ask_all()
        s.all()


def limits(s):
    s.title("the largest page number, and the only one")
    for pages, numbers in ((65280, (0xFEFF, 0xFF00, 0xFFFF)), (1, (0, 1, 0x0100)), (257, (0x00FF, 0x0100, 0x0101))):
        s.start(NOTHING_WRONG._replace(pages=pages), b"")
        for n in numbers:
            s.send(0x80, b"\x03" + two(n))
            s.send(0x81, [0x03, 0x02])
    s.title("the largest screen and the smallest")
    for width, height in ((1024, 768), (1, 1), (1024, 1), (1, 768)):
        s.start(NOTHING_WRONG._replace(width=width, height=height), key(area=(0, 0, width - 1, height - 1), code=width))
        for x, y in ((width - 1, height - 1), (width, height - 1), (width - 1, height), (0, 0)):
            s.set_word(0x10, 0)
            s.contact(x, y)
            s.send(0x81, [0x05, 0x06])
            s.send(0x80, [0x05, 0x00])
            s.lift()
            s.word(0x10)
    s.title("no bytes, and bytes after which a report waits at once")
    s.bytes(b"")
    s.send(0x81, [0x00, 0x01], ask=False)
    s.bytes(b"")
    s.bytes(b"\x00")
    s.ask_all()


# ---- Curves

SOME_MODES = (0x01, 0x02, 0x04, 0x08, 0x10, 0x20, 0x40, 0x80, 0x03, 0x07, 0x0F, 0x1F, 0x3F, 0x7F, 0xFF, 0x45, 0x83, 0xAA)


def fill(s, mode, first, count):
    """Numbers first, first + 1, .. in frames as long as they may be; the count is one of each channel's."""
    most = (model.data_limit(s.panel.setup) - 1) // 2 // len(model.named_by(mode)) * len(model.named_by(mode))
    numbers = range(first, first + count * len(model.named_by(mode)))
    for at in range(0, len(numbers), most):
        s.send_once(0x84, curve_data(mode, numbers[at:at + most]))


def filling(s):
    for flags, channel in ((1, 3), (0, 7)):
        s.start(NOTHING_WRONG._replace(flags=flags), b"")
        s.title(f"1,023, 1,024, 1,025 and 3,000 numbers of channel {channel}, flags {flags}")
        had = 0
        for count in (1023, 1024, 1025, 3000):
            fill(s, 1 << channel, had, count - had)
            s.curve(channel)
            had = count
        s.title("cleared, and filled past the end by one frame")
        s.send(0x80, [0xEB, 0x56 + channel])
        s.curve(channel)
        fill(s, 1 << channel, 0x4000, 1000)
        s.curve(channel)
        s.send(0x84, curve_data(1 << channel, range(0x5000, 0x5000 + 100)))
        s.curve(channel)
        for n in range(CHANNELS):
            if n != channel:
                s.curve(n)
    s.title("all channels, some of them full")
    fill(s, 0xFF, 0x6000, 30)
    s.curve_all()
    fill(s, 0x25, 0x9000, 1000)
    s.curve_all()
    s.title("refused frames and writes while channels are full")
    for data in (b"", b"\x00\x00\x01", b"\xA5", curve_data(0xA5, range(126)), curve_data(0xFF, range(124)), curve_data(0x80, range(3)) + b"\x00"):
        s.send(0x84, data)
    for data in ([0xEB, 0x00], [0xEB, 0x5E], [0xEB, 0x55, 0x55]):
        s.send(0x80, data)
    for n in (0, 1, 2, 5, 7):
        s.curve(n)


def all_full(s):
    s.start(NOTHING_WRONG, b"")
    s.title("all channels full, then frames of all and of two")
    fill(s, 0xFF, 0, KEPT)
    s.curve_all()
    for mode in (0xFF, 0x81, 0x42):
        s.send(0x84, curve_data(mode, range(0xA000, 0xA000 + 2 * len(model.named_by(mode)))))
        s.curve(8)
    s.curve(0)
    s.curve(4)
    s.curve(6)
    s.title("each channel cleared, the others stay")
    for value in (0x5D, 0x56, 0x59, 0x57, 0x5C, 0x5A, 0x58):
        s.send(0x80, [0xEB, value])
        s.curve(value - 0x56)
    s.curve(5)
    s.send(0x80, [0xEB, 0x5B])
    s.curve_all()


def each_cleared(s):
    s.start(NOTHING_WRONG._replace(flags=3), b"")
    s.title("each channel cleared by itself, each with other counts; then all")
    for value in (*range(0x56, 0x5E), 0x55):
        for n in range(CHANNELS):
            s.send_once(0x84, curve_data(1 << n, range(n * 256, n * 256 + n + 1)))
        s.send(0x80, [0xEB, value])
        s.register(0xEB)
        s.curve_all()


def every_mode(s):
    s.start(NOTHING_WRONG._replace(flags=0), b"")
    s.title("each mode, data of few lengths; one round and two, and a byte or two too many")
    number = 0
    for mode in range(256):
        s.send_once(0x80, [0xEB, 0x55])
        named = model.named_by(mode)
        each = 2 * len(named)
        for length in sorted({1, 2, 3, *((1 + each, 2 + each, 3 + each, 1 + 2 * each) if each else ())}):
            s.send_once(0x84, curve_data(mode, range(number, number + 20))[:length])
            number = (number + 20) % 60000
        for n in sorted({named[0], named[-1]} if named else {8}):
            s.curve(n)
    for flags in (0, 1):
        s.start(NOTHING_WRONG._replace(flags=flags), b"")
        s.title(f"some modes, data of nearly the greatest length, flags {flags}")
        for mode in SOME_MODES:
            s.send_once(0x80, [0xEB, 0x55])
            each, limit = 2 * len(model.named_by(mode)), model.data_limit(s.panel.setup)
            for length in sorted({1 + (limit - 1) // each * each, limit - 1, limit}):
                s.send_once(0x84, curve_data(mode, range(1, 128))[:length])
            s.curve(model.named_by(mode)[-1])


def exchanged(s):
    s.start(NOTHING_WRONG, b"")
    s.title("the area is exchanged between asks: words below the count, past it, of another channel, past the area")
    s.send(0x84, curve_data(0x20, range(1, 6)))
    for address in (5 * KEPT, 5 * KEPT + 4, 5 * KEPT + 5, 5 * KEPT + 6, 6 * KEPT, 6 * KEPT - 1, 8191, 8192, 8199, 8200, 0xFFFF):
        s.set_curve(address, address ^ 0x5555)
    s.curve(5)
    s.send(0x84, curve_data(0x20, (0x0101, 0x0202)))
    s.curve(5)
    s.title("and where the channel is full")
    fill(s, 0x20, 0x1000, KEPT)
    for address in (5 * KEPT, 5 * KEPT + 1, 5 * KEPT + 2, 6 * KEPT - 1, 6 * KEPT, 5 * KEPT - 1):
        s.set_curve(address, address ^ 0xAAAA)
    s.send(0x84, curve_data(0x60, (0x0303, 0x0404, 0x0505, 0x0606)))
    s.curve(5)
    s.curve(6)
    s.title("asks that hand over nothing, a bad check or another command leave it")
    s.ask()
    s.send_bad(0x84, curve_data(0xFF, range(8)))
    s.send(0x82, [0, 9, 1, 2])
    s.send(0x81, [0xEB, 1])
    s.curve(6)
    s.title("a refused start leaves the counts, another panel has none; the words stay")
    s.start(NOTHING_WRONG._replace(flags=8), b"")
    s.curve(6)
    s.start(NOTHING_WRONG._replace(flags=2), b"")
    s.curve_all()
    s.send(0x84, curve_data(0x20, (7,)))
    s.curve(5)
    s.title("channels that there are not")
    for channel in (7, 8, 9, 0x7F, 0x80, 0xFF):
        s.curve(channel)


GROUPS = (limits, starts, commands, lent, waiting, refused_contacts, acting, sliding, sheet_kept, catching, reading, filling, all_full, each_cleared,
          every_mode, exchanged, *watch_cases.GROUPS, *clock_calls.GROUPS)

# What the cases must reach, and sessions drawn at random too, where there are many.
REQUIRED = (
    *(f"contact sends: {what}" for what in (
        "contact while up: a record acted", "contact while up: no record", "contact while down: a slider caught", "contact while down: none caught",
        "others wait", "none other is due", "an entry in use before it is not due", "an entry before it is not in use")),
    "contact sends nothing: no word differs", "contact sends nothing: no entry is in use",
    *(f"contact refused while a word is due: {number}" for number in (14, 16, 1, 12, 13, 9, 8)),
    *(f"{command} {what} a watched word that was {was}" for was in ("due", "not due") for command in ("82", "83")
      for what in ("done over", "refused over", "done just before", "done just behind")),
    *(f"{call} 16, {waits}: {fault}" for call in ("contact", "ask") for waits in ("nothing waits", "a report waits")
      for fault in ("slices of different lengths", "more than 16 entries", "two in use share a word", "one in use is not below 7000")),
    "contact 14 before 16", "ask 14 before 16",
    *(f"start 0: flags {flags}" for flags in range(8)), *(f"start 11: flag bit {n} alone above 2" for n in range(3, 8)),
    *scale_sheets.REQUIRED,
    "second 0", "second 1: an accepted frame waits", "second 1: a bad check waits", *clock_reach.REQUIRED,
)


def missing(reached):
    return [what for what in REQUIRED if not reached[what]]


def fixed():
    s = Script()
    for group in GROUPS:
        s.lend()
        s.lend_list([])
        group(s)
    return drawn(1, 12, s)


# ---- Sessions drawn at random

def drawn(seed, count, s=None):
    s, r = s or Script(), random.Random(seed)
    for session in range(count):
        s.title(f"drawn {seed} {session}")
        s.lend()
        s.lend_list([])
        draw_session(s, r)
    return s


def some_record(r):
    page, after, address = r.choice((0, 0, 0, 1, 1, 2)), r.choice((0xFF00, 0xFFFF, 0, 1, 2)), r.choice((0x10, 0x10, 0x11, 0x12, 0x6FFF))
    x, y, wide, high = r.choice((0, 100)), r.choice((0, 50)), r.choice((0, 1, 7, 200)), r.choice((0, 1, 7, 200))
    fields = dict(page=page, address=address, area=(x, y, x + wide, y + high))
    kind = r.choice(("key", "step", "slider"))
    if kind == "key":
        b = key(code=r.randrange(65536), mode=r.randrange(3), after=after, **fields)
    elif kind == "step":
        mode = r.randrange(3)
        ends = sorted(r.randrange(256) for _ in range(2)) if mode else sorted(r.randrange(-32768, 32768) for _ in range(2))
        b = step(up=r.randrange(2), around=r.randrange(2), by=r.choice((1, 5, 300, 32767)), least=ends[0], greatest=ends[1], mode=mode, after=after, **fields)
    else:
        b = some_slider(r, x, y, page=page, address=address)
    if r.random() < 0.02:
        b = bytearray(b)
        b[r.randrange(32)] = r.randrange(256)
    return bytes(b)


def some_slider(r, x, y, **fields):
    """Rising or falling, over a few points or many, so that the middle often is a half; its numbers far apart or close together."""
    mode, wide, high = r.choice((0x00, 0x01, 0x10, 0x11, 0x20, 0x21)), r.choice((1, 2, 8, 200, 201)), r.choice((1, 2, 8, 200, 201))
    least, greatest = (0, 255) if mode > 1 else (-32768, 32767)
    begin, end = r.randint(least, greatest), r.randint(least, greatest)
    if r.random() < 0.3:
        end = min(max(begin + r.randint(-9, 9), least), greatest)
    return slider(begin=begin, end=end, mode=mode, area=(x, y, x + wide, y + high), **fields)


def widest_slider(r):
    """Through all words, over the widest screen; for one of 1,024 points."""
    begin, end = r.choice(((-32768, 32767), (32767, -32768)))
    return slider(begin=begin, end=end, page=r.randrange(3), area=(0, 0, 1023, r.choice((9, 199))), address=r.choice((0x10, 0x11, 0x12, 0x6FFF)))


def some_table(r):
    table = b"".join(some_record(r) for _ in range(r.choice((0, 1, 2, 3, 6))))
    return table + r.choice((b"",) * 12 + (END, END + WRONG, b"\0"))


def some_clear(r):
    """A write of EB, mostly of a value that it takes."""
    value = r.choice((0x55, r.randrange(0x56, 0x5E), r.randrange(0x56, 0x5E), r.randrange(0x56, 0x5E), 0x00, 0x54, 0x5E, r.randrange(256)))
    return r.choice(([0xEB, value],) * 9 + ([0xEB, value, value], [0xEA, value, value]))


def some_curve_data(r):
    """Mostly whole rounds of a few channels; any setup's frame holds it."""
    mode = r.choice((0x01, 0x02, 0x80, 0x81, 0x45, 0x83, 0xFF, r.randrange(256), r.randrange(256), 0x00))
    each = 2 * len(model.named_by(mode))
    most = 251 // each if each else 1
    data = bytes([mode]) + r.randbytes(each * r.choice((1, 1, 1, 2, 3, most, r.randint(1, most))))
    return r.choice((data,) * 8 + (data[:-1], data[:-2], (data + b"\x01")[:252], (data + b"\x01\x02")[:252], data[:1], b""))


def some_data(r, command):
    if command == 0x80:
        return r.choice((
            [0x05, r.choice((0, 0x5A))], [0x0B, r.choice((0, 1, 1, 1))], [0x03, 0, r.choice((0, 0, 1, 1, 2, 3))], [0x01, r.randrange(0x44)],
            [0x01, r.randrange(0x44), r.randrange(256), 0, r.randrange(4), r.choice((0, 0x5A))],
            [r.randrange(0x0D)] + [r.randrange(256) for _ in range(r.randrange(6))], [0xFF, 1, 1], some_clear(r), some_clear(r),
            clock_calls.some_write(r)))
    if command == 0x81:
        return [r.choice((0, 3, 5, 0x1F, 0xEB, r.randrange(256))), r.choice((0, 1, 2, 6, 8, 13, r.randrange(256)))] + r.choice(([],) * 9 + ([0],))
    if command == 0x84:
        return some_curve_data(r)
    address = two(r.choice((0x10, 0x11, 0x0F, 0x6FFE, 0x6FFF, 0x7000, r.randrange(65536))))
    if command == 0x82:
        return address + bytes(r.randrange(256) for _ in range(r.choice((0, 1, 2, 2, 2, 4, 4, 6, 7, 100, 248))))
    if command == 0x83:
        return address + bytes([r.choice((0, 1, 2, 3, 100, 124, 125, 126, 255))]) + r.choice((b"",) * 9 + (b"\0",))
    return [r.randrange(256) for _ in range(r.randrange(4))]


def some_frame(s, r):
    command = r.choice((0x80, 0x80, 0x80, 0x81, 0x82, 0x82, 0x83, 0x83, 0x84, 0x84, 0x84, r.randrange(256)))
    b = bytearray(model.frame(s.panel.setup, command, bytes(some_data(r, command))))
    what = r.random()
    if what < 0.06:
        b[r.randrange(len(b))] ^= 1 << r.randrange(8)
    elif what < 0.09:
        del b[r.randrange(len(b))]
    elif what < 0.12:
        b = bytearray(s.panel.setup.header) + bytes([r.choice((0, 1, 2, 3, 8, 40, 255))]) + b
    return bytes(b)


def place_in(r, area):
    """Often in the middle, where a slider's halves lie."""
    xs, ys, xe, ye = area
    if r.random() < 0.3:
        return (xs + xe) // 2, (ys + ye) // 2
    return r.randint(*sorted((xs, xe))), r.randint(*sorted((ys, ye)))


def whole_records(s):
    return list(model.records(s.table)) if len(s.table) % RECORD == 0 else []


def some_point(s, r):
    """Mostly in or beside a record of the page that is shown, where the table has one."""
    here = [b.area for b in whole_records(s) if b.page == s.panel.registers.page]
    if here and r.random() < 0.7:
        beside = r.choice((0, 0, 0, 1))
        return tuple(min(max(n + r.randint(-beside, beside), 0), 65535) for n in place_in(r, r.choice(here)))
    return r.choice((0, 1, 99, 100, 101, r.randrange(310), 319, 320)), r.choice((0, 49, 50, 51, r.randrange(260), 269, 270))


def draw_stroke(s, r):
    """The page of a slider is shown, and the slider pressed and dragged; its word is looked at each time."""
    sliders = [b for b in whole_records(s) if b.code == 0xFE03]
    if sliders:
        slid = r.choice(sliders)
        s.ask_all()
        s.lift()
        s.send(0x80, [0x03, *two(slid.page)])
        for _ in range(r.randrange(1, 5)):
            s.contact(*place_in(r, slid.area))
            s.slider_words()


def draw_start(s, r):
    """A panel of either sheet, now and then behind a start that is refused, or with a screen as wide as there is; and a table."""
    pairs = ((0x5A, 0xA5), (0x5A, 0xA5), (0xFF, 0xFF), (0x80, 0x03), (0, 0))
    setup, widest = Setup(*r.choice(pairs), r.choice((0, 1, 1, 2, 3, 3, 3)) + r.choice((0, 4)), 3, 320, 270), b""
    if r.random() < 0.3:
        s.start(setup._replace(flags=setup.flags | 1 << r.randrange(3, 8)))
    if r.random() < 0.3:
        setup, widest = setup._replace(width=1024), widest_slider(r)
    s.start(setup, b"")
    s.lend_table(widest + some_table(r))


def draw_frames(s, r):
    line = b"".join(some_frame(s, r) for _ in range(r.choice((1, 1, 2, 3))))
    for _ in range(20):
        line = line[s.bytes(line):]
        if not line:
            break
        if r.random() < 0.9:
            s.ask()
    if r.random() < 0.85:
        s.ask_all()


def draw_contact(s, r):
    if r.random() < 0.7:
        s.ask_all()
    s.contact(*some_point(s, r))
    s.slider_words()


def draw_badly_lent(s, r):
    s.lend(r.choice((28671, 28672, 28672)), r.choice((0, 1024, 8191, 8192, 8192, 8192, 8193)), r.choice((264, 265, 300)))
    s.ask()
    s.contact(r.randrange(320), r.randrange(270))
    s.lend()


def draw_curves(s, r, what):
    if what < 0.93:
        s.curve(r.choice((r.randrange(CHANNELS), r.randrange(CHANNELS), r.randrange(256))))
    elif what < 0.94:
        s.set_curve(r.randrange(ALL_CURVES), r.randrange(65536))
    elif what < 0.95:
        s.ask_all()
        fill(s, r.choice((0x01, 0x02, 0x80)), r.randrange(60000), r.randrange(900, 1100))
    else:
        s.ask_all()
        s.send(0x80, [0xEB, r.choice((0x55, 0x56, 0x57, 0x5D, r.randrange(0x54, 0x5F)))])


def draw_call(s, r, what):
    """One call, or some that belong together; `what`, from 0 to 1, says which."""
    if what < 0.35:
        draw_frames(s, r)
    elif what < 0.65:
        draw_contact(s, r)
    elif what < 0.75:
        s.lift()
    elif what < 0.80:
        s.mark()
    elif what < 0.84:
        s.lend_table(some_table(r))
    elif what < 0.86:
        s.byte(r.choice((0, 0x5A, 0xA5, 0xFF, 3, r.randrange(256))))
    elif what < 0.88:
        draw_badly_lent(s, r)
    elif what < 0.90:
        s.set_word(r.choice((0x10, 0x11, 0x12)), r.randrange(65536))
    elif what < 0.97:
        draw_curves(s, r, what)
    else:
        s.ask_all()


def draw_session(s, r):
    draw_start(s, r)
    for _ in range(r.randrange(20, 60)):
        if r.random() < 0.15:
            watch_cases.lend_some(s, r)
        if r.random() < 0.1:
            draw_stroke(s, r)
        if r.random() < 0.1:
            s.second()
        if r.random() < 0.05:
            clock_calls.draw_clock(s, r)
        draw_call(s, r, r.random())
    s.all()
    s.ask_all()
    s.curve_all()


def main(words):
    if words not in ([], ["--input"], ["--reached"]):
        sys.exit(__doc__)
    s = fixed()
    if missing(s.reached):
        sys.exit(f"never reached: {', '.join(missing(s.reached))}")
    if words == ["--input"]:
        sys.stdout.buffer.write(s.input)
    elif words == ["--reached"]:
        for what, times in sorted(s.reached.items()):
            print(f"{times:6} {what}")
    else:
        sys.stdout.write("".join(line + "\n" for line in s.lines))


if __name__ == "__main__":
    main(sys.argv[1:])
