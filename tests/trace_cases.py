#!/usr/bin/env python3
"""The trace that the panel program is run on in the gate, and what tests/model.py prints for it.

    trace_cases.py             what panel_trace must print (crates/panel_trace/stdout)
    trace_cases.py --input     the trace (crates/panel_trace/stdin)

One session with checking and acknowledging on and the revised scale sheet: the command cases of tests/panel_model.py, touches of every kind of record,
noise and marks. It has every kind of line but X, which would end it; the traces that end in X, and those of the old sheet, are among the examples and those
that tests/compare draws.
"""
import random
import sys

import clock_calls
import limit_records
import model
import panel_model
from model import two
from panel_script import END, key, slider, step
from trace_draw import Session
from trace_text import spoiled

SETUP = limit_records.SETUP._replace(flags=7)
TABLE = b"".join((
    *(key(code=0x5678 + mode, mode=mode, page=mode, address=0x20 + mode) for mode in (0, 1, 2)),
    *(step(up=up, around=around, mode=mode, page=3 + mode, area=(up * 100, around * 100, up * 100 + 99, around * 100 + 99), address=0x20 + mode)
      for mode in (0, 1, 2) for up in (0, 1) for around in (0, 1)),
    *(slider(begin=begin, end=end, mode=mode, page=6 + at, area=(x, 50, x + 200, 250), address=0x24)
      for at, mode in enumerate((0x00, 0x01, 0x10, 0x11, 0x20, 0x21)) for x, begin, end in ((100, 0, 255), (400, 255, 0))),
    slider(begin=-30000, end=30000, page=12, address=0x6FFF), key(page=13, after=14), step(page=14, after=14, by=32767, least=-32768, greatest=32767),
    END, bytes(model.RECORD)))


class Cases(Session):
    """A session with the calls that the groups of panel_model make on a script. What a script looks at directly is read by frames here."""

    def title(self, text):
        pass

    def send_bad(self, command, data):
        self.line(spoiled(model.frame(self.setup, command, bytes(data))))
        self.quiet()

    def register(self, address):
        self.send(0x81, [address, 1])

    def all(self):
        self.send(0x81, [0x00, 0x28])

    def bytes(self, given):
        self.line(given)

    def mark(self):
        self.quiet()

    def ask_all(self):
        """The program asks after each event."""

    def curve(self, channel):
        """Nothing in a trace shows a curve."""

    def curve_all(self):
        pass

    def show(self, page):
        self.send(0x80, [0x03, *two(page)])


def commands(s):
    for group in (panel_model.lengths, panel_model.register_writes, panel_model.register_reads, panel_model.word_calls, panel_model.curve_calls, panel_model.checks):
        group(s)
    s.send(0x80, [0x0B, 0xFF])


def keys_and_steps(s):
    for page in range(6):
        s.show(page)
        for x, y in ((0, 0), (199, 199), (100, 99), (99, 100), (100, 50), (300, 250), (301, 250)) * 2:
            s.contact(x, y)
            s.lift()
            s.word(0x20 + page % 3)


def sliders(s):
    for page in range(6, 13):
        s.show(page)
        for left in (100, 400):
            for x, y in ((left, 50), (left + 1, 51), (left + 2, 52), (left + 100, 150), (left + 199, 249), (left + 200, 250), (0, 0), (799, 479), (800, 0)):
                s.contact(x, y)
                s.send(0x83, [0, 0x24, 1])
                s.word(0x6FFF)
            s.lift()
        s.lift()


def next_pages(s):
    s.show(13)
    for _ in range(5):
        s.contact(150, 150)
        s.contact(160, 160)
        s.lift()
        s.all()
        s.word(0x10)


def catches(s):
    for data in ([0x02, 5], [0x03, 0], [0x03, 0, 16], [0x03, 0, 6], [0x03, 0, 7], [0x02, 1, 0, 6], [0x0B, 0]):
        s.show(6)
        s.contact(150, 100)
        s.send(0x80, data)
        s.contact(250, 100)
        s.word(0x24)
        s.lift()
        s.send(0x80, [0x0B, 1])
        s.send(0x80, [0x05, 0])
    s.all()


def full_curves(s):
    """More numbers than the channels keep, of one channel and of all, while words are written and read; a slider is caught meanwhile."""
    s.show(6)
    s.contact(150, 100)
    for mode, each in ((0x10, 125), (0xFF, 15 * 8)):
        for at in range(0, 10 * each, each):
            s.send(0x84, model.curve_data(mode, range(at, at + each)))
        s.send(0x82, b"\x00\x24" + two(mode))
        s.word(0x24)
    for value in (*range(0x54, 0x5F), 0x00):
        s.send(0x80, [0xEB, value])
        s.register(0xEB)
    s.contact(200, 100)
    s.word(0x24)
    s.lift()
    s.all()


def clock(s):
    for group in clock_calls.SHOWN:
        group(s)
    s.seconds(100)
    s.all()


def noisy_line(s):
    good = model.frame(s.setup, 0x83, [0, 0x24, 1])
    for front in (b"\x5A", b"\x5A\xA5", b"\x5A\xA5\x02", b"\x5A\xA5\x40", b"\x5A\xA5\xFF", b"\x5A\xA5\x03\x00", good[:-1], good[:3]):
        for marks in (1, 2, 0):
            s.line(front + good * 3)
            for _ in range(marks):
                s.quiet()
    s.line(good * 40)


def acknowledgements(s):
    """Of every command byte, for a right check and for a wrong one; each comes back, as on a line of two wires."""
    for command in range(256):
        for frame, accepted in ((model.frame(s.setup, command, b""), True), (spoiled(model.frame(s.setup, command, b"")), False)):
            s.line(frame)
            s.line(model.acknowledgement(s.setup, command, accepted))
    s.quiet()


def session():
    s = Cases(random.Random(1), SETUP, TABLE)
    for group in (commands, keys_and_steps, sliders, next_pages, catches, full_curves, clock, noisy_line, acknowledgements):
        group(s)
    s.show(10)
    return bytes(s.trace)


if __name__ == "__main__":
    if sys.argv[1:] == ["--input"]:
        sys.stdout.buffer.write(session())
    elif sys.argv[1:]:
        sys.exit(__doc__)
    else:
        sys.stdout.write(model.trace_output(session()))
