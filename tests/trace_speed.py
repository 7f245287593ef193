#!/usr/bin/env python3
"""trace_speed.py: lets tools/trace show and write 10 MB of each kind of trace, says the seconds, and fails where one takes 5 or more.

Seconds of the processor, since other work may run on the machine. Not a part of tests/run: making the traces takes longer than the rest.
"""
import pathlib
import random
import resource
import struct
import subprocess
import sys
import tempfile

import model
import program
from panel_script import key, slider, step
from trace_draw import drawn, table_events
from trace_text import SETUP_KIND, on_line, setup_bytes, split
from tracing.layout import frame

SIZE, SECONDS = 10_000_000, 5
SETUP = model.Setup(0x5A, 0xA5, 1, 2, 800, 480)
OPENING = bytes([SETUP_KIND]) + setup_bytes(SETUP)


def filled(piece_of):
    """The opening, and pieces until the size is reached."""
    trace = bytearray(OPENING)
    while len(trace) < SIZE:
        trace += piece_of()
    return bytes(trace)


def some_write(r):
    return on_line(frame(SETUP, b"\x82" + r.randbytes(2 + 2 * r.randrange(1, 20))))


def some_read(r):
    return on_line(frame(SETUP, b"\x83" + r.randbytes(3)))


def some_setting(r):
    return on_line(frame(SETUP, b"\x80\x1F\x5A" + bytes(model.to_bcd(r.randrange(1, 24)) for _ in range(7))))


def some_contact(r):
    return b"\x03" + struct.pack(">HH", r.randrange(800), r.randrange(480))


def some_record(r):
    x, y = r.randrange(700), r.randrange(400)
    make = r.choice((key, step, slider))
    return table_events(make(area=(x, y, x + 80, y + 60), address=r.randrange(0x7000)))


def kinds(r):
    yield "noise", OPENING + on_line(r.randbytes(SIZE // 2))
    yield "header pairs, each claiming 255 bytes", OPENING + on_line(b"\x5A\xA5\xFF" * (SIZE // 6))
    yield "frames", filled(lambda: some_write(r))
    yield "contacts", filled(lambda: some_contact(r))
    yield "touch records", filled(lambda: some_record(r))
    yield "frames and touches in turn", filled(lambda: some_write(r) + b"\x03" + r.randbytes(4) + b"\x04")
    yield "lifts", OPENING + b"\x04" * SIZE
    yield "line bytes and lifts in turn", OPENING + b"".join(b"\x01%c\x04" % byte for byte in r.randbytes(SIZE // 3))
    yield "two line bytes and a mark in turn", filled(lambda: on_line(r.randbytes(2)) + b"\x02")
    yield "seconds", OPENING + b"\x06" * SIZE
    yield "settings of the clock", filled(lambda: some_setting(r))
    yield "line bytes and seconds in turn", OPENING + b"".join(b"\x01%c\x06" % byte for byte in r.randbytes(SIZE // 3))
    yield "lifts and marks in turn", OPENING + b"\x04\x02" * (SIZE // 2)
    yield "contacts and lifts in turn", filled(lambda: some_contact(r) + b"\x04")
    yield "contacts on and off the screen and lifts in turn", filled(lambda: b"\x03" + r.randbytes(4) + b"\x04")
    yield "short reads, each with a mark", filled(lambda: some_read(r) + b"\x02")
    sessions = [trace for trace in (drawn(seed)[0] for seed in range(100)) if all(kind is not None for kind, _ in split(trace))]
    yield "drawn sessions, one behind the other", filled(lambda: r.choice(sessions))


def spent():
    used = resource.getrusage(resource.RUSAGE_CHILDREN)
    return used.ru_utime + used.ru_stime


def seconds(command, given, printed):
    before = spent()
    with open(printed, "wb") as output:
        subprocess.run([sys.executable, program.TOP / "tools" / "trace", command, given], stdout=output, stderr=subprocess.DEVNULL, check=True)
    return spent() - before


def main():
    late = 0
    with tempfile.TemporaryDirectory() as folder:
        trace, text, again = (pathlib.Path(folder, name) for name in ("trace", "text", "again"))
        for name, given in kinds(random.Random(1)):
            trace.write_bytes(given)
            shown, written = seconds("show", trace, text), seconds("write", text, again)
            if again.read_bytes() != given:
                sys.exit(f"{name}: the text does not assemble to the trace")
            late += shown >= SECONDS or written >= SECONDS
            size = text.stat().st_size / 1e6
            print(f"{name}: {len(given) / 1e6:.1f} MB shown in {shown:.1f} s, {size:.1f} MB of text written in {written:.1f} s", flush=True)
    return 1 if late else 0


if __name__ == "__main__":
    sys.exit(main())
