#!/usr/bin/env python3
"""curve_lengths.py: gives the panel program an 84 of every mode byte with every length of data that a frame can have, with checking and without, and
the cases program of the panel an ask with a curve area of every length up to some words past 8,192, alone and with an 84 that waits.

What must be printed is worked out here from 02, §2, for each frame by itself: 3 for no mode byte, mode 00, no round or an unfinished one, else 0; and
14 for every area that has not 8,192 words.
"""
import sys

import model
import panel_script
import program
from trace_text import SETUP_KIND, on_line, setup_bytes

SETUP = model.Setup(0x5A, 0xA5, 0, 16, 800, 480)


def is_done(mode, length):
    """Whether an 84 is done with so much data, the mode byte included."""
    a_round = 2 * bin(mode).count("1")
    return length > 1 and mode != 0 and (length - 1) % a_round == 0


def eight_steps(value):
    for _ in range(8):
        value = value >> 1 ^ (0xA001 if value & 1 else 0)
    return value


STEPS = [eight_steps(byte) for byte in range(256)]


def read_on(value, byte):
    """The check value with one byte more: so that the data of one length is not gone through again for the next."""
    return value >> 8 ^ STEPS[(value ^ byte) & 255]


def frames(setup):
    """Every mode byte and length: the frame, and the line that is printed for it. The data of a length begins that of the next."""
    for mode in range(256):
        content, value = b"\x84", read_on(0xFFFF, 0x84)
        for length in range(model.data_limit(setup) + 1):
            if length:
                content += bytes([(mode + length - 1) % 256])
                value = read_on(value, content[-1])
            check = bytes((value % 256, value // 256)) if setup.checking else b""
            frame = setup.header + bytes([len(content + check)]) + content + check
            yield frame, f"F 84 {0 if is_done(mode, length) else 3}\n"
        if frame != model.frame(setup, 0x84, content[1:]):
            sys.exit(f"mode {mode:02X}: this is not the frame that the model makes")


def every_frame(flags):
    """The trace of all these frames, and what must be printed for it."""
    setup = SETUP._replace(flags=flags)
    all_frames = list(frames(setup))
    trace = bytes([SETUP_KIND]) + setup_bytes(setup) + on_line(b"".join(frame for frame, _ in all_frames))
    return trace, "".join(line for _, line in all_frames) + "E 0000\n"


def every_area(waits):
    """A script of asks with areas of every length, and the lines that must be written; where an 84 waits, it waits until the area fits."""
    script = panel_script.Script()
    script.start(SETUP, b"")
    for length in range(panel_script.ALL_CURVES + 1):
        if waits and length == 0:
            script.send(0x84, b"\x01\x12\x34", ask=False)
        script.lend(curves=length)
        if script.ask() != (waits and length == 8192):
            sys.exit(f"the model does not answer as 02 says to an area of {length} words")
    script.curve(0)
    return bytes(script.input), "".join(line + "\n" for line in script.lines)


def troubles():
    panel = program.command(program.chosen())
    for flags in (0, 1):
        trace, due = every_frame(flags)
        if program.run(panel, trace) != due.encode():
            yield f"flags {flags}: the program does not answer every 84 as it should"
    cases = program.command(program.chosen(usual=program.built("panel_cases")))
    for waits in (False, True):
        script, due = every_area(waits)
        if program.run(cases, script) != due.encode():
            yield f"{'an 84 waits' if waits else 'nothing waits'}: the panel does not judge every curve area as it should"


def main():
    found = list(troubles())
    print("\n".join(found) or "84 with every mode byte and every length of data, and curve areas of every length: all are answered as they should be")
    return 1 if found else 0


if __name__ == "__main__":
    if len(sys.argv) > 1:
        sys.exit(__doc__)
    sys.exit(main())
