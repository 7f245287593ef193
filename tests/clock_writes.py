#!/usr/bin/env python3
"""clock_writes.py [PROGRAM]: gives the panel program an 80 of every run over and around the clock's registers, and settings with every byte in each of the
eight places, with checking and without; and without it, where a frame holds most, runs of every length. The registers are read behind each of them, and
behind a setting once more after a second.

What must be printed is worked out here from 01 and 02, §6, by Python's own calendar, and by the model of 01 beside it.
"""
import datetime
import itertools
import sys

import clock_model
import model
import program
from trace_text import SECOND_KIND, SETUP_KIND, on_line, setup_bytes

SETUP = model.Setup(0x5A, 0xA5, 0, 16, 800, 480)
CLOCK = range(0x1F, 0x27)
PAGE = range(0x03, 0x05)
OTHERS = {0x01, 0x02, *PAGE, 0x05, 0x0B}        # writable without the clock. EB is, too, but no run that begins here has it alone
STARTS, LENGTHS = range(0x15, 0x31), range(1, 21)
ALL_STARTS = range(0x00, CLOCK.stop + 1)        # from one behind the clock on, no run reaches it
READ_FIRST, READ_COUNT = 0x10, 0x38             # all that STARTS and LENGTHS touch
# In the middle of a year, the last of a month of 30 days and of one of 31, a leap day, the first moment and the last one.
MOMENTS = [datetime.datetime(*numbers) for numbers in (
    (2013, 11, 8, 18, 56, 0), (2010, 4, 30, 9, 59, 59), (2019, 10, 31, 23, 59, 59), (2048, 2, 29, 23, 59, 59), (2000, 1, 1), (2099, 12, 31, 23, 59, 59))]


# ---- The clock by Python's calendar

def registers_of(moment):
    """What 1F to 26 read at a moment."""
    return b"\x00" + clock_model.shown(moment)


def setting_of(moment, weekday=0x00):
    run = registers_of(moment)
    return b"\x5A" + run[1:4] + bytes([weekday]) + run[5:]


def set_by(run):
    """The moment that eight bytes set, or None."""
    return clock_model.moment_of(run[1:]) if run[0] == 0x5A else None


def number_of(address, run):
    """What an 80 is answered, the first number in order whose condition holds."""
    touched = range(address, address + len(run))
    if not run:
        return 3
    if touched.stop > 256:
        return 4
    if touched == CLOCK:
        return 0 if set_by(run) else 6
    if not OTHERS.issuperset(touched) or (PAGE[0] in touched) != (PAGE[1] in touched):
        return 5
    value = dict(zip(touched, run))
    return 6 if value.get(0x01, 0) > 0x3F or value.get(PAGE[0], 0) * 256 + value.get(PAGE[1], 0) >= SETUP.pages else 0


# ---- Traces

class Talk:
    """A trace as it grows, and what must be printed for it."""

    def __init__(self, flags):
        self.setup, self.moment = SETUP._replace(flags=flags), clock_model.FIRST
        self.trace, self.lines = bytearray([SETUP_KIND]) + setup_bytes(self.setup), []

    def write(self, address, run):
        self.trace += on_line(model.frame(self.setup, 0x80, bytes([address]) + run))
        number = number_of(address, run)
        if number == 0 and address == CLOCK.start:
            self.moment = set_by(run)
        self.lines.append(f"F 80 {number}")

    def second(self):
        self.trace.append(SECOND_KIND)
        self.moment = clock_model.second_behind(self.moment)

    def read(self, address=CLOCK.start, count=len(CLOCK)):
        """Registers that hold nothing but what the setup says, and the clock."""
        registers = bytearray(256)
        registers[0x12], registers[0x13], registers[0x1A] = 0x10 * (self.setup.flags & 1), self.setup.h1, self.setup.h2
        registers[CLOCK.start:CLOCK.stop] = registers_of(self.moment)
        data = bytes((address, count))
        self.trace += on_line(model.frame(self.setup, 0x81, data))
        reply = model.frame(self.setup, 0x81, data + registers[address:address + count])
        self.lines += ["F 81 0", f"O {reply.hex(' ').upper()}"]

    def output(self):
        return "".join(line + "\n" for line in (*self.lines, "E 0000")).encode()


def run_of(start, length, eight, other=0x00):
    """The bytes of a run: eight of them for the clock, and one and the same for every other register."""
    run = dict(zip(CLOCK, eight))
    return bytes(run.get(at, other) for at in range(start, start + length))


def every_run(flags):
    """Bytes that would set the clock to another moment, then bytes that would not: 5 comes before 6. No other register here can be written."""
    talk = Talk(flags)
    for start, length in itertools.product(STARTS, LENGTHS):
        moment = MOMENTS[(start + length) % len(MOMENTS)]
        for eight in (setting_of(moment), b"\x5B" + setting_of(moment)[1:], b"\xFF" * len(CLOCK)):
            talk.write(start, run_of(start, length, eight))
            talk.read(READ_FIRST, READ_COUNT)
        talk.second()
    return talk


def every_length():
    """From each register up to one behind the clock, every number of bytes that a frame holds beside the address, from none on. They would set the clock to
    another moment; the other registers get 00 and FF by turns, so that of the runs before the clock that may be written, some are refused with 6."""
    talk = Talk(0)
    for start, length in itertools.product(ALL_STARTS, range(model.data_limit(talk.setup))):
        moment = MOMENTS[(start + length) % len(MOMENTS)]
        talk.write(start, run_of(start, length, setting_of(moment), other=0xFF * (length % 2)))
        talk.read()
        talk.second()
    return talk


def every_byte(flags, place):
    """In one place, over each of the moments. Where it is refused, the clock goes on from where it stood."""
    talk = Talk(flags)
    for moment, byte in itertools.product(MOMENTS, range(256)):
        run = bytearray(setting_of(moment, weekday=byte))
        run[place] = byte
        talk.write(CLOCK.start, bytes(run))
        talk.read()
        talk.second()
        talk.read()
    return talk


def talks():
    yield "every length", every_length()
    for flags in (0, 1):
        yield f"every run, flags {flags}", every_run(flags)
        for place, address in enumerate(CLOCK):
            yield f"every byte in {address:02X}, flags {flags}", every_byte(flags, place)


def troubles(words):
    for name, talk in talks():
        trace, due = bytes(talk.trace), talk.output()
        for who, printed in (("the model", model.trace_output(trace).encode()), ("the program", program.run(words, trace))):
            if printed != due:
                number, wanted, came = program.first_difference(due, printed)
                yield f"{name}: {who}: line {number} must be {wanted}, and is {came}"


def main(path=None):
    found = list(troubles(program.command(program.chosen(path))))
    print("\n".join(found) or "runs of every length over and around the clock, every byte in each place of a setting: all are answered and read back as due")
    return 1 if found else 0


if __name__ == "__main__":
    if len(sys.argv) > 2:
        sys.exit(__doc__)
    sys.exit(main(*sys.argv[1:]))
