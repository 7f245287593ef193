#!/usr/bin/env python3
"""watch_lists.py: gives the cases program of the panel watch lists of every kind that can be gone through: slices of all lengths, every word address, every two
places that watch one word, six entries with all choices of which are in use and which are due, and writes of every run beside and over watched words.

What must be printed is worked out here from 02, §4, for each call by itself, without the model of the panel.
"""
import itertools
import sys

import model
import program
from panel_script import ALL_ENTRIES, ALL_ROOM, spelled, sum_of

SETUP = model.Setup(0x5A, 0xA5, 0, 1, 8, 8)
LAST_SENT = 0x0B0B


class Calls:
    """What the program reads, and the lines that it must write. No record is lent, so that contacts change no word."""

    def __init__(self):
        self.script, self.lines, self.room, self.sums = bytearray(), [], bytearray(b"\xEE" * ALL_ROOM), {}
        self.script += b"S" + bytes((SETUP.h1, SETUP.h2, SETUP.flags)) + b"".join(map(model.two, SETUP[3:]))
        self.lines.append("S 0")

    def left(self, values):
        front = bytes(self.room[:20])       # nothing here writes more
        if front not in self.sums:
            self.sums[front] = sum_of(self.room)
        return f" room {self.sums[front]} values" + "".join(f" {value:04x}" for value in values)

    def lengths(self, addresses, uses, values):
        self.script += b"W" + bytes((addresses, uses, values))

    def entry(self, place, address, use, value):
        self.script += b"E" + bytes([place]) + model.two(address) + bytes([use]) + model.two(value)

    def lend(self, entries):
        for place, entry in enumerate(entries):
            self.entry(place, *entry)
        self.lengths(*[len(entries)] * 3)

    def word(self, address, value):
        self.script += b"K" + model.two(address) + model.two(value)

    def ask(self, answer, values):
        self.script += b"?"
        self.lines.append(f"? {answer}{self.left(values)}")

    def contact(self, number, values, unasked=b""):
        self.script += b"C\0\0\0\0"
        self.room[:len(unasked)] = unasked
        self.lines.append(f"C {number} written {len(unasked)}{spelled(unasked)}{self.left(values)}")

    def judged(self, is_wrong, values):
        """An ask and a contact that have nothing else to answer than 16."""
        self.ask("16" if is_wrong else "nothing", values)
        self.contact(16 if is_wrong else 0, values)


def every_length(calls):
    """Entries that are not in use, so that only how many there are counts."""
    calls.lend([(place, 0, place) for place in range(ALL_ENTRIES)])
    for lengths in itertools.product(range(ALL_ENTRIES + 1), repeat=3):
        calls.lengths(*lengths)
        calls.judged(len(set(lengths)) > 1 or lengths[0] > 16, range(lengths[2]))


def every_address(calls):
    """Of one entry, whose value last sent is what all words are; in use, and for some not."""
    calls.lengths(1, 1, 1)
    for address in range(0x10000):
        calls.entry(0, address, address % 255 + 1, 0)
        calls.contact(16 if address >= 0x7000 else 0, [0])
    for address in range(0x6FF0, 0x10000, 13):
        calls.entry(0, address, 0, 7)
        calls.judged(False, [7])


def every_two(calls):
    """Lists of each length, in which two places watch one word and no other does."""
    for count in range(2, 17):
        for one, other in itertools.combinations(range(count), 2):
            for uses in itertools.product((0, 1), repeat=2):
                entries = [(0x100 + place, 1, 0) for place in range(count)]
                entries[one], entries[other] = (0x200, uses[0], 0), (0x200, uses[1], 0)
                calls.lend(entries)
                calls.judged(uses == (1, 1), [0] * count)


def every_due(calls, count=6):
    """Each choice of the entries in use and of those whose word differs; contacts until nothing more is sent."""
    for place in range(count):
        calls.word(0x300 - place, 0x0A00 + place)
    for uses in itertools.product((0, 1), repeat=count):
        for differs in itertools.product((0, 1), repeat=count):
            values = [LAST_SENT if d else 0x0A00 + place for place, d in enumerate(differs)]
            calls.lend([(0x300 - place, uses[place], values[place]) for place in range(count)])
            for place in range(count):
                if uses[place] and differs[place]:
                    values[place] = 0x0A00 + place
                    calls.contact(0, values, model.frame(SETUP, 0x83, model.two(0x300 - place) + b"\x01" + model.two(values[place])))
            calls.contact(0, values)
            calls.script += b"U"
            calls.lines.append("U 0")


def every_run(calls, most=12):
    """Writes from each word up to behind the watched ones, of up to so many words; some of the entries are not in use."""
    watched = [(0x406, 1), (0x403, 1), (0x404, 0), (0x405, 0xFF)]
    for first in range(0x400, 0x409):
        for count in range(1, most + 1):
            new = [0x2000 + 16 * first % 0x1000 + i for i in range(count)]
            frame = model.frame(SETUP, 0x82, model.two(first) + b"".join(map(model.two, new)))
            calls.lend([(address, use, LAST_SENT) for address, use in watched])
            calls.script += b"G" + model.two(len(frame)) + frame
            calls.lines.append(f"G {len(frame)}")
            noted = [new[address - first] if use and address in range(first, first + count) else LAST_SENT for address, use in watched]
            calls.ask(f"F 82 0 data{spelled(frame[4:])} acknowledgement reply", noted)


def troubles(cases):
    for kind in (every_length, every_address, every_two, every_due, every_run):
        calls = Calls()
        kind(calls)
        due, printed = "".join(line + "\n" for line in calls.lines).encode(), program.run(cases, bytes(calls.script))
        if printed != due:
            number, wanted, came = program.first_difference(due, printed)
            yield f"{kind.__name__}: line {number} must be {wanted}, and is {came}"


def main(path=None):
    found = list(troubles(program.command(program.chosen(path, program.built("panel_cases")))))
    print("\n".join(found) or "watch lists of all lengths and addresses, two of a word, in use and due, writes of every run: all are answered as they should be")
    return 1 if found else 0


if __name__ == "__main__":
    if len(sys.argv) > 2:
        sys.exit(__doc__)
    sys.exit(main(*sys.argv[1:]))
