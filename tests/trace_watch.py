"""The model of 01's trace program, watched: it counts what a trace reaches, so that a comparison can tell what it has tried."""
import collections

import clock_reach
import model
import scale_sheets
from panel_script import contact_did, flags_told, slider_met, slider_that_stored
from trace_draw import BUFFER, WAYS, drawn
from trace_text import BYTE_KIND, CONTACT_KIND, LIFT_KIND, QUIET_KIND, RECORD_KIND, SECOND_KIND, SETUP_KIND, split

ACKNOWLEDGEMENT = 7
LONGEST = ACKNOWLEDGEMENT + 258


class Watched(model.Trace):
    def __init__(self):
        super().__init__()
        self.reached, self.caught, self.page = collections.Counter(), None, 0
        self.sent, self.given = set(), b""      # the acknowledgements, and what has come of the stretch, its last bytes
        self.history = [0] * model.CHANNELS     # of each channel, how many numbers have come since its last clear
        self.unseen = scale_sheets.Unseen()     # what sliders met counts once an 83 shows it
        self.clock_unseen, self.inside = clock_reach.Unseen(), clock_reach.Inside()     # what the clock met, once an 81 shows it

    def count(self, what):
        self.reached[what] += 1

    def fail(self, *numbers):
        self.count(f"X {numbers[0]}")
        if numbers[0] == 11:
            self.count(f"X 11: {flags_told(self.setup.flags)}")
        super().fail(*numbers)

    def start(self):
        if self.panel is None:
            super().start()
            self.started(self.setup)

    def started(self, setup):
        self.count(f"started: {flags_told(setup.flags)}")
        if setup.h1 == setup.h2:
            self.count("started: header FF FF" if setup.h1 == 0xFF else "started: H1 equal to H2, not FF")
        if len(self.table) == model.MOST_RECORDS * model.RECORD:
            self.count("started: 128 records")

    def clock(self):
        """What 1F to 26 read."""
        return self.panel.registers.clock.registers()

    def event(self, kind, body):
        self.came(kind, body)
        was_down, self.page, self.caught, before = self.panel.is_down, self.panel.registers.page, self.panel.caught, len(self.lines)
        super().event(kind, body)
        if kind == CONTACT_KIND:
            self.contact_made(self.lines[before], was_down, model.word(body, 0), model.word(body, 2))
        elif kind == LIFT_KIND:
            self.lifted(self.lines[before])
        elif kind == QUIET_KIND and self.caught and self.panel.caught:
            self.count("catch kept: quiet mark")
        self.reported([line[0] for line in self.lines[before:] if line[0] in "FB"], kind)

    def came(self, kind, body):
        if kind == QUIET_KIND:
            self.given = b""
            self.inside.mark()
        elif kind == SECOND_KIND:
            self.clock_unseen.met(clock_reach.second_met(self.clock(), self.panel.caught))
            self.inside.second()
        elif kind == BYTE_KIND:
            self.given = (self.given + body)[-LONGEST:]
            self.inside.byte()
            if self.given[-ACKNOWLEDGEMENT:] in self.sent:
                self.count("an acknowledgement of ours comes back")

    def contact_made(self, line, was_down, x, y):
        self.count(f"contact {line}")
        if line == "T 0":
            did = self.table, was_down, self.page, self.caught, x, y
            self.count(" ".join(contact_did(*did)))
            if slider := slider_that_stored(*did):
                self.unseen.stored(slider.word, self.words[slider.word], slider_met(self.setup, slider, x, y, was_down))
        if self.caught:
            moved = f"dragged {'in' if self.caught.holds(x, y) else 'off'} its area"
            self.catch({"T 0": moved, "T 8": "contact off the screen", "T 9": "touch off"}[line])

    def lifted(self, line):
        self.count(f"lift {line}")
        if self.caught:
            self.catch("lift")

    def reported(self, letters, kind):
        """What one event has brought."""
        if len(letters) > 1:
            self.count(f"several reports after one {'quiet mark' if kind == QUIET_KIND else 'byte'}")
        if letters[:1] == ["B"] and "F" in letters:
            self.count("good frame inside a bad check")

    def handed(self, handed):
        super().handed(handed)
        accepted, command, number = handed.what == "F", handed.report.command, handed.number
        name = f"{command:02X}" if number != 2 else "any other"
        self.count(f"command {name} {number}" if accepted else "bad check")
        self.at_the_end_of_a_frame(handed)
        if accepted:
            self.curves_met(command, handed.report.data, number)
            self.clock_met(command, handed.report.data, number)
        if command == 0x83 and handed.replied:
            address, count = model.word(handed.report.data, 0), handed.report.data[2]
            self.reached.update(self.unseen.looked_at(range(address, address + count), self.words))
        if handed.acknowledged:
            self.sent.add(bytes(self.room[:handed.acknowledged]))
            behind = ", a reply behind it" if handed.replied else ""
            self.count(f"acknowledgement {'FF' if accepted else '00'}{', refused' if number else behind}")
        if len(handed.report.data) == model.data_limit(self.setup):
            self.count("frame of the longest data")
        if self.caught:
            self.catch(self.frame_name(handed))
        self.page, self.caught = self.panel.registers.page, self.panel.caught

    def curves_met(self, command, data, number):
        """Numbers added, EB written or read, and each refused."""
        if command == 0x84:
            self.rounds_met(data, number)
        elif command == 0x80 and data:
            self.clear_met(dict(enumerate(data[1:], data[0])).get(0xEB), number)
        elif command == 0x81 and number == 0 and 0xEB in range(data[0], data[0] + data[1]):
            self.count("EB read")

    def rounds_met(self, data, number):
        """What is full is known by the history, which the panel does not keep."""
        if number:
            return self.count(f"84 {refused_rounds(data)}")
        named = model.named_by(data[0])
        self.count(f"84, channels named: {len(named)}")
        for n in named:
            self.history[n] += (len(data) - 1) // 2 // len(named)
        if any(self.history[n] > model.KEPT for n in named):
            self.count("84 of a channel that drops its oldest")

    def clear_met(self, value, number):
        """The value for EB of a register write; None where EB does not stand in its run."""
        if value is not None and number:
            self.count(f"EB refused with {number}")
        elif value is not None:
            self.count("EB done: all" if value == 0x55 else "EB done: one channel")
            if any(count for n, count in enumerate(self.history) if value in (0x55, 0x56 + n)):
                self.count("EB done: a channel had numbers")
            self.history = [0 if value in (0x55, 0x56 + n) else count for n, count in enumerate(self.history)]

    def clock_met(self, command, data, number):
        """The clock written or read, and each refused."""
        if command == 0x80 and clock_reach.touches(data):
            self.clock_unseen.met(clock_reach.write_met(data, number), is_set=number == 0)
        elif command == 0x81 and number == 0:
            self.reached.update(self.clock_unseen.looked_at(range(data[0], data[0] + data[1]), self.clock()))

    def at_the_end_of_a_frame(self, handed):
        """A frame that is accepted with its last byte: right where an acknowledgement of ours has come back, or with a second inside it."""
        frame = model.frame(self.setup, handed.report.command, handed.report.data)
        if handed.what == "F" and self.given.endswith(frame):
            if self.given[:-len(frame)][-ACKNOWLEDGEMENT:] in self.sent:
                self.count("frame right behind an acknowledgement of ours")
            self.reached.update(self.inside.accepted(frame))

    def frame_name(self, handed):
        if handed.what == "B":
            return "bad check"
        if handed.number:
            return "refused register write" if handed.report.command == 0x80 else "refused frame"
        if handed.report.command != 0x80:
            return {0x81: "register read", 0x82: "word write", 0x83: "word read", 0x84: "curve frame"}[handed.report.command]
        if self.panel.caught:
            return "register write"
        return f"page write, {'the same' if self.page == self.panel.registers.page else 'another'} page"

    def catch(self, by):
        self.count(f"catch {'kept' if self.panel.caught else 'dropped'}: {by}")


def refused_rounds(data):
    """Why 84 was refused with 3."""
    if not data:
        return "without a mode byte"
    if data[0] == 0x00:
        return "of no channel"
    if len(data) == 1:
        return "without a round"
    return "with an odd byte" if len(data) % 2 == 0 else "with an unfinished round"


def watched(trace):
    """What the model prints, and what was reached."""
    t = Watched()
    try:
        t.run(trace)
        t.count("E")
    except model.TraceEnds:
        pass
    return t.output(), t.reached


def first_event(trace):
    """The kind of the first record that is neither a setup nor a touch record; None where there is none, or something wrong before it."""
    return next((kind for kind, _ in split(trace) if kind not in (SETUP_KIND, RECORD_KIND)), None)


def watched_seed(seed):
    """A drawn trace, what the model prints, and what was reached."""
    trace, name = drawn(seed)
    output, reached = watched(trace)
    if output.endswith("X 15\n"):
        reached[f"X 15: {name}"] += 1
    if first_event(trace) == SECOND_KIND:
        reached[f"first event a second: {output[:4] if output[0] == 'X' else 'started'}"] += 1
    if len(trace) > BUFFER:
        reached["input past 64 KiB"] += 1
    if len(output) > BUFFER:
        reached["output past 64 KiB"] += 1
    if output == "X 12\n" and name == "long table":
        reached["X 12: 129 records or more"] += 1
    return trace, output, reached


# ---- What a run of some hundred traces must reach. 1 and 14 cannot come about in a trace.

NUMBERS = {"80": (0, 3, 4, 5, 6), "81": (0, 3, 4, 7), "82": (0, 3, 4), "83": (0, 3, 4, 7), "84": (0, 3), "any other": (2,)}
SLIDER_MODES = ("00", "01", "10", "11", "20", "21")

REQUIRED = [
    "E", "X 11", "X 12", "X 12: 129 records or more", "X 13", "X 15", *(f"X 15: {way.__name__.replace('_', ' ')}" for way in WAYS),
    *(f"started: flags {flags}" for flags in range(8)), *(f"X 11: flag bit {n} alone above 2" for n in range(3, 8)),
    "started: header FF FF", "started: H1 equal to H2, not FF", "started: 128 records",
    *(f"command {name} {number}" for name, numbers in NUMBERS.items() for number in numbers),
    *(f"84, channels named: {count}" for count in range(1, model.CHANNELS + 1)), "84 of a channel that drops its oldest",
    *(f"84 {why}" for why in ("without a mode byte", "of no channel", "without a round", "with an odd byte", "with an unfinished round")),
    "EB done: all", "EB done: one channel", "EB done: a channel had numbers", "EB refused with 5", "EB refused with 6", "EB read",
    "bad check", "frame of the longest data", "input past 64 KiB", "output past 64 KiB",
    "several reports after one byte", "several reports after one quiet mark", "good frame inside a bad check",
    "acknowledgement FF", "acknowledgement FF, a reply behind it", "acknowledgement FF, refused", "acknowledgement 00",
    "an acknowledgement of ours comes back", "frame right behind an acknowledgement of ours",
    *(f"contact T {number}" for number in (0, 8, 9)), *(f"lift T {number}" for number in (0, 10)),
    *(f"contact while up: {kind} mode {mode}{after}" for kind in ("key", "step") for mode in ("00", "01", "02") for after in ("", ", next page")),
    *(f"contact while up: slider mode {mode}" for mode in SLIDER_MODES),
    "contact while up: no record", "contact while down: a slider caught", "contact while down: none caught",
    "catch dropped: lift", "catch dropped: page write, the same page", "catch dropped: page write, another page",
    *(f"catch kept: {what}" for what in (
        "dragged in its area", "dragged off its area", "contact off the screen", "touch off", "quiet mark", "bad check", "register write",
        "refused register write", "refused frame", "register read", "word read", "word write", "curve frame")),
    *scale_sheets.REQUIRED, *clock_reach.REQUIRED, *(f"first event a second: {what}" for what in ("started", "X 11", "X 12", "X 13", "X 15")),
]
