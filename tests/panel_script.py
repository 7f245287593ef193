"""Calls of a panel as the program panel_cases reads them, the lines that tests/model.py answers, and counts of what was reached; and the records of tables."""
import collections

import clock_reach
import model
import scale_sheets
from model import CHANNELS, KEPT, RECORD, Setup, WatchList, two

ALL_WORDS, ALL_CURVES, ALL_ROOM, ALL_ENTRIES = 28700, 8200, 300, 20
UNTOUCHED = 0xC0DE      # each word of the program's curve area at first, so that it can be seen which words stay
NOTHING_WRONG = Setup(0x5A, 0xA5, 1, 16, 800, 480)


class Script:
    """Calls, as the program reads them, and the lines that the model answers. The arrays are the caller's, as in the program."""

    def __init__(self):
        self.input, self.lines, self.reached = bytearray(), [], collections.Counter()
        self.panel, self.table, self.n_words, self.n_curves, self.n_room = None, b"", 28672, 8192, 265
        self.words, self.curves, self.room = [0] * ALL_WORDS, [UNTOUCHED] * ALL_CURVES, bytearray(b"\xEE" * ALL_ROOM)
        self.addresses, self.uses, self.values = ([0] * ALL_ENTRIES for _ in range(3))
        self.n_listed = 0, 0, 0     # how much of the watch list's three slices is lent
        self.unseen = scale_sheets.Unseen()
        self.clock_unseen, self.inside = clock_reach.Unseen(), clock_reach.Inside()

    def call(self, letter, arguments, line=None):
        self.input += letter.encode() + bytes(arguments)
        if line is not None:
            self.lines.append(line)

    def count(self, call, number):
        self.reached[f"{call} {number}"] += 1

    def count_waiting(self):
        if len(self.panel.line.waiting) > 1:
            self.count("inputs after which", "several reports wait")

    def count_curves(self, handed, before):
        """What a frame that was done did to the channels' counts."""
        command, data, after = handed.report.command, handed.report.data, self.panel.channels.counts
        if command == 0x84:
            added = (len(data) - 1) // 2 // len(model.named_by(data[0]))
            moved = any(before[n] + added > KEPT for n in model.named_by(data[0]))
            self.count("curve frame:", "a full channel's numbers move down" if moved else "all numbers fit")
        elif after != before:
            self.count("clear of", "several channels that have numbers" if sum(a != b for a, b in zip(after, before)) > 1 else "one channel that has numbers")

    def count_contact(self, was_down, page, caught, x, y):
        self.count(*contact_did(self.table, was_down, page, caught, x, y))
        if slider := slider_that_stored(self.table, was_down, page, caught, x, y):
            self.unseen.stored(slider.word, self.words[slider.word], slider_met(self.panel.setup, slider, x, y, was_down))

    def count_seen(self, addresses):
        """What sliders have met whose words are looked at."""
        self.reached.update(self.unseen.looked_at(addresses, self.words))

    def count_clock_seen(self, addresses):
        """What the clock has met, where these registers are looked at."""
        self.reached.update(self.clock_unseen.looked_at(addresses, self.clock()))

    def count_clock(self, handed):
        """What a command that was accepted did to the clock, or showed of it."""
        command, data = handed.report.command, handed.report.data
        if command == 0x80 and clock_reach.touches(data):
            self.clock_unseen.met(clock_reach.write_met(data, handed.number), is_set=handed.number == 0)
        elif command == 0x81 and handed.replied:
            self.count_clock_seen(range(data[0], data[0] + data[1]))
        self.reached.update(self.inside.accepted(model.frame(self.panel.setup, command, data)))

    def count_sent(self, was_down, page, caught, x, y, due):
        """What a contact that was done sent, of the places that were due then."""
        what, how = contact_did(self.table, was_down, page, caught, x, y)
        if not due:
            return self.count("contact sends nothing:", "no word differs" if any(self.uses[:self.n_listed[1]]) else "no entry is in use")
        self.count("contact sends:", f"{what} {how}" if was_down or how == "no record" else "contact while up: a record acted")
        self.count("contact sends:", "others wait" if len(due) > 1 else "none other is due")
        if any(self.uses[:due[0]]):
            self.count("contact sends:", "an entry in use before it is not due")
        if not all(self.uses[:due[0]]):
            self.count("contact sends:", "an entry before it is not in use")

    def count_noted(self, handed, due):
        """What a command on words did to the list; the places that were due before it."""
        command, data = handed.report.command, handed.report.data
        if len(data) < 3 or command not in (0x82, 0x83):
            return
        address = model.word(data, 0)
        run = range(address, address + (len(data) // 2 - 1 if command == 0x82 else data[2]))
        for place, watched in self.watch().in_use():
            was = "due" if place in due else "not due"
            if watched in run:
                self.count(f"{command:02X} {'done' if handed.number == 0 else 'refused'} over a watched word that was", was)
            elif watched in (run.start - 1, run.stop) and handed.number == 0:
                self.count(f"{command:02X} done just {'before' if watched == run.stop else 'behind'} a watched word that was", was)

    def count_refused_list(self, call, waits):
        for fault in list_faults(self.watch()):
            self.count(f"{call} 16, {'a report waits' if waits else 'nothing waits'}:", fault)

    def title(self, text):
        self.call("#", bytes([len(text)]) + text.encode(), f"# {text}")

    def lend_table(self, table):
        self.table = bytes(table)
        self.call("T", two(len(self.table)) + self.table)

    def lend(self, words=28672, curves=8192, room=265):
        self.n_words, self.n_curves, self.n_room = words, curves, room
        self.call("L", two(words) + two(curves) + two(room))

    def lend_list(self, entries):
        """A list of entries, each an address, a use and a value last sent."""
        for place, entry in enumerate(entries):
            self.set_entry(place, *entry)
        self.lend_lengths(*[len(entries)] * 3)

    def lend_lengths(self, addresses, uses, values):
        self.n_listed = addresses, uses, values
        self.call("W", bytes(self.n_listed))

    def set_entry(self, place, address, use, value):
        self.addresses[place], self.uses[place], self.values[place] = address, use, value
        self.call("E", bytes([place]) + two(address) + bytes([use]) + two(value))

    def watch(self):
        """The list as it is lent."""
        return WatchList(*(numbers[:n] for numbers, n in zip((self.addresses, self.uses, self.values), self.n_listed)))

    def clock(self):
        """What 1F to 26 read."""
        return self.panel.registers.clock.registers()

    def due(self, values=None):
        """The places in use whose word differs from the value last sent, those of now or others; also where the list is refused."""
        entries = zip(self.addresses, self.uses, self.values if values is None else values)
        return [place for place, (address, use, value) in enumerate(entries)
                if place < min(self.n_listed) and use and address < 0x7000 and self.words[address] != value]

    def take_back(self, words, room, watch):
        """What was lent and may have been written."""
        self.words[:self.n_words], self.room[:self.n_room], self.values[:self.n_listed[2]] = words, room, watch.values

    def left(self):
        """What a call left: a sum over the whole room, and the values last sent that were lent."""
        return f" room {sum_of(self.room)} values" + "".join(f" {w:04x}" for w in self.values[:self.n_listed[2]])

    def set_word(self, address, value):
        self.words[address] = value
        self.call("K", two(address) + two(value))

    def set_curve(self, address, value):
        """A word of the curve area; past its end nothing."""
        if address < ALL_CURVES:
            self.curves[address] = value
        self.call("H", two(address) + two(value))

    def start(self, setup, table=None):
        if table is not None:
            self.lend_table(table)
        number, wrong, panel = model.start(setup, self.table)
        if panel:
            self.panel, self.clock_unseen, self.inside = panel, clock_reach.Unseen(), clock_reach.Inside()
        self.count("start", number)
        self.count(f"start {number}:", flags_told(setup.flags))
        self.call("S", bytes((setup.h1, setup.h2, setup.flags)) + two(setup.pages) + two(setup.width) + two(setup.height),
                  f"S {number}" + (f" {wrong}" if number == 13 else ""))

    def byte(self, b):
        number = self.given_byte(b)
        self.count("byte", number)
        self.count_waiting()
        self.call("B", [b], f"B {number}")

    def given_byte(self, b):
        number = self.panel.give_byte(b)
        if number == 0:
            self.inside.byte()
        return number

    def bytes(self, given):
        used = 0
        while used < len(given) and self.given_byte(given[used]) == 0:
            used += 1
        self.count_waiting()
        self.call("G", two(len(given)) + bytes(given), f"G {used}")
        return used

    def mark(self):
        number = self.panel.give_mark()
        if number == 0:
            self.inside.mark()
        self.count("mark", number)
        self.count_waiting()
        self.call("M", b"", f"M {number}")

    def ask(self):
        words, curves, room, watch = self.words[:self.n_words], self.curves[:self.n_curves], self.room[:self.n_room], self.watch()
        caught, counts, due, waits = self.panel.caught, list(self.panel.channels.counts), self.due(), bool(self.panel.line.waiting)
        h = self.panel.report(words, curves, room, watch)
        if caught:
            self.count("ask while a slider is caught:", "kept" if self.panel.caught else "dropped")
        self.take_back(words, room, watch)
        self.curves[:self.n_curves] = curves
        line, end = h.what, h.acknowledged + h.replied
        acknowledgement, reply = spelled(room[:h.acknowledged]), spelled(room[h.acknowledged:end])
        if h.what == "F":
            line = f"F {h.report.command:02x} {h.number} data{spelled(h.report.data)} acknowledgement{acknowledgement} reply{reply}"
            self.count(f"command {h.report.command:02X}" if h.number != 2 else "command", h.number)
            self.count_noted(h, due)
            self.count_clock(h)
            if h.number == 0:
                self.count_curves(h, counts)
        elif h.what == "B":
            line = f"B {h.report.command:02x} acknowledgement{acknowledgement}"
        elif h.what == "16":
            self.count_refused_list("ask", waits)
        elif h.what == "14" and watch.is_wrong():
            self.count("ask 14", "before 16")
        self.count("ask", h.what)
        self.call("?", b"", f"? {line}{self.left()}")
        return h.what not in ("14", "16", "nothing")

    def ask_all(self):
        while self.ask():
            pass

    def contact(self, x, y):
        words, room, watch = self.words[:self.n_words], self.room[:self.n_room], self.watch()
        before = self.panel.is_down, self.panel.registers.page, self.panel.caught
        values, due, waits = list(self.values), self.due(), bool(self.panel.line.waiting)
        given = self.panel.contact(self.table, words, room, watch, x, y)
        self.take_back(words, room, watch)
        self.count("contact", given.number)
        if given.number == 0:
            self.count_contact(*before, x, y)
            self.count_sent(*before, x, y, self.due(values))
        elif due:
            self.count("contact refused while a word is due:", given.number)
        if given.number == 16:
            self.count_refused_list("contact", waits)
        elif given.number == 14 and watch.is_wrong():
            self.count("contact 14", "before 16")
        record = f" {given.record}" if given.number == 13 else ""
        self.call("C", two(x) + two(y), f"C {given.number}{record} written {given.written}{spelled(room[:given.written])}{self.left()}")

    def second(self):
        met, waiting = list(clock_reach.second_met(self.clock(), self.panel.caught)), self.panel.line.waiting
        number = self.panel.second()
        if number == 0:
            self.clock_unseen.met(met)
            self.inside.second()
        self.count("second", "0" if number == 0 else f"1: {'an accepted frame' if waiting[0].accepted else 'a bad check'} waits")
        self.call("P", b"", f"P {number}")

    def moment(self):
        self.call("I", b"", " ".join(("I", *map(str, self.panel.moment()))))
        self.count_clock_seen(clock_reach.SHOWN)

    def lift(self):
        number = self.panel.lift()
        self.count("lift", number)
        self.call("U", b"", f"U {number}")

    def register(self, address):
        self.call("R", [address], f"R {address:02x} {self.panel.registers.all()[address]:02x}")

    def curve(self, channel):
        """How many numbers a channel has, the numbers, and a sum over all of the area."""
        count = self.panel.curve_count(channel)
        numbers = "".join(f" {w:04x}" for w in self.curves[channel * KEPT:channel * KEPT + count])
        self.call("N", [channel], f"N {channel:02x} count {count}{numbers} area {sum_of(self.curves)}")

    def word(self, address):
        self.call("V", two(address), f"V {address:04x} {self.words[address]:04x}")
        self.count_seen([address])

    def all(self):
        r = self.panel.registers
        self.call("D", b"", f"D{spelled(r.all())} page {r.page:04x} backlight {r.backlight:02x} buzzer {r.buzzer:02x} words {sum_of(self.words)}")
        self.count_seen(self.unseen.addresses())
        self.count_clock_seen(clock_reach.SHOWN)

    # Calls that belong together

    def send(self, command, data, ask=True):
        self.bytes(model.frame(self.panel.setup, command, bytes(data)))
        if ask:
            self.ask_all()

    def send_once(self, command, data):
        """Asks for the one report alone, where there are many such frames."""
        self.send(command, data, ask=False)
        self.ask()

    def seconds(self, count):
        for _ in range(count):
            self.second()

    def curve_all(self):
        for channel in range(CHANNELS):
            self.curve(channel)

    def slider_words(self):
        """The words that sliders have stored since they were last looked at."""
        for address in self.unseen.addresses():
            self.word(address)

    def send_bad(self, command, data, ask=True):
        """With a wrong check value, and a mark, so that nothing of it stays."""
        b = bytearray(model.frame(self.panel.setup, command, bytes(data)))
        b[-1] ^= 0x40
        self.bytes(b)
        if ask:
            self.ask_all()
            self.mark()
            self.ask_all()


def acting_record(table, page, x, y):
    return next((r for r in model.records(table) if r.page == page and r.holds(x, y)), None)


def slider_that_stored(table, was_down, page, caught, x, y):
    """The slider that stores at a contact that was not refused, as `contact_did` is told of it; None where none does."""
    record = caught if was_down else acting_record(table, page, x, y)
    return record if record and record.code == 0xFE03 else None


def slider_met(setup, slider, x, y, was_down):
    """What a slider that stores at a point has met, of what scale_sheets names."""
    return scale_sheets.met(scale_sheets.SHEETS[setup.revised], slider.mode // 16, *slider.ends, *slider.along(x, y), was_down)


def flags_told(flags):
    """The flags of a setup: which they are, or of the bits above 2 which one is set, where it is the only one."""
    above = flags // 8 * 8
    if above.bit_count() > 1:
        return "several flag bits above 2"
    return f"flag bit {above.bit_length() - 1} alone above 2" if above else f"flags {flags}"


def contact_did(table, was_down, page, caught, x, y):
    """What a contact that was not refused did: the panel was up or down, on a page, with a slider caught or None."""
    if was_down:
        return "contact while down:", "a slider caught" if caught else "none caught"
    acted = acting_record(table, page, x, y)
    if acted is None:
        return "contact while up:", "no record"
    kind = {0xFE05: "key", 0xFE02: "step", 0xFE03: "slider"}[acted.code]
    return f"contact while up: {kind} mode", f"{acted.mode:02X}{', next page' if acted.has_next else ''}"


def list_faults(watch):
    """Why a list is refused with 16: all that hold."""
    if len({len(watch.addresses), len(watch.uses), len(watch.values)}) > 1:
        yield "slices of different lengths"
        return
    watched = [address for address, use in zip(watch.addresses, watch.uses) if use]
    if len(watch.addresses) > 16:
        yield "more than 16 entries"
    if len(watched) != len(set(watched)):
        yield "two in use share a word"
    if max(watched, default=0) >= 0x7000:
        yield "one in use is not below 7000"


def sum_of(numbers):
    """As the program sums up what it does not print."""
    total = 1
    for n in numbers:
        total = (total * 31 + n) % 65521
    return total


def spelled(b):
    return "".join(f" {x:02x}" for x in b)


# ---- Records

def record(code, page=0, area=(100, 50, 300, 250), after=0xFF00, address=0x0010, mode=0, rest=b""):
    head = two(page) + b"".join(two(n) for n in area) + two(after) + two(0xFF00) + two(code) + b"\xFE" + two(address) + bytes([mode])
    return (head + rest).ljust(RECORD, b"\0")


def key(code=0x1234, **fields):
    return record(0xFE05, rest=two(code), **fields)


def step(up=1, around=0, by=5, least=0, greatest=100, **fields):
    return record(0xFE02, rest=bytes((up, around)) + two(by) + two(least % 65536) + two(greatest % 65536) + b"\x01", **fields)


def slider(begin=0, end=1000, area=(100, 50, 300, 250), **fields):
    return record(0xFE03, area=area, rest=b"".join(two(n) for n in area) + two(begin % 65536) + two(end % 65536), **fields)


WRONG = bytes(RECORD)
END = b"\xFF\xFF" + bytes(30)
