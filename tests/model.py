#!/usr/bin/env python3
"""A model of document 01, "The build and its rules", written from the document and the requests of 02 that it was changed by (§1, §2, §4, §5, §6); to be
read beside them, section by section.

    model.py < TRACE       prints what the panel program must print for a trace
    model.py --examples    runs 01's printed trace, its examples a to j and the reads and writes it wants run, what 02 and the manuals say of curves
                           and of the clock, and what 02 says of watched words and of the two scale sheets; exit status 0 if all are right

Each part below bears the name of the section of 01 that it states, and a rule of 02 says so. Numbers are those of 01's table "Numbers given back".
"""
import math
import sys
from fractions import Fraction
from typing import NamedTuple

from check_value import check_value

WORDS = 28672
CURVE_WORDS = 8192
LEAST_ROOM = 265
RECORD = 32
MOST_RECORDS = 128


def word(data, at):
    """Multi-byte data goes high byte first."""
    return data[at] * 256 + data[at + 1]


def two(number):
    return bytes((number // 256, number % 256))


def signed(w):
    return w - 65536 if w >= 32768 else w


# ---- Frame

def frame(setup, command, data):
    """Header, length, command, data and, with checking on, the check value over command and data, low byte first."""
    content = bytes([command]) + bytes(data)
    value = check_value(content)
    check = bytes((value % 256, value // 256)) if setup.checking else b""
    return setup.header + bytes([len(content) + len(check)]) + content + check


def data_limit(setup):
    return 252 if setup.checking else 254


def acknowledgement(setup, command, accepted):
    """02, §1: the length byte is 02, though the check bytes follow: seven bytes."""
    content = bytes((command, 0xFF if accepted else 0x00))
    value = check_value(content)
    return setup.header + b"\x02" + content + bytes((value % 256, value // 256))


# ---- Reading the line

class Report(NamedTuple):
    accepted: bool      # else a bad check
    command: int
    data: bytes


class Line:
    """What was given and not read yet, from the waiting place on, and the reports that wait."""

    def __init__(self, setup):
        self.setup, self.held, self.waiting = setup, b"", []

    def give(self, byte):
        """A byte, or a quiet mark (None)."""
        if self.waiting:
            return 1
        if byte is not None:
            self.held += bytes([byte])
        self.read(closed=byte is None)
        return 0

    def read(self, closed):
        stretch, p = self.held, 0
        least = 3 if self.setup.checking else 1
        while p < len(stretch):
            here = stretch[p:]
            # What has not come is not wrong.
            wrong = (not self.setup.header.startswith(here[:2])) or (len(here) > 2 and here[2] < least)
            if wrong:
                p += 1
            elif len(here) < 3 or len(here) < 3 + here[2]:
                if not closed:
                    break
                p += 1
            else:
                content = here[3:3 + here[2]]
                if self.setup.checking:
                    content, check = content[:-2], content[-2:]
                    if check_value(content) != check[0] + 256 * check[1]:
                        self.waiting.append(Report(False, content[0], b""))
                        p += 1
                        continue
                self.waiting.append(Report(True, content[0], content[1:]))
                p += 3 + here[2]
        self.held = b"" if closed else stretch[p:]

    def hand_over(self):
        return self.waiting.pop(0)


# ---- Clock (02, §6)

CLOCK = range(0x1F, 0x27)       # the set byte, year, month, day, weekday, hour, minute, second
SET = 0x5A
FIRST_WEEKDAY = 6               # 1 January 2000 is a Saturday, and Sunday is 0
DAY_SECONDS = 24 * 60 * 60


def is_leap(year):
    """The Gregorian calendar: every fourth year, not every hundredth, but every four hundredth."""
    return year % 4 == 0 and (year % 100 != 0 or year % 400 == 0)


def days_in(year, month):
    return 30 if month in (4, 6, 9, 11) else 31 if month != 2 else 29 if is_leap(year) else 28


# Every day that there is, in order: a date exists where it stands here, and its place tells its weekday.
DAYS = [(year, month, day) for year in range(2000, 2100) for month in range(1, 13) for day in range(1, days_in(year, month) + 1)]
PLACES = {date: place for place, date in enumerate(DAYS)}


def to_bcd(number):
    return number // 10 * 16 + number % 10


def of_bcd(byte):
    """None where a digit is above 9."""
    return byte // 16 * 10 + byte % 16 if byte // 16 <= 9 and byte % 16 <= 9 else None


class Moment(NamedTuple):
    year: int
    month: int
    day: int
    weekday: int
    hour: int
    minute: int
    second: int


def seconds_of(run):
    """The seconds from the first moment to the one that eight bytes set; None where they set none. The weekday byte is not looked at."""
    year, month, day, hour, minute, second = fields = [of_bcd(run[at]) for at in (1, 2, 3, 5, 6, 7)]
    if run[0] != SET or None in fields or (2000 + year, month, day) not in PLACES or hour > 23 or minute > 59 or second > 59:
        return None
    return ((PLACES[2000 + year, month, day] * 24 + hour) * 60 + minute) * 60 + second


class Clock:
    """The seconds that have passed since 00:00:00 on 1 January 2000."""

    def __init__(self):
        self.seconds = 0

    def advance(self):
        """The last second of 2099 is followed by the first moment."""
        self.seconds = (self.seconds + 1) % (len(DAYS) * DAY_SECONDS)

    def moment(self):
        place, time = divmod(self.seconds, DAY_SECONDS)
        return Moment(*DAYS[place], (FIRST_WEEKDAY + place) % 7, time // 3600, time // 60 % 60, time % 60)

    def registers(self):
        """1F to 26."""
        moment = self.moment()
        return bytes((0x00, to_bcd(moment.year - 2000), *map(to_bcd, moment[1:])))


# ---- Registers

class Registers:
    WRITABLE = (0x01, 0x02, 0x03, 0x04, 0x05, 0x0B, *CLOCK, 0xEB)       # the clock by 02, §6; EB by 02, §2, and it reads 00

    def __init__(self, setup):
        self.setup, self.clock = setup, Clock()
        self.backlight, self.buzzer, self.page = 0x3F, 0, 0
        self.flag, self.status, self.x, self.y, self.enable = 0, 0, 0, 0, 0xFF

    def all(self):
        """What each of the 256 reads."""
        value = bytearray(256)
        value[0x00] = 0x10
        value[0x01] = self.backlight
        value[0x02] = self.buzzer
        value[0x03:0x05] = two(self.page)
        value[0x05] = self.flag
        value[0x06] = self.status
        value[0x07:0x0B] = two(self.x) + two(self.y)
        value[0x0B] = self.enable
        value[0x12] = 0x10 if self.setup.checking else 0x00
        value[0x13], value[0x1A] = self.setup.header
        value[0x1C] = 0x08 if self.setup.acknowledging else 0x00
        value[CLOCK.start:CLOCK.stop] = self.clock.registers()
        return bytes(value)

    def store(self, run):
        """A write that is not refused, each address with its byte. The page comes whole, and so does the clock."""
        self.backlight = run.get(0x01, self.backlight)
        self.buzzer = run.get(0x02, self.buzzer)
        if 0x03 in run:
            self.page = run[0x03] * 256 + run[0x04]
        self.flag = run.get(0x05, self.flag)
        self.enable = run.get(0x0B, self.enable)
        if CLOCK.start in run:
            self.clock.seconds = seconds_of(list(run.values()))


# ---- Curves (02, §2)

CHANNELS, KEPT = 8, 1024


def named_by(mode):
    """Bit n for channel n, lowest channel first."""
    return [n for n in range(CHANNELS) if mode & (1 << n)]


def is_curve_data(data):
    """A mode byte that names a channel, and at least one round, the last one finished."""
    each = 2 * len(named_by(data[0])) if data else 0
    return each > 0 and len(data) > 1 and (len(data) - 1) % each == 0


class Channels:
    """How many numbers each channel has. The numbers stand in the area that is lent, channel n's from word 1,024n on."""

    def __init__(self):
        self.counts = [0] * CHANNELS

    def numbers(self, n, area):
        """Oldest first."""
        return area[n * KEPT:n * KEPT + self.counts[n]]

    def add(self, data, area):
        """A frame that is not refused. A channel keeps its latest numbers; words past its count stay."""
        named, numbers = named_by(data[0]), [word(data, at) for at in range(1, len(data), 2)]
        for place, n in enumerate(named):
            latest = (self.numbers(n, area) + numbers[place::len(named)])[-KEPT:]
            area[n * KEPT:n * KEPT + len(latest)] = latest
            self.counts[n] = len(latest)

    def clear(self, value):
        """55 all, 56 to 5D channel 0 to 7. The area's words stay."""
        for n in range(CHANNELS):
            if value in (0x55, 0x56 + n):
                self.counts[n] = 0


# ---- Watched words (02, §4)

MOST_WATCHED = 16


class WatchList:
    """The list that a caller lends: of each entry a word address, whether it is in use (00 is not) and the value last sent, as three lists."""

    def __init__(self, addresses=(), uses=(), values=()):
        self.addresses, self.uses, self.values = list(addresses), list(uses), list(values)

    def in_use(self):
        """The places of the entries in use, and the word that each watches."""
        return [(place, self.addresses[place]) for place, use in enumerate(self.uses) if use != 0x00]

    def is_wrong(self):
        """16. Three lists that are not of one length are no list of entries."""
        if not len(self.addresses) == len(self.uses) == len(self.values):
            return True
        watched = [address for _, address in self.in_use()]
        return len(self.addresses) > MOST_WATCHED or len(watched) > len(set(watched)) or any(address >= 0x7000 for address in watched)

    def note(self, words, run):
        """The line has written the words of a run: each that is watched counts as sent, changed or not."""
        for place, address in self.in_use():
            if address in run:
                self.values[place] = words[address]

    def send(self, words):
        """The address of the first word that differs from its value last sent, which is noted; None where there is none."""
        for place, address in self.in_use():
            if self.values[place] != words[address]:
                self.values[place] = words[address]
                return address
        return None


# ---- Setup and touch table

class Setup(NamedTuple):
    h1: int
    h2: int
    flags: int
    pages: int
    width: int
    height: int

    @property
    def header(self):
        return bytes((self.h1, self.h2))

    @property
    def checking(self):
        return self.flags & 1 == 1

    @property
    def acknowledging(self):
        return self.flags & 2 == 2

    @property
    def revised(self):
        """02, §5: sliders round by the revised scale sheet, else by the old one."""
        return self.flags & 4 == 4

    def is_good(self):
        return self.flags < 8 and 1 <= self.pages <= 65280 and 1 <= self.width <= 1024 and 1 <= self.height <= 768


def setup_of(nine):
    return Setup(nine[0], nine[1], nine[2], word(nine, 3), word(nine, 5), word(nine, 7))


class Record:
    """A record's fields, at the offsets that 01 prints."""

    def __init__(self, b):
        self.page = word(b, 0x00)
        self.area = tuple(word(b, at) for at in (0x02, 0x04, 0x06, 0x08))
        self.next = word(b, 0x0A)
        self.code = word(b, 0x0E)
        self.fe = b[0x10]
        self.word = word(b, 0x11)
        self.mode = b[0x13]
        self.bytes = b

    @property
    def has_next(self):
        return self.next // 256 != 0xFF

    def holds(self, x, y):
        xs, ys, xe, ye = self.area
        return xs <= x <= xe and ys <= y <= ye

    def is_good(self, setup):
        xs, ys, xe, ye = self.area
        common = (self.page < setup.pages and (not self.has_next or self.next < setup.pages)
                  and xs <= xe < setup.width and ys <= ye < setup.height and self.fe == 0xFE and self.word < 0x7000)
        kinds = {0xFE05: self.is_good_key, 0xFE02: self.is_good_step, 0xFE03: self.is_good_slider}
        return common and self.code in kinds and kinds[self.code]()

    def is_good_key(self):
        return self.mode in (0x00, 0x01, 0x02)

    def is_good_step(self):
        b, numbers = self.bytes, (word(self.bytes, 0x18), word(self.bytes, 0x1A))
        if self.mode not in (0x00, 0x01, 0x02) or not 1 <= word(b, 0x16) <= 32767 or b[0x1C] != 0x01:
            return False
        if self.mode == 0:
            return signed(numbers[0]) <= signed(numbers[1])
        return numbers[0] <= numbers[1] <= 255

    def is_good_slider(self):
        b = self.bytes
        xs, ys, xe, ye = self.area
        if self.mode not in (0x00, 0x01, 0x10, 0x11, 0x20, 0x21) or self.has_next or b[0x14:0x1C] != b[0x02:0x0A]:
            return False
        if self.mode >= 0x10 and (word(b, 0x1C) > 255 or word(b, 0x1E) > 255):
            return False
        return xe > xs if self.mode % 16 == 0 else ye > ys

    # What the record stores over a word

    def act(self, setup, old, x, y):
        part = self.mode // 16 if self.code == 0xFE03 else self.mode
        if self.code == 0xFE05:
            return stored(part, old, word(self.bytes, 0x14))
        if self.code == 0xFE02:
            return stored(part, old, self.stepped(value_of(part, old)))
        return stored(part, old, self.slid(setup, x, y))

    def stepped(self, value):
        b = self.bytes
        up, around = b[0x14] != 0, b[0x15] != 0
        step, least, greatest = word(b, 0x16), signed(word(b, 0x18)), signed(word(b, 0x1A))
        t = value + step if up else value - step
        if least <= t <= greatest:
            return t
        if around:
            return least if up else greatest
        return least if t < least else greatest

    @property
    def ends(self):
        """Of a slider: begin and end."""
        return signed(word(self.bytes, 0x1C)), signed(word(self.bytes, 0x1E))

    def along(self, x, y):
        """Of a slider: d, of the nearest place in its area, and w."""
        xs, ys, xe, ye = self.area
        first, last, at = (xs, xe, x) if self.mode % 16 == 0 else (ys, ye, y)
        return max(first, min(at, last)) - first, last - first

    def slid(self, setup, x, y):
        begin, end = self.ends
        exact = begin + (end - begin) * Fraction(*self.along(x, y))
        towards_begin, towards_end = (math.floor(exact), math.ceil(exact)) if begin <= end else (math.ceil(exact), math.floor(exact))
        # The old sheet rounds down what is moved; the revised one takes the nearer of the two, and the end's where both are as near.
        is_nearer = abs(towards_end - exact) <= abs(towards_begin - exact)
        return towards_end if setup.revised and is_nearer else towards_begin


def value_of(part, w):
    """Words are signed; bytes are 0 to 255."""
    return {0: signed(w), 1: w // 256, 2: w % 256}[part]


def stored(part, old, number):
    """Part 0 whole word, 1 high byte, 2 low byte; in byte modes the other byte stays."""
    if part == 0:
        return number % 65536
    return number % 256 * 256 + old % 256 if part == 1 else old // 256 * 256 + number % 256


def records(table):
    """A record with page FFFF ends the table."""
    for at in range(0, len(table), RECORD):
        b = table[at:at + RECORD]
        if word(b, 0) == 0xFFFF:
            return
        yield Record(b)


def judge_table(setup, table):
    """0, 12 or 13; and the number of the first wrong record."""
    if len(table) > MOST_RECORDS * RECORD or len(table) % RECORD != 0:
        return 12, None
    for number, record in enumerate(records(table)):
        if not record.is_good(setup):
            return 13, number
    return 0, None


# ---- The panel

class Handed(NamedTuple):
    """What asking for a report hands over: `14`, `16`, `nothing`, `B` or `F`, and how much acknowledgement and reply were written."""
    what: str
    report: Report = None
    number: int = 0
    acknowledged: int = 0
    replied: int = 0


class Contacted(NamedTuple):
    """What comes of a contact: the number, the record that 13 names, and how much unasked reply was written."""
    number: int
    record: int = None
    written: int = 0


def start(setup, table):
    """The number, the record that 13 names, and the panel."""
    if not setup.is_good():
        return 11, None, None
    number, wrong = judge_table(setup, table)
    return number, wrong, Panel(setup) if number == 0 else None


class Panel:
    def __init__(self, setup):
        self.setup, self.line, self.registers, self.channels = setup, Line(setup), Registers(setup), Channels()
        self.caught = None      # a copy of the slider's record

    def give_byte(self, byte):
        return self.line.give(byte)

    def give_mark(self):
        return self.line.give(None)

    def second(self):
        """02, §6. It is no mark: a frame that is half read goes on behind it."""
        if self.line.waiting:
            return 1
        self.registers.clock.advance()
        return 0

    def moment(self):
        return self.registers.clock.moment()

    def curve_count(self, n):
        return self.channels.counts[n] if n < CHANNELS else 0

    # ---- Commands

    def report(self, words, curves, room, watch):
        if len(words) != WORDS or len(curves) != CURVE_WORDS or len(room) < LEAST_ROOM:
            return Handed("14")
        if watch.is_wrong():
            return Handed("16")
        if not self.line.waiting:
            return Handed("nothing")
        report = self.line.hand_over()
        acknowledged = b""
        if self.setup.checking and self.setup.acknowledging:
            acknowledged = acknowledgement(self.setup, report.command, report.accepted)
        number, reply = 0, b""
        if report.accepted:
            number = self.judge(report.command, report.data)
            if number == 0:
                reply = self.perform(report.command, report.data, words, curves, watch)
        written = acknowledged + reply
        room[:len(written)] = written
        return Handed("F" if report.accepted else "B", report, number, len(acknowledged), len(reply))

    def judge(self, command, data):
        """2 to 7: the first in order whose condition holds."""
        if command not in (0x80, 0x81, 0x82, 0x83, 0x84):
            return 2
        if not {0x80: len(data) >= 2, 0x81: len(data) == 2, 0x82: len(data) >= 4 and len(data) % 2 == 0, 0x83: len(data) == 3,
                0x84: is_curve_data(data)}[command]:
            return 3
        if command == 0x84:
            return 0        # it has neither address nor reply
        address = data[0] if command in (0x80, 0x81) else word(data, 0)
        count = {0x80: len(data) - 1, 0x81: data[1], 0x82: (len(data) - 2) // 2, 0x83: data[-1]}[command]
        if address + count > (256 if command in (0x80, 0x81) else WORDS):
            return 4
        if command == 0x80:
            run = range(address, address + count)
            if any(r not in Registers.WRITABLE for r in run) or (0x03 in run) != (0x04 in run):
                return 5
            if run != CLOCK and any(r in CLOCK for r in run):
                return 5
            value = dict(zip(run, data[1:]))
            if value.get(0x01, 0) > 0x3F or (0x03 in run and value[0x03] * 256 + value[0x04] >= self.setup.pages):
                return 6
            if 0xEB in run and not 0x55 <= value[0xEB] <= 0x5D:
                return 6
            if run == CLOCK and seconds_of(data[1:]) is None:
                return 6
        if command in (0x81, 0x83):
            length = 1 + len(data) + count * (1 if command == 0x81 else 2) + (2 if self.setup.checking else 0)
            if length > 255:
                return 7
        return 0

    def perform(self, command, data, words, curves, watch):
        """A command that is not refused takes effect; its reply, if it has one."""
        if command == 0x80:
            run = dict(enumerate(data[1:], data[0]))
            self.registers.store(run)
            if 0x03 in run:
                self.caught = None
            if 0xEB in run:
                self.channels.clear(run[0xEB])
            return b""
        if command == 0x84:
            self.channels.add(data, curves)
            return b""
        if command == 0x81:
            return frame(self.setup, 0x81, data + self.registers.all()[data[0]:data[0] + data[1]])
        address = word(data, 0)
        if command == 0x82:
            for i in range(2, len(data), 2):
                words[address + i // 2 - 1] = word(data, i)
            watch.note(words, range(address, address + len(data) // 2 - 1))
            return b""
        return frame(self.setup, 0x83, data + b"".join(two(w) for w in words[address:address + data[2]]))

    # ---- Contact and lift

    @property
    def is_down(self):
        return self.registers.status in (0x01, 0x03)

    def contact(self, table, words, room, watch, x, y):
        """Order: 14, 16, 1, 12, 13, 9, 8."""
        if len(words) != WORDS or len(room) < LEAST_ROOM:
            return Contacted(14)
        if watch.is_wrong():
            return Contacted(16)
        if self.line.waiting:
            return Contacted(1)
        number, wrong = judge_table(self.setup, table)
        if number:
            return Contacted(number, wrong)
        if self.registers.enable == 0x00:
            return Contacted(9)
        if x >= self.setup.width or y >= self.setup.height:
            return Contacted(8)
        if self.is_down:
            self.touched(0x03, x, y)
            if self.caught:
                words[self.caught.word] = self.caught.act(self.setup, words[self.caught.word], x, y)
        else:
            self.touched(0x01, x, y)
            self.press(table, words, x, y)
        return Contacted(0, written=self.tell(words, room, watch))

    def tell(self, words, room, watch):
        """02, §4: one unasked reply at most, which is no answer to a frame and has no acknowledgement before it."""
        address = watch.send(words)
        unasked = b"" if address is None else frame(self.setup, 0x83, two(address) + b"\x01" + two(words[address]))
        room[:len(unasked)] = unasked
        return len(unasked)

    def touched(self, status, x, y):
        r = self.registers
        r.status = status
        if r.flag != 0x5A:
            r.x, r.y, r.flag = x, y, 0x5A

    def press(self, table, words, x, y):
        """The first record of the current page holding the point acts, then its next page is shown."""
        for record in records(table):
            if record.page == self.registers.page and record.holds(x, y):
                words[record.word] = record.act(self.setup, words[record.word], x, y)
                if record.code == 0xFE03:
                    self.caught = record
                if record.has_next:
                    self.registers.page = record.next
                    self.caught = None
                return

    def lift(self):
        if self.line.waiting:
            return 1
        if not self.is_down:
            return 10
        self.registers.status = 0x02
        self.caught = None
        return 0


# ---- The trace program

BODIES = {0x00: 9, 0x01: 1, 0x02: 0, 0x03: 4, 0x04: 0, 0x05: 32, 0x06: 0}      # 06, a second, by 02, §6


class TraceEnds(Exception):
    pass


class Trace:
    """02, §4: "the trace lends no entries"."""

    def __init__(self):
        self.lines, self.setup, self.table, self.panel = [], None, b"", None
        self.words, self.curves, self.room = [0] * WORDS, [0] * CURVE_WORDS, bytearray(LEAST_ROOM)

    def fail(self, *numbers):
        self.lines.append("X " + " ".join(str(n) for n in numbers))
        raise TraceEnds

    def run(self, trace):
        at = 0
        while at < len(trace):
            kind = trace[at]
            is_setup, is_record = kind == 0x00, kind == 0x05
            if kind not in BODIES or (self.setup is None) != is_setup or (is_record and self.panel):
                self.fail(15)
            body = trace[at + 1:at + 1 + BODIES[kind]]
            if len(body) < BODIES[kind]:
                self.fail(15)
            at += 1 + len(body)
            if is_setup:
                self.setup = setup_of(body)
            elif is_record:
                self.table += body
            else:
                self.start()
                self.event(kind, body)
        if self.setup is None:
            self.fail(15)
        self.start()
        self.lines.append(f"E {self.panel.registers.page:04X}")

    def start(self):
        if self.panel is None:
            number, wrong, self.panel = start(self.setup, self.table)
            if number == 13:
                self.fail(13, wrong)
            if number:
                self.fail(number)

    def event(self, kind, body):
        if kind == 0x01:
            self.panel.give_byte(body[0])
        elif kind == 0x02:
            self.panel.give_mark()
        elif kind == 0x03:
            self.lines.append(f"T {self.panel.contact(self.table, self.words, self.room, WatchList(), word(body, 0), word(body, 2)).number}")
        elif kind == 0x04:
            self.lines.append(f"T {self.panel.lift()}")
        else:
            self.panel.second()
        while (handed := self.panel.report(self.words, self.curves, self.room, WatchList())).what != "nothing":
            self.handed(handed)

    def handed(self, handed):
        command = f"{handed.report.command:02X}"
        self.lines.append(f"F {command} {handed.number}" if handed.what == "F" else f"B {command}")
        end = handed.acknowledged + handed.replied
        for part in (self.room[:handed.acknowledged], self.room[handed.acknowledged:end]):
            if part:
                self.lines.append(f"O {part.hex(' ').upper()}")

    def output(self):
        return "".join(line + "\n" for line in self.lines)


def trace_output(trace):
    t = Trace()
    try:
        t.run(trace)
    except TraceEnds:
        pass
    return t.output()


# ---- Proved examples, and the printed trace

PRINTED_TRACE = bytes.fromhex(
    "00 5A A5 01 00 02 03 20 01 E0"
    "05 00 00 00 0A 00 0A 00 64 00 32 FF 00 FF 00 FE 02 FE 00 10 00 01 00 00 05 00 00 00 64 01 00 00 00"
    "01 5A 01 A5 01 05 01 81 01 00 01 01 01 E0 01 28 03 00 0B 00 0B 04")
PRINTED_OUTPUT = "F 81 0\nO 5A A5 06 81 00 01 10 28 44\nT 0\nT 0\nE 0000\n"


def given(setup, line):
    """What a panel of this setup hands over for a line of bytes and marks (None), its words, and the numbers of each channel."""
    panel, words, curves, room, handed = Panel(setup), [0] * WORDS, [0] * CURVE_WORDS, bytearray(LEAST_ROOM), []
    for b in line:
        panel.line.give(b)
        while (h := panel.report(words, curves, room, WatchList())).what != "nothing":
            handed.append((h.what, h.report.command, h.number))
    return handed, words, [panel.channels.numbers(n, curves) for n in range(CHANNELS)]


OLD_SHEET, REVISED_SHEET = (Setup(0x5A, 0xA5, flags, 2, 1024, 768) for flags in (1, 5))


def example_step(around):
    b = bytes(0x0E) + b"\xFE\x02\xFE\0\0\0\x01" + bytes([around]) + two(5) + two(0) + two(100) + b"\x01\0\0\0"
    return Record(b).act(OLD_SHEET, 98, 0, 0)


def slider_bytes(begin, end, first, last):
    area = two(first) + two(0) + two(last) + two(0)
    return two(0) + area + two(0xFF00) + two(0xFF00) + two(0xFE03) + b"\xFE\0\0\0" + area + two(begin % 65536) + two(end % 65536)


def example_slider(begin, end, x, first=100, last=300, sheet=OLD_SHEET):
    return signed(Record(slider_bytes(begin, end, first, last)).act(sheet, 0, x, 0))


def example_drag(sheet, places):
    """What the slider of example j stores that is caught at its first edge and then moved."""
    table, panel, words = slider_bytes(0, 7, 100, 300), Panel(sheet), [0] * WORDS
    return [words[0] for x in (100, *places) if panel.contact(table, words, bytearray(LEAST_ROOM), WatchList(), x, 0).number == 0][1:]


def sheet_examples():
    """02, §5: what a slider stands at by the old sheet and by the revised one, worked out by hand."""
    for what, due, slider in (
            ("h", (5, 5), (0, 1000, 101)), ("h, falling", (995, 995), (1000, 0, 101)), ("i", (-5, -5), (-10, 10, 150)),
            ("j", (6, 7), (0, 7, 299)), ("j, the last edge", (7, 7), (0, 7, 300)), ("j, the first edge", (0, 0), (0, 7, 100)),
            ("j, falling", (1, 0), (7, 0, 299)), ("j, falling to the last edge", (0, 0), (7, 0, 300)),
            ("a half, rising", (0, 1), (0, 1, 1, 0, 2)), ("a half, falling", (1, 0), (1, 0, 1, 0, 2)),
            ("a half below 0, rising", (-1, 0), (-1, 0, 1, 0, 2)), ("a half below 0, falling", (0, -1), (0, -1, 1, 0, 2)),
            ("a half across 0, rising", (0, 1), (-1, 2, 1, 0, 2)), ("a half across 0, falling", (1, 0), (2, -1, 1, 0, 2)),
            ("just below a half", (0, 0), (0, 99, 101)), ("the half", (0, 1), (0, 100, 101)), ("just above a half", (0, 1), (0, 101, 101)),
            ("all words at 1 of 1,023", (-32704, -32704), (-32768, 32767, 1, 0, 1023)),
            ("all words at 511 of 1,023", (-33, -33), (-32768, 32767, 511, 0, 1023)),
            ("all words at 512 of 1,023", (31, 32), (-32768, 32767, 512, 0, 1023)),
            ("all words, falling, at 512 of 1,023", (-32, -33), (32767, -32768, 512, 0, 1023)),
            ("all words at 1,022 of 1,023", (32702, 32703), (-32768, 32767, 1022, 0, 1023)),
            ("all words at 1,023 of 1,023", (32767, 32767), (-32768, 32767, 1023, 0, 1023)),
            ("all words, falling, at 1,023 of 1,023", (-32768, -32768), (32767, -32768, 1023, 0, 1023))):
        yield f"both sheets: {what}", due, tuple(example_slider(*slider, sheet=sheet) for sheet in (OLD_SHEET, REVISED_SHEET))
    yield "setup flags that are good", list(range(8)), [flags for flags in range(256) if OLD_SHEET._replace(flags=flags).is_good()]
    for due, sheet in (([6, 1, 7], OLD_SHEET), ([7, 1, 7], REVISED_SHEET)):
        yield "a caught slider keeps to the panel's sheet", due, example_drag(sheet, (299, 130, 300))


def curve_data(mode, numbers):
    return bytes([mode]) + b"".join(two(n) for n in numbers)


def wrongly_judged():
    """Modes and data lengths of 84 that the model judges otherwise than by listing, for each mode, how long one round, two rounds and so on are."""
    panel = Panel(Setup(0x5A, 0xA5, 0, 2, 800, 480))
    for mode in range(256):
        right = {1 + rounds * 2 * f"{mode:b}".count("1") for rounds in range(1, 128)} if mode else set()
        for length in range(data_limit(panel.setup) + 1):
            if panel.judge(0x84, (bytes([mode]) + bytes(253))[:length]) != (0 if length in right else 3):
                yield mode, length


def curve_examples(setup):
    """What 02, §2, and the manuals say of curves, with checking off."""
    def sent(*frames):
        return given(setup, b"".join(frame(setup, *each) for each in frames))

    yield "84 of the manuals", [[0x0001, 0x0010], [], [], [], [], [], [], []], given(setup, bytes.fromhex("5AA506840100010010"))[2]
    yield "84, mode 45", [[1, 4], [], [2, 5], [], [], [], [3, 6], []], sent((0x84, curve_data(0x45, range(1, 7))))[2]
    yield "84, mode 83", [[1, 4], [2, 5], [], [], [], [], [], [3, 6]], sent((0x84, curve_data(0x83, range(1, 7))))[2]
    yield "84, no whole rounds", [[]] * CHANNELS, sent((0x84, b""), (0x84, b"\0\0\1"), (0x84, b"\1"), (0x84, b"\3\0\1"), (0x84, b"\1\0\1\0"))[2]
    yield "84, modes and lengths", [], list(wrongly_judged())
    for count in (1023, 1024, 1025, 3000):
        frames = [(0x84, curve_data(0x08, range(count)[at:at + 126])) for at in range(0, count, 126)]
        yield f"{count} numbers", list(range(count))[-1024:], sent(*frames)[2][3]
    for value, left in ((0x55, [[]] * 8), (0x56, [[]] + [[9]] * 7), (0x5D, [[9]] * 7 + [[]]), (0x54, [[9]] * 8), (0x5E, [[9]] * 8), (0x00, [[9]] * 8)):
        yield f"EB {value:02X}", left, sent((0x84, curve_data(0xFF, [9] * 8)), (0x80, [0xEB, value]))[2]
    line = frame(setup, 0x80, [0xEB, 0x55]) + frame(setup, 0x81, [0xEB, 0x01])
    trace = bytes.fromhex("00 5A A5 00 00 02 03 20 01 E0") + b"".join(bytes((0x01, b)) for b in line)
    yield "EB reads 00", "F 80 0\nF 81 0\nO 5A A5 04 81 EB 01 00\nE 0000\n", trace_output(trace)


def watched(setup, entries, *steps):
    """A panel with a key that stores 1234 in word 0010 at the point 0 0, and no other record. A step is a contact's point, bytes of the line, or None, a
    lift. What each contact gave, and the values last sent."""
    table = bytes(10) + two(0xFF00) + two(0xFF00) + two(0xFE05) + b"\xFE" + two(0x0010) + b"\0" + two(0x1234) + bytes(10)
    panel, words, room, watch = Panel(setup), [0] * WORDS, bytearray(b"\xEE" * LEAST_ROOM), WatchList(*zip(*entries))
    told = []
    for step in steps:
        if step is None:
            panel.lift()
        elif isinstance(step, tuple):
            given = panel.contact(table, words, room, watch, *step)
            told.append((given.number, room[:given.written].hex().upper()))
        else:
            for b in step:
                panel.give_byte(b)
            while panel.report(words, [0] * CURVE_WORDS, room, watch).what in ("F", "B"):
                pass
    return told, watch.values


def watch_examples(on, off):
    """What 02, §4, says, worked out by hand."""
    acting, beside = (0, 0), (5, 5)
    first, second = "5AA506830010011234", "5AA506830020010000"
    yield "watched: the key's word is sent and noted", ([(0, first)], [0x1234]), watched(off, [(0x10, 1, 0)], acting)
    yield "watched: with checking", ([(0, "5AA508830010011234479F")], [0x1234]), watched(on, [(0x10, 1, 0)], acting)
    yield "watched: sent before already", ([(0, "")], [0x1234]), watched(off, [(0x10, 1, 0x1234)], acting)
    yield "watched: not in use", ([(0, "")], [7]), watched(off, [(0x10, 0, 7)], acting)
    yield "watched: one a contact, in order, down and where nothing acts", ([(0, second), (0, first), (0, "")], [0, 0x1234]), \
        watched(off, [(0x20, 0xFF, 9), (0x10, 1, 0)], acting, beside, beside)
    yield "watched: a contact on no record", ([(0, second)], [0]), watched(off, [(0x20, 1, 9)], beside)
    yield "watched: 9 and 8", ([(8, ""), (9, "")], [9]), \
        watched(off, [(0x20, 1, 9)], (800, 0), bytes.fromhex("5AA503800B00"), beside)
    yield "watched: a write notes, changed or not", ([(0, "")], [0x0102, 0x0304, 0]), \
        watched(off, [(0x20, 1, 9), (0x21, 1, 0x0304), (0x22, 1, 7)], bytes.fromhex("5AA5098200200102 0304 0000"), beside)
    yield "watched: a refused write notes nothing", ([(0, "5AA506836FFF010000")], [0]), \
        watched(off, [(0x6FFF, 1, 9)], bytes.fromhex("5AA507826FFF00090009"), beside)
    yield "watched: a read notes nothing", ([(0, second)], [0]), watched(off, [(0x20, 1, 9)], bytes.fromhex("5AA50483002001"), beside)
    entries = [(address, 1, 0) for address in range(0x30, 0x41)]
    for number, what, those in (
            (0, "no entries", []), (0, "16 entries", entries[:16]), (16, "17 entries", entries), (16, "17 entries, one in use", [(0, 0, 0)] * 16 + entries[:1]),
            (16, "a word twice", entries[:2] + entries[:1]), (0, "a word twice, once in use", [(0x30, 0, 0)] + entries[:1]),
            (0, "6FFF", [(0x6FFF, 1, 0)]), (16, "7000", [(0x7000, 1, 0)]), (16, "FFFF", [(0xFFFF, 1, 0)]), (0, "7000 not in use", [(0x7000, 0, 0)] * 2)):
        yield f"watched: {what}", [(number, "")], watched(off, those, beside)[0]
    yield "watched: 16 before 1", [(16, ""), (16, "")], watched(off, [(0x7000, 1, 0)], beside, bytes.fromhex("5AA503800205"), beside)[0]


def clock_output(setup, *steps):
    """What the trace program prints for steps, without its last line, E. A step is a command and its data, bytes of the line, or a number of seconds."""
    trace = bytes([0x00, *setup[:3]]) + b"".join(map(two, setup[3:]))
    for step in steps:
        line = b"" if isinstance(step, int) else step if isinstance(step, bytes) else frame(setup, *step)
        trace += b"\x06" * step if isinstance(step, int) else b"".join(bytes((0x01, b)) for b in line)
    return trace_output(trace).removesuffix("E 0000\n")


def set_clock(text, weekday=0x00, first=SET):
    """An 80 of 1F to 26 for a moment as it is written, `13-11-08 18:56:00`."""
    date, time = bytes.fromhex(text[:8].replace("-", "")), bytes.fromhex(text[9:].replace(":", ""))
    return 0x80, bytes((CLOCK.start, first)) + date + bytes([weekday]) + time


READ_CLOCK = 0x81, bytes((CLOCK.start, len(CLOCK)))


def clock_read(bytes_of_clock):
    """What is printed for READ_CLOCK, without checking."""
    return f"F 81 0\nO 5A A5 0B 81 1F 08 {bytes_of_clock}\n"


def clock_examples(off):
    """What 02, §6, and the manuals say of the clock, the dates and weekdays worked out by hand, with checking off."""
    yield "clock: at the start", clock_read("00 00 01 01 06 00 00 00"), clock_output(off, READ_CLOCK)
    for who, line, due in (("003", "5AA50A801F5A13110800185600", "00 13 11 08 05 18 56 00"), ("004", "5AA50A801F5A16030900161830", "00 16 03 09 03 16 18 30")):
        yield f"clock: set as {who} prints it", "F 80 0\n" + clock_read(due), clock_output(off, bytes.fromhex(line), READ_CLOCK)
    yield "clock: 003's reads", "F 80 0\nF 81 0\nO 5A A5 0A 81 20 07 13 11 08 05 18 56 00\nF 81 0\nO 5A A5 06 81 24 03 18 56 00\n", \
        clock_output(off, set_clock("13-11-08 18:56:00"), (0x81, b"\x20\x07"), (0x81, b"\x24\x03"))
    for before, due in (
            ("13-11-08 18:56:00", "13 11 08 05 18 56 01"), ("13-11-08 18:56:09", "13 11 08 05 18 56 10"), ("13-11-08 18:56:59", "13 11 08 05 18 57 00"),
            ("13-11-08 18:59:59", "13 11 08 05 19 00 00"), ("13-11-08 23:59:59", "13 11 09 06 00 00 00"), ("13-11-09 23:59:59", "13 11 10 00 00 00 00"),
            ("13-11-30 23:59:59", "13 12 01 00 00 00 00"), ("13-10-31 23:59:59", "13 11 01 05 00 00 00"), ("13-12-31 23:59:59", "14 01 01 03 00 00 00"),
            ("00-02-28 23:59:59", "00 02 29 02 00 00 00"), ("00-02-29 23:59:59", "00 03 01 03 00 00 00"), ("01-02-28 23:59:59", "01 03 01 04 00 00 00"),
            ("96-02-28 23:59:59", "96 02 29 03 00 00 00"), ("99-12-31 23:59:58", "99 12 31 04 23 59 59"), ("99-12-31 23:59:59", "00 01 01 06 00 00 00")):
        yield f"clock: the second behind {before}", "F 80 0\n" + clock_read(f"00 {due}"), clock_output(off, set_clock(before, 0x07), 1, READ_CLOCK)
    yield "clock: a minute, and a day, from the start", clock_read("00 00 01 01 06 00 01 00") + clock_read("00 00 01 02 00 00 00 00"), \
        clock_output(off, 60, READ_CLOCK, 86400 - 60, READ_CLOCK)
    for weekday in (0x00, 0x05, 0x06, 0x0A, 0x99, 0xFF):
        yield f"clock: weekday {weekday:02X} is ignored", "F 80 0\n" + clock_read("00 13 11 08 05 18 56 00"), \
            clock_output(off, set_clock("13-11-08 18:56:00", weekday), READ_CLOCK)
    at_start = clock_read("00 00 01 01 06 00 00 00")
    wrong_dates = "13-00-08", "13-13-08", "13-11-00", "13-04-31", "13-11-31", "13-12-32", "01-02-29", "00-02-30", "1A-11-08", "A0-11-08", "13-0A-08", "13-11-0A"
    wrong_times = "24:00:00", "18:60:00", "18:56:60", "0A:56:00", "18:0A:00", "18:56:0A", "18:56:F0"
    for text in (*(f"{date} 18:56:00" for date in wrong_dates), *(f"13-11-08 {time}" for time in wrong_times)):
        yield f"clock: there is no {text}", "F 80 6\n" + at_start, clock_output(off, set_clock(text), READ_CLOCK)
    for first in (0x00, 0x5B, 0xA5):
        yield f"clock: first byte {first:02X}", "F 80 6\n" + at_start, clock_output(off, set_clock("13-11-08 18:56:00", first=first), READ_CLOCK)
    wrong = set_clock("13-11-31 18:56:00", first=0x00)[1][1:]
    for what, address, run in (("1F alone", 0x1F, wrong[:1]), ("all but 1F", 0x20, wrong[1:]), ("all but 26", 0x1F, wrong[:-1]), ("23 alone", 0x23, wrong[4:5]),
                               ("with 1E", 0x1E, b"\0" + wrong), ("with 27", 0x1F, wrong + b"\0"), ("with both", 0x1E, b"\0" + wrong + b"\0")):
        yield f"clock: {what}, 5 before 6", "F 80 5\n" + at_start, clock_output(off, (0x80, bytes([address]) + run), READ_CLOCK)
    half = frame(off, *READ_CLOCK)
    yield "clock: a second inside a frame", clock_read("00 00 01 01 06 00 00 01"), clock_output(off, half[:4], 1, half[4:])
    yield "a second starts a panel, and no record follows it", ("X 11\n", "X 15\n"), (
        clock_output(off._replace(pages=0), 1), trace_output(bytes([0x00, *off[:3]]) + b"".join(map(two, off[3:])) + b"\x06\x05" + bytes(32)))
    yield "kinds 07 and above", ["X 15\n"] * 249, [trace_output(b"\x00\x5A\xA5\0\0\x02\x03\x20\x01\xE0\x06" + bytes([kind])) for kind in range(7, 256)]
    panel = Panel(off)
    for b in half:
        panel.give_byte(b)
    yield "clock: 1 while a report waits", (1, Moment(2000, 1, 1, 6, 0, 0, 0)), (panel.second(), panel.moment())


def examples():
    """Each: what, what 01 says (c and d as 02, §1, changes them) or 02, what the model says."""
    on, off, acking = (Setup(0x5A, 0xA5, flags, 2, 800, 480) for flags in (1, 0, 3))
    yield "trace", PRINTED_OUTPUT, trace_output(PRINTED_TRACE)
    yield "a", 0xFFFF, check_value(b"")
    yield "b", 0x28E0, check_value(b"\x81\x00\x01")
    yield "c", "5aa50281ff21a0", acknowledgement(acking, 0x81, True).hex()
    yield "d", "5aa502810061e0", acknowledgement(acking, 0x81, False).hex()
    yield "e", [("F", 0x81, 0)], given(on, [*bytes.fromhex("5AA540 5AA505810001E028"), None])[0]
    yield "f", 500, given(off, bytes.fromhex("5AA50582001001F4"))[1][0x10]
    yield "g", (100, 0), (example_step(0), example_step(1))
    yield "h", (5, 995), (example_slider(0, 1000, 101), example_slider(1000, 0, 101))
    yield "i", -5, example_slider(-10, 10, 150)
    yield "j", (6, 7), (example_slider(0, 7, 299), example_slider(0, 7, 300))
    for setup, count, number in ((on, 124, 0), (on, 125, 7), (off, 125, 0), (off, 126, 7)):
        yield f"read {count}", [("F", 0x83, number)], given(setup, frame(setup, 0x83, [0, 0, count]))[0]
    for count, number in ((1, 0), (2, 4)):
        yield f"write {count} at 6FFF", [("F", 0x82, number)], given(on, frame(on, 0x82, [0x6F, 0xFF] + [1, 2] * count))[0]
    yield from curve_examples(off)
    yield from watch_examples(on, off)
    yield from sheet_examples()
    yield from clock_examples(off)


def check_examples():
    tried = list(examples())
    wrong = [(what, due, ours) for what, due, ours in tried if due != ours]
    for what, due, ours in wrong:
        print(f"example {what}: due is {due!r}, the model says {ours!r}")
    if not wrong:
        print(f"{len(tried)} examples of 01 and 02: the model gives what is due")
    return 1 if wrong else 0


if __name__ == "__main__":
    if sys.argv[1:] == ["--examples"]:
        sys.exit(check_examples())
    if sys.argv[1:]:
        sys.exit(__doc__)
    sys.stdout.write(trace_output(sys.stdin.buffer.read()))
