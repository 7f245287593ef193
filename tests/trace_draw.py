"""Whole traces drawn at random, each from a seed: sessions of frames, noise and touches, and traces that are wrong in every way 01 names."""
import random

import clock_calls
import limit_records
import model
from model import MOST_RECORDS, RECORD, Setup, two
from panel_model import place_in, some_clear, some_curve_data, some_data, some_frame, some_point, some_record, widest_slider
from panel_script import END
from trace_text import BYTE_KIND, CONTACT_KIND, LIFT_KIND, QUIET_KIND, RECORD_KIND, SECOND_KIND, SETUP_KIND, joined, on_line, setup_bytes, split, spoiled

HEADERS = ((0x5A, 0xA5), (0x5A, 0xA5), (0xFF, 0xFF), (0x5A, 0x5A), (0x80, 0x03), (0x00, 0x00), (0x82, 0x82))
# The screen and pages that panel_model's records and points are drawn for.
PAGES, WIDTH, HEIGHT = 3, 320, 270
SLIDER_CODE = 0xFE03
BUFFER = 65536      # what a program may read or write at once


# ---- Setups

def some_setup(r):
    return Setup(*r.choice(HEADERS), r.choice((0, 1, 1, 1, 2, 3, 3, 3)) + r.choice((0, 4)), PAGES, WIDTH, HEIGHT)


def limit_setup(r):
    """At the limits of what is right."""
    return some_setup(r)._replace(pages=r.choice((PAGES, 65280)), width=r.choice((WIDTH, 1024)), height=r.choice((HEIGHT, 768)))


WRONG_SETUPS = [(field, n) for field, numbers in (
    ("flags", (8, 16, 32, 64, 128, 255)), ("pages", (0, 65281, 65535)), ("width", (0, 1025)), ("height", (0, 769))) for n in numbers]


def wrong_setup(r, nth):
    field, number = WRONG_SETUPS[nth % len(WRONG_SETUPS)]
    return some_setup(r)._replace(**{field: number})


# ---- Tables

def good_record(r, setup, wanted=lambda record: True):
    while not ((record := model.Record(some_record(r))).is_good(setup) and wanted(record)):
        pass
    return record.bytes


def is_slider(record):
    return record.code == SLIDER_CODE


def good_records(r, setup, count, *wanted):
    return b"".join(good_record(r, setup, *wanted) for _ in range(count))


def good_table(r, setup):
    """Perhaps ended by a record of page FFFF, behind which anything may stand."""
    table = good_records(r, setup, r.choice((0, 1, 2, 3, 6, 10)))
    return table + r.choice((b"", b"", b"", END, END + bytes(RECORD), END + good_record(r, setup)))


def table_events(table):
    return b"".join(bytes([RECORD_KIND]) + table[at:at + RECORD] for at in range(0, len(table), RECORD))


def opening(setup, table):
    return bytes([SETUP_KIND]) + setup_bytes(setup) + table_events(table)


# ---- A session

class Session:
    """A trace as it grows, and the model run beside it, so that touches can aim at what the page shows."""

    def __init__(self, r, setup, table):
        self.r, self.beside, self.trace = r, model.Trace(), bytearray(opening(setup, table))
        self.beside.setup, self.beside.table = setup, table
        self.beside.start()

    @property
    def setup(self):
        return self.beside.setup

    @property
    def panel(self):
        return self.beside.panel

    # Events

    def event(self, kind, body=b""):
        self.trace += bytes([kind]) + body
        self.beside.event(kind, body)

    def line(self, given):
        for b in given:
            self.event(BYTE_KIND, bytes([b]))

    def quiet(self):
        self.event(QUIET_KIND)

    def contact(self, x, y):
        self.event(CONTACT_KIND, two(x) + two(y))

    def lift(self):
        self.event(LIFT_KIND)

    def second(self):
        self.event(SECOND_KIND)

    def seconds(self, count):
        for _ in range(count):
            self.second()

    def send(self, command, data):
        self.line(model.frame(self.setup, command, bytes(data)))

    # What stands on the line

    def good_frame(self):
        command = self.r.choice((0x80, 0x81, 0x82, 0x83, 0x84))
        return model.frame(self.setup, command, bytes(some_data(self.r, command)))

    def good_frames(self):
        return b"".join(self.good_frame() for _ in range(self.r.randrange(1, 5)))

    def noise(self, length):
        """Rich in header bytes, in pairs of them, and in lengths that soon end."""
        h, r = self.setup.header, self.r
        draw = (lambda: h[:1], lambda: h, lambda: h, lambda: h + bytes([r.choice((0, 1, 2, 3, 4, 9, 30))]), lambda: bytes([r.randrange(256)]))
        return b"".join(r.choice(draw)() for _ in range(length))

    # Pieces of a session

    def frames(self):
        self.line(b"".join(some_frame(self.beside, self.r) for _ in range(self.r.randrange(1, 4))))

    def noisy(self):
        self.line(self.noise(self.r.randrange(1, 30)) + self.good_frames())
        self.maybe_quiet()

    def false_front(self):
        """A header pair and a length that takes good frames for its inside."""
        self.line(self.setup.header + bytes([self.r.choice((3, 20, 40, 64, 255, self.r.randrange(256)))]) + self.good_frames() + self.good_frames())
        self.maybe_quiet()

    def frames_inside(self):
        """A frame around good frames, its check wrong or right, and a good frame behind it."""
        inside = (self.noise(self.r.randrange(3)) + self.good_frames())[:model.data_limit(self.setup)]
        outer = model.frame(self.setup, self.r.choice((0x82, 0x00, self.setup.h1)), inside)
        self.line((spoiled(outer) if self.r.random() < 0.8 else outer) + self.good_frame())
        self.maybe_quiet()

    def cut_frame(self):
        frame = self.good_frame()
        self.line(frame[:self.r.randrange(1, len(frame))])
        self.maybe_quiet()
        self.line(self.good_frame())

    def echo(self):
        """What the panel has sent comes back, as on a line of two wires: acknowledgements alone, or replies too; then good frames."""
        self.frames()
        sent = [bytes.fromhex(line[2:]) for line in self.beside.lines[-self.r.randrange(2, 9):] if line[0] == "O"]
        with_replies = self.r.random() < 0.3
        self.line(b"".join(frame for frame in sent if with_replies or frame[2:3] == b"\x02") + self.good_frames())
        self.maybe_quiet()

    def longest_frame(self):
        limit = model.data_limit(self.setup)
        head = self.r.choice((b"\x00\x10", b"\x6F\x83", b"\x6F\x84"))
        data = head + bytes(self.r.randrange(256) for _ in range(limit - 2 - self.r.choice((0, 0, 1, 2))))
        self.line(model.frame(self.setup, self.r.choice((0x80, 0x82, 0x82, 0x82, 0x84, 0x99)), data))

    def curves(self):
        """Frames of numbers, good and refused; clears, good and refused; and what EB reads then, alone or with its neighbours."""
        for _ in range(self.r.randrange(1, 5)):
            self.send(0x84, some_curve_data(self.r))
        if self.r.random() < 0.7:
            self.send(0x80, some_clear(self.r))
            self.send(0x81, self.r.choice(([0xEB, 1], [0xEA, 3])))

    def full_curve(self):
        """More numbers than a channel keeps."""
        mode = self.r.choice((0x01, 0x08, 0x80))
        for _ in range(model.KEPT // 125 + self.r.randrange(1, 4)):
            self.send(0x84, bytes([mode]) + self.r.randbytes(250))

    def clock(self):
        """The clock is written, good or refused, seconds pass, and it is read."""
        for _ in range(self.r.randrange(1, 4)):
            self.send(0x80, clock_calls.some_write(self.r))
            self.seconds(self.r.randrange(4))
            self.parted_read()

    def parted_read(self):
        """A read of the clock, often with seconds inside its frame."""
        frame = model.frame(self.setup, 0x81, bytes(clock_calls.some_read(self.r)))
        at = self.r.choice((0, 0, len(frame), self.r.randint(1, len(frame) - 1)))
        self.line(frame[:at])
        self.seconds(self.r.randrange(3))
        self.line(frame[at:])

    def limit_read(self):
        """As long as a reply may be, and longer; up to the end, and past it."""
        if self.r.random() < 0.5:
            count = self.r.randrange(249, 256)
            self.send(0x81, [self.r.choice((0, 1, 256 - count)), count])
        else:
            count = self.r.randrange(123, 128)
            self.send(0x83, two(self.r.choice((0, 0x10, 0x7000 - count, 0x7001 - count))) + bytes([count]))

    def maybe_quiet(self):
        for _ in range(self.r.choice((0, 1, 1, 2))):
            self.quiet()

    def touch(self):
        if self.r.random() < 0.3:
            self.lift()
        else:
            self.contact(*some_point(self.beside, self.r))

    def records(self):
        return list(model.records(self.beside.table))

    def turn_to(self, record):
        """Shows its page, with nothing down."""
        if self.panel.is_down:
            self.lift()
        if self.panel.registers.page != record.page:
            self.send(0x80, [0x03, *two(record.page)])

    def press(self):
        """Any record, on its page; an earlier one may hold the point too."""
        if not self.records():
            return self.touch()
        record = self.r.choice(self.records())
        self.turn_to(record)
        self.contact(*place_in(self.r, record.area))

    def word(self, address):
        self.send(0x83, two(address) + b"\x01")

    def stroke(self):
        """A slider is pressed and perhaps dragged, and its word read each time: nothing else in a trace shows what it has stored."""
        sliders = list(filter(is_slider, self.records()))
        if not sliders:
            return self.touch()
        slider = self.r.choice(sliders)
        self.turn_to(slider)
        self.send(0x80, [0x0B, 0x01])
        for _ in range(self.r.randrange(1, 5)):
            self.contact(*place_in(self.r, slider.area))
            self.word(slider.word)

    def change_page(self):
        last = self.setup.pages - 1
        self.send(0x80, [0x03, *two(self.r.choice((0, 1, 2, last, self.r.randint(0, last))))])

    def drag(self):
        """Catches a slider of the page, where it has one, and moves on; in between frames come, and other things."""
        page = self.panel.registers.page
        sliders = [record.area for record in self.records() if is_slider(record) and record.page == page]
        if not sliders:
            return self.change_page()
        if self.panel.is_down:
            self.lift()
        self.send(0x80, [0x0B, 0x01])
        area = self.r.choice(sliders)
        self.contact(*place_in(self.r, area))
        for _ in range(self.r.randrange(1, 7)):
            self.r.choice((self.move_in, self.move_anywhere, self.interrupt))(area)
        if self.r.random() < 0.7:
            self.release(area)

    def release(self, area):
        """Lifts; then, perhaps, presses elsewhere, and moves into the area of the slider that was caught."""
        self.lift()
        if self.r.random() < 0.5:
            self.contact(self.setup.width - 1, self.r.choice((0, self.setup.height - 1)))
            self.move_in(area)

    def move_in(self, area):
        self.contact(*place_in(self.r, area))

    def move_anywhere(self, area):
        self.contact(self.r.randrange(self.setup.width), self.r.randrange(self.setup.height))

    def interrupt(self, area):
        """What may or may not drop a catch."""
        page, r = self.panel.registers.page, self.r
        r.choice((
            lambda: self.send(0x80, [0x03, *two(page)]),
            self.change_page,
            lambda: self.send(0x80, [0x02, 7, *two(page), 0]),
            lambda: self.send(0x80, [0x03, *two(self.setup.pages)]),
            lambda: self.send(0x80, [0x03, 0]),
            lambda: self.send(0x80, [0x05, r.choice((0, 0x5A))]),
            lambda: self.send(0x82, [0, 0x10, r.randrange(256), r.randrange(256)]),
            lambda: self.send(0x83, [0, 0x10, 3]),
            lambda: self.send(0x81, [0x00, 0x0D]),
            lambda: self.send(0x84, some_curve_data(r)),
            lambda: self.send(0x80, [0xEB, r.choice((0x55, 0x56, 0x5D, 0x5E))]),
            lambda: self.line(spoiled(model.frame(self.setup, 0x80, b"\x03\x00\x00"))),
            lambda: self.contact(self.setup.width, 0),
            self.contact_while_off,
            self.quiet,
            self.second,
            self.clock,
        ))()

    def contact_while_off(self):
        self.send(0x80, [0x0B, 0x00])
        self.contact(*some_point(self.beside, self.r))
        self.send(0x80, [0x0B, 0x01])

    def look_back(self):
        """Reads what touches and writes have left."""
        self.send(0x83, [0, 0x10, 3])
        self.send(0x83, [0x6F, 0xFF, 1])
        self.send(0x81, [0x00, 0x27])

    def run(self):
        self.seconds(self.r.choice((0, 0, 0, 1, 2)))
        self.draw({self.frames: 6, self.noisy: 3, self.false_front: 3, self.frames_inside: 3, self.cut_frame: 2, self.echo: 2, self.longest_frame: 1,
                   self.curves: 3, self.full_curve: 0.3, self.clock: 2, self.second: 2, self.limit_read: 1, self.quiet: 1, self.touch: 5, self.press: 4,
                   self.drag: 5, self.stroke: 4, self.change_page: 2, self.contact_while_off: 1, self.look_back: 2}, self.r.randrange(5, 30))
        return self.ended()

    def run_sliders(self):
        self.draw({self.stroke: 10, self.drag: 2, self.frames: 1, self.press: 1, self.look_back: 1}, self.r.randrange(20, 40))
        return self.ended()

    def run_clock(self):
        self.draw({self.clock: 12, self.parted_read: 4, self.second: 2, self.drag: 2, self.frames: 1, self.quiet: 1, self.look_back: 1},
                  self.r.randrange(20, 40))
        return self.ended()

    def draw(self, pieces, count):
        """Pieces by their weights."""
        for piece in self.r.choices(list(pieces), list(pieces.values()), k=count):
            piece()

    def ended(self):
        self.quiet()
        self.look_back()
        return bytes(self.trace)


def session(r, setup=None):
    setup = setup or some_setup(r)
    return Session(r, setup, good_table(r, setup)).run()


# ---- Traces that are wrong, or at a limit

def some_event(r):
    return r.choice((on_line([r.randrange(256)]), bytes([QUIET_KIND]), bytes([CONTACT_KIND, 0, 1, 0, 1]), bytes([LIFT_KIND]), bytes([SECOND_KIND])))


def cut_record(r, records):
    """Ends within a body; a line byte, a contact, a record or the setup."""
    bodies = {}
    for at, (kind, body) in enumerate(records):
        if body:
            bodies.setdefault(kind, []).append(at)
    at = r.choice(bodies[r.choice(sorted(bodies))])
    kind, body = records[at]
    return joined(records[:at]) + bytes([kind]) + body[:r.randrange(len(body))]


def unknown_kind(r, records):
    return with_inserted(r, records, bytes([r.choice((0x07, 0x08, 0x0A, 0x80, 0xFF, r.randrange(7, 256)))]), 0)


def second_setup(r, records):
    return with_inserted(r, records, joined(records[:1]), 1)


def record_after_event(r, records):
    first_event = next(at for at, (kind, _) in enumerate(records) if kind not in (SETUP_KIND, RECORD_KIND))
    record = bytes([RECORD_KIND]) + good_record(r, model.setup_of(records[0][1]))
    if r.random() < 0.5:
        return joined(records[:first_event]) + bytes([SECOND_KIND]) + record + joined(records[first_event:])
    return with_inserted(r, records, record, first_event + 1)


def event_before_setup(r, records):
    return some_event(r) + joined(records)


def record_before_setup(r, records):
    return bytes([RECORD_KIND]) + bytes(RECORD) + joined(records)


def no_setup(r, records):
    return b""


def with_inserted(r, records, inserted, least):
    at = r.randint(least, min(len(records), least + r.choice((0, 3, 1000))))
    return joined(records[:at]) + inserted + joined(records[at:])


def wrong_setup_cut_event(r, records):
    """What is met first wins: the cut contact, before a start."""
    return opening(wrong_setup(r, r.randrange(100)), b"") + bytes([CONTACT_KIND, 0, 1])


WAYS = (cut_record, unknown_kind, second_setup, record_after_event, event_before_setup, record_before_setup, no_setup, wrong_setup_cut_event)


def wrong_trace(r, nth):
    return WAYS[nth % len(WAYS)](r, list(split(session(r) + some_event(r))))


def beginning(r, nth):
    """What a start is made at, or not: nothing, a second or any event, in turns."""
    return (b"", bytes([SECOND_KIND]), some_event(r) + r.choice((b"", some_event(r))))[nth % 3]


def refused_setup(r, nth):
    """Whatever the table is: 11 comes before 12 and 13."""
    table = r.choice((b"", good_records(r, some_setup(r), 2), bytes(RECORD), bytes(RECORD) * 129))
    return opening(wrong_setup(r, nth), table) + beginning(r, nth)


def refused_table(r, nth):
    before = b"".join(r.choices(limit_records.RIGHT, k=r.choice((0, 1, 4, 127))))
    wrong = limit_records.WRONG[nth % len(limit_records.WRONG)]
    behind = b"" if len(before) == 127 * RECORD else r.choice((b"", bytes(RECORD), END))
    return opening(limit_records.SETUP, before + wrong + behind) + beginning(r, nth)


def limit_table(r, nth):
    """A session over a table of records at the limits, in any order."""
    table = b"".join(r.sample(limit_records.RIGHT, len(limit_records.RIGHT)))
    return Session(r, limit_records.SETUP._replace(flags=r.randrange(8)), table).run()


def slider_session(r, nth):
    """Mostly sliders, of either sheet, one of them as wide as a screen may be."""
    setup = some_setup(r)._replace(flags=nth % 8, width=1024)
    return Session(r, setup, widest_slider(r) + good_records(r, setup, 8, is_slider)).run_sliders()


def clock_session(r, nth):
    """Mostly the clock."""
    setup = some_setup(r)
    return Session(r, setup, good_records(r, setup, 4)).run_clock()


def long_table(r, nth):
    """127 to 130 records, good or wrong or ended early; then, where the table is taken, a session."""
    setup, count = some_setup(r), (128, 129, 127, 130)[nth % 4]
    table = (good_records(r, setup, 4) * 33)[:count * RECORD]
    table = r.choice((table, table, END + table[RECORD:], table[:-RECORD] + bytes(RECORD)))
    if count > MOST_RECORDS or model.judge_table(setup, table)[0]:
        return opening(setup, table) + beginning(r, nth // 2)
    return Session(r, setup, table).run()


def cut_anywhere(r, nth):
    trace = session(r)
    return trace[:r.randrange(len(trace))]


def without_events(r, nth):
    setup = limit_setup(r)
    return opening(setup, good_table(r, setup))


def limit_session(r, nth):
    return session(r, limit_setup(r))


def smallest(r, nth):
    """One page and one point."""
    setup = some_setup(r)._replace(pages=1, width=1, height=1)
    events = [some_event(r) for _ in range(10)] + [bytes([CONTACT_KIND, 0, 0, 0, r.randrange(2)]) for _ in range(4)]
    events += [on_line(model.frame(setup, 0x80, (3, 0, n))) for n in (0, 1)]
    r.shuffle(events)
    return opening(setup, b"") + b"".join(events)


def plain_session(r, nth):
    return session(r)


def long_input(r, setup, s):
    """Noise without a header byte in it, which leaves nothing behind, to about the end of the first 64 KiB."""
    passed_over = bytes(b for b in range(256) if b != setup.h1)
    count = (BUFFER - len(s.trace)) // 2 - r.randrange(300)
    s.trace += on_line(r.choices(passed_over, k=count))


def long_output(r, setup, s):
    """Reads whose replies fill 64 KiB of text."""
    for _ in range(BUFFER // (3 * 250) + r.randrange(-3, 3)):
        s.send(0x83, two(r.randrange(0x6F00)) + bytes([r.choice((120, 123, 124))]))


def long_session(r, nth):
    """One whose input or output goes past a program's buffer, so that an event or a line falls upon its end."""
    setup = some_setup(r)
    s = Session(r, setup, good_table(r, setup))
    (long_input, long_output)[nth % 2](r, setup, s)
    return s.run()


# Each seed takes its turn in this list, so that a few hundred seeds meet everything.
TURNS = (wrong_trace, refused_setup, refused_table, long_table, cut_anywhere, without_events, limit_session, smallest, wrong_trace, refused_table,
         limit_table, refused_table, refused_table, long_session) + (plain_session,) * 9 + (slider_session,) * 2 + (clock_session,) * 2


def drawn(seed):
    """A trace, and the name of what was drawn."""
    rounds, place = divmod(seed, len(TURNS))
    turn = TURNS[place]
    nth = rounds * TURNS.count(turn) + TURNS[:place].count(turn)
    name = (WAYS[nth % len(WAYS)] if turn is wrong_trace else turn).__name__.replace("_", " ")
    return turn(random.Random(seed), nth), name
