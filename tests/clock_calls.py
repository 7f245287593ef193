"""Cases of the clock (02, §6), as calls on a `Script`: setting it, what is refused, the ends that a second goes over, seconds among the other inputs; and
writes drawn at random. `panel_model.py` runs them, and `trace_cases.py` those that a trace can show."""
import model
from model import CLOCK, to_bcd
from panel_script import NOTHING_WRONG, key, slider

READ = [CLOCK.start, len(CLOCK)]
# 003's moment, and 004's.
PRINTED = ((2013, 11, 8, 18, 56, 0), (2016, 3, 9, 16, 18, 30))
LONG_MONTHS, SHORT_MONTHS = (1, 3, 5, 7, 8, 10, 12), (4, 6, 9, 11)


def eight(year, month, day, hour=0, minute=0, second=0, weekday=0x00, first=model.SET):
    """The bytes for 1F to 26, by numbers; the weekday is a byte."""
    return bytes((first, to_bcd(year - 2000), to_bcd(month), to_bcd(day), weekday, to_bcd(hour), to_bcd(minute), to_bcd(second)))


def setting(*moment, **others):
    return [CLOCK.start, *eight(*moment, **others)]


def set_to(s, *moment, **others):
    s.send(0x80, setting(*moment, **others))
    s.send(0x81, READ)


# ---- Cases that a trace can show too

ENDING = (
    *((2013, 11, 8, *time) for time in (
        (18, 56, 0), (18, 56, 9), (18, 56, 58), (18, 58, 58), (9, 59, 58), (18, 59, 58), (9, 9, 9), (19, 59, 59), (22, 59, 59), (23, 58, 59), (23, 59, 58))),
    (2013, 11, 9, 23, 59, 58),
    *((2013, month, day, 23, 59, 58) for month in LONG_MONTHS for day in (30, 31)),
    *((2013, month, day, 23, 59, 58) for month in SHORT_MONTHS for day in (29, 30)),
    *((year, 2, 28, 23, 59, 58) for year in (2000, 2001, 2002, 2003, 2004, 2009, 2010, 2012, 2020, 2050, 2096, 2099)),
    *((year, 2, 29, 23, 59, 58) for year in (2000, 2004, 2012, 2020, 2048, 2096)), *((year, 2, 27, 23, 59, 59) for year in (2000, 2001, 2004)),
    *((year, 12, 31, 23, 59, 58) for year in (2000, 2009, 2010, 2019, 2089, 2098, 2099)), (2099, 12, 31, 0, 0, 0), (2099, 12, 30, 23, 59, 59))


def ends(s):
    s.title("seconds over the ends of minutes, hours, days, months, years and the century")
    for at, moment in enumerate(ENDING):
        set_to(s, *moment, weekday=at % 256)
        for _ in range(3):
            s.second()
            s.send(0x81, READ)


def weekdays(s):
    s.title("the weekday of each day of two weeks, and of 1 March in each year; it is worked out whatever is sent")
    for day in range(1, 15):
        set_to(s, 2013, 11, day, 23, 59, 59, weekday=day % 8)
        s.second()
        s.send(0x81, [0x23, 1])
    for year in range(2000, 2100):
        set_to(s, year, 3, 1, weekday=year % 256)


def manuals(s):
    s.title("the clock as the manuals set and read it")
    s.send(0x81, READ)
    for moment in PRINTED:
        set_to(s, *moment)
        s.send(0x81, [0x20, 7])
        s.send(0x81, [0x24, 3])
        s.second()
        s.all()
    s.title("every weekday byte from 00 to 0F, and some above")
    for weekday in (*range(0x10), 0x5A, 0x99, 0x9A, 0xA0, 0xFF):
        set_to(s, *PRINTED[0], weekday=weekday)


def refused_settings(s):
    s.title("settings that are refused with 6, and the clock stays")
    set_to(s, *PRINTED[1])
    good = eight(*PRINTED[0])
    for at, wrong in ((0, (0x00, 0x59, 0x5B, 0xA5, 0xFF)), (1, (0x0A, 0x9A, 0xA0, 0xFF)), (2, (0x00, 0x0A, 0x13, 0x1A, 0x20, 0x99, 0xF0)),
                      (3, (0x00, 0x0A, 0x1F, 0x31, 0x32, 0x39, 0x3A, 0x99, 0xA0)), (5, (0x0A, 0x1A, 0x24, 0x29, 0x2A, 0x30, 0xA0)),
                      (6, (0x0A, 0x5A, 0x60, 0x99, 0xA0)), (7, (0x0A, 0x5A, 0x60, 0x99, 0xF0))):
        for byte in wrong:
            s.send(0x80, [CLOCK.start, *good[:at], byte, *good[at + 1:]])
            s.send(0x81, READ)
    for year in (2000, 2001, 2004, 2010, 2096, 2099):
        for month in range(1, 13):
            for day in (28, 29, 30, 31, 32):
                s.send(0x80, setting(year, month, day, 12, 34, 56))
            s.send(0x81, READ)
    s.title("several faults, and the first byte alone")
    for data in (setting(2013, 2, 30, 24, 60, 60), setting(2013, 13, 0, first=0x00), *([CLOCK.start] + [byte] * 8 for byte in (0x00, 0xFF, 0x5A))):
        s.send(0x80, data)
        s.send(0x81, READ)


def refused_runs(s):
    s.title("runs over and around the clock: 4 before 5, 5 before 6")
    set_to(s, *PRINTED[0])
    run = dict(zip(CLOCK, eight(*PRINTED[1])))
    for address in range(CLOCK.start - 2, CLOCK.stop + 1):
        for stop in range(address + 1, CLOCK.stop + 3):
            s.send(0x80, [address, *(run.get(at, 0x00) for at in range(address, stop))])
        s.send(0x81, [CLOCK.start - 1, len(CLOCK) + 2])
        s.second()
    for count in (len(CLOCK) + 1, 225, 226):
        s.send(0x80, [CLOCK.start, *eight(*PRINTED[1]), *[0] * (count - len(CLOCK))])
    s.send(0x80, [CLOCK.start])
    s.send(0x81, READ)


def inside_frames(s):
    s.title("a second inside a frame, at each of its places: the frame goes on; a mark ends it")
    frame = model.frame(s.panel.setup, 0x81, bytes(READ))
    for at in range(len(frame) + 1):
        give(s, frame[:at])
        s.second()
        give(s, frame[at:])
    for b in frame:
        give(s, bytes([b]))
        s.second()
    give(s, frame[:-1])
    s.second()
    s.mark()
    s.second()
    give(s, frame[-1:])
    s.send(0x81, READ)


def give(s, line):
    """Bytes that bring one report at most, which is asked for."""
    s.bytes(line)
    s.ask_all()


SHOWN = (manuals, ends, weekdays, refused_settings, refused_runs, inside_frames)


# ---- Cases of the panel alone

def shown(s):
    for flags in (0, 3):
        s.start(NOTHING_WRONG._replace(flags=flags), b"")
        s.title(f"a started panel's moment, flags {flags}")
        s.moment()
        for address in range(CLOCK.start - 1, CLOCK.stop + 1):
            s.register(address)
        s.all()
        for group in SHOWN:
            group(s)
            s.moment()
            s.all()


def waiting_seconds(s):
    s.start(NOTHING_WRONG._replace(flags=3), slider() + key(page=1))
    for is_bad in (False, True):
        s.title(f"a second while {'a bad check' if is_bad else 'a frame'} waits: 1, and it has not passed")
        (s.send_bad if is_bad else s.send)(0x80, setting(2013, 11, 8, 23, 59, 59), ask=False)
        for _ in range(3):
            s.second()
            s.moment()
        s.title("asking with too little lent leaves it waiting, and the clock as it is")
        s.lend(room=264)
        s.ask()
        s.second()
        s.lend()
        s.lend_lengths(1, 0, 0)
        s.ask()
        s.second()
        s.lend_list([])
        s.moment()
        s.ask_all()
        s.mark()
        s.ask_all()
        s.moment()
        s.second()
        s.moment()
        s.all()
    s.title("several reports of a closed stretch, seconds between")
    s.bytes(s.panel.setup.header + b"\xF0" + b"".join(model.frame(s.panel.setup, 0x80, bytes(setting(2000 + n, 1, 1, 23, 59, 59))) for n in range(3)))
    s.second()
    s.mark()
    for _ in range(4):
        s.second()
        s.moment()
        s.ask()
    s.second()
    s.moment()


def beside_touches(s):
    s.start(NOTHING_WRONG, slider())
    s.title("seconds while up, pressed, dragged and lifted: neither status nor catch nor words change")
    for x in (150, 160, 170):
        s.second()
        s.contact(x, 100)
        s.second()
        s.all()
    s.title("a setting keeps the catch, and so does a refused one")
    for moment in ((2013, 11, 8, 23, 59, 59), (2013, 11, 31), (2000, 1, 1)):
        s.send(0x80, setting(*moment))
        s.second()
        s.contact(200 + moment[2], 100)
        s.word(0x10)
        s.moment()
    s.second()
    s.lift()
    s.second()
    s.lift()
    s.all()
    s.title("seconds with touch off, and on another page")
    s.send(0x80, [0x0B, 0])
    s.second()
    s.send(0x80, [0x03, 0, 5])
    s.seconds(2)
    s.all()


def other_panels(s):
    s.title("a refused start leaves the clock; another panel begins at the first moment")
    s.start(NOTHING_WRONG, b"")
    s.send(0x80, setting(2099, 12, 31, 23, 59, 58))
    s.second()
    s.start(NOTHING_WRONG._replace(flags=8))
    s.moment()
    s.second()
    s.moment()
    s.seconds(61)
    s.moment()
    s.start(NOTHING_WRONG)
    s.moment()
    s.title("a hundred seconds, over midnight into a leap day")
    s.send(0x80, setting(2004, 2, 28, 23, 59, 30))
    for _ in range(10):
        s.seconds(10)
        s.moment()


GROUPS = (shown, waiting_seconds, beside_touches, other_panels)


# ---- Writes drawn at random

def some_date(r):
    """Mostly the last day of a month, or the one before it."""
    leap, common = r.randrange(0, 100, 4), r.choice([year for year in range(100) if year % 4])
    year = 2000 + r.choice((leap, common))
    return r.choice((
        (year, r.choice(LONG_MONTHS), 31), (year, r.choice(SHORT_MONTHS), 30), (2000 + leap, 2, 28), (2000 + leap, 2, 29), (2000 + common, 2, 28),
        (year, 12, 31), (2099, 12, 31), (year, r.randint(1, 12), r.randint(1, 28)), (year, r.choice(LONG_MONTHS), 30)))


def some_time(r):
    """Mostly a second or two before an end."""
    return r.choice((
        (23, 59, 59), (23, 59, 59), (23, 59, 58), (r.randrange(24), 59, 59), (r.randrange(24), r.randrange(60), 59),
        (r.randrange(24), r.randrange(60), r.randrange(60))))


def some_eight(r):
    return eight(*some_date(r), *some_time(r), weekday=r.choice((0, *range(8), r.randrange(256))))


# Of each place of the eight bytes, what cannot stand there whatever else does.
WRONG_BYTES = ((0x00, 0x59, 0x5B, 0xA5), (0x0A, 0xA0, 0x9F), (0x00, 0x00, 0x13, 0x0A, 0x1B, 0x20), (0x00, 0x32, 0x32, 0x0A, 0xB0), (),
               (0x24, 0x29, 0x0A, 0x1F, 0x30, 0xC0), (0x60, 0x0A, 0x5F, 0x99, 0xD0), (0x60, 0x0A, 0x5F, 0x61, 0xE0))


def with_fault(r, run):
    at = r.choice([place for place, wrong in enumerate(WRONG_BYTES) if wrong])
    return run[:at] + bytes([r.choice(WRONG_BYTES[at])]) + run[at + 1:]


def some_wrong_eight(r):
    what, year = r.random(), 2000 + r.randrange(100)
    if what < 0.3:
        date = r.choice(((year, r.choice(SHORT_MONTHS), 31), (year, 2, r.choice((30, 31))), (2001 + r.randrange(0, 99, 4), 2, 29)))
        return eight(*date, *some_time(r))
    wrong = with_fault(r, some_eight(r))
    return with_fault(r, wrong) if what > 0.9 else wrong


def some_part(r):
    """A run that is not the clock's alone, mostly of bytes that would be right."""
    run = dict(zip(CLOCK, some_wrong_eight(r) if r.random() < 0.2 else some_eight(r)))
    start, stop = r.choice(((CLOCK.start, r.randint(0x20, 0x26)), (0x20, r.randint(0x21, 0x27)), (r.randint(0x1C, 0x1F), 0x27), (0x1F, r.randint(0x28, 0x2A)),
                            (r.randint(0x1C, 0x26), r.randint(0x27, 0x2A)), (r.randint(0x1B, 0x1E), r.randint(0x20, 0x2A)), (r.randint(0x21, 0x25), 0x26)))
    return [start, *(run.get(at, 0x00) for at in range(start, stop))]


def some_write(r):
    """The data of an 80."""
    what = r.random()
    return some_part(r) if what < 0.2 else [CLOCK.start, *(some_wrong_eight(r) if what < 0.45 else some_eight(r))]


def some_read(r):
    """The data of an 81 that shows all of the clock, or a part."""
    return r.choice((READ, READ, READ, [0x20, 7], [0x20, 7], [0x1C, 0x10], [0x24, 3], [r.randint(0x1E, 0x27), r.randint(0, 9)]))


def draw_clock(s, r):
    """Writes and seconds, and what they have left; now and then with a report that waits, or a frame that seconds part."""
    s.ask_all()
    for _ in range(r.randrange(1, 5)):
        s.send(0x80, some_write(r), ask=r.random() < 0.8)
        s.seconds(r.randrange(4))
        s.ask_all()
        s.seconds(r.randrange(2))
        r.choice((s.moment, s.all, lambda: draw_read(s, r)))()
    if r.random() < 0.2 and s.panel.setup.checking:
        s.send_bad(0x81, READ, ask=False)
        s.second()
        s.ask_all()
        s.mark()
        s.ask_all()


def draw_read(s, r):
    frame = model.frame(s.panel.setup, 0x81, bytes(some_read(r)))
    at = r.randint(0, len(frame))
    give(s, frame[:at])
    s.seconds(r.randrange(3))
    give(s, frame[at:])
