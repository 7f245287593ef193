"""What the clock of 02, §6, has to be tried on: names for it, so that a test can count what it has reached.

It knows which ends a second goes over and what is wrong with a write, and neither what the clock shows then nor the number that is given: that is for the
models. What changed the clock, or must not have, counts once all of 20 to 26 is looked at.
"""

CLOCK = range(0x1F, 0x27)
SHOWN = range(0x20, 0x27)
SET = 0x5A
WEEKDAY = 4                 # its place in a run of all eight
FIELDS = {1: "year", 2: "month", 3: "day", 5: "hour", 6: "minute", 7: "second"}
LONG, SHORT = (0x01, 0x03, 0x05, 0x07, 0x08, 0x10, 0x12), (0x04, 0x06, 0x09, 0x11)
ENDS = ("no end", "the end of a minute", "the end of an hour", "the end of a day", "the end of a month of 31 days", "the end of a month of 30 days",
        "28 February before 29 February", "28 February before 1 March", "29 February", "the end of a year", "the end of the century")


# ---- A second

def end_of(registers):
    """What a second goes over that comes when 1F to 26 read so."""
    _, year, month, day, _, hour, minute, second = registers
    if second != 0x59:
        return ENDS[0]
    if minute != 0x59:
        return ENDS[1]
    if hour != 0x23:
        return ENDS[2]
    if month == 0x02 and day in (0x28, 0x29):
        return ENDS[8] if day == 0x29 else ENDS[6 if int(f"{year:x}") % 4 == 0 else 7]
    if (month, day) == (0x12, 0x31):
        return ENDS[10 if year == 0x99 else 9]
    if day == (0x31 if month in LONG else 0x30):
        return ENDS[4 if month in LONG else 5]
    return ENDS[3]


def second_met(registers, is_caught):
    """What a second that is taken meets: the clock before it, and whether a slider is caught."""
    yield f"second over {end_of(registers)}"
    if is_caught:
        yield "second while a slider is caught"


class Inside:
    """Tells a frame that is accepted though a second came inside it, by the bytes given since the last second of the stretch."""

    def __init__(self):
        self.since = None

    def second(self):
        self.since = 0

    def byte(self):
        if self.since is not None:
            self.since += 1

    def mark(self):
        self.since = None

    def accepted(self, frame):
        """The frame ends with the byte that was given last."""
        if self.since is not None and self.since < len(frame):
            yield "second inside a frame that is accepted"


# ---- A write

def run_of(data):
    return range(data[0], data[0] + len(data) - 1)


def touches(data):
    """Whether the data of an 80 that has an address and bytes touches the clock."""
    return len(data) > 1 and run_of(data).start < CLOCK.stop and CLOCK.start < run_of(data).stop


def write_met(data, number):
    """What a write that touches the clock has met, which was answered by a number."""
    run = run_of(data)
    if run != CLOCK:
        yield f"{run_name(run)}, {number}"
    elif faults := list(setting_faults(data[1:])):
        yield f"setting: {faults[0] if len(faults) == 1 else 'several faults'}, {number}"
    else:
        yield from (f"setting: {what}, {number}" for what in settings(data[1:]))


def run_name(run):
    """How a run that is not the clock's lies over it."""
    before, behind = run.start < CLOCK.start, run.stop > CLOCK.stop
    if before and run.stop >= CLOCK.stop:
        return "run of all eight with others before and behind" if behind else "run of all eight with others before"
    if behind and run.start == CLOCK.start:
        return "run of all eight with others behind"
    if before or behind:
        return f"run of some with others {'before' if before else 'behind'}"
    return {CLOCK.start: "run of some from 1F on", SHOWN.start: "run of some from 20 on"}.get(run.start, "run of some inside")


def setting_faults(eight):
    """All that is wrong with the bytes for 1F to 26; the day is judged where year and month are right."""
    if eight[0] != SET:
        yield "first byte not 5A"
    digits = [f"digit above 9 in the {name}" for at, name in FIELDS.items() if not f"{eight[at]:x}".isdecimal()]
    yield from digits
    _, year, month, day, _, hour, minute, second = eight
    if not digits:
        if month == 0x00 or month > 0x12:
            yield "month 00" if month == 0x00 else "month past 12"
        else:
            yield from day_faults(year, month, day)
        yield from (f"{name} past {last:x}" for name, byte, last in (("hour", hour, 0x23), ("minute", minute, 0x59), ("second", second, 0x59)) if byte > last)


def day_faults(year, month, day):
    if day == 0x00:
        yield "day 00"
    elif month == 0x02:
        if day > 0x29:
            yield "day past 29 in February"
        elif day == 0x29 and int(f"{year:x}") % 4:
            yield "29 February in a common year"
    elif day > (0x31 if month in LONG else 0x30):
        yield f"day past {'31' if month in LONG else '30'}"


def settings(eight):
    """What a setting without a fault is."""
    yield "weekday byte above 9" if eight[WEEKDAY] > 0x09 else f"weekday byte {eight[WEEKDAY]:02X}"
    if (eight[2], eight[3]) == (0x02, 0x29):
        yield "29 February in a leap year"


RUNS = (*(f"run of all eight with others {where}" for where in ("before and behind", "before", "behind")),
        *(f"run of some {where}" for where in ("with others before", "with others behind", "from 1F on", "from 20 on", "inside")))
FAULTS = ("first byte not 5A", *(f"digit above 9 in the {name}" for name in FIELDS.values()), "month 00", "month past 12", "day 00", "day past 31",
          "day past 30", "day past 29 in February", "29 February in a common year", "hour past 23", "minute past 59", "second past 59", "several faults")
SETTINGS = (*(f"weekday byte {n:02X}" for n in range(8)), "weekday byte above 9", "29 February in a leap year")

REQUIRED = [
    *(f"second over {end}" for end in ENDS), "second inside a frame that is accepted", "second while a slider is caught",
    *(f"{run}, 5" for run in RUNS), *(f"setting: {fault}, 6" for fault in FAULTS), *(f"setting: {what}, 0" for what in SETTINGS),
    *(f"weekday {n:02X} is read" for n in range(7)),
]


class Unseen:
    """What the clock has met and nobody has looked at since. Seconds and refused writes add to it; a setting that is done leaves nothing to be seen of
    what was before it."""

    def __init__(self):
        self.names = []

    def met(self, names, is_set=False):
        self.names = ([] if is_set else self.names) + list(names)

    def looked_at(self, addresses, registers):
        """What has been met, where all that shows of the clock is looked at now."""
        if SHOWN.start in addresses and SHOWN[-1] in addresses:
            yield f"weekday {registers[WEEKDAY]:02X} is read"
            yield from self.names
            self.names = []
