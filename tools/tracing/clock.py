"""The clock's registers, 1F to 26, in words, by Python's own calendar."""
import datetime

FIRST, SIZE = 0x1F, 8
SET = 0x5A
TIME_FIRST = 0x24
NUMBERS = {int(str(number), 16): number for number in range(100)}      # of two decimal digits in a byte
WEEKDAYS = ("Sunday", "Monday", "Tuesday", "Wednesday", "Thursday", "Friday", "Saturday")


def moment_of(fields):
    """By year, month, day, hour, minute and second as they stand in registers; None where there is no such moment."""
    try:
        year, *others = map(NUMBERS.__getitem__, fields)
        return datetime.datetime(2000 + year, *others)
    except (KeyError, ValueError):
        return None


def weekday(moment):
    """Sunday is 0."""
    return moment.isoweekday() % 7


def moment_text(moment):
    return f"{moment!s}, a {WEEKDAYS[weekday(moment)]}"


# ---- What a write says

def setting_text(data):
    """Of the data of an 80 that sets the clock; nothing of any other."""
    if len(data) != 1 + SIZE or data[:2] != bytes((FIRST, SET)):
        return ""
    moment = moment_of(data[2:5] + data[6:])
    return f"sets the clock to {moment_text(moment)}" if moment else "no such moment: refused with 6"


# ---- What a read says

def reading_text(address, run):
    """Of a run of registers that has all of the clock, or its time; nothing of any other. ValueError where the clock cannot read so."""
    clock = run[FIRST + 1 - address:FIRST + SIZE - address] if address <= FIRST + 1 else b""
    if len(clock) == SIZE - 1:
        return f"the clock: {moment_text(read_moment(clock))}"
    time = run[TIME_FIRST - address:TIME_FIRST + 3 - address] if address <= TIME_FIRST else b""
    if len(time) == 3:
        moment = moment_of(b"\x00\x01\x01" + time)
        if not moment:
            raise ValueError("there is no such time in registers 24 to 26")
        return f"the time: {moment.time()}"
    return ""


def read_moment(clock):
    """Of what 20 to 26 read."""
    moment = moment_of(clock[:3] + clock[4:])
    if not moment:
        raise ValueError("there is no such moment in registers 20 to 26")
    if clock[3] != weekday(moment):
        raise ValueError(f"register 23 has weekday {clock[3]:02X}, and the date's is {weekday(moment):02X}")
    return moment
