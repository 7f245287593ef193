"""Touch records at the limits that 01 prints: RIGHT ones on this side, WRONG ones on that. For 16 pages and 800 by 480 points.

The records that are changed, KEY, STEP and SLIDER, and the names of their fields are those of tests/touch_model.py: page 3, area 100,50 to 300,250.
"""
from model import Record, Setup
from touch_model import (ADDRESS, BEGIN, CODE, DIRECTION, ENDING, GREATEST, KEY, LEAST, MARK, MODE, NEXT, ONCE, PAGE, PRESS, SLIDER, STEP,
                         STEP_BY, XE, XS, YE, YS, patched)
from touch_model import END as LAST

SETUP = Setup(0x5A, 0xA5, 1, 16, 800, 480)
SECOND_AREA = 0x14 - 0x02       # from a field of the area to the same field of a slider's second area


def limits():
    """A record, what is changed in it beforehand, a field, numbers that are right in the field, and numbers that are wrong."""
    for base in (KEY, STEP, SLIDER):
        yield base, (), PAGE, (0, 15), (16,)
        yield base, (), XE, (799,), (800,)
        yield base, (), YE, (479,), (480,)
        yield base, (), NEXT, (0xFF00, 0xFFFF), (16, 0xFEFF)
        yield base, (), PRESS, (0, 16), ()
        yield base, (), CODE, (), (0xFE04, 0xFD05)
        yield base, (), MARK, (), (0xFF,)
        yield base, (), ADDRESS, (0, 0x6FFF), (0x7000,)
    for base in (KEY, STEP):
        yield base, (), XS, (300,), (301,)
        yield base, (), YS, (250,), (251,)
        yield base, (), NEXT, (0, 15), ()
        yield base, (), MODE, (0, 1, 2), (3, 0x10)
    yield from step_limits()
    yield from slider_limits()


def step_limits():
    yield STEP, (), STEP_BY, (1, 32767), (0, 32768)
    yield STEP, ((*LEAST, 0x8000), (*GREATEST, 0x7FFF)), STEP_BY, (32767,), ()
    yield STEP, (), LEAST, (100, 0x8000), (101,)
    yield STEP, (), GREATEST, (0, 0x7FFF), (0xFFFF,)
    yield STEP, (), DIRECTION, (0, 255), ()
    yield STEP, (), ENDING, (0, 255), ()
    yield STEP, (), ONCE, (), (0, 2)
    for mode in (1, 2):
        yield STEP, ((*MODE, mode),), GREATEST, (255,), (256,)
        yield STEP, ((*MODE, mode),), LEAST, (0,), (0xFFFF,)


def slider_limits():
    yield SLIDER, (), NEXT, (), (0,)
    yield SLIDER, ((*LAST, 255),), MODE, (), (0x02, 0x12, 0x30)
    for at, size in (XS, YS, XE, YE):
        yield SLIDER, (), (at + SECOND_AREA, size), (), (120,)
    yield SLIDER, (), BEGIN, (0x8000, 0x7FFF), ()
    yield SLIDER, (), LAST, (0, 0x8000, 0x7FFF), ()
    yield SLIDER, ((*BEGIN, 0x8000),), LAST, (0x7FFF,), ()
    yield SLIDER, ((*BEGIN, 0x7FFF),), LAST, (0x8000,), ()
    for part in (0x00, 0x10, 0x20):
        yield SLIDER, ((*MODE, part), (*LAST, 255)), XE, (101,), (100,)
        yield SLIDER, ((*MODE, part), (*LAST, 255)), YE, (50,), ()
        yield SLIDER, ((*MODE, part + 1), (*LAST, 255)), YE, (51,), (50,)
        yield SLIDER, ((*MODE, part + 1), (*LAST, 255)), XE, (100,), ()
    for mode in (0x10, 0x11, 0x20, 0x21):
        yield SLIDER, ((*MODE, mode), (*LAST, 0)), BEGIN, (255,), (256,)
        yield SLIDER, ((*MODE, mode),), LAST, (255,), (256,)


def changed(base, beforehand, field, number):
    """A slider's area stands in it twice."""
    at, size = field
    again = ((at + SECOND_AREA, size, number),) if base is SLIDER and field in (XS, YS, XE, YE) else ()
    return patched(base, *beforehand, (at, size, number), *again)


RIGHT = [changed(base, beforehand, field, n) for base, beforehand, field, right, _ in limits() for n in right]
WRONG = [changed(base, beforehand, field, n) for base, beforehand, field, _, wrong in limits() for n in wrong]
assert all(Record(b).is_good(SETUP) for b in RIGHT) and not any(Record(b).is_good(SETUP) for b in WRONG)
