#!/usr/bin/env python3
"""Setup and touch table of document 01, as 02, §5, changes them, written from the documents alone: a model to hold the touch library against.

    touch_model.py            what crates/touch_cases must print for the cases below
    touch_model.py --input    those cases, as that program reads them

`tests/random touch` draws others. Both count what their sliders meet, and fail where something on REQUIRED was never reached.
"""
import collections
import random
import sys

import scale_sheets

MOST_RECORDS = 128


# ---- the rules

def setup_number(s):
    good = (s["flags"] & ~7) == 0 and 1 <= s["pages"] <= 65280 and 1 <= s["width"] <= 1024 and 1 <= s["height"] <= 768
    return 0 if good else 11


def word(b, at):
    return b[at] << 8 | b[at + 1]


def signed(w):
    return w - 65536 if w & 0x8000 else w


def area(b, at):
    return word(b, at), word(b, at + 2), word(b, at + 4), word(b, at + 6)


def none(page):
    return page >> 8 == 0xFF


def fits_mode(part, w):
    """An end of a step or a slider: any word in word mode, 0 to 255 in the byte modes."""
    return part == 0 or w <= 255


def good_record(s, b):
    xs, ys, xe, ye = area(b, 0x02)
    page, after, code, mode = word(b, 0x00), word(b, 0x0A), word(b, 0x0E), b[0x13]
    if page >= s["pages"] or not (none(after) or after < s["pages"]):
        return False
    if not (xs <= xe < s["width"] and ys <= ye < s["height"]):
        return False
    if b[0x10] != 0xFE or word(b, 0x11) >= 0x7000:
        return False
    if code == 0xFE05:
        return mode in (0, 1, 2)
    if code == 0xFE02:
        step, least, greatest = word(b, 0x16), word(b, 0x18), word(b, 0x1A)
        return (mode in (0, 1, 2) and 1 <= step <= 32767 and fits_mode(mode, least) and fits_mode(mode, greatest)
                and signed(least) <= signed(greatest) and b[0x1C] == 1)
    if code == 0xFE03:
        part, axis = divmod(mode, 16)
        wider = xs < xe if axis == 0 else ys < ye
        return (part in (0, 1, 2) and axis in (0, 1) and area(b, 0x14) == (xs, ys, xe, ye) and none(after) and wider
                and fits_mode(part, word(b, 0x1C)) and fits_mode(part, word(b, 0x1E)))
    return False


def records(table):
    """The records of a table up to its end: only whole ones, and none from page FFFF on."""
    for i in range(len(table) // 32):
        b = table[i * 32:i * 32 + 32]
        if word(b, 0) == 0xFFFF:
            return
        yield i, b


def judge(s, table):
    if len(table) > MOST_RECORDS * 32 or len(table) % 32:
        return "12"
    for i, b in records(table):
        if not good_record(s, b):
            return f"13 {i}"
    return "0"


def find(table, page, x, y):
    for i, b in records(table):
        xs, ys, xe, ye = area(b, 2)
        if word(b, 0) == page and xs <= x <= xe and ys <= y <= ye:
            return f"{i}{' caught' if word(b, 0x0E) == 0xFE03 else ''}{' stays' if none(word(b, 0x0A)) else ''}"
    return "none"


def stored(part, old, number):
    """The word after `number` is stored over `old`: part 0 whole word, 1 high byte, any other low byte."""
    if part == 0:
        return number & 0xFFFF
    if part == 1:
        return (number & 0xFF) << 8 | old & 0xFF
    return old & 0xFF00 | number & 0xFF


def value(part, w):
    return signed(w) if part == 0 else w >> 8 if part == 1 else w & 0xFF


def is_revised(s):
    """Bit 2 chooses the sheet, whatever the other bits are."""
    return s["flags"] >> 2 & 1 == 1


def along(b, x, y):
    """A slider's axis: how far the nearest place in its area lies from the first edge, and the distance from edge to edge."""
    xs, ys, xe, ye = area(b, 2)
    first, last, at = (xs, xe, x) if b[0x13] % 16 == 0 else (ys, ye, y)
    return min(max(at, first), last) - first, last - first


def moved(s, far, d, w):
    """How far a slider moves of `far`: the whole part and, by the revised sheet, one more where what is left is half or more."""
    whole, left = divmod(far * d, w)
    return whole + 1 if is_revised(s) and left + left >= w else whole


def act(s, b, old, x, y):
    code, mode = word(b, 0x0E), b[0x13]
    if code == 0xFE05:
        return stored(mode, old, word(b, 0x14))
    if code == 0xFE02:
        up, around = b[0x14] != 0, b[0x15] != 0
        step, least, greatest = word(b, 0x16), signed(word(b, 0x18)), signed(word(b, 0x1A))
        t = value(mode, old) + (step if up else -step)
        if not least <= t <= greatest:
            if around:
                t = least if up else greatest
            else:
                t = least if t < least else greatest
        return stored(mode, old, t)
    if code == 0xFE03:
        begin, end = ends_of(b)
        d, w = along(b, x, y)
        by = moved(s, abs(end - begin), d, w) if w > 0 else 0
        return stored(mode // 16, old, begin + by if begin <= end else begin - by)
    return old


def ends_of(slider):
    return signed(word(slider, 0x1C)), signed(word(slider, 0x1E))


def drag(s, b, old, x, y):
    return act(s, b, old, x, y) if word(b, 0x0E) == 0xFE03 else old


# ---- cases

SETUP = dict(h1=0x5A, h2=0xA5, flags=1, pages=16, width=800, height=480)
SETUPS = {"": SETUP, " by the revised sheet": dict(SETUP, flags=5)}      # as a label tells them, and a setup of each
KINDS = {"setup": 0, "judge": 1, "find": 2, "act": 3, "drag": 4}


def case(kind, label, setup=SETUP, table=b"", page=0, x=0, y=0, old=0):
    return dict(kind=kind, label=label, setup=setup, table=bytes(table), page=page, x=x, y=y, old=old)


def two(n):
    return bytes((n >> 8, n & 255))


def encoded(c):
    s, label = c["setup"], c["label"].encode()
    return (bytes((KINDS[c["kind"]], len(label))) + two(len(c["table"])) + bytes((s["h1"], s["h2"], s["flags"])) + two(s["pages"])
            + two(s["width"]) + two(s["height"]) + two(c["page"]) + two(c["x"]) + two(c["y"]) + two(c["old"]) + label + c["table"])


def answer(c):
    kind, s, b = c["kind"], c["setup"], c["table"]
    if kind == "setup":
        return f"{setup_number(s)}{' checking' if s['flags'] & 1 else ''}{' acknowledging' if s['flags'] & 2 else ''}"
    if kind == "judge":
        return judge(s, b)
    if kind == "find":
        return find(b, c["page"], c["x"], c["y"])
    return "%04x" % (act if kind == "act" else drag)(s, b, c["old"], c["x"], c["y"])


def patched(base, *patches):
    """A copy of a record with each (offset, size, number) written high byte first."""
    b = bytearray(base)
    for at, size, number in patches:
        b[at:at + size] = number.to_bytes(size, "big")
    return bytes(b)


def record(code, mode, at14):
    head = two(3) + two(100) + two(50) + two(300) + two(250) + two(0xFF00) + two(0xFF00) + two(code) + b"\xFE" + two(0x0010) + bytes((mode,))
    return (head + at14).ljust(32, b"\0")


AREA = two(100) + two(50) + two(300) + two(250)
KEY = record(0xFE05, 0, two(0x1234))
STEP = record(0xFE02, 0, b"\x01\x00" + two(5) + two(0) + two(100) + b"\x01")
SLIDER = record(0xFE03, 0, AREA + two(0) + two(1000))
BASES = {"key": KEY, "step": STEP, "slider": SLIDER}

PAGE, XS, YS, XE, YE, NEXT, PRESS, CODE, MARK, ADDRESS, MODE = (
    (0x00, 2), (0x02, 2), (0x04, 2), (0x06, 2), (0x08, 2), (0x0A, 2), (0x0C, 2), (0x0E, 2), (0x10, 1), (0x11, 2), (0x13, 1))
DIRECTION, ENDING, STEP_BY, LEAST, GREATEST, ONCE = (0x14, 1), (0x15, 1), (0x16, 2), (0x18, 2), (0x1A, 2), (0x1C, 1)
BEGIN, END = (0x1C, 2), (0x1E, 2)


def around(*numbers):
    """Each number with its two neighbours, once, in order."""
    return sorted({m for n in numbers for m in (n - 1, n, n + 1) if 0 <= m <= 0xFFFF})


def setups():
    for flags in (*range(17), 24, 32, 36, 64, 68, 128, 132, 248, 251, 255):
        yield case("setup", f"setup flags {flags}", dict(SETUP, flags=flags))
    for field, numbers in (("pages", around(1, 65280) + [65535]), ("width", around(1, 1024)), ("height", around(1, 768))):
        for n in numbers:
            yield case("setup", f"setup {field} {n}", dict(SETUP, **{field: n}))
    yield case("setup", "setup header 0 0", dict(SETUP, h1=0, h2=0))
    yield case("setup", "setup header 255 255", dict(SETUP, h1=255, h2=255))


def fields_of_all():
    for name, base in BASES.items():
        def judged(label, *patches):
            return case("judge", f"{name} {label}", table=patched(base, *patches))

        def area_with(field, n):
            """The area's field, in a slider's second area too."""
            again = ((field[0] + 0x12, 2, n),) if name == "slider" else ()
            return ((*field, n),) + again

        yield judged("as it stands")
        for n in around(0, 16) + [0xFFFE, 0xFFFF]:
            yield judged(f"page {n}", (*PAGE, n))
        for label, field, numbers in (("Xs", XS, around(300)), ("Ys", YS, around(250)), ("Xe", XE, around(100, 799)), ("Ye", YE, around(50, 479))):
            for n in numbers + [0, 0xFFFF]:
                yield judged(f"{label} {n}", *area_with(field, n))
        for n in around(0, 16) + [0xFEFE, 0xFEFF, 0xFF00, 0xFF01, 0xFFFF]:
            yield judged(f"next page {n}", (*NEXT, n))
        for n in (0, 0xFFFF):
            yield judged(f"0C {n}", (*PRESS, n))
        for n in around(0xFE02, 0xFE05) + [0x0005, 0xFD02, 0xFD03, 0xFD05, 0xFF02, 0xFF05]:
            yield judged(f"code {n:04X}", (*CODE, n))
        for n in around(0xFE):
            yield judged(f"10 {n:02X}", (*MARK, n))
        for n in around(0, 0x6FFF) + [0xFFFF]:
            yield judged(f"word {n:04X}", (*ADDRESS, n))
        for n in range(256):
            yield judged(f"mode {n:02X}", (*MODE, n))


def fields_of_each():
    for at in range(0x16, 32):
        yield case("judge", f"key {at:02X} ignored", table=patched(KEY, (at, 1, 255)))
    for n in (0, 255, 256, 0xFFFF):
        for mode in (0, 1, 2):
            yield case("judge", f"key mode {mode} code {n}", table=patched(KEY, (*MODE, mode), (0x14, 2, n)))
    for label, field in (("direction", DIRECTION), ("at the end", ENDING), ("1C", ONCE)):
        for n in (0, 1, 2, 255):
            yield case("judge", f"step {label} {n}", table=patched(STEP, (*field, n)))
    for at in range(0x1D, 32):
        yield case("judge", f"step {at:02X} ignored", table=patched(STEP, (at, 1, 255)))
    for mode in (0, 1, 2):
        for n in around(1, 255, 32767) + [0xFFFF]:
            yield case("judge", f"step mode {mode} step {n}", table=patched(STEP, (*MODE, mode), (*STEP_BY, n)))
        for least in (0, 99, 100, 101, 255, 256, 0x7FFF, 0x8000, 0xFFFF):
            for greatest in (0, 100, 255, 256, 0x7FFF, 0x8000, 0xFFFF):
                yield case("judge", f"step mode {mode} ends {signed(least)} {signed(greatest)}",
                           table=patched(STEP, (*MODE, mode), (*LEAST, least), (*GREATEST, greatest)))
    for part in (0, 1, 2):
        for axis in (0, 1):
            mode = part * 16 + axis
            for begin in (0, 255, 256, 0x7FFF, 0x8000, 0xFFFF):
                for end in (0, 254, 255, 256, 0x8000):
                    yield case("judge", f"slider mode {mode:02X} from {signed(begin)} to {signed(end)}",
                               table=patched(SLIDER, (*MODE, mode), (*BEGIN, begin), (*END, end)))
            for wide in (0, 1, 2):
                for high in (0, 1, 2):
                    box = two(10) + two(20) + two(10 + wide) + two(20 + high)
                    n = int.from_bytes(box, "big")
                    yield case("judge", f"slider mode {mode:02X} {wide} by {high}", table=patched(SLIDER, (*MODE, mode), (2, 8, n), (0x14, 8, n)))
    for i, label in enumerate(("Xs", "Ys", "Xe", "Ye")):
        for n in around(word(AREA, i * 2)):
            yield case("judge", f"slider second {label} {n}", table=patched(SLIDER, (0x14 + i * 2, 2, n)))


def tables():
    wrong = patched(KEY, (*MARK, 0))
    last = patched(b"\xFF" * 32)
    for n in (0, 1, 31, 32, 33, 63, 64, 4064, 4095, 4096, 4097, 4127, 4128, 4160):
        yield case("judge", f"table of {n} bytes", table=(KEY * 131)[:n])
    for at in (0, 1, 2, 126, 127):
        yield case("judge", f"128 records, {at} wrong", table=KEY * at + wrong + KEY * (127 - at))
    yield case("judge", "records 1 and 3 wrong", table=STEP + wrong + KEY + wrong)
    yield case("judge", "wrong behind the end", table=KEY + last + wrong * 3)
    yield case("judge", "wrong before the end", table=KEY + wrong + last)
    yield case("judge", "the end first", table=last)
    yield case("judge", "the end first, then 128 records", table=last + KEY * 128)
    yield case("judge", "the end first, then half a record", table=last + KEY[:16])
    yield case("judge", "the end with page 0 behind it", table=patched(wrong, (*PAGE, 0xFFFF)) + b"\0" * 32)


def finding():
    one = [KEY, patched(KEY, (*XS, 200), (*NEXT, 5)), SLIDER, patched(STEP, (*PAGE, 4), (*XS, 0), (*YS, 0)), b"\xFF" * 32, patched(KEY, (*PAGE, 7))]
    table = b"".join(one)
    for x in around(100, 300):
        yield case("find", f"find x {x}", table=table, page=3, x=x, y=100)
    for y in around(50, 250):
        yield case("find", f"find y {y}", table=table, page=3, x=100, y=y)
    for page in (0, 3, 4, 5, 7, 0xFFFF):
        yield case("find", f"find on page {page}", table=table, page=page, x=250, y=100)
    yield case("find", "find the second", table=b"".join(one[1:]), page=3, x=250, y=100)
    yield case("find", "find the slider", table=b"".join(one[1:]), page=3, x=150, y=100)
    yield case("find", "find far off", table=table, page=3, x=0xFFFF, y=0xFFFF)
    for n in (0, 31, 32, 40, 63, 64):
        yield case("find", f"find in {n} bytes", table=(SLIDER + KEY)[:n], page=3, x=100, y=50)
    yield case("find", "find in half the second", table=(patched(KEY, (*PAGE, 4)) + KEY)[:63], page=3, x=100, y=50)
    yield case("find", "find in record 130", table=patched(KEY, (*PAGE, 4)) * 130 + KEY, page=3, x=100, y=50)


def acting():
    for mode in (0, 1, 2, 3, 255):
        for old in (0x0000, 0xABCD, 0xFFFF):
            for code in (0x0000, 0x1234, 0xFFFF):
                yield case("act", f"key mode {mode} code {code:04X} over {old:04X}", table=patched(KEY, (*MODE, mode), (0x14, 2, code)), old=old)
    for mode in (0, 1, 2):
        for up in (0, 1):
            for ending in (0, 1):
                b = patched(STEP, (*MODE, mode), (*DIRECTION, up), (*ENDING, ending))
                how = f"step mode {mode} {'up' if up else 'down'} {'round' if ending else 'stop'}"
                for n in (0, 4, 5, 6, 94, 95, 96, 98, 100, 101, 105, 200, 255):
                    old = (n, n << 8 | 0x77, 0x7700 | n)[mode]
                    yield case("act", f"{how} 5 in 0..100 from {n}", table=b, old=old)
    for up in (0, 1):
        for ending in (0, 1):
            b = patched(STEP, (*DIRECTION, up), (*ENDING, ending), (*STEP_BY, 32767), (*LEAST, 0x8000), (*GREATEST, 0x7FFF))
            how = f"step {'up' if up else 'down'} {'round' if ending else 'stop'}"
            for old in (0, 1, 0x7FFE, 0x7FFF, 0x8000, 0x8001, 0xFFFE, 0xFFFF):
                yield case("act", f"{how} 32767 in all words from {signed(old)}", table=b, old=old)
                c = patched(b, (*STEP_BY, 1), (*LEAST, 0xFFF6), (*GREATEST, 10))
                yield case("act", f"{how} 1 in -10..10 from {signed(old)}", table=c, old=old)
    for old in (0, 0x7F00, 0xFF00):
        b = patched(STEP, (*MODE, 1), (*GREATEST, 255), (*STEP_BY, 200))
        yield case("act", f"step high byte up 200 in 0..255 from {old:04X}", table=b, old=old)
    yield case("act", "other code over 1234", table=patched(KEY, (*CODE, 0xFE01)), old=0x1234)


def slider_over(first, w, begin, end, mode=0):
    """A slider that is w points long, along the axis of its mode; begin and end as signed numbers."""
    box = AREA[:2] + two(first) + AREA[4:6] + two(first + w) if mode % 16 else two(first) + AREA[2:4] + two(first + w) + AREA[6:]
    n = int.from_bytes(box, "big")
    return patched(SLIDER, (*MODE, mode), (2, 8, n), (0x14, 8, n), (*BEGIN, begin & 0xFFFF), (*END, end & 0xFFFF))


def slider_points():
    """Sliders of 200 points, in each mode and by both sheets."""
    ends = ((0, 1000), (1000, 0), (-10, 10), (10, -10), (0, 7), (7, 0), (5, 5), (-32768, 32767), (32767, -32768))
    for by, setup in SETUPS.items():
        for begin, end in ends:
            for axis in (0, 1):
                b, first = slider_over((100, 50)[axis], 200, begin, end, axis), (100, 50)[axis]
                for d in (0, 1, 2, 50, 99, 100, 101, 199, 200):
                    x, y = ((first + d, 77), (150, first + d))[axis]
                    yield case("act", f"slider {'down' if axis else 'across'} from {begin} to {end} at {d} of 200{by}", setup, b, x=x, y=y)
        for mode in (0x00, 0x10, 0x11, 0x20, 0x21):
            for begin, end in ((0, 255), (255, 0), (3, 200)):
                for d in (0, 1, 100, 199, 200):
                    b = patched(SLIDER, (*MODE, mode), (*BEGIN, begin), (*END, end))
                    yield case("act", f"slider mode {mode:02X} from {begin} to {end} at {d} of 200 over ABCD{by}", setup, b, x=100 + d, y=50 + d, old=0xABCD)


def slider_halves():
    """Places on a half, just below one and just above; words around 0, and bytes at both ends."""
    for by, setup in SETUPS.items():
        for w in (2, 3, 4, 7, 8, 200, 201, 1022, 1023):
            for far in filter(None, (*around(w // 2), w // 2 + 3 * w)):
                for d in sorted({1, w // 2, w - 1}):
                    for begin, end in ((-7, far - 7), (far - 7, -7)):
                        yield case("act", f"slider from {begin} to {end} at {d} of {w}{by}", setup, slider_over(0, w, begin, end), x=d, y=77)
        for mode in (0x10, 0x11, 0x20, 0x21):
            for w in (2, 6, 200, 201):
                for far, d in ((w // 2 - 1, 1), (w // 2, 1), (w // 2 + 1, 1), (253, w // 2)):
                    for begin, end in ((255 - far, 255), (far, 0)):
                        b = slider_over(50, w, begin, end, mode)
                        yield case("act", f"slider mode {mode:02X} from {begin} to {end} at {d} of {w} over ABCD{by}", setup, b, x=50 + d, y=50 + d, old=0xABCD)


def slider_through_all_words():
    """Over the widest screen; rising by the revised sheet at every place."""
    some = (*range(0, 1023, 33), 511, 512, 1022, 1023)
    for begin, end in ((-32768, 32767), (32767, -32768)):
        for by, setup in SETUPS.items():
            for d in range(1024) if by and begin < end else some:
                yield case("act", f"slider from {begin} to {end} at {d} of 1023{by}", setup, slider_over(0, 1023, begin, end), x=d, y=77)


def sheet_bits():
    """Bit 2 alone chooses the sheet, whatever the other bits are; keys and steps know none."""
    b = slider_over(100, 200, 0, 7)
    for flags in (*range(17), 0x14, 0x20, 0x24, 0x40, 0x44, 0x80, 0x84, 0xF8, 0xFB, 0xFC, 0xFF):
        for kind in ("act", "drag"):
            yield case(kind, f"{kind} from 0 to 7 at 199 of 200, flags {flags:02X}", dict(SETUP, flags=flags), b, x=299, y=100)
    for by, setup in SETUPS.items():
        for name in ("key", "step"):
            for old in (0, 0x0064, 0xFFFF):
                yield case("act", f"{name} over {old:04X}{by}", setup, BASES[name], x=299, y=100, old=old)


def dragging():
    for by, setup in SETUPS.items():
        for begin, end in ((0, 1000), (1000, 0), (0, 7), (7, 0), (-32768, 32767)):
            for axis in (0, 1):
                b = slider_over((100, 50)[axis], 200, begin, end, axis)
                for at in (0, 49, 50, 51, 99, 100, 101, 150, 200, 249, 250, 251, 299, 300, 301, 1000, 0xFFFF):
                    yield case("drag", f"drag {'down' if axis else 'across'} from {begin} to {end} to {at}{by}", setup, b, x=at, y=at)
        for name in ("key", "step"):
            yield case("drag", f"drag a {name} over 1234{by}", setup, BASES[name], x=100, y=50, old=0x1234)
        yield case("drag", f"drag over one point{by}", setup, patched(SLIDER, (*XE, 100)), x=100, y=50, old=0x1234)
        yield case("drag", f"drag over an area turned round{by}", setup, patched(SLIDER, (*XE, 90)), x=95, y=50, old=0x1234)


def fixed():
    """So many that `rt try touch_cases` still ends: its interpreter takes a limited number of steps."""
    for group in (setups, fields_of_all, fields_of_each, tables, finding, acting, slider_points, slider_halves, slider_through_all_words, sheet_bits,
                  dragging):
        yield from group()


def some_slider(r):
    """A slider, and a point of its axis that is often the middle, where halves lie, or near it or an edge."""
    mode, w = r.choice((0, 16, 32)) + r.randrange(2), r.choice((1, 2, 3, 8, 199, 200, 254, 1023))
    least, greatest = (0, 255) if mode > 1 else (-32768, 32767)
    some, other = r.randint(least, greatest), r.randint(least, greatest)
    close = min(max(some + r.randint(-9, 9), least), greatest)
    begin, end = r.choice(((least, greatest), (greatest, least), (some, other), (some, close)))
    first = r.randint(0, 1023 - w)
    d = r.choice((w // 2, w // 2, w // 2 + r.choice((-1, 1)), 1, w - 1, r.randint(0, w), r.randint(-20, w + 20)))
    return slider_over(first, w, begin, end, mode), max(0, first + d)


def some_sheet(r):
    """A setup of either sheet, sometimes with other flags that are wrong."""
    return dict(SETUP, flags=r.choice((1, 5, 1, 5, r.randrange(256))))


def drawn(seed, count):
    r = random.Random(seed)

    def number():
        return r.choice((r.randrange(4), r.randrange(1024), r.randrange(256), 255, 256, 65535, 32767, 32768, r.randrange(65536)))

    def made():
        b = bytearray(r.choice(list(BASES.values())))
        for _ in range(r.choice((0, 0, 1, 1, 2, 3))):
            at = r.randrange(31)
            b[at:at + 2] = two(number())
        if r.random() < 0.3:
            b[0x13] = r.choice((0, 1, 2, 16, 17, 32, 33))
        if r.random() < 0.5 and b[0x0F] == 3:
            b[0x14:0x1C] = b[0x02:0x0A]
        return bytes(b)

    for i in range(count):
        kind = r.choice(list(KINDS))
        flags = r.choice((r.randrange(8), 1 << r.randrange(8), r.randrange(256)))
        setup = dict(h1=r.randrange(256), h2=r.randrange(256), flags=flags, pages=number(), width=number(), height=number())
        if kind != "setup" and r.random() < 0.9:
            setup = some_sheet(r)
        table = b"".join(made() for _ in range(r.choice((0, 1, 1, 2, 3, 5, 20))))
        if kind in ("act", "drag"):
            table = made()
        elif r.random() < 0.1:
            table = table[:len(table) - r.randrange(32)]
        if r.random() < 0.1:
            table += b"\xFF\xFF" + bytes(30) + made()
        x, y = r.choice((100, 300, r.randrange(90, 310), number())), r.choice((50, 250, r.randrange(40, 260), number()))
        if kind in ("act", "drag") and r.random() < 0.5:
            table, place = some_slider(r)
            x, y = place, place
        yield case(kind, f"{kind} {i}", setup, table, page=r.choice((3, 3, 3, number())), x=x, y=y, old=number())


# ---- What the cases must reach, and cases drawn at random too, where there are many

UNDER_WRONG_FLAGS = "slider by the {} sheet under flags that are wrong"
REQUIRED = (*scale_sheets.REQUIRED, *(UNDER_WRONG_FLAGS.format(sheet) for sheet in scale_sheets.SHEETS))


def met(c):
    """What a case's slider meets, where one stores."""
    s, b = c["setup"], c["table"]
    if c["kind"] not in ("act", "drag") or word(b, 0x0E) != 0xFE03:
        return
    sheet, part, (d, w) = scale_sheets.SHEETS[is_revised(s)], min(b[0x13] // 16, 2), along(b, c["x"], c["y"])
    if w > 0:
        yield from scale_sheets.met(sheet, part, *ends_of(b), d, w, c["kind"] == "drag")
        if s["flags"] > 7:
            yield UNDER_WRONG_FLAGS.format(sheet)


def reached(cases):
    return collections.Counter(what for c in cases for what in met(c))


def missing(counts):
    return [what for what in REQUIRED if not counts[what]]


def line_of(c):
    return f"{c['label']}: {answer(c)}"


def main(words):
    if words not in ([], ["--input"]):
        sys.exit(__doc__)
    cases = list(fixed())
    if missing(reached(cases)):
        sys.exit(f"never reached: {', '.join(missing(reached(cases)))}")
    for c in cases:
        sys.stdout.buffer.write(encoded(c) if words else f"{line_of(c)}\n".encode())


if __name__ == "__main__":
    main(sys.argv[1:])
