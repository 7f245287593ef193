"""What sliders have to be tried on under the two scale sheets of 02, §5: names for it, so that a test can count what it has reached.

It knows where a slider stands between two whole numbers, and not which of them it stores: that is for the models.
"""

SHEETS = ("old", "revised")
WAYS = ("rising", "falling")
PARTS = ("word", "high byte", "low byte")
STANDS = ("on a number", "below a half", "on a half", "above a half")
ALL_WORDS = {-32768, 32767}
WIDEST = 1023               # from edge to edge of the widest screen


def stands(far, d, w):
    """Where far * d / w lies between two whole numbers."""
    twice = 2 * (far * d % w)
    return STANDS[0 if twice == 0 else 1 if twice < w else 2 if twice == w else 3]


def met(sheet, part, begin, end, d, w, caught):
    """What a slider has met that stores by a sheet, d of w points from its first edge; part 0 is the whole word, 1 the high byte, 2 the low."""
    if begin == end:
        return
    way, where = WAYS[begin > end], stands(abs(end - begin), d, w)
    yield f"slider {way} by the {sheet} sheet, {PARTS[part]}: {where}"
    if caught:
        yield f"caught slider {way} by the {sheet} sheet: {where}"
    if {begin, end} == ALL_WORDS and w == WIDEST:
        yield f"slider {way} through all words over the widest screen by the {sheet} sheet: {where}"


REQUIRED = [
    *(f"slider {way} by the {sheet} sheet, {part}: {where}" for way in WAYS for sheet in SHEETS for part in PARTS for where in STANDS),
    *(f"caught slider {way} by the {sheet} sheet: {where}" for way in WAYS for sheet in SHEETS for where in STANDS),
    *(f"slider {way} through all words over the widest screen by the {sheet} sheet: {where}" for way in WAYS for sheet in SHEETS
      for where in ("below a half", "above a half")),      # there are no halves, and whole numbers at few places
]


class Unseen:
    """Words that sliders have stored and nobody has looked at since: what a slider met counts once its word is looked at and still is what it stored."""

    def __init__(self):
        self.met_at = {}

    def stored(self, address, value, names):
        self.met_at[address] = value, tuple(names)

    def addresses(self):
        return list(self.met_at)

    def looked_at(self, addresses, words):
        """What has been met at words that are looked at now."""
        for address in [address for address in addresses if address in self.met_at]:
            value, names = self.met_at.pop(address)
            if words[address] == value:
                yield from names
