"""Cases of watched words (02, §4), as calls on a `Script`: what is sent after a contact, what the line's writes note, which lists are refused, and the room
that contacts lend; and lists drawn at random. `panel_model.py` runs them."""
import model
from model import two
from panel_script import ALL_ENTRIES, ALL_ROOM, NOTHING_WRONG, WRONG, key, slider, step

POINT, BESIDE = (150, 100), (5, 5)      # in the area of records that name no other, and in none
WATCHED = 0x0010, 0x0011, 0x0012, 0x0013
BEFORE = 0x5A5A             # a value last sent that no word of these cases has


def entries(addresses, use=1, value=BEFORE):
    return [(address, use, value) for address in addresses]


def begin(s, table=b"", flags=1):
    """A panel, words that differ from one another, and no list."""
    s.start(NOTHING_WRONG._replace(flags=flags), table)
    for address in (*WATCHED, 0x000F, 0x0014, 0x0000, 0x6FFE, 0x6FFF):
        s.set_word(address, 0x1000 + address % 0x100)
    s.lend_list([])


def press(s, point=POINT):
    s.contact(*point)
    s.lift()


# ---- What is sent

def due_in_order(s):
    for flags in range(4):
        begin(s, key(), flags)
        s.title(f"watched words that are due go out one a contact, in the list's order, flags {flags}")
        s.lend_list(entries((0x0013, 0x6FFF, 0x0010, 0x0000, 0x0012)))
        for _ in range(7):
            press(s)
        s.title("a contact while down sends, and one where nothing acts")
        s.lend_list(entries(WATCHED))
        for point in (BESIDE, POINT, BESIDE, POINT, POINT):
            s.contact(*point)
        s.lift()
    begin(s)
    s.title("16 entries, all due; every second not in use; none in use")
    for uses in ([1] * 16, [0, 1] * 8, [0xFF, 0] * 8, [0] * 16, [0x80] * 15 + [0], [0] * 15 + [0x02]):
        s.lend_list([(0x100 + place, use, place) for place, use in enumerate(uses)])
        for _ in range(sum(map(bool, uses)) + 2):
            press(s, BESIDE)
    s.title("words and values that differ in one bit, in the high byte or in the low")
    for word, value in ((0x0000, 0x0001), (0x0000, 0x8000), (0x0000, 0x0100), (0x0000, 0x0000), (0xFFFF, 0xFFFE), (0xFFFF, 0x7FFF), (0xFFFF, 0xFFFF),
                        (0x1234, 0x3412)):
        s.set_word(0x0011, word)
        s.lend_list([(0x0011, 1, value)])
        press(s, BESIDE)
        press(s, BESIDE)
    s.all()


def sent_by_records(s):
    s.title("what a record stores is sent at its own contact: key, step, slider, drag")
    table = key(code=0xABCD, address=0x0010, area=(0, 0, 9, 9)) + step(address=0x0011, area=(20, 20, 29, 29), by=1, least=-32768, greatest=32767) \
        + slider(address=0x0012, area=(100, 100, 300, 120)) + key(code=0x77, address=0x0013, mode=1, area=(40, 40, 49, 49), after=1)
    for flags in (0, 1, 3):
        begin(s, table, flags)
        s.lend_list([(address, 1, 0x1000 + address) for address in WATCHED])
        for point in ((5, 5), (5, 5), (25, 25), (25, 25), (45, 45), (45, 45)):
            press(s, point)
        s.send(0x80, [0x03, 0, 0])
        for x in (100, 100, 200, 300, 250, 250, 799):
            s.contact(x, 110)
        s.lift()
        s.title("the caller changes words and values between contacts")
        s.set_word(0x0012, 0x4321)
        press(s)
        s.set_entry(2, 0x0012, 1, 0)
        press(s)
        press(s)
        s.set_entry(2, 0x0012, 0, 0)
        press(s)
        s.title("two due at once: what a record stores waits behind an earlier entry")
        s.set_word(0x0010, 0x0001)
        s.contact(25, 25)
        s.contact(0, 0)
        s.contact(0, 0)
        s.lift()
        s.title("the unasked reply stands at the front of the room, over what was written there before")
        s.send(0x83, [0, 0x10, 100])
        s.set_word(0x0010, 0x0002)
        press(s)
        s.send(0x81, [0, 2])
        s.lend(room=300)
        s.set_word(0x0010, 0x0003)
        press(s)
        s.lend()


def sent_by_sheets(s):
    for flags in (1, 5):
        begin(s, slider(begin=0, end=7, address=0x0012), flags)
        s.title(f"what a slider stores by the panel's sheet is what is sent, pressed and dragged, flags {flags}")
        s.lend_list([(0x0012, 1, 0)])
        for x in (299, 300, 200, 200, 100):
            s.contact(x, 100)
        s.lift()


def sent_under_headers(s):
    s.title("unasked replies under other headers, and a panel with no entries")
    for h1, h2, flags in ((0xFF, 0xFF, 1), (0x00, 0x00, 0), (0x83, 0x83, 3), (0x12, 0x34, 2)):
        s.start(NOTHING_WRONG._replace(h1=h1, h2=h2, flags=flags), key(code=h1 * 256 + h2))
        s.lend_list([(0x0010, 1, 0)])
        press(s)
        press(s)
        s.lend_list([])
        press(s)


def refused_contacts(s):
    """Nothing is sent and nothing noted, while a word is due; then it is sent."""
    good = slider() + key(page=1)
    for down in (False, True):
        begin(s, good)
        s.title(f"refused contacts send nothing and note nothing, {'down' if down else 'up'}")
        if down:
            s.contact(*POINT)
        s.lend_list([(0x0011, 1, 0)])
        for words, room in ((28671, 265), (28673, 265), (28672, 264), (28672, 0), (0, 300)):
            s.lend(words=words, room=room)
            s.contact(*POINT)
        s.lend()
        for those in (entries((0x0011, 0x0011)), entries((0x0011, 0x7000)), [(0x0011, 1, 0), *entries(range(16), use=0)]):
            s.lend_list(those)
            s.contact(*POINT)
        s.lend_list([(0x0011, 1, 0)])
        s.send(0x81, [0, 1], ask=False)
        s.contact(*POINT)
        s.ask_all()
        for table in (good + b"\0", WRONG, good + WRONG):
            s.lend_table(table)
            s.contact(*POINT)
        s.lend_table(good)
        s.send(0x80, [0x0B, 0])
        s.contact(*POINT)
        s.send(0x80, [0x0B, 1])
        for point in ((800, 0), (0, 480), (65535, 65535)):
            s.contact(*point)
        s.all()
        s.contact(*POINT)
        s.contact(*POINT)
        s.lift()


def lifts(s):
    begin(s, key())
    s.title("lifts, bytes, marks and starts send nothing and note nothing")
    s.lend_list(entries(WATCHED))
    s.lift()
    s.contact(*POINT)
    s.lift()
    s.byte(0x5A)
    s.mark()
    s.start(NOTHING_WRONG)
    s.start(NOTHING_WRONG._replace(flags=8))
    s.ask()
    press(s)


# ---- What is noted

def write(s, address, values):
    s.send(0x82, two(address) + b"".join(two(value) for value in values))


def noted(s):
    for flags in range(4):
        begin(s, key(), flags)
        s.title(f"a write of words notes each entry in use whose word is in its run, changed or not, flags {flags}")
        for first, count in ((0x0010, 1), (0x0011, 1), (0x0013, 1), (0x0010, 4), (0x0010, 3), (0x0011, 3), (0x0011, 2), (0x000F, 1), (0x0014, 1),
                             (0x000E, 2), (0x0014, 2), (0x000E, 8), (0x0000, 100)):
            s.lend_list(entries(WATCHED))
            write(s, first, range(0x2000 + first, 0x2000 + first + count))
            press(s, BESIDE)
        s.title("the same value again: it is noted all the same")
        s.lend_list(entries(WATCHED))
        write(s, 0x0011, [s.words[0x0011], s.words[0x0012] ^ 1])
        for _ in range(3):
            press(s, BESIDE)
        s.title("what is last sent already, and entries not in use, which stay")
        for uses in ((1, 0, 1, 0), (0, 0, 0, 0), (0, 2, 0xFF, 0)):
            s.lend_list([(address, use, s.words[address] if use == 1 else BEFORE) for address, use in zip(WATCHED, uses)])
            write(s, 0x0010, (0x0A0A, 0x0B0B, 0x0C0C, 0x0D0D))
            press(s, BESIDE)
        s.title("entries not in use of one word, of words past the end; in no order")
        s.lend_list([(0x0012, 0, 1), (0x0013, 1, 2), (0x0012, 0, 3), (0x7000, 0, 4), (0x0012, 1, 5), (0xFFFF, 0, 6), (0x0010, 1, 7)])
        write(s, 0x0010, (1, 2, 3, 4))
        press(s, BESIDE)
        s.title("the first word and the last")
        s.lend_list(entries((0x0000, 0x6FFF, 0x6FFE, 0x0001)))
        write(s, 0x6FFE, (0x3131, 0x3232))
        write(s, 0x0000, (0x3333,))
        for _ in range(3):
            press(s, BESIDE)
    s.all()


def not_noted(s):
    begin(s, key())
    s.title("refused writes note nothing: 3, 4; writes with a bad check; commands on registers and curves")
    watched = *WATCHED, 0x6FFF, 0x6FFE
    for those in ([(address, 1, s.words[address]) for address in watched], entries(watched)):
        s.lend_list(those)
        for data in (b"\0\x10", b"\0\x10\0", b"\0\x10\0\1\0", two(0x6FFF) + bytes(4), two(0x6FFE) + bytes(6), two(0x7000) + bytes(2), two(0xFFFF) + bytes(2)):
            s.send(0x82, data)
    s.send_bad(0x82, [0, 0x10, 0x12, 0x34])
    s.send(0x80, [0x10, 0x12, 0x34])
    s.send(0x80, [0x02, 0x10, 0x00, 0x00])
    s.send(0x84, b"\x01\x00\x10")
    s.send(0x12, [0, 0x10, 0x12, 0x34])
    s.title("replies that were asked for note nothing, and what they told is sent again")
    for flags in (0, 1, 3):
        begin(s, b"", flags)
        s.lend_list(entries(WATCHED))
        for data in ([0, 0x10, 1], [0, 0x10, 4], [0, 0x11, 0], [0, 0x0F, 100], [0x6F, 0xFF, 1], [0, 0x10, 255], [0x70, 0, 0]):
            s.send(0x83, data)
        for _ in range(5):
            press(s, BESIDE)
        s.send(0x83, [0, 0x10, 4])
    s.title("an ask that is refused with 14 notes nothing; once it is handed over the write does")
    s.lend_list(entries(WATCHED))
    s.send(0x82, [0, 0x11, 1, 1, 2, 2], ask=False)
    for words, curves, room in ((28671, 8192, 265), (28672, 8191, 265), (28672, 8192, 264)):
        s.lend(words, curves, room)
        s.ask()
    s.lend()
    s.ask_all()
    s.title("a write hidden in a bad check notes; several writes of one stretch")
    inner = model.frame(s.panel.setup, 0x82, [0, 0x10, 9, 9])
    s.send_bad(0x82, b"\x00\x12" + inner)
    s.bytes(inner[:2] + b"\xF0" + model.frame(s.panel.setup, 0x82, [0, 0x13, 3, 3]) + model.frame(s.panel.setup, 0x82, [0, 0x13, 4, 4]))
    s.mark()
    s.ask_all()
    for _ in range(3):
        press(s, BESIDE)


# ---- Lists that are refused

def list_cases():
    """Lists, good and wrong, by what they are about."""
    far = entries(range(0x0200, 0x0214))
    for n in range(ALL_ENTRIES + 1):
        yield f"{n} entries in use", far[:n]
        yield f"{n} entries, none in use", entries(range(0x0200, 0x0200 + n), use=0)
        yield f"{n} entries of one word, the last in use", entries([0x0200] * n, use=0)[:-1] + far[:min(n, 1)]
    for places in ((0, 1), (0, 15), (14, 15), (3, 9)):
        for one, other in ((1, 1), (1, 0), (0, 1), (0, 0), (0xFF, 0x80)):
            those = far[:16]
            those[places[0]], those[places[1]] = (0x0300, one, 1), (0x0300, other, 2)
            yield f"one word at {places[0]} and {places[1]}, uses {one:02X} and {other:02X}", those
    for address in (0x0000, 0x6FFF, 0x7000, 0x7001, 0x8000, 0xEFFF, 0xF000, 0xFFFF):
        for use in (0, 1, 0x80):
            for place in (0, 7, 15):
                those = far[:16]
                those[place] = (address, use, 0)
                yield f"{address:04X} at {place}, use {use:02X}", those
    yield "addresses that differ in the high byte or in the low alone", entries((0x0102, 0x0202, 0x0103, 0x0201))


def lists(s):
    begin(s, key())
    s.title("lists of every length and kind at a contact and at an ask, nothing waiting")
    for what, those in list_cases():
        s.title(what)
        s.lend_list(those)
        s.ask()
        press(s)
    s.title("values last sent may be anything")
    for value in (0x0000, 0xFFFF, 0x7000, 0x0200):
        s.lend_list(entries((0x0200, 0x0201), value=value))
        press(s, BESIDE)


def slices(s):
    begin(s, key())
    s.title("slices of different lengths")
    s.lend_list(entries(range(0x0200, 0x0200 + ALL_ENTRIES), use=0))
    for some in (0, 1, 2, 15, 16, 17, 20):
        for other in (0, 1, 2, 15, 16, 17, 20):
            for lengths in ((some, other, other), (other, some, other), (other, other, some)):
                s.lend_lengths(*lengths)
                s.ask()
                press(s)
    s.lend_lengths(1, 2, 3)
    s.contact(*POINT)
    s.send(0x82, [2, 0, 1, 1], ask=False)
    for lengths in ((1, 2, 3), (2, 2, 1), (3, 2, 2), (2, 3, 2), (0, 0, 1), (2, 2, 2)):
        s.lend_lengths(*lengths)
        s.contact(*POINT)
        s.ask()
    s.lift()


WRONG_LISTS = (entries((0x0011, 0x0012, 0x0011)), entries((0x0011, 0x7000)), entries((0x0011, *range(0x200, 0x210))), entries(range(17), use=0))


def waiting(s):
    for flags in (0, 1, 3):
        begin(s, key(), flags)
        s.title(f"16 before 1 and before nothing, 14 before 16; the report waits on and is handed over with a good list, flags {flags}")
        for those in WRONG_LISTS:
            for command, data in ((0x82, [0, 0x11, 0x12, 0x34]), (0x83, [0, 0x11, 1]), (0x81, [0, 1]), (0x80, [0x02, 7]), (0x84, [1, 2, 3]), (0x99, [])):
                s.send(command, data, ask=False)
                s.lend_list(those)
                s.ask()
                s.contact(*POINT)
                s.contact(900, 900)
                s.byte(0x5A)
                s.lift()
                s.lend(room=264)
                s.ask()
                s.contact(*POINT)
                s.lend()
                s.lend_list(entries((0x0011, 0x0012)))
                s.contact(*POINT)
                s.ask_all()
                s.lend_list(those)
                s.ask()
            s.lend(words=28671)
            s.ask()
            s.contact(*POINT)
            s.lend(curves=8191)
            s.ask()
            s.contact(*POINT)
            s.lend()
        if s.panel.setup.checking:
            s.title("a bad check waits on")
            s.lend_list(WRONG_LISTS[0])
            s.send_bad(0x81, [0, 1], ask=False)
            s.ask()
            s.lend_list([])
            s.ask_all()
            s.mark()
        s.title("16 before 12, 13, 9 and 8")
        s.lend_list(WRONG_LISTS[1])
        for table in (b"\0", WRONG):
            s.lend_table(table)
            s.contact(*POINT)
        s.lend_list([])
        s.send(0x80, [0x0B, 0])
        s.lend_list(WRONG_LISTS[0])
        s.contact(*POINT)
        s.contact(800, 480)
        s.all()


def rooms(s):
    begin(s, key())
    s.title("contacts with rooms of every length")
    for room in range(ALL_ROOM + 1):
        s.lend(room=room)
        s.lend_list([(0x0011, 1, room), (0x0012, 1, 0)])
        press(s)
    s.lend_list([])
    for room in (0, 264, 265, 300):
        s.lend(room=room)
        press(s)
    s.lend()
    s.all()


GROUPS = (due_in_order, sent_by_records, sent_by_sheets, sent_under_headers, refused_contacts, lifts, noted, not_noted, lists, slices, waiting, rooms)


# ---- Lists drawn at random

def some_entry(s, r):
    """Mostly one of the words that drawn records and frames speak of; mostly in use; what was last sent is the word itself or not."""
    address = r.choice((0x0F, 0x10, 0x10, 0x11, 0x11, 0x12, 0x13, 0x6FFE, 0x6FFF, r.randrange(0x7000)))
    value = r.choice((s.words[address], s.words[address], r.randrange(65536), s.words[address] ^ 1 << r.randrange(16)))
    return address, r.choice((0, 1, 1, 1, 0xFF, r.randrange(256))), value


def some_list(s, r):
    """A good one: of entries in use that share a word the first stays in use."""
    those, met = [], set()
    for address, use, value in (some_entry(s, r) for _ in range(r.choice((0, 1, 1, 2, 3, 4, 6, 16)))):
        those.append((address, 0 if address in met else use, value))
        met |= {address} if use else set()
    if r.random() < 0.2:
        those.insert(r.randrange(len(those) + 1), (r.choice((0x7000, 0xFFFF, 0x10)), 0, r.randrange(65536)))
    return those[:16]


def some_wrong_list(s, r):
    those, what = some_list(s, r), r.randrange(3)
    if what == 0:
        return (those + entries(range(0x20, 0x40), use=r.randrange(2)))[:r.randint(17, ALL_ENTRIES)]
    bad = (r.choice((0x7000, 0x7001, 0xFFFF)), 1, 0) if what == 1 else (those[-1][0] if those and those[-1][1] else 0x10, 1, 0)
    return (those[-14:] + ([(0x10, 1, 0)] if what == 2 else []) + [bad])[-16:]


def lend_some(s, r):
    """A good list; or a wrong one, under which some calls are refused before a good one is lent."""
    if r.random() < 0.3:
        s.lend_list(some_wrong_list(s, r))
        if r.random() < 0.3:
            n = s.n_listed[0]
            s.lend_lengths(*r.choice(((n, n, max(0, n - 1)), (n, max(0, n - 1), n), (max(0, n - 1), n, n))))
        if r.random() < 0.3:
            s.lend(room=r.choice((0, 264, 265)))
        s.ask()
        s.contact(r.randrange(320), r.randrange(270))
        s.lend()
    s.lend_list(some_list(s, r))
