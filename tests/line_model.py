#!/usr/bin/env python3
"""An independent model of document 01, "Frame" and "Reading the line", and the cases that the program line_cases runs.

    line_model.py            what line_cases must print (crates/line_cases/stdout)
    line_model.py --input    what it reads (crates/line_cases/stdin)

`tests/random line` draws other cases, and more of them.

The model keeps all that was given and reads it anew each time: a report waits while fewer reports were handed over than the reading has.
"""
import random
import sys


def check(content):
    """CRC-16, x^16+x^15+x^2+1 reflected, start FFFF."""
    value = 0xFFFF
    for byte in content:
        value ^= byte
        for _ in range(8):
            value = value >> 1 ^ (0xA001 if value & 1 else 0)
    return value


def frame(header, checking, command, data):
    content = [command, *data]
    v = check(content)
    tail = [v & 255, v >> 8] if checking else []
    return [*header, len(content) + len(tail), *content, *tail]


def acknowledgement(header, command, verdict):
    """02, §1: the length byte is 02, though the check bytes follow."""
    v = check([command, verdict])
    return [*header, 2, command, verdict, v & 255, v >> 8]


def read_stretch(header, checking, stretch, closed):
    """The reports of a stretch, as lines."""
    reports, p = [], 0
    h1, h2 = header
    least = 3 if checking else 1
    while p < len(stretch):
        s = stretch[p:]
        if s[0] != h1 or len(s) > 1 and s[1] != h2 or len(s) > 2 and s[2] < least:
            p += 1
        elif len(s) < 3 or len(s) < 3 + s[2]:
            if not closed:
                break
            p += 1
        else:
            body = s[3:3 + s[2]]
            if checking and body[-2:] != [check(body[:-2]) & 255, check(body[:-2]) >> 8]:
                reports.append(("B", body[:1]))
                p += 1
            else:
                reports.append(("F", body[:-2] if checking else body))
                p += 3 + s[2]
    return reports


class Model:
    def __init__(self, header, checking):
        self.header, self.checking = header, checking
        self.done, self.stretch, self.handed = [], [], 0

    def reading(self):
        return self.done + read_stretch(self.header, self.checking, self.stretch, False)

    def waits(self):
        return self.handed < len(self.reading())

    def byte(self, b):
        if self.waits():
            return False
        self.stretch.append(b)
        return True

    def mark(self):
        if self.waits():
            return False
        self.done += read_stretch(self.header, self.checking, self.stretch, True)
        self.stretch = []
        return True

    def ask(self):
        if not self.waits():
            return None
        self.handed += 1
        return self.reading()[self.handed - 1]


H = (0x5A, 0xA5)
READ = frame(H, True, 0x81, [0x00, 0x01])
WRITE = frame(H, True, 0x82, [0x00, 0x10, 0x01, 0xF4])
assert READ == [0x5A, 0xA5, 0x05, 0x81, 0x00, 0x01, 0xE0, 0x28]


def nested():
    """False frames in each other, with good frames inside and behind them."""
    inner = [*H, 0x30, 0x99, *READ, *WRITE, *READ]
    outer = [*H, 0x40, 0x77, *inner, *WRITE]
    return outer


def each(given):
    """Reports asked for after each byte."""
    return [g for b in given for g in (b, "?")]


def cases(seed=1, count=40):
    """Title, header, checking, and what is given: bytes, ("[", bytes), "|" and "?". Those listed here, and `count` drawn ones."""
    yield "example e: a false length, a good frame, a mark", H, True, [*H, 0x40, *READ, "?", "|", "?"]
    yield "nested false frames closed by a mark: all good frames inside", H, True, [*nested(), "?", "|", "?", "|", "?", *READ, "?"]
    yield "the same with the false frames whole: bad checks, then the good frames inside", H, True, [*each([*nested(), *[0] * 60]), "|", "?"]
    yield "a false length that never comes, then a mark, then a good frame", H, True, [*H, 0xFF, 1, 2, 3, "?", "|", "?", *READ, "?"]
    yield "a false length that never comes, with good frames behind it and no mark", H, True, each([*H, 0xFF, *READ * 34])
    yield "H1 H1 H2", H, True, [0x5A, *READ, "?", 0x5A, 0x5A, *READ, "?", 0x5A, "?", "|", "?", *READ[1:], "?"]
    yield "H1, H1 H2, H1 H2 L and more, each closed by a mark", H, True, [0x5A, "|", "?", *H, "|", "?", *H, 5, "|", "?", *READ[:-1], "|", "?"]
    for l in range(4):
        yield f"L {l}, checking on", H, True, [*each([*H, l, 0x81, 0xFF, 0xFF, *READ]), "|", "?"]
        yield f"L {l}, checking off", H, False, [*each([*H, l, 0x81, 0xFF, 0xFF, *READ]), "|", "?"]
    yield "L 3 with a right check: a command without data", H, True, [*frame(H, True, 0x80, []), "?"]
    yield "checking off: check bytes are data", H, False, each([*READ, *frame(H, False, 0x82, [0, 0x10, 1, 0xF4])])
    yield "no answer before it is asked for: inputs are refused while a report waits", H, True, [*READ, 1, "|", 2, "?", "?", "|", "?"]
    yield "two marks, and asks with nothing given", H, True, ["?", "|", "|", "?", *READ, "?", "|", "?", "|", "?"]
    yield "a bad check, and the next place is p+1", H, True, [*each([*H, 11, *READ, 0, 0, *READ]), "|", "?"]
    long_on, long_off = frame(H, True, 0x82, [i & 255 for i in range(252)]), frame(H, False, 0x82, [255 - (i & 255) for i in range(254)])
    assert len(long_on) == len(long_off) == 258
    yield "258 bytes, checking on", H, True, [*long_on, "?", ("[", long_on), "?"]
    yield "258 bytes, checking off", H, False, [*long_off, "?", ("[", long_off), "?"]
    yield "258 bytes with a wrong check, good frames behind", H, True, [*long_on[:-1], long_on[-1] ^ 1, "?", *READ, "?", "|", "?"]
    yield "257 bytes held, then a mark", H, True, [*long_on[:-1], "?", "|", "?", *READ, "?"]
    for k in range(len(READ) + 1):
        yield f"a frame split behind {k} bytes", H, True, [("[", READ[:k]), "?", ("[", READ[k:] + WRITE), "?", ("[", WRITE), "?"]
    for h in ((0xFF, 0xFF), (0x00, 0x00), (0x5A, 0x5A)):
        good, short = frame(h, True, 0x83, [0, 1, 2]), frame(h, False, 0x80, [7])
        yield f"header {h[0]:02X} {h[1]:02X}, checking on", h, True, [h[0], *good, "?", *good, "?", "|", "?", *h, *h, h[0], "|", "?", *good, "?"]
        yield f"header {h[0]:02X} {h[1]:02X}, checking off", h, False, [h[0], *short, "?", *short, "?", "|", "?", *short, "?"]
        yield f"header {h[0]:02X} {h[1]:02X}, header bytes only", h, True, [("[", [h[0]] * 300), "?", "|", "?", ("[", [h[0]] * 100), "|", "?"]
    for verdict in (0xFF, 0x00):
        echoes = [acknowledgement(H, command, verdict) for command in range(256)]
        yield f"acknowledgements with {verdict:02X}, of every command byte, each before a good frame", H, True, [
            g for echo in echoes for g in (("[", echo), "?", ("[", READ), "?", "|")]
        yield f"acknowledgements with {verdict:02X}, eight behind each other, closed by a mark behind a good frame", H, True, [
            g for k in range(0, 256, 8) for g in (("[", sum(echoes[k:k + 8], [])), "?", ("[", WRITE), "?", "|", "?")]
    inside, lost = acknowledgement((2, 2), 0x08, 0xFF), frame((2, 2), True, 0xF2, [0x78, 0x00])
    yield "an acknowledgement with the header inside: a good frame behind it is lost", (2, 2), True, [*inside, *lost, "?", "|", "?", *lost, "?"]
    ending = acknowledgement((0x30, 0xA5), 0x08, 0xFF)
    yield "an acknowledgement that ends with H1, and an H2 behind it: a frame begins at its last byte", (0x30, 0xA5), True, [
        *ending, "?", *frame((0x30, 0xA5), True, 0x80, [])[1:], "?", "|", "?"]
    draw = random.Random(seed)
    for k in range(count):
        h = draw.choice([H, H, (0xFF, 0xFF), (0, 0), (3, 4)])
        checking = draw.random() < 0.7
        all_given = []
        for _ in range(draw.randrange(5, 40)):
            given, what = [], draw.randrange(10)
            if what < 3:
                given += frame(h, checking, draw.randrange(256), [draw.randrange(256) for _ in range(draw.randrange(12))])
            elif what < 5:
                given += [*h, draw.randrange(24)]
            elif what < 7:
                given += [draw.choice([*h, draw.randrange(256), draw.randrange(6)]) for _ in range(draw.randrange(8))]
            elif what < 8:
                part = [b for b in all_given[-9:] if isinstance(b, int)]
                given.append(("[", part + frame(h, checking, 1, part)))
            elif what < 9:
                given.append("|")
            all_given += each(given) if draw.randrange(8) else given
        yield f"drawn {k}", h, checking, all_given + ["?", "|", "?"]


def spelled(bs):
    return " ".join(f"{b:02X}" for b in bs)


def script(all_cases):
    for title, header, checking, given in all_cases:
        yield f"# {title}"
        yield f"={spelled([*header, int(checking)])};"
        yield " ".join(g if isinstance(g, str) else f"[{spelled(g[1])}]" if isinstance(g, tuple) else f"{g:02X}" for g in given)


def expected(all_cases):
    for title, header, checking, given in all_cases:
        yield f"# {title}"
        yield f"= {spelled([*header, int(checking)])}"
        model = Model(header, checking)
        for g in given:
            if g == "?":
                while (report := model.ask()) is not None:
                    yield f"{report[0]} {spelled(report[1])}"
            elif g == "|":
                if not model.mark():
                    yield "1"
            elif isinstance(g, tuple):
                used = 0
                while used < len(g[1]) and model.byte(g[1][used]):
                    used += 1
                yield f"[{used}"
            elif not model.byte(g):
                yield "1"


def main(words):
    if words not in ([], ["--input"]):
        sys.exit(__doc__)
    for line in (script if words else expected)(cases()):
        print(line)


if __name__ == "__main__":
    main(sys.argv[1:])
