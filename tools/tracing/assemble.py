"""A whole text into the bytes of a trace, or the first mistake in it."""
import functools
import re

from . import layout
from .statements import STATEMENTS, setup
from .values import FLAG, Mistake, leading_fields, number, quoted, some_bytes

FRAME_FIELDS = {"badly": FLAG, "cut": number(1, 257), "length": number(0, 255)}
TIMES = number(1, 1 << 24)
REPEAT = {"repeat": TIMES}
MOST_BYTES = 1 << 28        # of a trace: it is all held before any of it is written
MOST_KNOWN, LONGEST_KNOWN = 1 << 16, 1 << 10        # lines that are remembered
BLOCK = 1 << 20
CONTROL = re.compile(rb"\r(?!\n)|[\x00-\x08\x0B\x0C\x0E-\x1F\x7F]")
PLAIN = bytes(byte for byte in range(256) if byte >= 32 and byte != 127 or byte in b"\t\n")     # in most texts there is nothing else


def words_of(line):
    if "#" in line:
        line = line.partition("#")[0]
    if "=" in line or "," in line or ".." in line:
        line = line.replace("=", " ").replace(",", " ").replace("..", " ")
    return line.split()


def check_length(length):
    if length > MOST_BYTES:
        raise Mistake(f"the trace would have {length} bytes or more up to here: allowed are {MOST_BYTES}")


def without_repeats(words):
    """How often a statement is to stand, and its words."""
    times, at = 1, 0
    while at < len(words) and words[at] == "repeat":
        if len(words) < at + 3:
            raise Mistake(f"repeat: a number or a statement is missing: allowed is {TIMES.allowed}, then a statement")
        times *= leading_fields(words[at:at + 2], REPEAT)[0]["repeat"]
        check_length(times)
        at += 2
    return times, words[at:]


class Assembler:
    """Turns lines into the bytes of a trace. It remembers the last setup, by which frames are enclosed, and what lines came to since."""

    def __init__(self):
        self.setup, self.known = None, {}
        self.statements = {**STATEMENTS, "setup": self.new_setup, "frame": self.frame}

    def assemble(self, line):
        words = words_of(line)
        if not words:
            return b""
        if words[0] == "repeat":
            return self.repeated(*without_repeats(words))
        found = self.statement(words[0], words[1:])
        if len(self.known) < MOST_KNOWN and len(line) < LONGEST_KNOWN:
            self.known[line] = found
        return found

    def repeated(self, times, words):
        once = self.statement(words[0], words[1:])
        check_length(len(once) * times)
        return once * times

    def statement(self, name, words):
        made_of = self.statements.get(name)
        if not made_of:
            raise Mistake(f"{quoted(name)} is no statement: allowed is {', '.join(self.statements)}, repeat")
        try:
            return made_of(words)
        except Mistake as mistake:
            raise Mistake(f"{name}: {mistake}") from None

    def new_setup(self, words):
        event = setup(words)
        self.setup = layout.setup_of(event[1:])
        self.known.clear()
        return event

    def frame(self, words):
        if self.setup is None:
            raise Mistake("no setup stands before it: a setup says how a frame is enclosed")
        found, content = leading_fields(words, FRAME_FIELDS)
        if not content:
            raise Mistake("its command is missing: allowed is a byte of two hex digits")
        content, limit = some_bytes(content), layout.data_limit(self.setup)
        if len(content) > 1 + limit:
            raise Mistake(f"{len(content) - 1} bytes of data: allowed are {limit} by the setup before it")
        return layout.on_line(self.altered(layout.frame(self.setup, content), found))

    def altered(self, frame, found):
        if "badly" in found:
            if not self.setup.checking:
                raise Mistake("badly: the setup before it is without checking: allowed is badly with checking alone")
            if "cut" in found:
                raise Mistake("badly: stands beside cut: allowed is one of the two: the cut takes the wrong check byte away")
            frame = layout.spoiled(frame)
        if "length" in found:
            frame = frame[:2] + bytes([found["length"]]) + frame[3:]
        if "cut" in found:
            cut = found["cut"]
            if cut >= len(frame):
                raise Mistake(f"cut: '{cut}': allowed is less than the frame's {len(frame)} bytes")
            frame = frame[:-cut]
        return frame


# ---- Marks, lifts, seconds, contacts and single bytes

# A trace of 10 MB may have millions of them one behind the other. Where they are spelled as `show` spells them, a whole run is read at once.
# The line feed in front is that of the line before, and makes the search fast.
PLAIN_RUN = re.compile("\n((?:(?:lift|quiet|second|line [0-9A-F]{2}|contact [0-9]{1,5} [0-9]{1,5})\n){8,})")


@functools.cache
def spelled_words():
    """Each word of such a run, a line byte behind its name, with its bytes."""
    kinds = {"lift": layout.LIFT_KIND, "quiet": layout.QUIET_KIND, "second": layout.SECOND_KIND, "contact": layout.CONTACT_KIND}
    words = {word: bytes([kind]) for word, kind in kinds.items()}
    words |= {f"line{byte:02X}": bytes([layout.BYTE_KIND, byte]) for byte in range(256)}
    return words | {str(n): n.to_bytes(2, "big") for n in range(1 << 16)}


def run_bytes(run):
    """The bytes of a run; None where a number is out of range or spelled otherwise, so that its lines have to be read one by one."""
    try:
        return b"".join(map(spelled_words().__getitem__, run.replace("line ", "line").split()))
    except KeyError:
        return None


# ---- The whole

def pieces_of(text):
    """Runs, and the lines between them. A block at a time: all lines at once would take several times the room of the text."""
    at = 0
    while at < len(text):
        end = text.find("\n", at + BLOCK) + 1 or len(text)
        block, done = text[at:end], 0
        for found in PLAIN_RUN.finditer(block):
            yield block[done:found.start(1)], None
            yield found[1], run_bytes(found[1])
            done = found.end()
        yield block[done:], None
        at = end


class Trace:
    """The bytes so far, and how many lines they are made of."""

    def __init__(self, source, tick):
        self.source, self.tick = source, tick
        self.assembler, self.bytes, self.lines = Assembler(), bytearray(), 0

    def take_run(self, run, found):
        before = self.lines
        self.bytes += found
        self.lines += run.count("\n")
        if before >> 16 != self.lines >> 16:
            self.tick(self.lines)

    def take_lines(self, piece):
        known, assemble, trace = self.assembler.known, self.assembler.assemble, self.bytes
        for at, line in enumerate(piece.removesuffix("\n").split("\n"), self.lines + 1):
            try:
                trace += known.get(line) or assemble(line)
                if len(trace) > MOST_BYTES:
                    check_length(len(trace))
            except Mistake as mistake:
                raise Mistake(f"{self.source}, line {at}: {mistake}") from None
            if not at & 0xFFFF:
                self.tick(at)
        self.lines = at


def trace_of(text, source="text", tick=lambda lines: None):
    """The bytes of a text. A mistake is told with the source's name and the line's number; `tick` hears now and then how many lines are done."""
    trace = Trace(source, tick)
    for piece, found in pieces_of(text):
        if found is not None and len(trace.bytes) + len(found) <= MOST_BYTES:
            trace.take_run(piece, found)
        elif piece:
            trace.take_lines(piece)
    return bytes(trace.bytes)


def refuse(data, at, source, reason):
    raise Mistake(f"{source}, line {data.count(10, 0, at) + 1}: byte {data[at]:02X} {reason}")


def decoded(data, source):
    """UTF-8, with or without a byte order mark. A control character would hide in a comment what an editor shows on a line of its own."""
    try:
        text = data.decode("utf-8-sig")
    except UnicodeDecodeError as wrong:
        refuse(wrong.object, wrong.start, source, "is no text: allowed is UTF-8")
    if data.translate(None, PLAIN) and (found := CONTROL.search(data)):
        refuse(data, found.start(), source, "is a control character: allowed are tabs, and line feeds with or without a carriage return before each")
    return text
