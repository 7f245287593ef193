"""How a trace stands in bytes: its kinds and their bodies, the setup, frames, line bytes."""
import re
import struct
from typing import NamedTuple

from .checks import check_value

SETUP_KIND, BYTE_KIND, QUIET_KIND, CONTACT_KIND, LIFT_KIND, RECORD_KIND, SECOND_KIND = range(7)
RECORD = 32
BODIES = {SETUP_KIND: 9, BYTE_KIND: 1, QUIET_KIND: 0, CONTACT_KIND: 4, LIFT_KIND: 0, RECORD_KIND: RECORD, SECOND_KIND: 0}
RUN = re.compile(b"|".join(rb"((?:%s.{%d}){1,4096})" % (re.escape(bytes([kind])), length) for kind, length in BODIES.items()) + b"|(.)", re.DOTALL)
SETUP = struct.Struct(">BBBHHH")
FLAG_WORDS = ("checking", "acknowledging", "revised")       # what a setup's flags choose, from bit 0 on


class Setup(NamedTuple):
    h1: int
    h2: int
    flags: int
    pages: int
    width: int
    height: int

    @property
    def header(self):
        return bytes((self.h1, self.h2))

    @property
    def checking(self):
        return self.flags & 1 == 1

    @property
    def acknowledging(self):
        return self.flags & 2 == 2


def setup_of(body):
    return Setup(*SETUP.unpack(body))


def setup_bytes(setup):
    return SETUP.pack(*setup)


# ---- The line

def data_limit(setup):
    return 252 if setup.checking else 254


def two_checks(content):
    """The check bytes, the low one first."""
    return check_value(content).to_bytes(2, "little")


def frame(setup, content):
    """A whole frame of command and data."""
    check = two_checks(content) if setup.checking else b""
    return setup.header + bytes([len(content) + len(check)]) + content + check


def spoiled(frame):
    """The frame with a wrong check value."""
    return frame[:-1] + bytes([frame[-1] ^ 0x40])


def on_line(given):
    """Line bytes, each behind its kind."""
    events = bytearray([BYTE_KIND]) * (2 * len(given))
    events[1::2] = given
    return bytes(events)


# ---- The pieces of a trace

def runs(trace):
    """The trace cut into runs of whole records of one kind, each (kind, bytes), a run never longer than 4096 of them; then what is left from the
    first byte on that 01 calls wrong: (None, bytes)."""
    for found in RUN.finditer(trace):
        kind = found.lastindex - 1
        if kind == len(BODIES):
            yield None, trace[found.start():]
            return
        yield kind, found[0]


def bodies(kind, run):
    size = 1 + BODIES[kind]
    return [run[at + 1:at + size] for at in range(0, len(run), size)]


def split(trace):
    """The whole records of a trace, each (kind, body), and what is left as `runs` gives it."""
    for kind, run in runs(trace):
        if kind is None:
            yield None, run
        else:
            yield from ((kind, body) for body in bodies(kind, run))


def joined(records):
    return b"".join(body if kind is None else bytes([kind]) + body for kind, body in records)


def spelled(given):
    return bytes(given).hex(" ").upper()
