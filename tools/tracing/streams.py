"""Reading and writing whole, where every error is told in a line and none is taken for an end."""
import errno
import os
import select
import sys
import time

INPUT, OUTPUT = 0, 1
PIECE = 1 << 16
BLOCK = 1 << 20


class Trouble(Exception):
    """What keeps the tool from its work: not a mistake in a text."""


def failed(name, error):
    return Trouble(f"{name}: {'it is closed' if error.errno == errno.EBADF else error.strerror}")


def name_of(path):
    return "standard input" if path is None else path or "a file without a name"


def pieces(path):
    """A file, or standard input where none is named, as it comes."""
    try:
        source = INPUT if path is None else os.open(path, os.O_RDONLY)
        while True:
            try:
                piece = os.read(source, PIECE)
            except BlockingIOError:
                select.select([source], [], [])
                continue
            if not piece:
                return
            yield piece
    except OSError as error:
        raise failed(name_of(path), error) from None


def whole(path):
    return b"".join(pieces(path))


def lines(path):
    """The whole lines that have come, and what stands behind the last line feed; a list for each piece that is read."""
    left = b""
    for piece in pieces(path):
        *done, left = (left + piece).split(b"\n")
        yield [line + b"\n" for line in done]
    yield [left] if left else []


def write(data):
    """All of it to standard output, or Trouble. Not through Python's buffer, which would try again at the end."""
    view = memoryview(data)
    try:
        while view:
            try:
                view = view[os.write(OUTPUT, view):]
            except BlockingIOError:
                select.select([], [OUTPUT], [])
    except OSError as error:
        raise failed("standard output", error) from None


def write_pieces(pieces, tick):
    """Pieces of text, many at a time; `tick` hears how many bytes were written."""
    block, size, written = [], 0, 0
    for piece in pieces:
        block.append(piece)
        size += len(piece)
        if size >= BLOCK:
            write("".join(block).encode())
            written += size
            tick(written)
            block, size = [], 0
    write("".join(block).encode())


def complain(words):
    try:
        if sys.stderr:
            print(f"trace: {words}", file=sys.stderr, flush=True)
    except OSError:
        pass        # there is nobody left to tell; the exit status says it


class Progress:
    """Says on standard error how far long work is, every two seconds."""

    def __init__(self, what):
        self.what, self.next = what, time.monotonic() + 2

    def __call__(self, done):
        if time.monotonic() >= self.next:
            complain(f"{done} {self.what}")
            self.next = time.monotonic() + 2
