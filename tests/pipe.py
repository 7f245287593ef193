#!/usr/bin/env python3
"""pipe.py [PROGRAM]: talks to the panel program over pipes, and breaks them.

PROGRAM is the built panel_trace, where none is named; where none is built, nothing is run. The talks: the traces of examples/ that are right
to their end, each event sent as a whole and also a byte at a time; after each event the lines of it must come before more input is sent; the
lines expected are those of the model of 01. The broken pipes: an output that is closed, full or read by nobody, an input that is closed or a
folder: one line on standard error that begins with the program's name, no last line, and the exit status 2. Pipes that do not block, a reader that is slow and a
program that is stopped and goes on: every byte comes, and nothing is said.
"""
import contextlib
import os
import select
import signal
import subprocess
import sys
import tempfile
import time

import model
import program
from trace_text import joined, split

SECONDS = 20        # for a slow machine; an answer takes milliseconds
PAUSE = 0.02        # longer than the program waits before it tries again
SETUP = bytes.fromhex("00 5A A5 00 00 02 03 20 01 E0")
TOUCHES = bytes.fromhex("03 00 0B 00 0B 04")       # a contact and a lift: two lines of four bytes
MANY = 20000                                       # more of them than fill a pipe


# ---- Talks

def exchanges(trace):
    """A record of the trace at a time, and the lines that are due once it is read."""
    records, said = list(split(trace)), 0
    for at in range(len(records)):
        lines = lines_so_far(joined(records[:at + 1]))
        yield joined(records[at:at + 1]), lines[said:]
        said = len(lines)


def lines_so_far(trace):
    """What is printed for a trace up to here, its end not yet known."""
    return b"".join(line for line in model.trace_output(trace).encode().splitlines(keepends=True) if line[:1] != b"E")


def answer(child, length):
    """As many bytes as are due; fewer if they do not come in time."""
    got, until = b"", time.monotonic() + SECONDS
    while len(got) < length and select.select([child.stdout], [], [], max(0, until - time.monotonic()))[0]:
        piece = os.read(child.stdout.fileno(), length - len(got))
        if not piece:
            break
        got += piece
    return got


def talk(words, trace, pieces_of):
    """What went wrong, or None. The child's input stays open until the last answer has come."""
    with subprocess.Popen(words, stdin=subprocess.PIPE, stdout=subprocess.PIPE, bufsize=0) as child:
        for sent, due in exchanges(trace):
            for piece in pieces_of(sent):
                child.stdin.write(piece)
            got = answer(child, len(due))
            if got != due:
                child.kill()
                return f"after {sent.hex(' ')} came {got!r} in {SECONDS} s, due was {due!r}"
        child.stdin.close()
        rest, due = child.stdout.read(), model.trace_output(trace).encode()[len(lines_so_far(trace)):]
        return None if rest == due else f"at the end came {rest!r}, due was {due!r}"


def right_traces():
    for path in sorted((program.TOP / "examples").glob("*.trace")):
        trace = path.read_bytes()
        if "X" not in model.trace_output(trace):
            yield trace


def whole(sent):
    return [sent]


def single(sent):
    return [bytes([b]) for b in sent]


def talks(words):
    traces = list(right_traces())
    if not traces:
        yield "examples/ has no trace that is right to its end"
    for trace in traces:
        yield talk(words, trace, whole)
        yield talk(words, trace, single)


# ---- Broken pipes

@contextlib.contextmanager
def started(words, trace, **more):
    """The program, its standard error in a pipe; its input a file with the trace, where `more` names no other. SIGPIPE stays ignored, as
    Python and ./panel ignore it."""
    with tempfile.TemporaryFile() as file:
        file.write(trace)
        file.seek(0)
        with subprocess.Popen(words, **{"stdin": file, "stdout": subprocess.PIPE, "stderr": subprocess.PIPE, "bufsize": 0, "restore_signals": False, **more}) as child:
            try:
                yield child
            finally:
                child.kill()


def failing(words, what, printed=b"", **more):
    """What went wrong with a run that must fail by one line that names what it failed on, after the lines that went out before."""
    with started(words, SETUP + TOUCHES, **more) as child:
        out, said = child.communicate(timeout=SECONDS)
    if not said.startswith(b"panel_trace: " + what + b": ") or said.count(b"\n") != 1 or not said.endswith(b"\n"):
        return f"due was a line 'panel_trace: {what.decode()}: ..', came {said!r}"
    if child.returncode != 2:
        return f"beside {said!r} came the exit status {child.returncode}, due was 2"
    return None if (out or b"") == printed else f"beside {said!r} came {out!r}"


def broken(words):
    """Runs whose input or output fails."""
    read, written = os.pipe()
    os.close(read)
    with open("/dev/full", "wb") as full, open(written, "wb") as unread:
        yield failing(words, b"standard output", stdout=full)
        yield failing(words, b"standard output", stdout=unread)
    yield failing(words, b"standard output", stdout=None, preexec_fn=lambda: os.close(1))
    yield failing(words, b"standard input", stdin=None, preexec_fn=lambda: os.close(0))
    folder = os.open("/", os.O_RDONLY)
    yield failing(words, b"standard input", stdin=folder)
    os.close(folder)


# ---- Pipes that are not ready, and a program that is interrupted

def all_of(child, each, taken):
    """All that the child writes, read in pieces; `taken` is called after each of the first 20 of them."""
    got = b""
    for turn in range(1 << 30):
        piece = os.read(each, 1 << 12 if turn < 20 else 1 << 16)
        if not piece:
            return got
        got += piece
        if turn < 20:
            taken(child)


def wait(_):
    time.sleep(PAUSE)


def interrupt(child):
    child.send_signal(signal.SIGSTOP)
    time.sleep(PAUSE / 4)
    child.send_signal(signal.SIGCONT)


def slow(words, blocks, taken):
    """A reader that waits between its first reads, on a pipe that blocks or does not."""
    trace = SETUP + TOUCHES * MANY
    read, written = os.pipe()
    os.set_blocking(written, blocks)
    with started(words, trace, stdout=written) as child:
        os.close(written)
        time.sleep(5 * PAUSE)       # so long that the pipe is full
        got = all_of(child, read, taken)
        said = child.stderr.read()
    os.close(read)
    due = b"T 0\n" * (2 * MANY) + b"E 0000\n"
    if got == due and said == b"":
        return None
    return f"{len(got)} bytes came of {len(due)}, the last of them {got[-12:]!r}, and {said!r} on standard error"


def late(words, taken):
    """An input that does not block and comes in parts, a record cut in two by each."""
    trace = SETUP + TOUCHES * 3
    read, written = os.pipe()
    os.set_blocking(read, False)
    with started(words, b"", stdin=read) as child:
        os.close(read)
        with contextlib.suppress(BrokenPipeError):      # a program that has ended is told by what it printed
            for at in range(0, len(trace), 7):
                os.write(written, trace[at:at + 7])
                taken(child)
        os.close(written)
        out, said = child.communicate(timeout=SECONDS)
    due = model.trace_output(trace).encode()
    return None if (out, said) == (due, b"") else f"came {out!r} and {said!r}, due was {due!r}"


def unready(words):
    for taken in (wait, interrupt):
        yield slow(words, True, taken)
        yield slow(words, False, taken)
        yield late(words, taken)


def main(path):
    if not path:
        print("no program is built: nothing was run")
        return 0
    words, counts = program.command(path), []
    for part in (talks, broken, unready):
        found = list(part(words))
        troubles = [trouble for trouble in found if trouble]
        if troubles:
            print("\n".join(troubles))
            return 1
        counts.append(len(found))
    print("%d talks over pipes, every answer before more was sent; %d broken pipes, each said; %d slow or interrupted ones, nothing lost" % tuple(counts))
    return 0


if __name__ == "__main__":
    if len(sys.argv) > 2:
        sys.exit(__doc__)
    sys.exit(main(program.chosen(*sys.argv[1:])))
