#!/usr/bin/env python3
"""Calls of tools/trace as people make them, wrong ones too, with pipes that are closed and disks that are full.

Each says which exit status, which output and which words on standard error are due; a traceback is never due.
"""
import concurrent.futures
import os
import pathlib
import select
import subprocess
import sys
import tempfile
from typing import NamedTuple

import program
import trace_text  # noqa: F401 (which finds the tool's code)
from tracing import assemble, help, statements

TOOL = program.TOP / "tools" / "trace"
FIRST = program.TOP / "examples" / "first.trace"
MUCH = 1 << 20          # more than a pipe holds
SECONDS = 20            # for a slow machine; an answer takes milliseconds
GARBAGE = bytes(range(256)) * 64


EXPLAINED = b"""\
F 81 0                                # accepted: 81, read registers: done
O 5A A5 06 81 00 01 10 28 44          # reply to 81, read registers: address 00, count 1, data 10; check right
T 0                                   # contact 11 11: done
T 0                                   # lift: done
E 0000                                # end: page 0 is shown
"""


class Call(NamedTuple):
    arguments: tuple
    status: int
    error: bytes = b""          # how standard error begins
    given: bytes = b""
    printed: bytes = b""
    redirection: str = ""       # in bash's words
    longest: int = 1000         # of what may be said


CALLS = [
    Call(("write",), 0, given=b"lift\nquiet\nsecond\n", printed=b"\x04\x02\x06"),
    Call(("write",), 0, given=b"", printed=b""),
    # Nothing is written unless all of the text is right.
    Call(("write",), 1, b"trace: standard input, line 2: lift: '1': allowed is nothing", b"lift\nlift 1\n"),
    Call(("write", "{text}"), 1, b"trace: {text}, line 3: slider: begin: '40000': allowed is a decimal number from -32768 to 32767"),
    Call(("write",), 1, b"trace: standard input, line 1: byte 80 is no text", GARBAGE[128:]),
    Call(("write",), 1, b"trace: standard input, line 1: '", b"x" * 100000),
    Call(("write",), 0, given=b"\xef\xbb\xbflift\n", printed=b"\x04"),
    # Lines that are not the program's
    Call(("explain",), 0, given=b"E 0000\n", printed=b"E 0000                                # end: page 0 is shown\n"),
    Call(("explain",), 1, b"trace: standard input: this is not what the program prints: see the 1 marked above", b"\x1b[2J\nE 0000\n",
         b"\\x1b[2J                               # not the program's: no line of the program has this form\n"
         b"E 0000                                # end: page 0 is shown\n"),
    Call(("explain", "--trace", str(FIRST), str(FIRST.with_suffix(".out"))), 0, printed=EXPLAINED),
    Call(("explain", "--header", "00", "01", "--no-checking"), 0, given=b"F 81 0\nO 00 01 03 81 00 00\nX 15\n", printed=(
        b"F 81 0                                # accepted: 81, read registers: done\n"
        b"O 00 01 03 81 00 00                   # reply to 81, read registers: address 00, count 0, no data\n"
        b"X 15                                  # stopped, 15: the trace is wrong: a cut or unknown record, none or two setups, a touch record "
        b"behind an event\n")),
    # Usage
    Call((), 2, b"trace: the following arguments are required: COMMAND\nusage: tools/trace write"),
    Call(("wirte",), 2, b"trace: argument COMMAND: invalid choice: 'wirte'"),
    Call(("write", "a", "b"), 2, b"trace: unrecognized arguments: b\n"),
    Call(("show", "--trace", "a"), 2, b"trace: unrecognized arguments: --trace"),
    Call(("explain", "--header", "5A"), 2, b"trace: argument --header: expected 2 arguments"),
    Call(("explain", "--header", "5A", "A"), 2, b"trace: argument --header: 'A': allowed is a byte of two hex digits"),
    Call(("explain", "--trace", str(FIRST), "--no-checking"), 2, b"trace: --trace says header and checking"),
    Call(("help",), 0, printed=help.HELP.encode()),
    Call(("--help",), 0, printed=help.HELP.encode()),
    Call(("write", "-h"), 0, printed=help.HELP.encode()),
    Call(("write", ""), 2, b"trace: a file without a name: No such file or directory\n"),
    # What cannot be read or written
    Call(("write", "{folder}/none"), 2, b"trace: {folder}/none: No such file or directory\n"),
    Call(("show", "{folder}"), 2, b"trace: {folder}: Is a directory\n"),
    Call(("show",), 2, b"trace: standard input: it is closed\n", redirection="<&-"),
    Call(("show",), 2, b"trace: standard output: No space left on device\n", GARBAGE, redirection=">/dev/full"),
    Call(("write",), 2, b"trace: standard output: No space left on device\n", b"lift\n", redirection=">/dev/full"),
    Call(("explain",), 2, b"trace: standard output: No space left on device\n", b"E 0000\n", redirection=">/dev/full"),
    Call(("help",), 2, b"trace: standard output: No space left on device\n", redirection=">/dev/full"),
    Call(("write",), 2, b"trace: standard output: it is closed\n", b"lift\n", redirection=">&-"),
    Call(("write",), 1, b"", b"lift 1\n", redirection="2>&-"),
    Call(("write",), 1, b"", b"lift 1\n", redirection="2>/dev/full"),
]


def filled(words, folder):
    """With the names of this run's files in place of {folder} and {text}."""
    return words.replace("{text}", f"{folder}/slider.txt").replace("{folder}", folder)


def trouble(call, folder):
    """What is not as it should be, or None."""
    arguments = [filled(word, folder) for word in call.arguments]
    words = ["bash", "-c", f'exec "$@" {call.redirection}', "bash", sys.executable, str(TOOL), *arguments]
    done = subprocess.run(words, input=call.given, capture_output=True)
    error = filled(call.error.decode(), folder).encode()
    right = (done.returncode == call.status and done.stdout == call.printed and done.stderr.startswith(error)
             and (error or not done.stderr) and b"Traceback" not in done.stderr and len(done.stderr) <= call.longest)
    found = f"status {done.returncode}, output {done.stdout[:80]!r}, error {done.stderr[:300]!r}"
    return None if right else f"{arguments} {call.redirection}: {found}; expected {call.status}, {call.printed[:80]!r}, {error!r}"


# ---- Pipes

def started(*arguments, **pipes):
    return subprocess.Popen([sys.executable, TOOL, *arguments], stderr=subprocess.PIPE, **pipes)


def closed_pipe():
    """Whoever reads the output stops early."""
    with tempfile.TemporaryFile() as trace:
        trace.write(b"\x04" * MUCH)
        trace.seek(0)
        with started("show", stdin=trace, stdout=subprocess.PIPE) as child:
            child.stdout.read(5)
            child.stdout.close()
            said = child.stderr.read()
    if said or child.returncode == 0:
        yield f"a closed pipe: status {child.returncode}, {said[:300]!r}"


def without_blocking():
    """Both ends are non-blocking pipes: what is not ready is waited for, and nothing is lost."""
    (given, giver), (taker, taken) = os.pipe(), os.pipe()
    os.set_blocking(given, False)
    os.set_blocking(taken, False)
    with started("show", stdin=given, stdout=taken) as child:
        os.close(given)
        os.close(taken)
        with open(giver, "wb") as gives:
            gives.write(b"\x04" * MUCH)
        with open(taker, "rb") as answers:
            got = answers.read()
        said = child.stderr.read()
    if got != b"lift\n" * MUCH or said or child.returncode != 0:
        yield f"non-blocking pipes: {len(got)} bytes, status {child.returncode}, {said[:300]!r}"


def answered_at_once():
    """What has come is explained before more comes."""
    with started("explain", stdin=subprocess.PIPE, stdout=subprocess.PIPE, bufsize=0) as child:
        child.stdin.write(b"T 0\nT")
        came = select.select([child.stdout], [], [], SECONDS)[0]
        got = child.stdout.readline() if came else b"nothing"
        child.stdin.close()
        child.stdout.read()
        child.stderr.read()
    if not got.startswith(b"T 0 "):
        yield f"explain on a pipe: {got!r} came of the first line"


# ---- What help says

def help_misses():
    """Every statement and every field stands in help, and what it shows as examples is taken."""
    names = [*assemble.Assembler().statements, "repeat", "none", *assemble.FRAME_FIELDS]
    for known in (statements.SETUP_FIELDS, statements.KEY_FIELDS, statements.STEP_FIELDS, statements.SLIDER_FIELDS):
        names += known
    words = set(help.HELP.replace("=", " ").replace(",", " ").replace("[", " ").replace("]", " ").split())
    yield from (f"help does not say '{name}'" for name in names if name not in words)
    examples = [line[2:] for line in help.HELP.splitlines() if line[:2] == "  " and line[2:].split(" ")[0] in statements.STATEMENTS]
    text = "".join(line.replace("[", "").replace("]", "").split("   ")[0] + "\n" for line in examples if "BB" not in line and "B0" not in line)
    try:
        assemble.trace_of(text, "help")
    except assemble.Mistake as mistake:
        yield f"what help shows is not taken: {mistake}"


def main():
    with tempfile.TemporaryDirectory() as folder:
        slider = "slider page=0 area=0,0..9,9 word=0 mode=word across begin=40000 end=0"
        pathlib.Path(folder, "slider.txt").write_text(f"lift\n\n{slider}\n")
        with concurrent.futures.ThreadPoolExecutor(2) as pool:
            wrong = [found for found in pool.map(lambda call: trouble(call, folder), CALLS) if found]
    wrong += [*closed_pipe(), *without_blocking(), *answered_at_once(), *help_misses()]
    print("\n".join(wrong) or f"{len(CALLS)} calls of tools/trace end as they should, over pipes too")
    return 1 if wrong else 0


if __name__ == "__main__":
    sys.exit(main())
