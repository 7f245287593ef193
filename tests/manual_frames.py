#!/usr/bin/env python3
"""manual_frames.py [PROGRAM]: gives each frame of manual_frames.txt to the model of 01 and, where it is built or named, to the program."""
import pathlib
import sys
from typing import NamedTuple

import model
import program
from trace_text import QUIET_KIND, SETUP_KIND, on_line, setup_bytes

FRAMES = pathlib.Path(__file__).with_name("manual_frames.txt")


FLAGS = {"off": 0, "on": 1, "both": 3}


class Frame(NamedTuple):
    where: str
    flags: int
    line: bytes
    printed: list       # the lines, which are read behind the frame

    def trace(self):
        setup = model.Setup(self.line[0], self.line[1], self.flags, 16, 800, 480)
        return bytes([SETUP_KIND]) + setup_bytes(setup) + on_line(self.line) + bytes([QUIET_KIND])

    def output(self):
        return "".join(line + "\n" for line in self.printed)


def frames(text):
    where, found = "", []
    for line in text.splitlines():
        word, _, rest = line.partition(" ")
        if word == "at":
            where = rest
        elif word in FLAGS:
            found.append(Frame(where, FLAGS[word], bytes.fromhex(rest), []))
        elif word == ">":
            found[-1].printed.append(rest)
        elif word not in ("", "#"):
            sys.exit(f"{FRAMES.name}: what is this: {line}")
    if not found:
        sys.exit(f"{FRAMES.name} has no frame")
    return found


def troubles(frame, words):
    if model.trace_output(frame.trace()) != frame.output():
        yield f"{frame.where}: the model does not print what is listed for {frame.line.hex(' ')}"
    if words and program.run(words, frame.trace()) != frame.output().encode():
        yield f"{frame.where}: the program does not print what is listed for {frame.line.hex(' ')}"


def main(path):
    words, all_frames = program.command(path) if path else None, frames(FRAMES.read_text())
    found = [trouble for frame in all_frames for trouble in troubles(frame, words)]
    print("\n".join(found) or f"{len(all_frames)} frames of the manuals are right; {'the program was run' if words else 'no program is built'}")
    return 1 if found else 0


if __name__ == "__main__":
    if len(sys.argv) > 2:
        sys.exit(__doc__)
    sys.exit(main(program.chosen(*sys.argv[1:])))
