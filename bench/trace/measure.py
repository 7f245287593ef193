"""measure.py OURS PLAIN FOLDER: runs two trace programs on the same traces, files under FOLDER, and prints their figures for bench/table.py.

A time is what the processor spent, the least of some runs, less what a trace without events takes.
"""
import os
import pathlib
import random
import re
import subprocess
import sys
import time

sys.path.insert(0, str(pathlib.Path(__file__).resolve().parents[2] / "tests"))
import model  # noqa: E402
import program  # noqa: E402
from trace_text import SETUP_KIND, on_line, setup_bytes  # noqa: E402

SIZE = 1 << 20
LEAST_RUNS, SECONDS = 3, 4   # of each measurement
SETUP = model.Setup(0x5A, 0xA5, 1, 16, 800, 480)
OPENING = bytes([SETUP_KIND]) + setup_bytes(SETUP)


def frames(r):
    """Writes and reads of 100 words in turns, whole frames, as many as SIZE holds."""
    line = bytearray()
    while True:
        address = model.two(r.randrange(model.WORDS - 100))
        pair = model.frame(SETUP, 0x82, address + r.randbytes(200)) + model.frame(SETUP, 0x83, address + bytes([100]))
        if len(line) + len(pair) > SIZE:
            return bytes(line)
        line += pair


def curve_frames(r):
    """Numbers for any channels, with a clear of one now and then: whole frames, as many as SIZE holds."""
    line = bytearray()
    while True:
        mode = r.randrange(1, 256)
        numbers = r.randbytes(240 // (2 * mode.bit_count()) * 2 * mode.bit_count())
        frame = model.frame(SETUP, 0x84, bytes([mode]) + numbers)
        if r.randrange(64) == 0:
            frame += model.frame(SETUP, 0x80, bytes([0xEB, 0x56 + r.randrange(8)]))
        if len(line) + len(frame) > SIZE:
            return bytes(line)
        line += frame


def noise(r):
    return r.randbytes(SIZE)


def header_pairs(r):
    """Noise with a header pair after every 0 to 7 bytes."""
    line = bytearray()
    while len(line) < SIZE:
        line += r.randbytes(r.randrange(8)) + SETUP.header
    return bytes(line[:SIZE])


class Program:
    def __init__(self, path, folder):
        self.words, self.output = program.command(path), folder / f"{pathlib.Path(path).name}.out"

    def started(self, trace):
        with open(trace, "rb") as source, open(self.output, "wb") as target:
            return subprocess.Popen(self.words, stdin=source, stdout=target)

    def seconds(self, trace):
        """What the processor spent."""
        child = self.started(trace)  # kept: a Popen that is let go collects a child that has ended
        _, status, used = os.wait4(child.pid, 0)
        if status:
            sys.exit(f"{self.words[-1]} ended with status {status}")
        return used.ru_utime + used.ru_stime

    def peak(self, trace):
        """Peak memory in KiB, as last seen while the program ran. (wait4 counts this process's memory in.)"""
        child, most = self.started(trace), 0
        while child.poll() is None:
            seen = re.search(r"VmHWM:\s+(\d+)", pathlib.Path(f"/proc/{child.pid}/status").read_text())
            most = int(seen[1]) if seen else most
            time.sleep(0.002)
        return most

    def printed(self):
        return self.output.read_bytes()


def least_times(programs, trace):
    """The programs in turns, so that what else the machine does meets both."""
    least, runs, until = [float("inf")] * len(programs), 0, time.monotonic() + SECONDS
    while runs < LEAST_RUNS or time.monotonic() < until:
        least = [min(t, p.seconds(trace)) for t, p in zip(least, programs)]
        runs += 1
    return least


def stored(folder, name, events):
    path = folder / f"trace-{name}.trace"
    path.write_bytes(OPENING + events)
    return path


def measure(name, trace, ours, plain, starts):
    ours_time, plain_time = (t - s for t, s in zip(least_times((ours, plain), trace), starts))
    if ours.printed() != plain.printed():
        sys.exit(f"{name}: the programs print different lines")
    tell(name, "MB/s", SIZE / plain_time / 1e6, SIZE / ours_time / 1e6)


def tell(name, unit, plain, ours):
    print(f"trace: {name}\t{unit}\t{plain:.6g}\t{ours:.6g}", flush=True)


def main(ours, plain, folder):
    folder, r = pathlib.Path(folder), random.Random(1)
    ours, plain = Program(ours, folder), Program(plain, folder)
    starts = least_times((ours, plain), stored(folder, "start", b""))
    good = on_line(frames(r))
    for name, events in (("frames", good), ("noise", on_line(noise(r))), ("header pairs", on_line(header_pairs(r))),
                         ("curve frames", on_line(curve_frames(r)))):
        measure(name, stored(folder, name.replace(" ", "-"), events), ours, plain, starts)
    for times in (1, 8):
        path = stored(folder, "memory", good * times)
        tell(f"peak memory at {times} MiB", "KiB", plain.peak(path), ours.peak(path))


if __name__ == "__main__":
    main(*sys.argv[1:])
