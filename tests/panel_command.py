#!/usr/bin/env python3
"""Tries ./panel as it is used and misused: options, files, its exit status, and what it says while it builds.

The runs on traces use the built program, and are left out where none is built. The builds are of a copy of the script in a folder of its
own, with a command in the place of rt that says what rt says and builds a program of a few words.
"""
import os
import pathlib
import pty
import shutil
import signal
import subprocess
import sys
import tempfile

import program

SCRIPT = program.TOP / "panel"
EXAMPLES = program.TOP / "examples"
SECONDS = 60

CRATES = "# what is needed\nwire:\nframe: wire bytes\npanel_trace: frame wire io\nother: wire\n"

# In the place of rt, in the program's folder: `run` says what rt says, builds where SOUND is set, and prints as the program does of an empty trace.
RT = """#!/bin/sh
[ "$*" = run ] && [ "${PWD##*/}" = panel_trace ] || { echo "rt: $* in $PWD" >&2; exit 2; }
{
    echo "rt: frame: begins with what a check kept in another copy"
    echo "rt: chose --jobs 2 for frame"
    echo "fn frame::f: proved"
    echo "rt: chose --jobs 2 for panel_trace"
    [ -n "$SOUND" ] || { echo "logic=not-proved"; exit 1; }
    mkdir -p out && printf '#!/bin/sh\\n%s\\n' "$PROGRAM" >out/panel_trace && chmod +x out/panel_trace
    echo "rt: running out/panel_trace; to give it other input, run that file yourself"
} >&2
echo "X 15"
"""


def run(script, *words, **more):
    return subprocess.run([str(script), *words], **{"stdin": subprocess.DEVNULL, "capture_output": True, "timeout": SECONDS, **more})


def trouble(what, done, status, out=None, said=None):
    """What is not as it is due: `said` is what standard error must hold, one line where it is not empty."""
    if done.returncode != status:
        return f"{what}: status {done.returncode}, due was {status}; it said {done.stderr!r}"
    if out is not None and done.stdout != out:
        return f"{what}: printed {done.stdout[:200]!r}"
    if said is not None and (said.encode() not in done.stderr or done.stderr.count(b"\n") != (said != "")):
        return f"{what}: said {done.stderr!r}, due was one line with {said!r}"
    return None


# ---- Options and files, with nothing built and no rt to build it

def misuses(folder):
    bare = folder / "panel"
    shutil.copy(SCRIPT, bare)
    (folder / "crates.txt").write_text(CRATES)
    (folder / "crates" / "panel_trace" / "src").mkdir(parents=True)
    for option in ("--help", "-h"):
        done = run(bare, option)
        yield trouble(option, done, 0, said="") or (b"use: ./panel [FILE]" not in done.stdout and f"{option}: no line of use") or None
    yield trouble("--fast", run(bare, "--fast"), 2, b"", "there is no option --fast; use: ./panel [FILE]")
    yield trouble("two files", run(bare, str(bare), str(bare)), 2, b"", "one FILE and no more; use: ./panel [FILE]")
    yield trouble("no such file", run(bare, "missing"), 2, b"", "missing: there is no such file")
    yield trouble("a folder", run(bare, str(folder)), 2, b"", "is a folder")
    if os.getuid() != 0:        # root may read everything
        shut = folder / "shut"
        shut.touch(0o000)
        yield trouble("a file that may not be read", run(bare, str(shut)), 2, b"", "cannot be read")
    yield "a build was begun" if (folder / "target").exists() else None


# ---- Building

def around(folder, words, sound="yes"):
    """What stands around a call of the script: rt, and the program that it builds."""
    (folder / "rt").write_text(RT)
    (folder / "rt").chmod(0o755)
    return {**os.environ, "PATH": f"{folder}:{os.environ['PATH']}", "SOUND": sound, "PROGRAM": words}


def built_in(folder):
    return folder / "crates" / "panel_trace" / "out" / "panel_trace"


def builds(folder):
    script = folder / "panel"
    done = run(script, env=around(folder, "", sound=""))
    yield trouble("a build that fails", done, 2, b"") or (b"could not be built; what rt said is in" not in done.stderr and f"a build that fails: {done.stderr!r}") or None
    yield "what rt said is not in the log" if b"logic=not-proved" not in (folder / "target" / "panel.log").read_bytes() else None
    done = run(script, env=around(folder, "cat; echo done"), input=b"in\n", stdin=None)
    lines = [line.split(b", ")[:2] for line in done.stderr.splitlines()[1:]]
    yield trouble("a build", done, 0, b"in\ndone\n")
    yield None if lines == [[b"panel: proving frame", b"2 of 3 crates"], [b"panel: proving panel_trace", b"3 of 3 crates"]] else f"a build shows {done.stderr!r}"
    yield trouble("what is built", run(script, env=around(folder, "")), 0, b"done\n", "")
    built_in(folder).write_text("#!/bin/sh\necho ran; echo 'panel_trace: no' >&2; exit 2\n")
    yield trouble("a program that fails", run(script, env=around(folder, "")), 2, b"ran\n", "panel_trace: no")
    yield on_terminal(script, around(folder, ""))
    yield ended(script, around(folder, "echo $$; exec sleep 60"))


def ended(script, env):
    """A signal that ends the script ends the program."""
    built_in(script.parent).unlink()
    with subprocess.Popen([str(script)], stdin=subprocess.DEVNULL, stdout=subprocess.PIPE, stderr=subprocess.DEVNULL, env=env) as child:
        number = int(child.stdout.readline())
        child.terminate()
        status = child.wait(SECONDS)
    if os.path.exists(f"/proc/{number}"):
        os.kill(number, signal.SIGKILL)
        return "the program outlived the script"
    return None if status == 128 + signal.SIGTERM else f"a script that was ended has status {status}"


def on_terminal(script, env):
    """A trace is waited for, and that is said; the progress of a build stands in one line, which is written again and again."""
    built_in(script.parent).unlink()
    leader, terminal = pty.openpty()
    with subprocess.Popen([str(script)], stdin=terminal, stdout=subprocess.PIPE, stderr=terminal, env={**env, "PROGRAM": "echo ran"}) as child:
        out = child.stdout.read()
    said = os.read(leader, 1 << 16)
    os.close(leader)
    os.close(terminal)
    if b"\rpanel: proving crate 3 of 3, " not in said or said.count(b"\n") != 3 or b"reads a trace from the terminal" not in said:
        return f"on a terminal: {said!r}"
    return None if (out, child.returncode) == (b"ran\n", 0) else f"on a terminal: printed {out!r}, status {child.returncode}"


# ---- Runs

def runs():
    for text in ("first", "wrong_record"):
        trace, due = EXAMPLES / f"{text}.trace", (EXAMPLES / f"{text}.out").read_bytes()
        yield trouble(f"./panel {text}.trace", run(SCRIPT, str(trace)), 0, due, "")
        yield trouble(f"./panel < {text}.trace", run(SCRIPT, stdin=None, input=trace.read_bytes()), 0, due, "")
    first = str(EXAMPLES / "first.trace")
    with open("/dev/full", "wb") as full:
        yield trouble("./panel > /dev/full", run(SCRIPT, first, capture_output=False, stdout=full, stderr=subprocess.PIPE), 2, said="panel_trace: standard output: ")
    read, written = os.pipe()
    os.close(read)
    yield trouble("./panel to a closed pipe", run(SCRIPT, first, capture_output=False, stdout=written, stderr=subprocess.PIPE), 2, said="panel_trace: standard output: ")
    os.close(written)
    yield trouble("./panel >&-", run(SCRIPT, first, capture_output=False, stderr=subprocess.PIPE, preexec_fn=lambda: os.close(1)), 2, said="standard output is closed")
    yield trouble("./panel <&-", run(SCRIPT, stdin=None, preexec_fn=lambda: os.close(0)), 2, b"", "standard input is closed")
    yield trouble("./panel < /", run("sh", "-c", f"exec '{SCRIPT}' < /"), 2, b"", "panel_trace: standard input: ")


def main():
    with tempfile.TemporaryDirectory() as name:
        folder = pathlib.Path(name)
        found = [*misuses(folder), *builds(folder)]
    if program.chosen():
        found += runs()
    troubles = [each for each in found if each]
    print("\n".join(troubles) or f"{len(found)} calls of ./panel are right")
    return 1 if troubles else 0


if __name__ == "__main__":
    sys.exit(main())
