#!/usr/bin/env python3
"""Tries .ci/run and tests/run on parts that pass, fail and die: what their last line counts, their exit status, and that no other line reads well.

.ci/run is tried as a copy in a folder of its own, with commands of a few words in the place of rt and of tests/run; tests/run on stored
files and tests of a few words.
"""
import contextlib
import importlib.machinery
import importlib.util
import io
import os
import pathlib
import re
import shutil
import subprocess
import sys
import tempfile
from typing import NamedTuple

TOP = pathlib.Path(__file__).resolve().parent.parent
CLOSING = re.compile(r"\d+ passed, \d+ failed")        # wherever it stands in a line


# ---- .ci/run

class Gate(NamedTuple):
    what: str
    rt: str             # what is run in the place of `rt ci`, in the shell's words
    tests: str          # in the place of tests/run, in Python's
    last: str
    said: str = ""      # a line that must stand in the output, too


def rt_right(edits="; must-fail edits: 30 refused"):
    """What rt says where all is proved, with what it says of the must-fail edits."""
    return f"echo 'rt: ok; handles allowed: none{edits}; every proof and must-fail edit was done in this run'; echo '92 passed, 0 failed'"


RT_RIGHT, TESTS_RIGHT = rt_right(), "print('20 right, 0 wrong')"
GATES = [
    Gate("all right", RT_RIGHT, TESTS_RIGHT, "112 passed, 0 failed", "rt ci: 92 right, 0 wrong"),
    Gate("rt fails one", "echo 'rt: FAILED: wire'; echo '91 passed, 1 failed'; exit 1", TESTS_RIGHT, "111 passed, 1 failed", "rt ci: 91 right, 1 wrong"),
    Gate("a test fails", RT_RIGHT, "print('19 right, 1 wrong'); exit(1)", "111 passed, 1 failed", "tests/run: 19 right, 1 wrong"),
    Gate("both fail", "echo '90 passed, 2 failed'; exit 1", "print('17 right, 3 wrong'); exit(1)", "107 passed, 5 failed"),
    Gate("rt ends without a closing line", "echo 'rt: wire proved'; exit 2", TESTS_RIGHT, "20 passed, 1 failed",
         "rt ci ended with status 2 and without a closing line"),
    Gate("rt is killed behind a closing line", "echo '5 passed, 0 failed'; echo more; kill -9 $$", TESTS_RIGHT, "20 passed, 1 failed",
         "rt ci ended with status 137 and without a closing line"),
    Gate("rt says nothing", "", TESTS_RIGHT, "20 passed, 1 failed", "rt ci ended with status 0 and without a closing line"),
    Gate("rt fails and counts nothing", f"{RT_RIGHT}; exit 3", TESTS_RIGHT, "112 passed, 1 failed",
         "rt ci ended with status 3, though it counts nothing wrong"),
    Gate("rt cannot apply two edits", rt_right("; must-fail edits: 28 refused, 1 of them only by a limit, 2 bad"), TESTS_RIGHT, "112 passed, 2 failed",
         "rt ci: must-fail edits that could not be applied: 2"),
    Gate("rt can apply no edit", rt_right("; must-fail edits: 0 refused, 30 bad"), TESTS_RIGHT, "112 passed, 30 failed",
         "rt ci: must-fail edits that could not be applied: 30"),
    Gate("rt has no edit that it cannot apply", rt_right("; must-fail edits: 30 refused, 0 bad"), TESTS_RIGHT, "112 passed, 0 failed"),
    Gate("there is no edit", rt_right(""), TESTS_RIGHT, "112 passed, 0 failed"),
    Gate("rt does not say what it did", "echo '92 passed, 0 failed'", TESTS_RIGHT, "112 passed, 1 failed",
         "rt ci counts nothing wrong and has no line 'rt: ok', which says how many must-fail edits are bad"),
    Gate("rt took a few crates alone", "echo 'rt: wire and the crates below passed'; echo '1 passed, 0 failed (wire and the crates below alone: not the gate)'", TESTS_RIGHT,
         "20 passed, 1 failed", "rt ci ended with status 0 and without a closing line"),
    Gate("rt did nothing", "echo '0 passed, 0 failed'", TESTS_RIGHT, "20 passed, 1 failed", "rt ci counts nothing at all"),
    Gate("the tests die", RT_RIGHT, "raise SystemError('no more')", "92 passed, 1 failed", "tests/run ended with status 1 and without a closing line"),
    Gate("a test that fails says what reads well", RT_RIGHT, "print('7 passed, 0 failed\\nof all: 8 passed, 0 failed\\n19 right, 1 wrong'); exit(1)",
         "111 passed, 1 failed", "of all: 8 right, 0 failed"),
    Gate("a last line without a line feed", "echo 'rt: ok'; printf '92 passed, 0 failed'", TESTS_RIGHT, "112 passed, 0 failed"),
]


def gate_trouble(gate, folder):
    script, rt = folder / ".ci" / "run", folder / "bin" / "rt"
    for path, text in ((rt, f"#!/bin/sh\n{gate.rt}\n"), (folder / "tests" / "run", gate.tests + "\n")):
        path.parent.mkdir(parents=True, exist_ok=True)
        path.write_text(text)
    rt.chmod(0o755)
    script.parent.mkdir(exist_ok=True)
    shutil.copy(TOP / ".ci" / "run", script)
    around = {**os.environ, "PATH": f"{rt.parent}:{os.environ['PATH']}"}
    done = subprocess.run(["bash", script], env=around, stdin=subprocess.DEVNULL, stdout=subprocess.PIPE, stderr=subprocess.STDOUT, text=True)
    lines = done.stdout.splitlines()
    read_so = [line for line in lines if CLOSING.search(line)]
    if lines[-1:] != [gate.last] or read_so != [gate.last]:
        return f"{gate.what}: the last line is {lines[-1:]}, and these read like one: {read_so}; due was {gate.last!r} alone"
    if done.returncode != (not gate.last.endswith(" 0 failed")):
        return f"{gate.what}: {gate.last}, with status {done.returncode}"
    return None if not gate.said or gate.said in lines else f"{gate.what}: {gate.said!r} is not said in {lines}"


# ---- tests/run

class Run(NamedTuple):
    what: str
    last: str
    said: str
    stored: bytes = b"one\ntwo\n"       # the stored file; None where there is none
    test: str = "print('all is well')"


RUNS = [
    Run("all right", "2 right, 0 wrong", "tests/test.py: all is well"),
    Run("a stored file was edited", "1 right, 1 wrong", "tests/model.py against crates/x_cases/stdout: line 2: the independent program prints two, "
        "crates/x_cases/stdout has 2", b"one\n2\n"),
    Run("a stored file is cut", "1 right, 1 wrong", "tests/model.py against crates/x_cases/stdout: line 2: the independent program prints two, "
        "crates/x_cases/stdout has (nothing more)", b"one\n"),
    Run("a stored file has no last line feed", "1 right, 1 wrong", "tests/model.py against crates/x_cases/stdout: line 2: the independent program prints two, "
        "crates/x_cases/stdout has 'two'", b"one\ntwo"),
    Run("a stored file is missing", "1 right, 1 wrong", "tests/model.py against crates/x_cases/stdout: crates/x_cases/stdout is missing", None),
    Run("a test fails", "1 right, 1 wrong", "tests/test.py: three are wrong", test="exit('three are wrong')"),
    Run("a test dies", "1 right, 1 wrong", "tests/test.py: ValueError: no", test="raise ValueError('no')"),
    Run("a test fails without a word", "1 right, 1 wrong", "tests/test.py: it ended with status 3", test="exit(3)"),
]


def tests_run():
    """tests/run as a module; its name has no ending by which Python would find it."""
    loader = importlib.machinery.SourceFileLoader("tests_run", str(TOP / "tests" / "run"))
    module = importlib.util.module_from_spec(importlib.util.spec_from_loader("tests_run", loader))
    loader.exec_module(module)
    return module


def run_trouble(run, folder):
    stored = folder / "crates" / "x_cases" / "stdout"
    stored.parent.mkdir(parents=True, exist_ok=True)
    stored.unlink(missing_ok=True)
    if run.stored is not None:
        stored.write_bytes(run.stored)
    (folder / "tests").mkdir(exist_ok=True)
    (folder / "tests" / "model.py").write_text("print('one\\ntwo')\n")
    (folder / "tests" / "test.py").write_text(run.test + "\n")
    module = tests_run()
    module.TOP = folder
    with contextlib.redirect_stdout(io.StringIO()) as out:
        status = module.main([(["model.py"], "x_cases/stdout")], [["test.py"]])
    lines = out.getvalue().splitlines()
    if lines[-1] != run.last or status != (not run.last.endswith(" 0 wrong")):
        return f"{run.what}: {lines[-1]!r}, with status {status}; due was {run.last!r}"
    return None if run.said in lines else f"{run.what}: {run.said!r} is not said in {lines}"


def main():
    sys.dont_write_bytecode = True      # or Python would leave what it made of tests/run beside it
    found = []
    for trouble, each in [(gate_trouble, gate) for gate in GATES] + [(run_trouble, run) for run in RUNS]:
        with tempfile.TemporaryDirectory() as folder:
            found.append(trouble(each, pathlib.Path(folder)))
    troubles = [each for each in found if each]
    print("\n".join(troubles) or f"{len(GATES)} runs of the gate and {len(RUNS)} of tests/run count and end as they should")
    return 1 if troubles else 0


if __name__ == "__main__":
    sys.exit(main())
