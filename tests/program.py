"""The programs under test: where they stand once they are built, and how a program is started."""
import functools
import io
import itertools
import pathlib
import subprocess
import sys
import tempfile

import source

TOP = pathlib.Path(__file__).resolve().parent.parent
NATIVE = TOP / "target" / "native" / "panel_trace"
SECONDS = 60
LONGEST = 300       # characters of a line that are shown


def built(name):
    """Where rt leaves a program."""
    return TOP / "crates" / name / "out" / name


BUILT = built("panel_trace")


@functools.lru_cache
def kit():
    """The folder of the Rattle kit."""
    return pathlib.Path(subprocess.run(["rt", "doc"], capture_output=True, text=True, check=True).stdout.strip()).parent


def command(path):
    """The words that start the program at `path`: a built one, or one in Python."""
    path = str(path)
    if not pathlib.Path(path).is_file():
        sys.exit(f"{path}: there is no such program")
    return [sys.executable, path] if path.endswith(".py") else [path]


def below(name):
    """A crate and all of the repository that it is built on."""
    found = [name]
    for crate in found:
        found += [each for each in source.known_to(crate) if each not in found]
    return found


def is_old(path):
    """Whether a built program is older than the code it is made of, as ./panel asks of the panel program too."""
    code = [each for crate in below(path.name) for each in source.code_files(crate)]
    return any(each.stat().st_mtime > path.stat().st_mtime for each in [TOP / "crates.txt", *code])


def renewal(path):
    """What builds a program anew. Where nothing of its code has changed, rt leaves it as it is, and old."""
    return "./panel < /dev/null" if path == BUILT else f"(cd crates/{path.name} && rt run < /dev/null && touch out/{path.name})"


def chosen(path=None, usual=BUILT):
    """The path given, or that of a built program, the panel's where no other is named; None where the tree has no such program."""
    if path:
        return path
    if usual.exists():
        if is_old(usual):
            sys.exit(f"{usual.name} is older than the code: {renewal(usual)} builds it")
        return usual
    if (TOP / "crates" / usual.name).exists():
        sys.exit(f"{usual.name} is not built: {renewal(usual)} builds it")
    return None


def native():
    """The program that tools/native compiles, again where the code is newer."""
    if subprocess.run([TOP / "tools" / "native", BUILT.name, NATIVE]).returncode:
        sys.exit(f"tools/native could not build {BUILT.name}")
    return NATIVE


def run(words, trace):
    """What a program prints for an input, which it reads from a file, so that every run reads the same pieces.

    Running out of time and ending by a signal are said in place of an end.
    """
    try:
        with tempfile.TemporaryFile() as file:
            file.write(trace)
            file.seek(0)
            done = subprocess.run(words, stdin=file, capture_output=True, timeout=SECONDS)
    except subprocess.TimeoutExpired as late:
        return (late.stdout or b"") + f"(not done after {SECONDS} s)\n".encode()
    return done.stdout if done.returncode >= 0 else done.stdout + f"(ended by signal {-done.returncode})\n".encode()


def fit(line):
    """A line as it can be shown, whatever a broken program wrote; without its line feed, or quoted where it has none. None is a line that there is not."""
    if line is None:
        return "(nothing more)"
    text = line.decode("latin-1")
    plain = text.removesuffix("\n")
    return (plain if plain != text and plain.isascii() and plain.isprintable() else ascii(text))[:LONGEST]


def first_difference(due, printed):
    """Of two outputs that are not the same: the number of the first line that differs, from 1, and what each of them has there."""
    pairs = enumerate(itertools.zip_longest(io.BytesIO(due), io.BytesIO(printed)), 1)
    return next((number, fit(here), fit(there)) for number, (here, there) in pairs if here != there)
