#!/usr/bin/env python3
"""What tools/trace explain says of outputs: right ones, of which no line may be called strange, and wrong ones, of which it must be.

README's table of numbers and its example are held against the tool too.
"""
import re
import sys

import model
import program
import trace_text  # noqa: F401 (which finds the tool's code)
from trace_draw import drawn
from tracing import numbers
from tracing.explain import Explainer, Known, known_of

SEEDS = range(75)
USUAL = Known(b"\x5A\xA5", True)
PLAIN = USUAL._replace(checking=False)
ACKNOWLEDGED = "F 81 0\nO 5A A5 02 81 FF 21 A0\nO 5A A5 06 81 00 01 10 28 44\n"
FIRST = known_of(model.PRINTED_TRACE)

# What is known, an output, and what is said of each line. Of these nothing is strange.
RIGHT = [
    (USUAL, model.PRINTED_OUTPUT, [
        "accepted: 81, read registers: done", "reply to 81, read registers: address 00, count 1, data 10; check right",
        "contact or lift: done", "contact or lift: done", "end: page 0 is shown"]),
    (FIRST, model.PRINTED_OUTPUT, [
        "accepted: 81, read registers: done", "reply to 81, read registers: address 00, count 1, data 10; check right",
        "contact 11 11: done", "lift: done", "end: page 0 is shown"]),
    (USUAL, ACKNOWLEDGED + "B 5A\nO 5A A5 02 5A 00 3B 10\nF 82 4\nO 5A A5 02 82 FF 21 50\nT 9\nT 10\nE 00FF\n", [
        "accepted: 81, read registers: done", "acknowledgement of 81: accepted (FF); check right",
        "reply to 81, read registers: address 00, count 1, data 10; check right",
        "bad check: 5A: nothing is done", "acknowledgement of 5A: bad check (00); check right",
        "accepted: 82, write words: refused, 4: the address, or the run from it, goes past the last register or word",
        "acknowledgement of 82: accepted (FF); check right",
        "contact: refused, 9: touch is switched off", "lift: refused, 10: a lift where nothing is down", "end: page 255 is shown"]),
    (PLAIN, "F 83 0\nO 5A A5 08 83 00 10 02 03 E3 FF FB\nF 83 0\nO 5A A5 04 83 70 00 00\nX 15\n", [
        "accepted: 83, read words: done", "reply to 83, read words: address 0010, count 2, data 03E3 FFFB",
        "accepted: 83, read words: done", "reply to 83, read words: address 7000, count 0, no data",
        "stopped, 15: the trace is wrong: a cut or unknown record, none or two setups, a touch record behind an event"]),
    (USUAL, "F 80 0\nF 80 5\nB 83\nF FF 2\nX 15\n", [
        "accepted: 80, write registers: done", "accepted: 80, write registers: refused, 5: a register that may not be written, one half of the page, or a part of "
        "the clock, 1F to 26, or more than it",
        "bad check: 83, read words: nothing is done", "accepted: FF: refused, 2: no such command: there are 80 to 84",
        f"stopped, 15: {numbers.MEANINGS[15]}"]),
    (USUAL, "F 84 0\nO 5A A5 02 84 FF 22 F0\nF 84 3\nO 5A A5 02 84 FF 22 F0\nB 84\nO 5A A5 02 84 00 62 B0\nF 80 6\nO 5A A5 02 80 FF 20 30\nE 0000\n", [
        "accepted: 84, add to curves: done", "acknowledgement of 84: accepted (FF); check right",
        "accepted: 84, add to curves: refused, 3: too little or too much data for the command, half a word, or for curves no channel or no whole rounds",
        "acknowledgement of 84: accepted (FF); check right",
        "bad check: 84, add to curves: nothing is done", "acknowledgement of 84: bad check (00); check right",
        "accepted: 80, write registers: refused, 6: a backlight above 3F, a page that there is not, for EB another value than 55 to 5D, or for the clock "
        "a first byte other than 5A or a moment that there is not",
        "acknowledgement of 80: accepted (FF); check right", "end: page 0 is shown"]),
    (PLAIN, "F 80 0\nF 81 0\nO 5A A5 0A 81 20 07 13 11 08 05 18 56 00\nF 81 0\nO 5A A5 06 81 24 03 18 56 00\n"
            "F 81 0\nO 5A A5 0D 81 1E 0A 00 00 00 01 01 06 00 00 00 00\nF 81 0\nO 5A A5 09 81 20 06 13 11 08 05 18 56\n"
            "F 81 0\nO 5A A5 07 81 24 04 18 56 00 00\nF 83 0\nO 5A A5 06 83 24 03 01 FF FF\nE 0000\n", [
        "accepted: 80, write registers: done",
        "accepted: 81, read registers: done",
        "reply to 81, read registers: address 20, count 7, data 13 11 08 05 18 56 00, the clock: 2013-11-08 18:56:00, a Friday",
        "accepted: 81, read registers: done", "reply to 81, read registers: address 24, count 3, data 18 56 00, the time: 18:56:00",
        "accepted: 81, read registers: done",
        "reply to 81, read registers: address 1E, count 10, data 00 00 00 01 01 06 00 00 00 00, the clock: 2000-01-01 00:00:00, a Saturday",
        "accepted: 81, read registers: done", "reply to 81, read registers: address 20, count 6, data 13 11 08 05 18 56",
        "accepted: 81, read registers: done", "reply to 81, read registers: address 24, count 4, data 18 56 00 00, the time: 18:56:00",
        "accepted: 83, read words: done", "reply to 83, read words: address 2403, count 1, data FFFF", "end: page 0 is shown"]),
    (USUAL, "X 13 2\n", ["stopped, 13: a touch record is wrong: record 2, counted from 0"]),
    (FIRST, "X 13 0\n", ["stopped, 13: a touch record is wrong: record 0, counted from 0: step page=0 area=10,10..100,50 word=0x0010 "
                         "mode=word up stop by=5 least=0 greatest=100"]),
]

# What is known, an output, which of its lines is strange (one behind the last is the end), and what is said of it.
STRANGE = [
    (USUAL, "panel: building\nE 0000\n", 0, "not the program's: no line of the program has this form"),
    (USUAL, "\nE 0000\n", 0, "not the program's: no line of the program has this form"),
    (USUAL, "F 81 3\r\nE 0000\n", 0, "not the program's: no line of the program has this form"),
    (USUAL, "F 8a 2\nE 0000\n", 0, "not the program's: no line of the program has this form"),
    (USUAL, "E 0000", 0, "not the program's: it is cut: no line feed ends it"),
    (USUAL, "F 80 7\nE 0000\n", 0, "not the program's: 7 cannot stand here, only 0, 3, 4, 5, 6"),
    (USUAL, "F 85 0\nE 0000\n", 0, "not the program's: 0 cannot stand here, only 2"),
    (USUAL, "F 84 2\nE 0000\n", 0, "not the program's: 2 cannot stand here, only 0, 3"),
    (USUAL, "F 84 4\nE 0000\n", 0, "not the program's: 4 cannot stand here, only 0, 3"),
    (PLAIN, "F 84 0\nO 5A A5 02 84 01\nE 0000\n", 1, "not the program's: no frame is due here"),
    (USUAL, "T 2\nE 0000\n", 0, "not the program's: 2 cannot stand here, only 0, 8, 9, 10"),
    (FIRST, "T 10\nT 0\nE 0000\n", 0, "not the program's: 10 cannot stand here, only 0, 8, 9"),
    (FIRST, "T 0\nT 0\nT 0\nE 0000\n", 2, "not the program's: the trace has no more than 2 contacts and lifts"),
    (FIRST, "T 0\nE 0000\n", 1, "not the program's: the trace has 2 contacts and lifts, and 1 have a T above"),
    (FIRST, "T 0\nT 0\nE 0002\n", 2, "not the program's: page 2 is not below the 2 of the setup"),
    (USUAL, "E 0000\nT 0\n", 1, "not the program's: nothing follows an E or X"),
    (USUAL, "X 14\n", 0, "not the program's: 14 cannot stand here, only 11, 12, 13, 15"),
    (USUAL, "X 16\n", 0, "not the program's: 16 cannot stand here, only 11, 12, 13, 15"),
    (USUAL, "T 16\nE 0000\n", 0, "not the program's: 16 cannot stand here, only 0, 8, 9, 10"),
    (FIRST, "T 16\nT 0\nE 0000\n", 0, "not the program's: 16 cannot stand here, only 0, 8, 9"),
    (USUAL, "F 82 16\nE 0000\n", 0, "not the program's: 16 cannot stand here, only 0, 3, 4"),
    (FIRST, "T 0\nO 5A A5 08 83 00 10 01 12 34 47 9F\nT 0\nE 0000\n", 1, "not the program's: no frame is due here"),
    (USUAL, "X 13\n", 0, "not the program's: a record's number stands behind 13 and behind no other"),
    (USUAL, "X 11 0\n", 0, "not the program's: a record's number stands behind 13 and behind no other"),
    (USUAL, "X 13 128\n", 0, "not the program's: there is no record 128"),
    (FIRST, "X 13 1\n", 0, "not the program's: there is no record 1"),
    (USUAL, "T 0\nX 11\n", 1, "not the program's: start is made before anything is printed"),
    (USUAL, "T 0\n", 1, "not whole: neither E nor X ends the output"),
    (USUAL, "", 0, "not whole: neither E nor X ends the output"),
    (USUAL, "O 5A A5 02 81 FF 21 A0\nE 0000\n", 0, "not the program's: no frame is due here"),
    (USUAL, "F 82 0\nO 5A A5 06 81 00 01 10 28 44\nE 0000\n", 1, "not the program's: no frame is due here"),
    (USUAL, "F 81 0\nO 12 34 06 81 00 01 10 28 44\nE 0000\n", 1, "not the program's: its header is 12 34, not 5A A5"),
    (USUAL, "F 81 0\nO 5A A5 07 81 00 01 10 28 44\nE 0000\n", 1, "not the program's: its length byte does not say the 6 bytes"),
    (USUAL, "F 81 0\nO 5A A5\nE 0000\n", 1, "not the program's: its length byte does not say the 0 bytes"),
    (USUAL, "F 81 0\nO 5A A5 02 81 00\nE 0000\n", 1, "not the program's: it is too short for a command and two check bytes"),
    (USUAL, "F 81 0\nO 5A A5 03 81 00 00\nE 0000\n", 1, "not the program's: check wrong: 00 00, right is"),
    (PLAIN, "F 81 0\nO 5A A5 00\nE 0000\n", 1, "not the program's: nothing is no reply to 81, read registers"),
    (USUAL, "F 81 0\nO 5A A5 06 81 00 01 11 28 44\nE 0000\n", 1, "not the program's: check wrong: 28 44, right is E9 84; reply to 81"),
    (USUAL, "F 81 0\nO 5A A5 04 81 FF 21 A0\nO 5A A5 06 81 00 01 10 28 44\nE 0000\n", 1,
     "not the program's: its length byte is 04: an acknowledgement carries 02, and every reply is longer"),
    (USUAL, "B 81\nO 5A A5 02 81 00 61 E1\nE 0000\n", 1, "not the program's: check wrong: 61 E1, right is 61 E0"),
    (USUAL, "F 81 0\nO 5A A5 04 81 00 01 10\nE 0000\n", 1,
     "not the program's: its length byte is 04: an acknowledgement carries 02, and every reply is longer; without check bytes it would be a reply"),
    (PLAIN, "F 82 0\nO 5A A5 02 82 FF 21 50\nE 0000\n", 1, "not the program's: its length byte does not say the 4 bytes that follow it"),
    (PLAIN, "F 81 0\nO 5A A5 06 81 00 01 10 28 44\nE 0000\n", 1, "not the program's: 81 00 01 10 28 44 is no reply to 81"),
    (PLAIN, "F 81 0\nO 5A A5 05 81 FF 02 00 00\nE 0000\n", 1, "not the program's: address FF and count 2 go past the end"),
    (PLAIN, "F 83 0\nO 5A A5 06 83 70 00 01 00 00\nE 0000\n", 1, "not the program's: address 7000 and count 1 go past the end"),
    (PLAIN, "F 81 0\nO 5A A5 0A 81 20 07 13 11 08 04 18 56 00\nE 0000\n", 1, "not the program's: register 23 has weekday 04, and the date's is 05"),
    (PLAIN, "F 81 0\nO 5A A5 0A 81 20 07 01 02 29 04 18 56 00\nE 0000\n", 1, "not the program's: there is no such moment in registers 20 to 26"),
    (PLAIN, "F 81 0\nO 5A A5 0A 81 20 07 13 11 08 05 1A 56 00\nE 0000\n", 1, "not the program's: there is no such moment in registers 20 to 26"),
    (PLAIN, "F 81 0\nO 5A A5 06 81 24 03 24 00 00\nE 0000\n", 1, "not the program's: there is no such time in registers 24 to 26"),
    (PLAIN, "B 81\nE 0000\n", 0, "not the program's: without checking there is no bad check"),
    (USUAL, "F 83 0\nO 5A A5 06 81 00 01 10 28 44\nE 0000\n", 1, "not the program's: 81 00 01 10 is no reply to 83, read words"),
    (USUAL, "F 81 0\nE 0000\n", 1, "not whole: reply of 81 should stand above; end: page 0 is shown"),
    (USUAL, "B 81\nO 5A A5 02 81 FF 21 A0\nE 0000\n", 1, "not the program's: the acknowledgement of the line above is 81 00, not 81 FF"),
    (USUAL, ACKNOWLEDGED + "F 82 0\nE 0000\n", 4, "not whole: acknowledgement of 82 should stand above"),
    (USUAL, ACKNOWLEDGED + ACKNOWLEDGED.replace("O 5A A5 02 81 FF 21 A0\n", "") + "E 0000\n", 4,
     "not the program's: the acknowledgement of the line above is 81 FF, not 81 00 01 10"),
    (USUAL, "F 82 0\n" + ACKNOWLEDGED + "E 0000\n", 2, "not the program's: 81 FF is no reply to 81"),
]


def explained(known, output):
    """The lines with what is said of each, apart; and how much was strange."""
    explainer = Explainer(known)
    lines = [explainer.explained(line) for line in output.encode().splitlines(keepends=True)] + [explainer.finished()]
    return [re.split("  # ", line.rstrip("\n"), maxsplit=1) for line in lines if line], explainer.strange


def changed(known, output):
    """What is wrong with what is said of a right output: the lines must stand as they were, and nothing may be strange."""
    found, strange = explained(known, output)
    if strange or "".join(line.rstrip() + "\n" for line, _ in found) != output:
        return f"{output[:300]!r}: {strange} strange: {[said for _, said in found if said.startswith('not')][:3]}"
    return None


def right_outputs():
    """Each by the trace, and by header and checking alone."""
    traces = [path.read_bytes() for path in sorted((program.TOP / "examples").glob("*.trace"))]
    outputs = [path.read_text() for path in sorted((program.TOP / "examples").glob("*.out"))]
    crate = program.TOP / "crates" / "panel_trace"
    traces += [(crate / "stdin").read_bytes(), *(drawn(seed)[0] for seed in SEEDS)]
    outputs += [(crate / "stdout").read_text(), *(model.trace_output(trace) for trace in traces[len(outputs) + 1:])]
    for trace, output in zip(traces, outputs, strict=True):
        known = known_of(trace) or USUAL
        yield from ((known, output), (Known(known.header, known.checking), output))


def case_troubles():
    for known, output, said in RIGHT:
        found, strange = explained(known, output)
        if strange or [words for _, words in found] != said:
            yield f"{output!r}: {found}; expected {said}"
    for known, output, at, said in STRANGE:
        found, strange = explained(known, output)
        if not strange or at >= len(found) or not found[at][1].startswith(said):
            yield f"{output!r}: {found}; expected {said}"


# ---- README

def readme_troubles():
    readme = (program.TOP / "README.md").read_text()
    rows = {int(number): (words, where) for number, words, where in re.findall(r"^\| (\d+) \| (.*?) \| (.*?) \|$", readme, re.MULTILINE)}
    for number, words in numbers.MEANINGS.items():
        row = words, ", ".join(f"`{letter}`" for letter, given in numbers.OF_LINE.items() if number in given) or "none"
        if rows.get(number) != row:
            yield f"README's table has {rows.get(number)} for {number}; tools/tracing/numbers.py has {row}"
    found, _ = explained(USUAL, (program.TOP / "examples" / "acknowledgements.out").read_text())
    block = "".join(f"    {line}  # {said}\n" for line, said in found[:6])
    if block not in readme:
        yield f"README does not show what is said of acknowledgements.out:\n{block}"


def main():
    outputs = list(right_outputs())
    wrong = [trouble for trouble in (changed(*pair) for pair in outputs) if trouble] + [*case_troubles(), *readme_troubles()]
    print("\n".join(wrong) or f"{len(outputs) + len(RIGHT)} right outputs and {len(STRANGE)} strange ones are explained as they should be")
    return 1 if wrong else 0


if __name__ == "__main__":
    sys.exit(main())
