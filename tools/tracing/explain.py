"""What the panel program printed, line by line in words; and whether the program can have printed it.

An output says neither header nor checking: they are taken from the options, or from the trace, which also says what each contact and
lift was. Acknowledging is found out at the first report where no trace says it.
"""
import re
from typing import NamedTuple

from . import numbers
from .layout import CONTACT_KIND, LIFT_KIND, RECORD_KIND, SETUP_KIND, setup_of, split
from .records import record_text
from .replies import NotOurs, acknowledgement_text, reply_text, taken_apart
from .show import contact_text

COLUMN = 36
LONGEST_STRANGER = 60
MOST_RECORDS = 128
FORMS = {letter: re.compile(form) for letter, form in {
    "F": "F ([0-9A-F]{2}) (0|[1-9][0-9]?)", "B": "B ([0-9A-F]{2})", "O": "O ([0-9A-F]{2}(?: [0-9A-F]{2}){0,257})",
    "T": "T (0|[1-9][0-9]?)", "E": "E ([0-9A-F]{4})", "X": "X (1[0-9])(?: (0|[1-9][0-9]{0,2}))?"}.items()}


def match(line):
    form = FORMS.get(line[:1])
    return form and form.fullmatch(line.removesuffix("\n"))


def printable(raw, line):
    """A line as it stands where it has the form of one, else in few characters that a terminal can show."""
    if match(line):
        return line.removesuffix("\n")
    strange = raw.removesuffix(b"\n")
    return repr(strange[:LONGEST_STRANGER])[2:-1] + "..." * (len(strange) > LONGEST_STRANGER)


class Known(NamedTuple):
    """What is known of the trace of an output; None is unknown."""
    header: bytes
    checking: bool
    acknowledging: bool = None
    pages: int = None
    touches: list = None        # in words
    records: list = None        # in words


def known_of(trace):
    """By a trace up to where it is wrong; None where it has no setup."""
    events = list(split(trace))
    if not events or events[0][0] != SETUP_KIND:
        return None
    setup = setup_of(events[0][1])
    touches = ["lift" if kind == LIFT_KIND else contact_text(body) for kind, body in events if kind in (CONTACT_KIND, LIFT_KIND)]
    records = [record_text(body) for kind, body in events if kind == RECORD_KIND]
    return Known(setup.header, setup.checking, setup.checking and setup.acknowledging, setup.pages, touches, records)


class Explainer:
    """Takes the lines in order. `strange` counts those that are not the program's, and what is missing."""

    def __init__(self, known):
        self.known, self.acknowledging = known, known.acknowledging if known.checking else False
        self.command, self.is_accepted, self.due = None, False, []      # of the F or B above, and the frames that are to follow it
        self.touched, self.lines, self.has_ended, self.strange = 0, 0, False, 0

    def explained(self, raw):
        """The line with what it means beside it."""
        line = raw.decode("ascii", "backslashreplace")
        try:
            meaning = self.meaning(line)
        except NotOurs as reason:
            self.strange += 1
            meaning = f"not the program's: {reason}"
        self.lines += 1
        return f"{printable(raw, line):{COLUMN}}  # {meaning}\n"

    def meaning(self, line):
        found = match(line)
        if not found:
            raise NotOurs("no line of the program has this form")
        if not line.endswith("\n"):
            raise NotOurs("it is cut: no line feed ends it")
        if self.has_ended:
            raise NotOurs("nothing follows an E or X")
        if line[0] == "O":
            return self.frame(bytes.fromhex(found[1]))
        missing = self.nothing_more_due()
        return missing + {"F": self.accepted, "B": self.bad_check, "T": self.touch, "E": self.end, "X": self.stop}[line[0]](*found.groups())

    def finished(self):
        """What is missing at the end, as a line; nothing where all is there."""
        missing = self.nothing_more_due()
        if not self.has_ended:
            self.strange += 1
            missing += "not whole: neither E nor X ends the output"
        return f"{'':{COLUMN}}  # {missing}\n" if missing else ""

    # ---- Reports and their frames

    def accepted(self, command, number):
        self.command, self.is_accepted, number = int(command, 16), True, int(number)
        reads = self.command in (0x81, 0x83) and number == 0
        self.due = ["acknowledgement"] * (self.acknowledging is not False) + ["reply"] * reads
        allowed = numbers.OF_COMMAND.get(self.command, numbers.OF_ANOTHER_COMMAND)
        return f"accepted: {numbers.command_text(self.command)}: {number_text(number, allowed)}"

    def bad_check(self, command):
        self.command, self.is_accepted = int(command, 16), False
        self.due = ["acknowledgement"] * (self.acknowledging is not False)
        if not self.known.checking:
            raise NotOurs("without checking there is no bad check")
        return f"bad check: {numbers.command_text(self.command)}: nothing is done"

    def frame(self, frame):
        due, self.due = self.due, self.due[1:]
        content, is_acknowledgement, wrong = taken_apart(frame, self.known.header, self.known.checking)
        if due[:1] == ["acknowledgement"] and self.acknowledging is None:
            if not wrong:
                self.acknowledging = is_acknowledgement
            due = due if is_acknowledgement else due[1:]
            self.due = due[1:]
        try:
            text = self.frame_text(due, content)
        except NotOurs as reason:
            raise NotOurs(f"{wrong}; {reason}" if wrong else reason) from None
        if wrong:
            raise NotOurs(f"{wrong}; {text}")
        return text + "; check right" * self.known.checking

    def frame_text(self, due, content):
        if not due:
            raise NotOurs("no frame is due here")
        if due[0] == "acknowledgement":
            return acknowledgement_text(content, self.command, self.is_accepted)
        return reply_text(content, self.command)

    def nothing_more_due(self):
        """What an F or B above still lacks, once a line comes that is none of its frames."""
        if self.acknowledging is None and "acknowledgement" in self.due:
            self.acknowledging = False
            self.due.remove("acknowledgement")
        missing, self.due = " and ".join(self.due), []
        self.strange += missing != ""
        return f"not whole: {missing} of {self.command:02X} should stand above; " if missing else ""

    # ---- The other lines

    def touch(self, number):
        touches, at, number = self.known.touches, self.touched, int(number)
        self.touched += 1
        if touches is None:
            what = {0: "contact or lift", 10: "lift"}.get(number, "contact")
            return f"{what}: {number_text(number, sorted(numbers.OF_LINE['T']))}"
        if at >= len(touches):
            raise NotOurs(f"the trace has no more than {len(touches)} contacts and lifts")
        return f"{touches[at]}: {number_text(number, numbers.OF_LIFT if touches[at] == 'lift' else numbers.OF_CONTACT)}"

    def end(self, page):
        self.has_ended, page, touches = True, int(page, 16), self.known.touches
        if self.known.pages is not None and page >= self.known.pages:
            raise NotOurs(f"page {page} is not below the {self.known.pages} of the setup")
        if touches is not None and self.touched < len(touches):
            raise NotOurs(f"the trace has {len(touches)} contacts and lifts, and {self.touched} have a T above")
        return f"end: page {page} is shown"

    def stop(self, number, record):
        self.has_ended, number = True, int(number)
        text = number_text(number, numbers.OF_END).replace("refused", "stopped")
        if (number == 13) != (record is not None):
            raise NotOurs("a record's number stands behind 13 and behind no other")
        if number != 15 and self.lines:
            raise NotOurs("start is made before anything is printed")
        return text + (self.record_text(int(record)) if record else "")

    def record_text(self, at):
        records = self.known.records
        if at >= (MOST_RECORDS if records is None else len(records)):
            raise NotOurs(f"there is no record {at}")
        return f": record {at}, counted from 0" + (f": {records[at]}" if records else "")


def number_text(number, allowed):
    if number not in allowed:
        raise NotOurs(f"{number} cannot stand here, only {', '.join(map(str, allowed))}")
    return numbers.in_words(number)
