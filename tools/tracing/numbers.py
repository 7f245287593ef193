"""The numbers that the panel gives back, in words, and where the program prints each. README's table says the same."""

MEANINGS = {
    0: "done",
    1: "a report waits and has to be asked for first",
    2: "no such command: there are 80 to 84",
    3: "too little or too much data for the command, half a word, or for curves no channel or no whole rounds",
    4: "the address, or the run from it, goes past the last register or word",
    5: "a register that may not be written, one half of the page, or a part of the clock, 1F to 26, or more than it",
    6: "a backlight above 3F, a page that there is not, for EB another value than 55 to 5D, or for the clock a first byte other than 5A or a moment that there is not",
    7: "the reply would not fit into one frame",
    8: "off the screen",
    9: "touch is switched off",
    10: "a lift where nothing is down",
    11: "the setup is wrong",
    12: "the table has more than 128 records, or ends within one",
    13: "a touch record is wrong",
    14: "the words lent are not 28,672, the curve words lent not 8,192, or the room lent has less than 265 bytes",
    15: "the trace is wrong: a cut or unknown record, none or two setups, a touch record behind an event",
    16: "the watch list lent is wrong: more than 16 entries, two in use for one word, one in use for a word that there is not, or slices of different lengths",
}
COMMANDS = {0x80: "write registers", 0x81: "read registers", 0x82: "write words", 0x83: "read words", 0x84: "add to curves"}
OF_COMMAND = {0x80: (0, 3, 4, 5, 6), 0x81: (0, 3, 4, 7), 0x82: (0, 3, 4), 0x83: (0, 3, 4, 7), 0x84: (0, 3)}
OF_ANOTHER_COMMAND = (2,)
OF_CONTACT = (0, 8, 9)
OF_LIFT = (0, 10)
OF_END = (11, 12, 13, 15)
OF_LINE = {"F": {*OF_ANOTHER_COMMAND, *(number for allowed in OF_COMMAND.values() for number in allowed)},
           "T": {*OF_CONTACT, *OF_LIFT}, "X": {*OF_END}}


def in_words(number):
    return MEANINGS[0] if number == 0 else f"refused, {number}: {MEANINGS[number]}"


def command_text(command):
    return f"{command:02X}, {COMMANDS[command]}" if command in COMMANDS else f"{command:02X}"
