#!/usr/bin/env python3
"""Holds what was built of crate check_value to 02, §3: no table, neither one of the source nor one that the compiler made.

The static library of crate check_bench, which exports the check value and nothing else, has less than 16 bytes of data in memory, and its code
fills in no address but of its own code. The source writes no array. The panel program, which is linked, has neither the two tables that the manuals
print nor the one of 256 entries. So that each of these can be seen to fail, the same questions are put to plain C with the printed tables, and to plain C
that goes bit by bit, of which the compiler makes a table.
"""
import pathlib
import re
import subprocess
import sys
import tempfile

import object_code
import program
import source
from source import TOP

EXPORTED = "panel_check_value"
FOLDER = TOP / "crates" / "check_bench"
FEWEST = 16     # so many bytes of data are a table
ARRAY = re.compile(r"\bconst\b|\bstatic\b|\[\s*[^\]\s;]+\s*;")
# Entries 1 to 3 of the table of the low nibble, with which that of the byte begins too, and of the high nibble, as they stand in memory.
ENTRIES = {"the low nibble's or the byte's": bytes.fromhex("C1C0 81C1 4001"), "the high nibble's": bytes.fromhex("01CC 01D8 0014")}

NIBBLES = f"""#include "{TOP}/bench/plain_check.h"
unsigned short {EXPORTED}(const unsigned char *s, unsigned long n) {{ return plain_check(s, n); }}
"""
BIT_BY_BIT = f"""unsigned short {EXPORTED}(const unsigned char *s, unsigned long n) {{
    unsigned short v = 0xFFFF;
    for (unsigned long i = 0; i < n; i++) {{
        v ^= s[i];
        for (int k = 0; k < 8; k++) v = v & 1 ? v >> 1 ^ 0xA001 : v >> 1;
    }}
    return v;
}}
"""
FORMULA = f"""#include "{TOP}/bench/plain_formula.h"
unsigned short {EXPORTED}(const unsigned char *s, unsigned long n) {{ return plain_formula_by_two(s, n); }}
"""


# ---- What is asked

def data_troubles(objects):
    data = [(each, section) for each in objects for section in each.sections if section.is_data() and section.size]
    if sum(section.size for _, section in data) < FEWEST:
        return []
    return [f"{each.name} has {section.size} bytes of data, {section.name}" for each, section in data]


def address_troubles(objects):
    """Addresses that the code waits for, and that are not of code."""
    code = {symbol.name for each in objects for symbol in each.symbols if symbol.name and (place := each.place(symbol)) and place.is_code()}
    troubles = []
    for each in objects:
        for about, number in each.relocations:
            symbol = each.symbols[number]
            place = each.place(symbol)
            if each.sections[about].is_code() and not (place.is_code() if place else symbol.name in code):
                troubles.append(f"{each.name}: {each.sections[about].name} has an address of {place.name if place else symbol.name or 'nothing'}")
    return troubles


def export_troubles(objects):
    """Without the function there is nothing to look at, and nothing wrong would be found."""
    for each in objects:
        for symbol in each.symbols:
            if symbol.name == EXPORTED and symbol.size and (place := each.place(symbol)) and place.is_code():
                return []
    return [f"there is no code of {EXPORTED}"]


def object_troubles(content):
    try:
        objects = object_code.read(content)
    except object_code.Broken as error:
        return [str(error)]
    return export_troubles(objects) + data_troubles(objects) + address_troubles(objects)


def table_troubles(content):
    """Of a linked program: the tables that a check value is worked out with."""
    return [f"{which} table stands at byte {content.find(entries)}" for which, entries in ENTRIES.items() if entries in content]


def source_troubles():
    lines = [(path.relative_to(TOP), line) for path in source.code_files("check_value") for line in path.read_text().split("\n")]
    return [f"{path}: {line.strip()}" for path, line in lines if ARRAY.search(line.partition("//")[0])]


# ---- What is asked about

def library():
    done = subprocess.run(["rt", "lib"], cwd=FOLDER, capture_output=True, text=True)
    if done.returncode:
        sys.exit(f"rt lib in crates/check_bench: {(done.stderr or done.stdout).strip()}")
    return (FOLDER / "out" / "libcheck_bench.a").read_bytes()


def compiled(text):
    """Plain C, as tools/native has the kit's clang compile it."""
    clang = program.kit() / "toolchain" / "bin" / "clang"
    with tempfile.TemporaryDirectory() as folder:
        made, written = pathlib.Path(folder, "made.o"), pathlib.Path(folder, "written.c")
        written.write_text(text)
        subprocess.run([clang, "--target=x86_64-unknown-linux-gnu", "-O3", "-fPIE", "-c", written, "-o", made], check=True)
        return made.read_bytes()


def control_troubles():
    """Where a table is, each question finds it; where none is, none does."""
    nibbles, bits, formula = compiled(NIBBLES), compiled(BIT_BY_BIT), compiled(FORMULA)
    wrong = [f"{name}, of plain C by the formula: {trouble}" for name, found in (("objects", object_troubles(formula)), ("tables", table_troubles(formula)))
             for trouble in found]
    for content, which in ((nibbles, "the printed tables"), (bits, "a table that the compiler makes")):
        objects = object_code.read(content)
        for question, answer in (("data", data_troubles(objects)), ("addresses", address_troubles(objects)), ("entries", table_troubles(content))):
            wrong += [] if answer else [f"{which} in plain C: not found by its {question}"]
    wrong += [] if export_troubles(object_code.read(compiled("int other(void) { return 1; }"))) else [f"an object without {EXPORTED} is taken"]
    return wrong + cut_troubles(nibbles)


def cut_troubles(content):
    """An object that is cut off anywhere is said to be so, or is none."""
    whole = object_troubles(content)
    return [f"cut off behind {size} bytes, it is read as if it were whole" for size in range(0, len(content), 7) if object_troubles(content[:size]) in ([], whole)]


def program_troubles():
    built = program.chosen()
    return [f"{built.name}: {trouble}" for trouble in table_troubles(built.read_bytes())]


def main():
    troubles = control_troubles() + source_troubles() + object_troubles(library()) or program_troubles()
    print("\n".join(troubles) or "no table in check_value's source, in its object code, or in the panel program")
    return 1 if troubles else 0


if __name__ == "__main__":
    sys.exit(main())
