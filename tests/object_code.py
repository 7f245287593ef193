"""What a compiler leaves: the members of a static library, and of each its sections, symbols and relocations. 64-bit ELF, low byte first.

Whatever is not of that form ends in a Broken that says where.
"""
import struct
from typing import NamedTuple

# Of a section: what it holds, and what it is in memory.
RELOCATIONS_ADDING, RELOCATIONS, SYMBOLS, NO_BYTES, NOTE, UNWINDING = 4, 9, 2, 8, 7, 0x70000001
IN_MEMORY, CODE = 2, 4
# A symbol's section from here on is none: an absolute value, or room that the linker finds.
NO_SECTION = 0xFF00


class Broken(Exception):
    pass


class Section(NamedTuple):
    name: str
    kind: int
    flags: int
    size: int
    # The section that a section of relocations is about.
    about: int
    content: bytes

    def is_code(self):
        return bool(self.flags & CODE)

    def is_data(self):
        """In memory when the code runs, and not code; what names the build or unwinds calls is none."""
        return bool(self.flags & IN_MEMORY) and not self.is_code() and self.kind not in (NOTE, UNWINDING)


class Symbol(NamedTuple):
    name: str
    section: int        # 0 where it is defined elsewhere
    size: int


class Object(NamedTuple):
    name: str
    sections: list
    symbols: list
    # The section where an address is filled in, and the symbol that it is of.
    relocations: list

    def place(self, symbol):
        """The section that a symbol stands in; None where it stands in none of this object."""
        return self.sections[symbol.section] if 0 < symbol.section < len(self.sections) else None


def unpacked(form, content, at, what):
    if at < 0 or at + struct.calcsize(form) > len(content):
        raise Broken(f"{what} is cut off at byte {at}")
    return struct.unpack_from(form, content, at)


def part(content, at, size, what):
    if at + size > len(content):
        raise Broken(f"{what} is cut off: it has {len(content)} bytes and needs {at + size}")
    return content[at:at + size]


def text(table, at):
    return table[at:table.find(b"\0", at)].decode(errors="replace")


def members(library):
    """The name and the bytes of each member, but for the library's own index and long names."""
    if not library.startswith(b"!<arch>\n"):
        raise Broken("this is no static library")
    found, at = [], 8
    while at < len(library):
        name, size, end = unpacked("16s32x10s2s", library, at, "a member's head")
        if end != b"`\n" or not size.strip().isdigit():
            raise Broken(f"a member's head at byte {at} is none")
        content = part(library, at + 60, int(size), "a member")
        if name.strip() not in (b"/", b"//", b"/SYM64/"):
            found.append((name.strip().rstrip(b"/").decode(errors="replace"), content))
        at += 60 + int(size) + int(size) % 2
    return found


def sections(content):
    at, size, count, names = unpacked("<Q10xHHH", content, 0x28, "the head")
    heads = [unpacked("<IIQQQQIIQQ", content, at + size * i, "the list of sections") for i in range(count)]
    if names >= len(heads):
        raise Broken("the names of the sections are missing")
    table = part(content, heads[names][4], heads[names][5], "the names of the sections")
    return [Section(text(table, name), kind, flags, size, about, b"" if kind == NO_BYTES else part(content, offset, size, "a section"))
            for name, kind, flags, _, offset, size, _, about, _, _ in heads], [head[6] for head in heads]


def symbols(found, links):
    for section, link in zip(found, links):
        if section.kind == SYMBOLS:
            names = found[link].content
            entries = struct.iter_unpack("<IBBHQQ", section.content)
            return [Symbol(text(names, name), 0 if place >= NO_SECTION else place, size) for name, _, _, place, _, size in entries]
    return []


def relocations(found):
    told = []
    for section in found:
        if section.kind in (RELOCATIONS_ADDING, RELOCATIONS):
            entries = struct.iter_unpack("<QQq" if section.kind == RELOCATIONS_ADDING else "<QQ", section.content)
            told += [(section.about, entry[1] >> 32) for entry in entries]
    return told


def read_object(name, content):
    if content[:6] != b"\x7FELF\x02\x01":
        raise Broken(f"{name} is no 64-bit object, low byte first")
    try:
        found, links = sections(content)
        named, told = symbols(found, links), relocations(found)
        if any(about >= len(found) or number >= len(named) for about, number in told):
            raise Broken("an address is of no symbol, or in no section")
        return Object(name, found, named, told)
    except (Broken, struct.error, IndexError) as error:
        raise Broken(f"{name}: {error}") from None


def read(content):
    """The objects of a static library, or the one object that the bytes are."""
    if content.startswith(b"!<arch>\n"):
        return [read_object(*member) for member in members(content)]
    return [read_object("the object", content)]
