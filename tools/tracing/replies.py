"""A frame that the program wrote, taken apart: an acknowledgement, or a reply with address, count and data."""
from . import clock, numbers
from .layout import spelled, two_checks


ENDS = {0x81: 256, 0x83: 28672}
ACKNOWLEDGEMENT_BYTES, ACKNOWLEDGEMENT_LENGTH = 7, 2


class NotOurs(Exception):
    """Why the program cannot have printed a line."""


def taken_apart(frame, header, checking):
    """Command and data, whether it is an acknowledgement, and what is wrong with the check; nothing is, where it is empty.

    An acknowledgement carries 02, though its check bytes follow; every other frame's length byte counts them, and no reply is as short as that.
    """
    if frame[:2] != header:
        raise NotOurs(f"its header is {spelled(frame[:2])}, not {spelled(header)}; --header or --trace says another")
    is_acknowledgement = checking and len(frame) == ACKNOWLEDGEMENT_BYTES and frame[2] == ACKNOWLEDGEMENT_LENGTH
    if len(frame) < 3 or (frame[2] != len(frame) - 3 and not is_acknowledgement):
        raise NotOurs(f"its length byte does not say the {max(0, len(frame) - 3)} bytes that follow it")
    if not checking:
        return frame[3:], False, ""
    if len(frame) < 6:
        raise NotOurs("it is too short for a command and two check bytes" + hint(frame))
    if len(frame) == ACKNOWLEDGEMENT_BYTES and not is_acknowledgement:
        raise NotOurs(f"its length byte is {frame[2]:02X}: an acknowledgement carries 02, and every reply is longer" + hint(frame))
    content, check = frame[3:-2], frame[-2:]
    right = two_checks(content)
    return content, is_acknowledgement, "" if check == right else f"check wrong: {spelled(check)}, right is {spelled(right)}{hint(frame)}"


def hint(frame):
    """Where check bytes were looked for in a reply that has none."""
    return "; without check bytes it would be a reply: --no-checking or --trace says so" if reply_parts(frame[3:]) else ""


def acknowledgement_text(content, command, accepted):
    if content[0] != command or content[1] != (0xFF if accepted else 0x00):
        raise NotOurs(f"the acknowledgement of the line above is {command:02X} {'FF' if accepted else '00'}, not {spelled(content)}")
    return f"acknowledgement of {command:02X}: {'accepted (FF)' if accepted else 'bad check (00)'}"


def reply_parts(content):
    """Address and count as they are spelled, and the data; None for what is no reply."""
    if content[:1] == b"\x81" and len(content) >= 3 and len(content) == 3 + content[2]:
        return content[1:2].hex().upper(), content[2], spelled(content[3:])
    if content[:1] == b"\x83" and len(content) >= 4 and len(content) == 4 + 2 * content[3]:
        return content[1:3].hex().upper(), content[3], content[4:].hex(" ", 2).upper()
    return None


def reply_text(content, command):
    parts = reply_parts(content)
    if not parts or content[0] != command:
        raise NotOurs(f"{spelled(content) or 'nothing'} is no reply to {numbers.command_text(command)}")
    address, count, data = parts
    if int(address, 16) + count > ENDS[command]:
        raise NotOurs(f"address {address} and count {count} go past the end, which is refused with 4")
    return f"reply to {numbers.command_text(command)}: address {address}, count {count}, " + (f"data {data}" if data else "no data") + clock_said(content)


def clock_said(content):
    """What a read of the clock's registers says, behind the data."""
    try:
        said = clock.reading_text(content[1], content[3:]) if content[0] == 0x81 else ""
    except ValueError as reason:
        raise NotOurs(reason) from None
    return f", {said}" if said else ""
