#!/usr/bin/env python3
"""What the program frame_cases must print: the frame writer of 01, "Frame", written from the printed rules."""
from check_value import check_value

DATA = [0, 1, 2, 251, 252, 253, 254, 255, 256, 300]
ROOMS = [0, 7, 264, 265, 266, 300]


def write_frame(header, checking, command, data, room):
    """The number, the frame's length (0 at a refusal), and the room after it."""
    if len(room) < 265:
        return 14, 0, room
    if len(data) > (252 if checking else 254):
        return 3, 0, room
    body = [command] + data
    if checking:
        value = check_value(body)
        body += [value & 0xFF, value >> 8]
    frame = header + [len(body)] + body
    return 0, len(frame), frame + room[len(frame):]


def main():
    for header, checking in [([0x5A, 0xA5], True), ([0x5A, 0xA5], False), ([0xFF, 0xFF], True), ([0, 0], False)]:
        for n in DATA:
            for m in ROOMS:
                data = [i * 7 % 256 for i in range(n)]
                room = [i * 3 % 256 for i in range(m)]
                number, length, after = write_frame(header, checking, n % 256, data, room)
                print(f"{n} {m} {number} {length} {check_value(after):04x}")


if __name__ == "__main__":
    main()
