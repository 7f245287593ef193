#!/usr/bin/env python3
"""The check value of many lists, worked out bit by bit from x^16+x^15+x^2+1. Prints what the program check_cases must print.

Written from the polynomial and the printed rule alone: the check is the remainder of a long division, low bit of each byte first,
with the first sixteen bits turned over; no table, and none of the panel's code.
"""

POLYNOMIAL = [16, 15, 2, 0]


def check_value(data):
    # The line as bits, in the order in which they are sent, and room for the remainder.
    bits = [(byte >> k) & 1 for byte in data for k in range(8)] + [0] * 16
    # Start 0xFFFF: the first sixteen bits are turned over.
    for i in range(16):
        bits[i] ^= 1
    for i in range(len(bits) - 16):
        if bits[i]:
            for power in POLYNOMIAL:
                bits[i + 16 - power] ^= 1
    # The first bit of the remainder is the lowest of the value.
    return sum(bit << k for k, bit in enumerate(bits[-16:]))


def lists(kind, n):
    if kind == 0:
        return [0x00] * n
    if kind == 1:
        return [0xFF] * n
    if kind == 2:
        return [i % 256 for i in range(n)]
    x, out = n, []
    for _ in range(n):
        x = (x * 1103515245 + 12345) % 2**31
        out.append(x // 65536 % 256)
    return out


def main():
    # The values that 01 prints.
    assert check_value([]) == 0xFFFF
    assert check_value([0x81, 0x00, 0x01]) == 0x28E0
    for kind in range(4):
        for n in range(301):
            print(f"{kind} {n} {check_value(lists(kind, n)):04x}")


if __name__ == "__main__":
    main()
