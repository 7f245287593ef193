"""The check value, a byte at a time, and of any piece of a long list in the same short time."""
import array
import functools
import itertools

POLYNOMIAL = 0xA001     # x^16+x^15+x^2+1, reflected
START = 0xFFFF


def eight_steps(value):
    for _ in range(8):
        value = value >> 1 ^ (POLYNOMIAL if value & 1 else 0)
    return value


TABLE = [eight_steps(byte) for byte in range(256)]


def next_value(value, byte):
    return TABLE[(value ^ byte) & 255] ^ value >> 8


def check_value(content):
    value = START
    for byte in content:
        value = TABLE[(value ^ byte) & 255] ^ value >> 8
    return value


@functools.cache
def behind_zeros(count):
    """What `count` zero bytes make of each low and of each high byte of a value."""
    if count == 0:
        return range(256), range(0, 65536, 256)
    low, high = behind_zeros(count - 1)
    return [next_value(value, 0) for value in low], [next_value(value, 0) for value in high]


class Checks:
    """The check values of the pieces of one list.

    A header pair in noise may claim 255 bytes at every third place; working each claim out by itself would take a hundred times as long.
    The value is linear in bits: that of a piece follows from the values of what ends before it and of what ends with it.
    """

    def __init__(self, line):
        self.values = array.array("H", itertools.accumulate(line, next_value, initial=START))

    def of(self, begin, end):
        low, high = behind_zeros(end - begin)
        values = self.values
        front = values[begin] ^ START
        return values[end] ^ low[front & 255] ^ high[front >> 8]
