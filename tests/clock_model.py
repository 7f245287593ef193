#!/usr/bin/env python3
"""Prints what the program clock_cases must print: the clock of 02, §6, through all days of its century, over all ends of months, and every byte in each
place of the seven that show a moment.

Dates, weekdays, lengths of months and which moments exist are those of Python's own `datetime` and `calendar`; none of the panel's formulas stands here.
"""
import calendar
import datetime

FIRST = datetime.datetime(2000, 1, 1)
DAY, SECOND = datetime.timedelta(days=1), datetime.timedelta(seconds=1)
YEARS = range(2000, 2100)
SHOWN_YEARS = 2000, 2015, 2016, 2099
JUDGED = datetime.datetime(2016, 2, 29, 12, 34, 56), datetime.datetime(2001, 2, 28), datetime.datetime(2099, 12, 31, 23, 59, 59)
WEEKDAY = 3         # the place of the byte that does not count


# ---- A moment and its bytes

def second_behind(moment):
    """"23:59:59 on 31 December 2099 is followed by 00:00:00 on 1 January 2000"."""
    return moment + SECOND if moment + SECOND <= datetime.datetime(2099, 12, 31, 23, 59, 59) else FIRST


def weekday(moment):
    """Sunday is 0."""
    return int(moment.strftime("%w"))


def shown(moment):
    """Year, month, day, weekday, hour, minute and second, two decimal digits in each byte."""
    return bytes.fromhex(moment.strftime(f"%y%m%d{weekday(moment):02}%H%M%S"))


def moment_of(data):
    """The moment that seven bytes show, whatever the weekday's is; None where they show none."""
    written = data[:WEEKDAY].hex() + data[WEEKDAY + 1:].hex()
    try:
        return datetime.datetime(2000 + int(written[0:2]), *(int(written[at:at + 2]) for at in range(2, 12, 2)))
    except ValueError:
        return None


# ---- What is printed

def check_value(data):
    """The bytes as the digits of a number to the base 16,807, and what is left of it by 2^31 - 1."""
    value = 0
    for byte in data:
        value = (value * 16807 + byte) % (2**31 - 1)
    return value


def hexed(moment):
    return shown(moment).hex(" ")


def days(year):
    day = datetime.datetime(year, 1, 1)
    while day.year == year:
        yield day
        day += DAY


def end_of_month(year, month):
    """Four moments, from two seconds before midnight to one behind it."""
    moments = [datetime.datetime(year, month, calendar.monthrange(year, month)[1], 23, 59, 58)]
    while len(moments) < 4:
        moments.append(second_behind(moments[-1]))
    return moments


def ends(year):
    return [end_of_month(year, month) for month in range(1, 13)]


def year_line(year):
    walked = list(days(year))
    by_day = b"".join(bytes((day.month, day.day, weekday(day))) for day in walked)
    by_end = b"".join(shown(moment) for end in ends(year) for moment in end)
    before = (walked[0] - FIRST).days
    return f"year {year}: behind {before} days, has {len(walked)}, days {check_value(by_day)}, ends {check_value(by_end)}"


def place_line(moment, place):
    data = shown(moment)
    wrong = bytes(moment_of(data[:place] + bytes([byte]) + data[place + 1:]) is None for byte in range(256))
    return f"byte {place} of {hexed(moment)}: {sum(wrong)} wrong, answers {check_value(wrong)}"


def lines():
    for year in YEARS:
        yield year_line(year)
    # Over the end the first year comes again.
    yield f"walked {sum(len(list(days(year))) for year in YEARS)} days, to {hexed(FIRST)}"
    yield year_line(FIRST.year)
    for year in SHOWN_YEARS:
        for end in ends(year):
            yield "end " + ", ".join(map(hexed, end))
    for moment in JUDGED:
        for place in range(7):
            yield place_line(moment, place)


def main():
    # What 02 and its sources print.
    assert weekday(datetime.datetime(2013, 11, 8)) == 5
    assert shown(datetime.datetime(2013, 11, 8, 18, 56)) == bytes.fromhex("13 11 08 05 18 56 00")
    assert second_behind(datetime.datetime(2099, 12, 31, 23, 59, 59)) == FIRST
    for line in lines():
        print(line)


if __name__ == "__main__":
    main()
