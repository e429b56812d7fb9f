#!/usr/bin/env python3
"""Writes inputs that are hard to load, the same bytes for the same arguments, for the 366 days from 1 March 2024.

    benches/loading.py set NUMBERS LEGS > set.ssim          so many flight numbers, each daily, each of so many legs (1 to 8)
    benches/loading.py spread NUMBERS LEGS > set.ssim       the same, each leg on the day after that of the leg before
    benches/loading.py singles NUMBERS LEGS > set.ssim      the same flights as those of `set`, each an itinerary of its own
    benches/loading.py rows SET BYTES SHAPE > limits.txt    limit rows up to a number of bytes, for legs of that set

The shapes of rows: `elsewhere`, all for the first leg of the set on days on which it doesn't fly; `last`, all for that leg on one
of the last two days; `nested`, all for that leg, each period within the one before; `all`, one row for each pair, on all days.
"""
import datetime
import sys

FIRST = datetime.date(2024, 3, 1)
LAST = FIRST + datetime.timedelta(days=365)
MONTHS = "JAN FEB MAR APR MAY JUN JUL AUG SEP OCT NOV DEC".split()


def date(day):
    return "%02d%s%02d" % (day.day, MONTHS[day.month - 1], day.year % 100)


def station(number):
    return "".join(chr(65 + number // 26**place % 26) for place in (2, 1, 0))


def record(fields, serial):
    line = [" "] * 200
    for byte, text in fields:
        line[byte - 1:byte - 1 + len(text)] = text
    line[194:200] = "%06d" % serial
    return "".join(line)


def leg_record(serial, number, variation, leg, period, days_later):
    at = number * 9 + leg
    return record([
        (1, "3"), (3, "XX "), (6, "%4d" % number), (10, "%02d%02d" % (variation % 100, leg + 1)),
        (15, period), (29, "1234567"), (37, station(at)),
        (44, "%02d00+0000" % (2 * leg)), (55, station(at + 1)), (128, " ABC"[variation // 100]), (193, "%d0" % days_later),
    ], serial)


def write_set(numbers, legs, shape):
    period = date(FIRST) + date(LAST)
    days = [FIRST + datetime.timedelta(day) for day in range(366)] if shape == "singles" else [None]
    out = [
        record([(1, "1"), (2, "AIRLINE STANDARD SCHEDULE DATA SET"), (41, "1"), (192, "001")], 1),
        record([(1, "2"), (2, "L"), (3, "XX "), (15, period)], 2),
    ]
    for number in range(1, numbers + 1):
        for variation, day in enumerate(days, 1):
            for leg in range(legs):
                out.append(leg_record(
                    len(out) + 1, number, variation, leg,
                    period if day is None else date(day) * 2, leg if shape == "spread" else 0,
                ))
    serial = len(out)
    out.append(record([(1, "5"), (3, "XX "), (188, "%06dE" % serial)], serial + 1))
    sys.stdout.write("\n".join(out) + "\n")


def periods(shape):
    """Periods without an end, each as its first and last day."""
    days, row = (LAST - FIRST).days, 0
    while True:
        if shape == "elsewhere":
            day = datetime.date(2040, 1, 1) + datetime.timedelta(days=row % 20000)
            yield day, day
        elif shape == "last":
            day = LAST - datetime.timedelta(days=row % 2)
            yield day, day
        else:
            inner = datetime.timedelta(days=row % (days // 2))
            yield FIRST + inner, LAST - inner
        row += 1


def write_rows(path, most, shape):
    legs = [(int(line[5:9]), line[36:39] + line[54:57]) for line in open(path) if line[0] == "3"]
    rows = ((FIRST, LAST, leg) for leg in legs) if shape == "all" else ((*it, legs[0]) for it in periods(shape))
    written = 0
    for row, (first, last, (number, pair)) in enumerate(rows):
        line = "AU XX%d %s %s %s F%03d/010\n" % (number, date(first), date(last), pair, row % 1000)
        written += len(line)
        if written > most:
            return
        sys.stdout.write(line)


def main():
    words = sys.argv[1:]
    if words[:1] in (["set"], ["spread"], ["singles"]) and len(words) == 3:
        write_set(int(words[1]), int(words[2]), words[0])
    elif words[:1] == ["rows"] and len(words) == 4 and words[3] in ("elsewhere", "last", "nested", "all"):
        write_rows(words[1], int(words[2]), words[3])
    else:
        sys.exit(__doc__)


if __name__ == "__main__":
    main()
