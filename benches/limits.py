#!/usr/bin/env python3
"""Writes limit rows for a data set of benches/season.py, one for each city pair and day, up to a number of bytes.

limits.py SEASON BYTES: the rows of the first day of all pairs, then of the second, and so on round the 200 days.
"""
import datetime
import sys

MONTHS = "JAN FEB MAR APR MAY JUN JUL AUG SEP OCT NOV DEC".split()


def main():
    pairs = [(int(line[5:9]), line[36:39] + line[54:57]) for line in open(sys.argv[1]) if line[0] == "3"]
    most, written, row = int(sys.argv[2]), 0, 0
    while True:
        number, pair = pairs[row % len(pairs)]
        day = datetime.date(2024, 3, 1) + datetime.timedelta(days=row // len(pairs) % 200)
        text = "%02d%s24" % (day.day, MONTHS[day.month - 1])
        line = "AU XX%d %s %s %s F%03d/010 Y090/020 M050/005\n" % (number, text, text, pair, 100 + row % 900)
        written += len(line)
        if written > most:
            return
        sys.stdout.write(line)
        row += 1


if __name__ == "__main__":
    main()
