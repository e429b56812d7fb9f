#!/usr/bin/env python3
"""Writes a data set (SSIM chapter 7) to standard output, the same bytes for the same arguments.

    benches/data_set.py [--records N] [--segments SHARE] [--flights N] [--seed N] [--end lf|crlf|none] > set.ssim

N records in all, with header, carrier and trailer, 3 to 999,999 (the default, 200 MB). Of the records between, a share
(in percent, 25 by default) is segment data, and the rest are legs. The legs are those of as many flights as there are
numbers (9999 at most, each with variations 1 to 99), with one to four legs each; a chain of legs is unbroken and its
periods agree, so the set has dated flights, and no two itineraries of one flight number have a date in common.
"""
import argparse
import calendar
import datetime
import random
import sys

TITLE = "AIRLINE STANDARD SCHEDULE DATA SET"
STATIONS = ["LHR", "JFK", "LAX", "FRA", "CDG", "AMS", "MAD", "DXB", "SIN", "HKG", "NRT", "SYD", "GRU", "JNB", "YYZ", "ORD"]
FIRST = datetime.date(2024, 1, 1)


def record(serial, fields):
    made = [" "] * 200
    for byte, text in fields:
        made[byte - 1 : byte - 1 + len(text)] = text
    made[194:200] = f"{serial:06}"
    return "".join(made)


def date(day):
    return f"{day.day:02}{calendar.month_abbr[day.month].upper()}{day.year % 100:02}"


def itinerary(draw, flight):
    """The fields of the legs of one itinerary: number and variation, a period of its own, a chain of stations."""
    number, variation = flight % 9999 + 1, flight // 9999 + 1
    # A variation has a week of its own, so that no date is named twice.
    start = FIRST + datetime.timedelta(days=7 * (variation - 1))
    period = date(start) + date(start + datetime.timedelta(days=6))
    days = [draw.random() < 0.6 for _ in range(7)]
    days[draw.randrange(7)] = True
    pattern = "".join(str(k + 1) if on else " " for k, on in enumerate(days))
    stations = draw.sample(STATIONS, draw.randint(1, 4) + 1)
    minute = draw.randrange(360)
    for k, (board, off) in enumerate(zip(stations, stations[1:])):
        at = minute + 240 * k
        yield [
            (1, "3"),
            (3, "XX "),
            (6, f"{number:4}"),
            (10, f"{variation:2}{k + 1:02}"),
            (15, period),
            (29, pattern),
            (37, board),
            (44, f"{at // 60:02}{at % 60:02}{draw.choice('+-')}{draw.randrange(12):02}00"),
            (55, off),
            (193, "0"),
        ]


def bodies(draw, share, flights):
    """Legs, and segment data behind some of them, without an end."""
    flight = 0
    while True:
        for leg in itinerary(draw, flight % flights):
            yield leg
            while draw.randrange(100) < share:
                yield [(1, "4"), (3, "XX "), (29, "SEGMENT DATA")]
        flight += 1


def main():
    words = argparse.ArgumentParser(description="Writes a data set of SSIM chapter 7.")
    words.add_argument("--records", type=int, default=999_999)
    words.add_argument("--segments", type=int, default=25)
    words.add_argument("--flights", type=int, default=9999 * 99)
    words.add_argument("--seed", type=int, default=1)
    words.add_argument("--end", choices=["lf", "crlf", "none"], default="none")
    given = words.parse_args()
    if not 3 <= given.records <= 999_999 or not 0 <= given.segments <= 90 or not 1 <= given.flights <= 9999 * 99:
        words.error("3 to 999999 records, 0 to 90 percent of segment data, 1 to 989901 flights")
    end = {"lf": "\n", "crlf": "\r\n", "none": ""}[given.end]
    draw = random.Random(given.seed)
    out = sys.stdout

    def put(serial, fields):
        out.write(record(serial, fields) + end)

    last = given.records
    put(1, [(1, "1"), (2, TITLE), (41, "1"), (192, "001")])
    put(2, [(1, "2"), (2, "L"), (3, "XX "), (15, date(FIRST)), (22, "31DEC25")])
    body = bodies(draw, given.segments, given.flights)
    for serial in range(3, last):
        put(serial, next(body))
    put(last, [(1, "5"), (3, "XX "), (188, f"{last - 1:06}E")])


if __name__ == "__main__":
    main()
