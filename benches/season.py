#!/usr/bin/env python3
"""Writes a data set of many dated flights to standard output, the same for the same seed.

season.py FLIGHTS [SEED]: so many dated flights in the 200 days from 1 March 2024 on, each of one to three legs.
Every flight number flies daily for 200 days, so FLIGHTS is rounded up to a multiple of 200.
"""
import random
import sys

DAYS = 200
LAST = "16SEP24"  # the 200th day from 01MAR24


def record(fields, serial):
    line = [" "] * 200
    for byte, text in fields:
        line[byte - 1:byte - 1 + len(text)] = text
    line[194:200] = "%06d" % serial
    return "".join(line)


def main():
    flights = int(sys.argv[1]) if len(sys.argv) > 1 else 1000
    chance = random.Random(int(sys.argv[2]) if len(sys.argv) > 2 else 1)
    itineraries = -(-flights // DAYS)
    if itineraries > 9999:
        sys.exit("at most 1,999,800 flights")
    stations = ["".join(chance.choice("ABCDEFGHIJKLMNOPQRSTUVWXYZ") for _ in range(3)) for _ in range(200)]
    out = [
        record([(1, "1"), (2, "AIRLINE STANDARD SCHEDULE DATA SET"), (41, "1"), (192, "001")], 1),
        record([(1, "2"), (2, "L"), (3, "XX "), (15, "01MAR24" + LAST)], 2),
    ]
    for number in range(1, itineraries + 1):
        stops = chance.sample(stations, chance.randint(2, 4))
        for leg in range(len(stops) - 1):
            out.append(record([
                (1, "3"), (3, "XX "), (6, "%4d" % number), (10, "01%02d" % (leg + 1)),
                (15, "01MAR24" + LAST), (29, "1234567"), (37, stops[leg]),
                (44, "%02d00+0000" % (6 + 4 * leg)), (55, stops[leg + 1]), (193, "00"),
            ], len(out) + 1))
    serial = len(out)
    out.append(record([(1, "5"), (3, "XX "), (188, "%06dE" % serial)], serial + 1))
    sys.stdout.write("\n".join(out) + "\n")


if __name__ == "__main__":
    main()
