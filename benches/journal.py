#!/usr/bin/env python3
"""Writes limit rows and a legal journal for a data set of benches/season.py, the same for the same seed.

journal.py SEASON FLIGHTS LINES LIMITS JOURNAL [SEED]: SEASON is the data set, of FLIGHTS dated flights (a multiple of
200); LIMITS and JOURNAL are written. Each line sells or cancels one seat of class Y on one leg, under eight sessions in
turn: nine of ten lines are needs that are confirmed, the others cancel a booking that is held.
"""
import random
import sys

from ladder import locator


def pairs_of(season):
    """The city pairs of each flight number, by leg."""
    pairs = {}
    for line in open(season):
        if line[0] == "3":
            pairs.setdefault(int(line[5:9]), []).append(line[36:39] + line[54:57])
    return pairs


def main():
    season, flights, lines, limits, journal = sys.argv[1], int(sys.argv[2]), int(sys.argv[3]), sys.argv[4], sys.argv[5]
    chance = random.Random(int(sys.argv[6]) if len(sys.argv) > 6 else 1)
    pairs = pairs_of(season)
    with open(limits, "w") as out:
        for number, each in pairs.items():
            for pair in each:
                out.write("AU XX%d 01MAR24 16SEP24 %s F999/000 Y999/099\n" % (number, pair))
    held = {}
    bookings = []
    calls = [0] * 9
    with open(journal, "w") as out:
        out.write("SEATJOURNAL 2\n")
        for line in range(1, lines + 1):
            session = 1 + (line - 1) % 8
            calls[session] += 1
            if bookings and chance.random() < 0.1:
                at = chance.randrange(len(bookings))
                name, flight = bookings[at]
                bookings[at] = bookings[-1]
                bookings.pop()
                held[flight] -= 1
                out.write("%d %d %d %s %d.0.0 Y XX 1 HX 1\n" % (line, session, calls[session], name, flight))
                continue
            flight = chance.randrange(flights)
            while held.get(flight, 0) >= 999:
                flight = chance.randrange(flights)
            held[flight] = held.get(flight, 0) + 1
            bookings.append((locator(line), flight))
            out.write("%d %d %d %s %d.0.0 Y NN 1 KK 0\n" % (line, session, calls[session], locator(line), flight))
        out.write("END %d\n" % lines)


if __name__ == "__main__":
    main()
