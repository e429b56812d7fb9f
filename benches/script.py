#!/usr/bin/env python3
"""Writes a script of booking messages to standard output, the same bytes for the same arguments.

    benches/script.py [--mib N] [--seed N] [--end lf|crlf] > script.txt

At most N MiB (16 by default), whole messages. A message has its first line, one or two name lines, one to six segment
lines, and in one of three a line of service information; an empty line stands between two. One segment line in ten has
leading zeros, a suffix or a tail, and one day in fifty is 29 February.
"""
import argparse
import random
import sys

CHARACTERS = "ABCDEFGHIJKLMNOPQRSTUVWXYZ0123456789"
LETTERS = CHARACTERS[:26]
MONTHS = ["JAN", "FEB", "MAR", "APR", "MAY", "JUN", "JUL", "AUG", "SEP", "OCT", "NOV", "DEC"]
LONGEST = [31, 29, 31, 30, 31, 30, 31, 31, 30, 31, 30, 31]
PAIRS = ["LHRJFK", "JFKLAX", "FRACDG", "AMSMAD", "DXBSIN", "HKGNRT", "SYDGRU", "JNBYYZ"]
AIRLINES = ["XX", "9W", "BA", "U2"]
CODES = ["NN", "NN", "NN", "SS", "LL", "XX"]


def segment(draw):
    number = str(draw.randrange(1, 10000))
    suffix, seats, tail = "", str(draw.randrange(1, 10)), ""
    if draw.random() < 0.1:
        number, seats = number.zfill(4), seats.zfill(3)
        suffix = draw.choice(["", "A", "Z"])
        tail = draw.choice(["", "/", "/DL", "/" + "X" * 20])
    month = draw.randrange(12)
    day = draw.randrange(1, LONGEST[month] + 1)
    if draw.random() < 0.02:
        day, month = 29, 1
    line = f"{draw.choice(AIRLINES)}{number}{suffix}{draw.choice('FYM')}{day:02}{MONTHS[month]} {draw.choice(PAIRS)} "
    return line + draw.choice(CODES) + seats.zfill(max(1, 20 - len(line) - 2)) + tail


def message(draw):
    locator = "".join(draw.choice(CHARACTERS) for _ in range(6))
    lines = [f"HDQ{draw.choice(['XX', 'YY', 'ZZ'])} {locator}"]
    for _ in range(draw.randrange(1, 3)):
        name = "".join(draw.choice(LETTERS) for _ in range(draw.randrange(3, 12)))
        lines.append(f"{draw.randrange(1, 10)}{name}/{draw.choice(['ANN', 'BO', 'CARL'])}")
    lines += [segment(draw) for _ in range(draw.randrange(1, 7))]
    if draw.random() < 1 / 3:
        lines.append(draw.choice(["OSI XX VIP", "SSR VGML XX HK1"]))
    return lines


def main():
    words = argparse.ArgumentParser(description=__doc__, formatter_class=argparse.RawDescriptionHelpFormatter)
    words.add_argument("--mib", type=int, default=16)
    words.add_argument("--seed", type=int, default=1)
    words.add_argument("--end", choices=["lf", "crlf"], default="lf")
    given = words.parse_args()
    draw = random.Random(given.seed)
    end = "\n" if given.end == "lf" else "\r\n"
    left = given.mib * 1024 * 1024
    while True:
        text = end.join(message(draw)) + end + end
        if len(text) > left:
            return
        left -= len(text)
        sys.stdout.write(text)


if __name__ == "__main__":
    main()
