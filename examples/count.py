#!/usr/bin/env python3
"""Counts the seats of one flight and class from what its desks were told, and shares nothing with the host but these answers.

    examples/count.py SEATS FLIGHT SCRIPT ANSWERS [SCRIPT ANSWERS]..
"""
import re
import sys

seats, flight, *files = sys.argv[1:]
sold = asked = 0
lines = []
for script, answers in zip(files[::2], files[1::2]):
    with open(script, encoding="ascii") as it:
        asked += sum(line.startswith(flight) for line in it)
    with open(answers, encoding="ascii") as it:
        for _, line, *words in map(str.split, it.read().splitlines()[1:]):
            lines.append(line)
            kept = re.fullmatch(r"KK(\d+)", words[-1])
            sold += int(kept[1]) if kept else 0
print(f"sold {sold} of {seats}, lost {asked - len(lines)}, twice {len(lines) - len(set(lines))}")
sys.exit(not (sold == int(seats) and len(lines) == len(set(lines)) == asked))
