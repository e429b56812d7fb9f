#!/usr/bin/env python3
"""Times what many flights cost before any line, and what one request does, on sets of 99,918 flights.

    benches/chains.py FOLDER [--program FILE]... [--times N]

FOLDER gets the sets of benches/loading.py, each of 273 flight numbers that fly daily for 366 days, with limits on all legs:

    one day    eight legs to a flight, all on one day
    spread     eight legs, each on the day after that of the leg before
    singles    one leg, each flight an itinerary of its own

With several programs a row is taken by all of them in turn. It says the median processor time (user and system) of N runs (5) of
each program and the peak memory of one more. A run whose status is not 0 ends it all, and so does a row for which two
programs write different bytes.
"""
import argparse
import os
import subprocess

from table import ROOT, rows

SHAPES = {"one day": ("set", "8"), "spread": ("spread", "8"), "singles": ("singles", "1")}
REQUEST = "HDQXX A00001\n1SMITH/ANN\nXX1F01JUL AAJAAK NN1\n"


def write(path, *words):
    with open(path, "wb") as out:
        subprocess.run([f"{ROOT}/benches/loading.py", *words], stdout=out, check=True)


def commands(folder):
    horizon = ["--first", "2024-03-01", "--days", "366"]
    inventory = ["--set", f"{folder}/set.ssim", "--limits", f"{folder}/limits.txt", *horizon]
    wanted = ["--today", "2024-03-01", "--journal", f"{folder}/journal.txt", f"{folder}/request.txt"]
    return {
        "flights": ["flights", *horizon, f"{folder}/set.ssim"],
        "audit, no line": ["audit", *inventory, f"{folder}/empty.txt"],
        "run, one request": ["run", *inventory, *wanted],
    }


def main():
    words = argparse.ArgumentParser(description=__doc__, formatter_class=argparse.RawDescriptionHelpFormatter)
    words.add_argument("folder")
    words.add_argument("--program", action="append")
    words.add_argument("--times", type=int, default=5)
    given = words.parse_args()
    programs = given.program or [f"{ROOT}/crates/seatdesk/out/seatdesk"]
    if given.times < 1:
        words.error("a row is taken once or more")
    print(f"| Shape | What |{' Processor, peak |' * len(programs)}")
    print(f"|---|---|{'---|' * len(programs)}")
    for shape, (kind, legs) in SHAPES.items():
        folder = f"{given.folder}/{kind}"
        os.makedirs(folder, exist_ok=True)
        write(f"{folder}/set.ssim", kind, "273", legs)
        write(f"{folder}/limits.txt", "rows", f"{folder}/set.ssim", str(1 << 24), "all")
        for name, text in (("request.txt", REQUEST), ("empty.txt", "SEATJOURNAL 2\nEND 0\n")):
            with open(f"{folder}/{name}", "w", encoding="ascii") as out:
                out.write(text)
        for row, command in commands(folder).items():
            taken = rows(folder, programs, given.times, row, command, None)
            print(f"| {shape} | {row} |{''.join(f' {used:.3f} s, {most:.0f} MB |' for used, most in taken.values())}", flush=True)


if __name__ == "__main__":
    main()
