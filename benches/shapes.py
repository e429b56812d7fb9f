#!/usr/bin/env python3
"""Times `flights` on data sets whose periods are far longer than the horizon.

    benches/shapes.py FOLDER [--legs N] [--program FILE]... [--times N] [--seed N]

FOLDER gets the sets, the same for the same seed, each of N legs (20,000, at most 69,993) that operate from 1 January
2000 to 31 December 2099, and is asked for one day, 14 June 2050:

    weekly     each leg alone is an itinerary, on some days of each week
    second     the same legs in every second week
    daily      the same legs, daily
    chains     the same daily legs, four to an itinerary
    open       the same daily legs, of which every other has no last day

With several programs a set is taken by all of them in turn. The row of a set says the median processor time (user and
system) of N runs (3) of each program and the peak memory of one more, and its flights. A run whose status is not 0 ends
it all, and so does a set for which two programs write different bytes.
"""
import argparse
import os
import random

import data_set
from table import rows

ROOT = os.path.dirname(os.path.dirname(os.path.abspath(__file__)))
SHAPES = ("weekly", "second", "daily", "chains", "open")
SUFFIXES = " ABCDEF"
HORIZON = ["--first", "2050-06-14", "--days", "1"]


def leg(draw, shape, serial, index):
    """The record of a leg. Seven itineraries share a number, apart by their suffixes."""
    in_chain = 4 if shape == "chains" else 1
    itinerary, sequence = divmod(index, in_chain)
    pattern = "".join(str(k + 1) if draw.random() < 0.5 else " " for k in range(7))
    if shape not in ("weekly", "second") or pattern == " " * 7:
        pattern = "1234567"
    stations = data_set.STATIONS[sequence : sequence + 2]
    return data_set.record(serial, [
        (1, "3"),
        (2, SUFFIXES[itinerary // 9999]),
        (3, "XX "),
        (6, f"{itinerary % 9999 + 1:4}"),
        (10, f" 1{sequence + 1:02}"),
        (15, "01JAN00" + ("00XXX00" if shape == "open" and index % 2 else "31DEC99")),
        (29, pattern),
        (36, "2" if shape == "second" else " "),
        (37, stations[0]),
        (44, f"{6 + sequence:02}00+0000"),
        (55, stations[1]),
        (193, "0"),
    ])


def write_set(path, shape, count, seed):
    draw = random.Random(seed)
    with open(path, "w", encoding="ascii") as out:
        out.write(data_set.record(1, [(1, "1"), (2, data_set.TITLE), (41, "1"), (192, "001")]) + "\n")
        out.write(data_set.record(2, [(1, "2"), (2, "L"), (3, "XX "), (15, "01JAN0031DEC99")]) + "\n")
        for index in range(count):
            out.write(leg(draw, shape, index + 3, index) + "\n")
        out.write(data_set.record(count + 3, [(1, "5"), (3, "XX "), (188, f"{count + 2:06}E")]) + "\n")


def main():
    words = argparse.ArgumentParser(description=__doc__, formatter_class=argparse.RawDescriptionHelpFormatter)
    words.add_argument("folder")
    words.add_argument("--legs", type=int, default=20_000)
    words.add_argument("--program", action="append")
    words.add_argument("--times", type=int, default=3)
    words.add_argument("--seed", type=int, default=1)
    given = words.parse_args()
    programs = given.program or [f"{ROOT}/crates/seatdesk/out/seatdesk"]
    if not 1 <= given.legs <= len(SUFFIXES) * 9999 or given.times < 1:
        words.error(f"1 to {len(SUFFIXES) * 9999} legs, and a set is taken once or more")
    os.makedirs(given.folder, exist_ok=True)
    written = f"{given.folder}/written.txt"
    print(f"| Shape | Flights |{' Processor, peak |' * len(programs)}")
    print(f"|---|---|{'---|' * len(programs)}")
    for shape in SHAPES:
        source = f"{given.folder}/{shape}.ssim"
        write_set(source, shape, given.legs, given.seed)
        taken = rows(given.folder, programs, given.times, "flights", ["flights", *HORIZON, source], None)
        with open(written, "rb") as said:
            flights = sum(1 for _ in said)
        print(f"| {shape} | {flights} |{''.join(f' {used:.3f} s, {most:.0f} MB |' for used, most in taken.values())}", flush=True)


if __name__ == "__main__":
    main()
