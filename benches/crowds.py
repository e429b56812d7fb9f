#!/usr/bin/env python3
"""Times lines that have long waiting lists before them, and what many flights cost one request.

    benches/crowds.py FOLDER [SHAPE]... [--program FILE]... [--times N] [--lines N] [--seed N]

FOLDER gets the inputs, the same for the same seed. A flight has eight legs, each with 26 classes of 999 seats that are all held, and 999 may wait in
each class of a leg. The shapes (all, where none is named):

    held        one class: 999 held, 999 waiting, cancels and listings in turn (`hostile.py`)
    confirming  26 classes with 999 waiting each, cancels that each confirm the first that waits (`hostile.py`)
    behind      the same, but each cancel confirms from the last class of the list, as the others have no room (`hostile.py`)
    grouped     26 classes one after the other, and cancels that each confirm from the middle of the list (`hostile.py`)
    stuck       as behind, after a party for which there is never room in the class that is confirmed (`hostile.py`)
    front       155,844 parties wait on six legs, and are cancelled from the first to the last (`run`)
    middle      the same, cancelled in mixed order (`run`)
    limits      13,000 are listed on a leg, and a limit is moved up and down before them (`run --changes`)
    rows        16 MiB of limit rows of one flight number (`audit` of no line)

`held` has 900,000 lines, `confirming`, `behind`, `grouped` and `stuck` 60,000, and `limits` 60,000 rows of changes; --lines says another number for these.
With several programs a row is taken by all of them in turn. It says the median processor time (user and system) of N runs (3) of each
program, the peak memory of one more, and how many times as long as the last program the first one takes. A run whose status is not 0 ends it
all, and so does a row for which two programs write different bytes.
"""
import argparse
import os
import random
import subprocess

from ladder import locator
from loading import station
from table import ROOT, rows

CLASSES = "ABCDEFGHIJKLMNOPQRSTUVWXYZ"
DAY = ["--first", "2024-07-01", "--days", "1"]



def pair(first, last):
    """The city pair of the flight's legs `first` to `last`, from 0."""
    return station(9 + first) + station(10 + last)


def message(name, lines):
    return f"HDQXX {name}\n1SMITH/ANN\n" + "".join(f"XX1{line}\n" for line in lines) + "\n"


def write(path, text):
    with open(path, "w", encoding="ascii") as out:
        out.write(text)


def make(path, *words):
    with open(path, "wb") as out:
        subprocess.run([f"{ROOT}/benches/{words[0]}", *words[1:]], stdout=out, check=True)


def write_flight(folder, ladders):
    """A set of one flight of eight legs, and limit rows of its legs on the day."""
    make(f"{folder}/set.ssim", "loading.py", "set", "1", "8")
    write(f"{folder}/limits.txt", "".join(f"AU XX1 01JUL24 01JUL24 {pair(leg, leg)} {ladder}\n" for leg, ladder in enumerate(ladders)))


def crowd(draw, mixed):
    """A full flight, on six of whose legs all classes have as many waiting as may, and their cancels."""
    yield message(locator(0), [f"A01JUL {pair(0, 7)} NN999"])
    waiting = [(name, leg, letter) for name in range(1, 1000) for leg in range(6) for letter in CLASSES]
    for code in ("LL", "XX"):
        at = 0
        while at < len(waiting):
            end = at + 1
            while end < len(waiting) and waiting[end][0] == waiting[at][0] and end < at + 26:
                end += 1
            name = locator(waiting[at][0])
            yield message(name, [f"{letter}01JUL {pair(leg, leg)} {code}1" for _, leg, letter in waiting[at:end]])
            at = end
        if mixed:
            draw.shuffle(waiting)


def front_words(folder):
    return ["run", "--set", f"{folder}/set.ssim", "--limits", f"{folder}/limits.txt", *DAY, "--today", "2024-07-01", "--journal", f"{folder}/journal.txt"]


def front(folder, draw, _, mixed=False):
    write_flight(folder, [" ".join(f"{letter}999/999" for letter in CLASSES)] * 8)
    write(f"{folder}/script.txt", "".join(crowd(draw, mixed)))
    return [*front_words(folder), f"{folder}/script.txt"], None


def middle(folder, draw, lines):
    return front(folder, draw, lines, mixed=True)


def limits(folder, _, lines):
    """Class A has its limit of seats held, and parties of two that wait; the others are full below it."""
    write_flight(folder, ["A998/999 " + " ".join(f"{letter}500/999" for letter in CLASSES[1:13])] * 8)
    leg = pair(0, 0)
    text = [message(locator(0), [f"A01JUL {leg} NN498", f"B01JUL {leg} NN500"])]
    for number in range(1, 1000):
        text.append(message(locator(number), [f"{letter}01JUL {leg} LL1" for letter in CLASSES[1:13]]))
    text += [message(locator(number), [f"A01JUL {leg} LL2"]) for number in range(1, 500)]
    write(f"{folder}/script.txt", "".join(text))
    moves = "".join(f"AU XX1 01JUL24 {leg} A{limit}/999\n" for limit in (999, 998))
    write(f"{folder}/changes.txt", moves * (lines // 2))
    return [*front_words(folder), "--changes", f"{folder}/changes.txt", f"{folder}/script.txt"], None


def by_ladder(mode):
    """The shape of this name of `hostile.py`."""
    def ladder(folder, _, lines):
        make(f"{folder}/lines.txt", "hostile.py", str(lines), mode)
        return ["ladder"], f"{folder}/lines.txt"
    return ladder


def limit_rows(folder, *_):
    make(f"{folder}/set.ssim", "loading.py", "set", "1", "8")
    make(f"{folder}/limits.txt", "loading.py", "rows", f"{folder}/set.ssim", str(1 << 24), "nested")
    write(f"{folder}/empty.txt", "SEATJOURNAL 1\nEND 0\n")
    return ["audit", "--set", f"{folder}/set.ssim", "--limits", f"{folder}/limits.txt", "--first", "2024-03-01", "--days", "366", f"{folder}/empty.txt"], None


SHAPES = {
    "held": (by_ladder("held"), 900_000),
    "confirming": (by_ladder("confirming"), 60_000),
    "behind": (by_ladder("behind"), 60_000),
    "grouped": (by_ladder("grouped"), 60_000),
    "stuck": (by_ladder("stuck"), 60_000),
    "front": (front, 0),
    "middle": (middle, 0),
    "limits": (limits, 60_000),
    "rows": (limit_rows, 0),
}


def main():
    words = argparse.ArgumentParser(description=__doc__, formatter_class=argparse.RawDescriptionHelpFormatter)
    words.add_argument("folder")
    words.add_argument("shape", nargs="*")
    words.add_argument("--program", action="append")
    words.add_argument("--times", type=int, default=3)
    words.add_argument("--lines", type=int)
    words.add_argument("--seed", type=int, default=1)
    given = words.parse_args()
    programs = given.program or [f"{ROOT}/crates/seatdesk/out/seatdesk"]
    shapes = given.shape or list(SHAPES)
    if given.times < 1 or any(shape not in SHAPES for shape in shapes):
        words.error(f"shapes are {', '.join(SHAPES)}, and a row is taken once or more")
    print(f"| Shape |{' Processor, peak |' * len(programs)} First to last |")
    print(f"|---|{'---|' * len(programs)}---|")
    for shape in shapes:
        folder = f"{given.folder}/{shape}"
        os.makedirs(folder, exist_ok=True)
        write_shape, lines = SHAPES[shape]
        command, source = write_shape(folder, random.Random(given.seed), given.lines or lines)
        # (beside changes the sessions meet in another order each time)
        taken = list(rows(folder, programs, given.times, "run" if shape == "limits" else shape, command, source).values())
        times = taken[0][0] / taken[-1][0]
        print(f"| {shape} |{''.join(f' {used:.3f} s, {most:.0f} MB |' for used, most in taken)} {times:.1f} |", flush=True)


if __name__ == "__main__":
    main()
