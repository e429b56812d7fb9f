#!/usr/bin/env python3
"""Measures the published table, and prints its figures with their units.

    benches/display.py [--seed S] [--program FILE]

It copies the repository into a scratch folder, adds the program of benches/display/ as a crate, proves and builds it, and runs
it over data sets of 200 and 100,000 dated flights, each of two legs with 12 classes. The same seed gives the same inputs. With --program it measures
a build that is there already.
"""
import argparse
import os
import random
import re
import subprocess
import sys
import tempfile

ROOT = os.path.dirname(os.path.dirname(os.path.abspath(__file__)))
NAME = "display_bench"
DEPS = "seat_display seat_core seat_nesting seat_journal ssim_flights ssim_records"
CLASSES = "FAJCDYBMHKQV"
DAYS, PERIOD = 200, "01MAR2416SEP24"


def record(fields, serial):
    line = [" "] * 200
    for byte, text in fields:
        line[byte - 1 : byte - 1 + len(text)] = text
    line[194:200] = "%06d" % serial
    return "".join(line)


def inputs(flights, chance):
    """A data set of so many flights of two legs, and a limit row for each leg."""
    stations = ["".join(chance.choice("ABCDEFGHIJKLMNOPQRSTUVWXYZ") for _ in range(3)) for _ in range(200)]
    ladder = " ".join(f"{letter}{300 - 20 * rank:03d}/010" for rank, letter in enumerate(CLASSES))
    out = [
        record([(1, "1"), (2, "AIRLINE STANDARD SCHEDULE DATA SET"), (41, "1"), (192, "001")], 1),
        record([(1, "2"), (2, "L"), (3, "XX "), (15, PERIOD)], 2),
    ]
    rows = []
    for number in range(1, flights // DAYS + 1):
        stops = chance.sample(stations, 3)
        for leg in range(2):
            head = [(1, "3"), (3, "XX "), (6, "%4d" % number), (10, "01%02d" % (leg + 1)), (15, PERIOD), (29, "1234567")]
            ends = [(37, stops[leg]), (44, "%02d00+0000" % (6 + 4 * leg)), (55, stops[leg + 1]), (193, "00")]
            out.append(record(head + ends, len(out) + 1))
            rows.append(f"AU XX{number} {PERIOD[:7]} {PERIOD[7:]} {stops[leg]}{stops[leg + 1]} {ladder}")
    out.append(record([(1, "5"), (3, "XX "), (188, "%06dE" % len(out))], len(out) + 1))
    return "\n".join(out) + "\n", "\n".join(rows) + "\n"


def build(room):
    """The program, proved and built in a copy of the repository."""
    files = subprocess.run(["git", "ls-files", "crates", "crates.txt", "HANDLES"], cwd=ROOT, stdout=subprocess.PIPE, check=True, text=True).stdout.split("\n")
    for name in filter(None, files):
        os.makedirs(os.path.dirname(f"{room}/{name}"), exist_ok=True)
        with open(f"{ROOT}/{name}", "rb") as old, open(f"{room}/{name}", "wb") as new:
            new.write(old.read())
    with open(f"{room}/crates.txt", "a", encoding="utf-8") as it:
        it.write(f"{NAME}: {DEPS}\n")
    for folder, _, names in os.walk(f"{ROOT}/benches/display"):
        for name in names:
            inside = os.path.relpath(f"{folder}/{name}", f"{ROOT}/benches/display").removesuffix(".txt")
            to = f"{room}/crates/{NAME}/{'src/' if inside.endswith('.rt') else ''}{inside}"
            os.makedirs(os.path.dirname(to), exist_ok=True)
            with open(f"{folder}/{name}", "rb") as old, open(to, "wb") as new:
                new.write(old.read())
    subprocess.run(["git", "init", "-q", room], check=True)
    subprocess.run(["rt", "run"], cwd=f"{room}/crates/{NAME}", stdin=subprocess.DEVNULL, stdout=subprocess.DEVNULL)
    program = f"{room}/crates/{NAME}/out/{NAME}"
    if not os.path.isfile(program):
        sys.exit("the program was not built")
    return program


def run(program, *words):
    """What the program says, and its largest resident set in bytes."""
    words = [program, *map(str, words)]
    child = subprocess.Popen(words, stdout=subprocess.PIPE, text=True)
    said = child.stdout.read()
    _, status, used = os.wait4(child.pid, 0)
    if status:
        sys.exit(f"status {status} of {' '.join(words)}")
    return [int(it) for it in re.findall(r"\d+", said)], used.ru_maxrss * 1024


def main():
    words = argparse.ArgumentParser(description=__doc__.split("\n")[0])
    words.add_argument("--seed", type=int, default=1)
    words.add_argument("--program")
    asked = words.parse_args()
    chance = random.Random(asked.seed)
    with tempfile.TemporaryDirectory(prefix="display-") as room:
        program = asked.program or build(room)
        files = {}
        for flights in (200, 100_000):
            files[flights] = [f"{room}/set{flights}", f"{room}/limits{flights}"]
            for path, text in zip(files[flights], inputs(flights, chance)):
                with open(path, "w", encoding="ascii") as it:
                    it.write(text)
        looks = 10_000_000
        for measure in ("alone", "beside"):
            for viewers in (1, 2, 4):
                took = run(program, measure, *files[200], looks, viewers)[0][0]
                print(f"{measure}, {viewers} viewers: {took / looks:.1f} ns a look, {viewers * looks / took * 1e3:.1f} million looks a second")
        for flights in (200, 100_000):
            for lines in (1_000, 900_000):
                first, last = (run(program, "publish", *files[flights], lines, 1)[0][it] for it in (0, 2))
                print(f"{flights} flights, {lines} lines: {first / 1000:.0f} ns for each of the first 1,000 publications, {last / 1000:.0f} ns for each of the last")
        without, having = (run(program, it, *files[100_000], 0, 1)[1] for it in ("grid", "open"))
        print(f"100,000 flights of two legs and 12 classes: {(having - without) / 2e6:.1f} MB for each of the two tables")


if __name__ == "__main__":
    main()
