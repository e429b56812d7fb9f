#!/usr/bin/env python3
"""Times each command on a small, a medium and a large day, and prints a table for docs/BENCHMARKS.md.

    benches/table.py FOLDER [--program FILE]... [--sizes small,medium,large] [--times N] [--seed N]

FOLDER gets the inputs, the same for the same seed:

    small    200 itineraries, 10,000 lines
    medium   2,000 itineraries, 100,000 lines
    large    20,000 itineraries, some 92,000 dated flights, 900,000 lines

The itineraries are those of benches/data_set.py, with limits on all legs; the lines are those of benches/run.py, in
eight scripts, on flights and pairs that the set has. `audit` reads the journal that `run` wrote, and the ladder's lines
are the mix of benches/ladder.py.

With several programs each row is taken by all of them in turn. A row says the median processor time (user and system)
of N runs (5), the peak memory of one more, and how many times as long as the yardstick it took: the median processor time of
the first program's `check` of the large set, taken before, between and behind the rows, which says how busy the machine
was. A run whose status is not 0 ends it all, and so does a row for which two programs write different bytes.
"""
import argparse
import datetime
import hashlib
import multiprocessing
import os
import random
import statistics
import subprocess
import sys

import data_set
import run

ROOT = os.path.dirname(os.path.dirname(os.path.abspath(__file__)))
SIZES = {"small": (200, 10_000), "medium": (2_000, 100_000), "large": (20_000, 900_000)}
ROWS = ("check", "flights", "audit, no line", "run", "audit", "ladder")
PARTS = 8


def is_on(body, day):
    """Whether a leg of a data set operates on a day of its period, Monday being 0."""
    return dict(body)[29][day.weekday()] != " "


def itineraries(seed, count):
    draw = random.Random(seed)
    return [list(data_set.itinerary(draw, flight)) for flight in range(count)]


def write_set(path, all_legs):
    bodies = [body for legs in all_legs for body in legs]
    with open(path, "w", encoding="ascii") as out:
        out.write(data_set.record(1, [(1, "1"), (2, data_set.TITLE), (41, "1"), (192, "001")]) + "\n")
        out.write(data_set.record(2, [(1, "2"), (2, "L"), (3, "XX "), (15, data_set.date(data_set.FIRST)), (22, "31DEC25")]) + "\n")
        for serial, body in enumerate(bodies, 3):
            out.write(data_set.record(serial, body) + "\n")
        last = len(bodies) + 3
        out.write(data_set.record(last, [(1, "5"), (3, "XX "), (188, f"{last - 1:06}E")]) + "\n")


def dated(all_legs):
    """The flights: number, day and stations."""
    flights = []
    for flight, legs in enumerate(all_legs):
        begin = data_set.FIRST + datetime.timedelta(7 * (flight // 9999))
        stations = [dict(body)[37] for body in legs] + [dict(legs[-1])[55]]
        for past in range(7):
            day = begin + datetime.timedelta(past)
            if is_on(legs[0], day):
                flights.append((flight % 9999 + 1, day, stations))
    return flights


def write_limits(path, flights):
    pairs = {(number, pair): None for number, _, stations in flights for pair in zip(stations, stations[1:])}
    first, last = data_set.date(min(day for _, day, _ in flights)), data_set.date(max(day for _, day, _ in flights))
    with open(path, "w", encoding="ascii") as out:
        for number, (board, off) in pairs:
            out.write(f"AU XX{number} {first} {last} {board}{off} {run.LADDER}\n")


def segment(chance, flights, popular):
    """A flight, a class, a day and a pair, as a segment line begins."""
    number, day, stations = chance.choice(popular if chance.random() < 0.1 else flights)
    board = chance.randrange(len(stations) - 1)
    off = chance.randrange(board + 1, len(stations))
    return f"XX{number}{chance.choice('FYYMM')}{day.day:02}{run.MONTHS[day.month - 1]} {stations[board]}{stations[off]}"


def write_inputs(folder, count, lines, seed):
    all_legs = itineraries(seed, count)
    flights = dated(all_legs)
    write_set(f"{folder}/set.ssim", all_legs)
    write_limits(f"{folder}/limits.txt", flights)
    chance, names = random.Random(seed), iter(range(1, 1_000_000))
    popular = [chance.choice(flights) for _ in range(50)]
    for k in range(PARTS):
        with open(f"{folder}/script-{k + 1}.txt", "w", encoding="ascii") as out:
            size = lines * (k + 1) // PARTS - lines * k // PARTS
            out.write(run.part(chance, flights, popular, size, names, segment))
    with open(f"{folder}/empty.txt", "w", encoding="ascii") as out:
        out.write("SEATJOURNAL 2\nEND 0\n")
    with open(f"{folder}/ladder.txt", "wb") as out:
        subprocess.run([f"{ROOT}/benches/ladder.py", str(lines), "mix", "--seed", str(seed)], stdout=out, check=True)


def commands(folder):
    """The words of each row behind the program, and its standard input."""
    given = f"{folder}/set.ssim"
    horizon = ["--first", str(data_set.FIRST), "--days", "21"]
    inventory = ["--set", given, "--limits", f"{folder}/limits.txt", *horizon]
    scripts = [f"{folder}/script-{k + 1}.txt" for k in range(PARTS)]
    return {
        "check": (["check", given], None),
        "flights": (["flights", *horizon, given], None),
        "audit, no line": (["audit", *inventory, f"{folder}/empty.txt"], None),
        "run": (["run", *inventory, "--today", str(data_set.FIRST), "--journal", f"{folder}/journal.txt", *scripts], None),
        "audit": (["audit", *inventory, f"{folder}/journal.txt"], None),
        "ladder": (["ladder"], f"{folder}/ladder.txt"),
    }


def take(words, given, out):
    """Processor seconds of one run."""
    with open(given or os.devnull, "rb") as source, open(out, "wb") as to:
        child = subprocess.Popen(words, stdin=source, stdout=to)
        _, status, used = os.wait4(child.pid, 0)
    if status:
        sys.exit(f"{' '.join(words)}: status {status}")
    return used.ru_utime + used.ru_stime


def peak(words, given, out):
    """Peak MB of one run. (A process that this one starts itself would begin with the peak of this one.)"""
    take(["/usr/bin/time", "--format", "%M", "--output", f"{out}.peak", *words], given, out)
    with open(f"{out}.peak", encoding="ascii") as said:
        return int(said.read()) / 1024


def print_of(path):
    with open(path, "rb") as file:
        return hashlib.file_digest(file, "sha256").hexdigest()


def rows(folder, programs, times, row, words, given):
    """Median processor time and peak of each program on one row, taken in turn."""
    taken, prints, out = {it: [] for it in programs}, set(), f"{folder}/written.txt"
    for _ in range(times):
        for program in programs:
            taken[program].append(take([program, *words], given, out))
            # (the sessions of `run` meet in another order each time)
            prints.add(None if row == "run" else print_of(out))
    if len(prints) > 1:
        sys.exit(f"{' '.join(words)}: the programs write different bytes")
    return {it: (statistics.median(taken[it]), peak([it, *words], given, out)) for it in programs}


def main():
    words = argparse.ArgumentParser(description=__doc__, formatter_class=argparse.RawDescriptionHelpFormatter)
    words.add_argument("folder")
    words.add_argument("--program", action="append")
    words.add_argument("--sizes", default="small,medium,large")
    words.add_argument("--times", type=int, default=5)
    words.add_argument("--seed", type=int, default=1)
    given = words.parse_args()
    programs = given.program or [f"{ROOT}/crates/seatdesk/out/seatdesk"]
    sizes = given.sizes.split(",")
    if given.times < 1 or any(it not in SIZES for it in sizes):
        words.error(f"sizes are {', '.join(SIZES)}, and a row is taken once or more")
    folders = {it: f"{given.folder}/{it}" for it in [*sizes, "large"]}
    for size, folder in folders.items():
        os.makedirs(folder, exist_ok=True)
        # (in a process of its own: what it holds would count in the peaks)
        maker = multiprocessing.Process(target=write_inputs, args=(folder, *SIZES[size], given.seed))
        maker.start()
        maker.join()
        if maker.exitcode:
            sys.exit(1)
    yards = []

    def yardstick():
        check, source = commands(folders["large"])["check"]
        yards.extend(take([programs[0], *check], source, f"{given.folder}/written.txt") for _ in range(given.times))

    taken = {}
    yardstick()
    for size in sizes:
        for row in ROWS:
            taken[size, row] = rows(given.folder, programs, given.times, row, *commands(folders[size])[row])
            print(size, row, taken[size, row], file=sys.stderr, flush=True)
            yardstick()
    yard = statistics.median(yards)
    print(f"yardstick: `check` of the large set, {yard:.3f} s of processor time (from {min(yards):.3f} to {max(yards):.3f})\n")
    print(f"| Size | What |{' Processor, peak, yardsticks |' * len(programs)}")
    print(f"|---|---|{'---|' * len(programs)}")
    for (size, row), each in taken.items():
        cells = (f" {used:.3f} s, {most:.0f} MB, {used / yard:.2f} |" for used, most in each.values())
        print(f"| {size} | `{row}` |{''.join(cells)}")


if __name__ == "__main__":
    main()
