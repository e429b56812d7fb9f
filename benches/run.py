#!/usr/bin/env python3
"""Runs scripts of one set of lines in several sessions, and prints wall time, processor time and peak memory of each run.

    benches/run.py FOLDER [--lines N] [--flights N] [--scripts N,N,..] [--changes N] [--times N] [--seed N]
                         [--program FILE]

FOLDER gets the inputs, the same for the same seed: a season of benches/season.py with so many dated flights (93,000),
limits on all legs, and eight parts of messages with N request lines in all (900,000). A run with 1, 2, 4 or 8 scripts
(8,4,2 by default) has the same parts, joined: a script holds at most 16 MiB, so one script alone has at most some
600,000 lines. Each run is made so many times (3), and its fastest is printed; behind it the journal is audited.

A part has messages of one to six lines. Of ten lines about six need seats, two are sales that may wait, one is a listing, and
one cancels seats that an earlier message of the part asked for. A tenth of the lines are for 50 popular flights.

With --changes N a manager makes N changes of limits beside the scripts (0): a tenth of them on popular flights.
"""
import argparse
import datetime
import multiprocessing
import os
import random
import subprocess
import sys
import time

from ladder import locator

ROOT = os.path.dirname(os.path.dirname(os.path.abspath(__file__)))
MONTHS = "JAN FEB MAR APR MAY JUN JUL AUG SEP OCT NOV DEC".split()
FIRST, DAYS, PARTS = datetime.date(2024, 3, 1), 200, 8
LADDER = "F030/004 Y026/010 M018/008"


def chains_of(season):
    """The stations of each flight number, by leg."""
    chains = {}
    with open(season, encoding="ascii") as lines:
        for line in lines:
            if line[0] == "3":
                chains.setdefault(int(line[5:9]), [line[36:39]]).append(line[54:57])
    return chains


def write_limits(path, chains):
    with open(path, "w", encoding="ascii") as out:
        for number, stations in chains.items():
            for board, off in zip(stations, stations[1:]):
                out.write(f"AU XX{number} 01MAR24 16SEP24 {board}{off} {LADDER}\n")


def place(chance, chains, popular):
    """A flight, a class, a day and a pair, as a segment line begins."""
    number, day = chance.choice(popular) if chance.random() < 0.1 else (1 + chance.randrange(len(chains)), chance.randrange(DAYS))
    stations = chains[number]
    board = chance.randrange(len(stations) - 1)
    off = chance.randrange(board + 1, len(stations))
    day = FIRST + datetime.timedelta(day)
    return f"XX{number}{chance.choice('FYYMM')}{day.day:02}{MONTHS[day.month - 1]} {stations[board]}{stations[off]}"


def part(chance, chains, popular, lines, names, place=place):
    """The messages of one part, with so many request lines, each on a flight that `place` draws."""
    asked, left, messages = [], lines, []
    while left:
        if asked and chance.random() < 0.25:
            name, segment, seats = asked.pop(chance.randrange(len(asked)))
            messages.append(f"HDQXX {name}\n{segment} XX{chance.randint(1, seats)}\n")
            left -= 1
            continue
        name, body = locator(next(names)), []
        for _ in range(min(left, chance.randint(1, 6))):
            seats, segment = chance.choices((1, 2, 3, 4), (5, 3, 1, 1))[0], place(chance, chains, popular)
            body.append(f"{segment} {chance.choices(('NN', 'SS', 'LL'), (7, 2, 1))[0]}{seats}\n")
            asked.append((name, segment, seats))
        left -= len(body)
        messages.append(f"HDQXX {name}\n{''.join(body)}")
    return "\n".join(messages) + "\n"


def write_inputs(folder, lines, flights, counts, changes, seed):
    """Season, limits, changes of them, and the scripts of each number of sessions."""
    with open(f"{folder}/season.ssim", "wb") as to:
        subprocess.run([f"{ROOT}/benches/season.py", str(flights), str(seed)], stdout=to, check=True)
    chains = chains_of(f"{folder}/season.ssim")
    write_limits(f"{folder}/limits.txt", chains)
    chance, names = random.Random(seed), iter(range(1, 1_000_000))
    popular = [(1 + chance.randrange(len(chains)), chance.randrange(DAYS)) for _ in range(50)]
    sizes = [lines * (k + 1) // PARTS - lines * k // PARTS for k in range(PARTS)]
    parts = [part(chance, chains, popular, size, names) for size in sizes]
    for count in counts:
        for k in range(count):
            with open(script(folder, count, k), "w", encoding="ascii") as out:
                out.write("\n".join(parts[PARTS // count * k : PARTS // count * (k + 1)]))
    write_changes(f"{folder}/changes.txt", chains, popular, changes, chance)


def write_changes(path, chains, popular, count, chance):
    """Rows that change the limit of a class on one leg: a little up or down, now and then closed."""
    with open(path, "w", encoding="ascii") as out:
        for _ in range(count):
            number, day = chance.choice(popular) if chance.random() < 0.1 else (1 + chance.randrange(len(chains)), chance.randrange(DAYS))
            stations, day = chains[number], FIRST + datetime.timedelta(day)
            leg = chance.randrange(len(stations) - 1)
            entry = chance.choice(("Y028/010", "Y024/008", "M020/008", "M016/004", "M000/000", "F032/004"))
            month = MONTHS[day.month - 1]
            out.write(f"AU XX{number} {day.day:02}{month}{day:%y} {stations[leg]}{stations[leg + 1]} {entry}\n")


def script(folder, count, k):
    return f"{folder}/script-{count}-{k + 1}.txt"


def run(words, out):
    """Wall seconds, processor seconds and peak MB of one run, whose standard output is the file `out`."""
    with open(out, "wb") as to:
        began = time.monotonic()
        child = subprocess.Popen(words, stdin=subprocess.DEVNULL, stdout=to)
        _, status, used = os.wait4(child.pid, 0)
        wall = time.monotonic() - began
    if status:
        sys.exit(f"{' '.join(words)}: status {status}")
    return wall, used.ru_utime + used.ru_stime, used.ru_maxrss / 1024


def main():
    words = argparse.ArgumentParser(description=__doc__, formatter_class=argparse.RawDescriptionHelpFormatter)
    words.add_argument("folder")
    words.add_argument("--lines", type=int, default=900_000)
    words.add_argument("--flights", type=int, default=93_000)
    words.add_argument("--scripts", default="8,4,2")
    words.add_argument("--changes", type=int, default=0)
    words.add_argument("--times", type=int, default=3)
    words.add_argument("--seed", type=int, default=1)
    words.add_argument("--program", default=f"{ROOT}/crates/seatdesk/out/seatdesk")
    given = words.parse_args()
    counts = [int(it) for it in given.scripts.split(",")]
    if not 1 <= given.lines <= 999_999 - given.changes or given.changes < 0 or any(it not in (1, 2, 4, 8) for it in counts):
        words.error("1 to 999999 lines with the changes, in 1, 2, 4 or 8 scripts")
    os.makedirs(given.folder, exist_ok=True)
    # (in a process of its own: what it holds would count in the peaks)
    maker = multiprocessing.Process(target=write_inputs, args=(given.folder, given.lines, given.flights, counts, given.changes, given.seed))
    maker.start()
    maker.join()
    if maker.exitcode:
        sys.exit(1)
    season, limits, journal, replies = (f"{given.folder}/{it}" for it in ("season.ssim", "limits.txt", "journal.txt", "replies.txt"))
    horizon = ["--set", season, "--limits", limits, "--first", str(FIRST), "--days", str(DAYS)]
    beside = ["--changes", f"{given.folder}/changes.txt"] if given.changes else []
    total = given.lines + given.changes
    print(f"{given.lines} lines and {given.changes} changes over {given.flights} dated flights", flush=True)
    for count in counts:
        scripts = [script(given.folder, count, k) for k in range(count)]
        line = [given.program, "run", *horizon, "--today", str(FIRST), *beside, "--journal", journal, *scripts]
        wall, used, peak = min(run(line, replies) for _ in range(given.times))
        print(f"{count} scripts: {wall:.2f} s wall, {used:.2f} s processor, {peak:.0f} MB peak, {wall / total * 1e6:.2f} microseconds a line")
        wall, used, peak = run([given.program, "audit", *horizon, journal], replies)
        with open(replies, encoding="ascii") as said:
            print(f"    audit: {said.read().strip()}, {wall:.2f} s wall, {used:.2f} s processor, {peak:.0f} MB peak", flush=True)


if __name__ == "__main__":
    main()
