#!/usr/bin/env python3
"""Times `carry` of a long journal beside `audit` of the same one, and prints a table for docs/BENCHMARKS.md.

    benches/carrying.py FOLDER [--lines N] [--flights N] [--times N] [--seed N] [--program FILE]

FOLDER gets the inputs of benches/run.py, the same for the same seed: a season with so many dated flights (93,000), and N request lines
(900,000) in eight scripts, which a run books once into a journal. It is carried

    onto the same season   as a full journal is rolled over: the report alone, and the whole
    to a later first day   of the same schedule, 20 days on: who departed by then stays behind
    to another schedule    of 50 flight numbers one is gone and two stop once more on their way, and a quarter of the legs have other limits

Each row is the median of N runs (5), in turn, so that what else the machine does is met by all of them. Ahead of each carry, and not
timed, the old journal's seal is put back as it was, and the new journal is taken away. A carry is to take no more than 1.5 times what
the audit takes: the last column is the median of what it took of the audit that ran ahead of it.
"""
import argparse
import datetime
import multiprocessing
import os
import random
import shutil
import statistics
import subprocess
import sys
import time

import run
import season

ROOT = os.path.dirname(os.path.dirname(os.path.abspath(__file__)))
LATER = datetime.timedelta(20)
OTHER_LADDERS = ["F034/004 Y026/010 M018/008", "F030/004 Y028/012 M014/002", "F030/004 M026/008 Y018/010", "F024/004 Y020/004 M018/008"]


def write_set(path, chains):
    """The data set of benches/season.py with these stations of each flight number."""
    period = "01MAR24" + season.LAST
    lines = [season.record([(1, "1"), (2, "AIRLINE STANDARD SCHEDULE DATA SET"), (41, "1"), (192, "001")], 1), season.record([(1, "2"), (2, "L"), (3, "XX "), (15, period)], 2)]
    for number, stations in chains.items():
        for leg, (board, off) in enumerate(zip(stations, stations[1:])):
            lines.append(season.record([
                (1, "3"), (3, "XX "), (6, f"{number:4}"), (10, f"01{leg + 1:02}"), (15, period), (29, "1234567"), (37, board), (44, f"{6 + 4 * leg:02}00+0000"), (55, off), (193, "00"),
            ], len(lines) + 1))
    lines.append(season.record([(1, "5"), (3, "XX "), (188, f"{len(lines):06}E")], len(lines) + 1))
    with open(path, "w", encoding="ascii") as out:
        out.write("\n".join(lines) + "\n")


def other_chains(chance, chains):
    """Another schedule: some flight numbers are gone, some stop at one more station."""
    found, stops = {}, [f"Q{first}{second}" for first in "ABCDEFGH" for second in "STUVWXYZ"]
    for number, stations in chains.items():
        lot = chance.random()
        if lot >= 0.02:
            found[number] = [stations[0], chance.choice(stops), *stations[1:]] if lot < 0.06 and len(stations) < 4 else stations
    return found


def write_other(folder, chains, seed):
    chance = random.Random(seed + 1)
    chains = other_chains(chance, chains)
    write_set(f"{folder}/other.ssim", chains)
    with open(f"{folder}/other-limits.txt", "w", encoding="ascii") as out:
        for number, stations in chains.items():
            for board, off in zip(stations, stations[1:]):
                ladder = chance.choice(OTHER_LADDERS) if chance.random() < 0.25 else run.LADDER
                out.write(f"AU XX{number} 01MAR24 {season.LAST} {board}{off} {ladder}\n")


def write_season(folder, name, of, limits, first=run.FIRST):
    with open(f"{folder}/{name}.toml", "w", encoding="ascii") as out:
        out.write(f'set = "{of}"\nlimits = "{limits}"\nfirst = {first}\ndays = {run.DAYS}\n')


def write_inputs(folder, lines, flights, seed):
    run.write_inputs(folder, lines, flights, [run.PARTS], 0, seed)
    write_other(folder, run.chains_of(f"{folder}/season.ssim"), seed)
    write_season(folder, "old", "season.ssim", "limits.txt")
    write_season(folder, "later", "season.ssim", "limits.txt", run.FIRST + LATER)
    write_season(folder, "other", "other.ssim", "other-limits.txt")


def words_of(folder, to, today, *more):
    return ["carry", "--from", f"{folder}/old.toml", "--to", f"{folder}/{to}.toml", "--today", str(today), "--journal", f"{folder}/new.txt", *more, f"{folder}/journal.txt"]


def rows(folder):
    return {
        "audit": ["audit", "--season", f"{folder}/old.toml", f"{folder}/journal.txt"],
        "carry, the report alone": words_of(folder, "old", run.FIRST, "--dry-run"),
        "carry, onto the same season": words_of(folder, "old", run.FIRST),
        "carry, to a later first day": words_of(folder, "later", run.FIRST + LATER),
        "carry, to another schedule": words_of(folder, "other", run.FIRST, "--displace"),
    }


def put_back(folder):
    """What stood there ahead of a carry, and nothing that is still on its way to the disk."""
    for name in ("new.txt", "new.txt.seal"):
        if os.path.exists(f"{folder}/{name}"):
            os.remove(f"{folder}/{name}")
    shutil.copyfile(f"{folder}/sealed", f"{folder}/journal.txt.seal")
    os.sync()


def take(words, out):
    """Wall seconds, processor seconds and peak MB of one command."""
    with open(out, "wb") as to:
        began = time.monotonic()
        child = subprocess.Popen(["/usr/bin/time", "--format", "%M", "--output", f"{out}.peak", *words], stdin=subprocess.DEVNULL, stdout=to)
        _, ended, used = os.wait4(child.pid, 0)
        wall = time.monotonic() - began
    if ended:
        sys.exit(f"{' '.join(words)}: status {os.waitstatus_to_exitcode(ended)}")
    with open(f"{out}.peak", encoding="ascii") as said:
        return wall, used.ru_utime + used.ru_stime, int(said.read().split()[-1]) / 1024


def last_line(path):
    with open(path, "rb") as it:
        it.seek(max(0, os.path.getsize(path) - 4096))
        return it.read().decode("ascii").splitlines()[-1]


def main():
    words = argparse.ArgumentParser(description=__doc__, formatter_class=argparse.RawDescriptionHelpFormatter)
    words.add_argument("folder")
    words.add_argument("--lines", type=int, default=900_000)
    words.add_argument("--flights", type=int, default=93_000)
    words.add_argument("--times", type=int, default=5)
    words.add_argument("--seed", type=int, default=1)
    words.add_argument("--program", default=f"{ROOT}/crates/seatdesk/out/seatdesk")
    given = words.parse_args()
    if not 1 <= given.lines <= 999_999:
        words.error("1 to 999999 lines")
    folder, out = given.folder, f"{given.folder}/written.txt"
    os.makedirs(folder, exist_ok=True)
    # (in a process of its own: what it holds would count in the peaks)
    maker = multiprocessing.Process(target=write_inputs, args=(folder, given.lines, given.flights, given.seed))
    maker.start()
    maker.join()
    if maker.exitcode:
        sys.exit(1)
    for name in ("journal.txt", "journal.txt.seal"):
        if os.path.exists(f"{folder}/{name}"):
            os.remove(f"{folder}/{name}")
    scripts = [run.script(folder, run.PARTS, part) for part in range(run.PARTS)]
    take([given.program, "run", "--season", f"{folder}/old.toml", "--today", str(run.FIRST), "--journal", f"{folder}/journal.txt", *scripts], out)
    shutil.copyfile(f"{folder}/journal.txt.seal", f"{folder}/sealed")
    asked = rows(folder)
    taken, said = {row: [] for row in asked}, {}
    for _ in range(given.times):
        for row, line in asked.items():
            put_back(folder)
            taken[row].append(take([given.program, *line], out))
            said[row] = last_line(out)
    for row, line in said.items():
        print(f"{row}: {line}")
    print("\n| What | Wall | Processor | Peak | Of the audit: wall, processor |\n|---|---|---|---|---|")
    for row, each in taken.items():
        wall, used, _ = (statistics.median(it[at] for it in each) for at in range(3))
        of = [statistics.median(it[at] / audit[at] for it, audit in zip(each, taken["audit"])) for at in range(2)]
        print(f"| `{row}` | {wall:.2f} s | {used:.2f} s | {max(it[2] for it in each):.0f} MB | {of[0]:.2f}, {of[1]:.2f} |")


if __name__ == "__main__":
    main()
