#!/usr/bin/env python3
"""Times a run that goes on from the journal of the day ahead, and audits against scripts, and prints a table for docs/BENCHMARKS.md.

    benches/days.py FOLDER [--lines N] [--flights N] [--times N] [--seed N] [--program FILE]

FOLDER gets the inputs of benches/run.py, the same for the same seed: a season with so many dated flights (46,000), and N request
lines (450,000) in eight scripts. Each script is cut in two between two messages: the first half is asked on one day, the
second on the next, behind the journal of the first.

Going on from a journal may cost what booking its lines costs, so the second day is held against one run of both halves. An audit
with scripts is held against the audit and the reading of the scripts; what reading them takes is that of an audit of no
line with scripts (which is P8, at the first call) less that of one without. Each row is the median of N runs (5), in turn.
"""
import argparse
import multiprocessing
import os
import statistics
import subprocess
import sys

import run

ROOT = os.path.dirname(os.path.dirname(os.path.abspath(__file__)))
PARTS = run.PARTS


def halves(folder, part):
    """Cuts a script between two messages, near its middle."""
    with open(run.script(folder, PARTS, part), encoding="ascii") as whole:
        messages = whole.read().split("\n\n")
    middle = len(messages) // 2
    for day, text in enumerate((messages[:middle], messages[middle:]), 1):
        with open(half(folder, part, day), "w", encoding="ascii") as out:
            out.write("\n\n".join(text) + "\n")


def half(folder, part, day):
    return f"{folder}/day-{day}-{part + 1}.txt"


def write_inputs(folder, lines, flights, seed):
    run.write_inputs(folder, lines, flights, [PARTS], 0, seed)
    for part in range(PARTS):
        halves(folder, part)
    with open(f"{folder}/empty.txt", "w", encoding="ascii") as out:
        out.write("SEATJOURNAL 2\nEND 0\n")


def rows(folder):
    """The words of each row, and the status that it ends with."""
    horizon = ["--set", f"{folder}/season.ssim", "--limits", f"{folder}/limits.txt", "--first", str(run.FIRST), "--days", str(run.DAYS)]
    today = ["--today", str(run.FIRST)]
    whole = [run.script(folder, PARTS, part) for part in range(PARTS)]
    first, second = ([half(folder, part, day) for part in range(PARTS)] for day in (1, 2))
    journals = {it: f"{folder}/{it}.txt" for it in ("whole", "first", "second", "empty")}
    return {
        "run, both halves at once": (["run", *horizon, *today, "--journal", journals["whole"], *whole], 0),
        "run, the first half": (["run", *horizon, *today, "--journal", journals["first"], *first], 0),
        "run, the second half behind it": (["run", *horizon, "--after", journals["first"], *today, "--journal", journals["second"], *second], 0),
        "audit": (["audit", *horizon, journals["second"]], 0),
        "audit, with scripts": (["audit", *horizon, *today, journals["whole"], *whole], 0),
        "audit, with scripts behind the first half": (["audit", *horizon, "--after", journals["first"], *today, journals["second"], *second], 0),
        "audit, no line": (["audit", *horizon, journals["empty"]], 0),
        "audit, no line, with scripts": (["audit", *horizon, *today, journals["empty"], *whole], 1),
    }


def take(words, status, out):
    """Processor seconds and peak MB of one run."""
    with open(out, "wb") as to:
        child = subprocess.Popen(["/usr/bin/time", "--format", "%M", "--output", f"{out}.peak", *words], stdin=subprocess.DEVNULL, stdout=to, stderr=to)
        _, ended, used = os.wait4(child.pid, 0)
    if os.waitstatus_to_exitcode(ended) != status:
        sys.exit(f"{' '.join(words)}: status {os.waitstatus_to_exitcode(ended)}")
    with open(f"{out}.peak", encoding="ascii") as said:
        return used.ru_utime + used.ru_stime, int(said.read().split()[-1]) / 1024


def main():
    words = argparse.ArgumentParser(description=__doc__, formatter_class=argparse.RawDescriptionHelpFormatter)
    words.add_argument("folder")
    words.add_argument("--lines", type=int, default=450_000)
    words.add_argument("--flights", type=int, default=46_000)
    words.add_argument("--times", type=int, default=5)
    words.add_argument("--seed", type=int, default=1)
    words.add_argument("--program", default=f"{ROOT}/crates/seatdesk/out/seatdesk")
    given = words.parse_args()
    os.makedirs(given.folder, exist_ok=True)
    maker = multiprocessing.Process(target=write_inputs, args=(given.folder, given.lines, given.flights, given.seed))
    maker.start()
    maker.join()
    if maker.exitcode:
        sys.exit(1)
    asked = rows(given.folder)
    taken = {row: [] for row in asked}
    for _ in range(given.times):
        for row, (line, status) in asked.items():
            taken[row].append(take([given.program, *line], status, f"{given.folder}/written.txt"))
    print("| What | Processor | Peak |\n|---|---|---|")
    median = {}
    for row, each in taken.items():
        median[row] = statistics.median(used for used, _ in each)
        print(f"| `{row}` | {median[row]:.2f} s | {max(most for _, most in each):.0f} MB |")
    going = median["run, the second half behind it"] / median["run, both halves at once"]
    reading = median["audit, no line, with scripts"] - median["audit, no line"]
    against = median["audit, with scripts"] / (median["audit"] + reading)
    print(f"\nthe second half behind the first, of both at once: {going:.2f}; audit with scripts, of audit and reading: {against:.2f}")


if __name__ == "__main__":
    main()
