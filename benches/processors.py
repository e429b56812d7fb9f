#!/usr/bin/env python3
"""Times commands that replay a journal on one processor and on more, and prints a table for docs/BENCHMARKS.md.

    benches/processors.py FOLDER --program FILE [--program FILE] [--flights N] [--lines N] [--times N]

FOLDER gets the inputs: a season of N dated flights (93,000) by benches/season.py, and limits and a journal of N lines (900,000) by
benches/journal.py. Each row is taken N times (5) by each program in turn, held to so many processors by taskset, and has the least wall
time, the least processor time (user and system) and the peak memory of its runs.
"""
import argparse
import os
import subprocess
import sys
import time

from recovery import write_inputs

OVER = "--set season --limits limits --first 2024-03-01 --days 200".split()
ROWS = {
    "audit": ["audit", *OVER, "journal"],
    "rooms, one day": ["rooms", *OVER, "--day", "2024-03-01", "journal"],
    "bookings, one locator": ["bookings", *OVER, "--locator", "A00001", "journal"],
    "why, the last line": ["why", *OVER, "--line", "LAST", "journal"],
    "seal": ["seal", *OVER, "journal"],
    "run behind it, no request": ["run", *OVER, "--after", "journal", "--today", "2024-03-01", "--journal", "OUT", "empty"],
}
# What a row writes, which goes before the next.
WRITTEN = "OUT", "OUT.seal", "journal.seal"


def measured(program, processors, folder, words):
    """Wall and processor seconds, and the peak in MB."""
    for name in WRITTEN:
        if os.path.exists(f"{folder}/{name}"):
            os.remove(f"{folder}/{name}")
    words = ["taskset", "-c", f"0-{processors - 1}", program, *words]
    began = time.monotonic()
    run = subprocess.Popen(words, cwd=folder, stdin=subprocess.DEVNULL, stdout=subprocess.DEVNULL, stderr=subprocess.PIPE)
    said = run.stderr.read()
    _, status, used = os.wait4(run.pid, 0)
    wall = time.monotonic() - began
    run.returncode = os.waitstatus_to_exitcode(status)
    if run.returncode:
        sys.exit(f"{' '.join(words)}: status {run.returncode}, {said.decode()}")
    return wall, used.ru_utime + used.ru_stime, used.ru_maxrss / 1000


def main():
    words = argparse.ArgumentParser(description=__doc__, formatter_class=argparse.RawDescriptionHelpFormatter)
    words.add_argument("folder")
    words.add_argument("--program", action="append", required=True)
    words.add_argument("--flights", type=int, default=93_000)
    words.add_argument("--lines", type=int, default=900_000)
    words.add_argument("--times", type=int, default=5)
    asked = words.parse_args()
    write_inputs(asked.folder, asked.flights, asked.lines)
    with open(f"{asked.folder}/empty", "w", encoding="ascii"):
        pass
    programs = [os.path.abspath(it) for it in asked.program]
    taken = {}
    for _ in range(asked.times):
        for name, row in ROWS.items():
            row = [str(asked.lines) if word == "LAST" else word for word in row]
            for processors in range(1, (os.cpu_count() or 1) + 1) if name == "audit" else [os.cpu_count() or 1]:
                for program in programs:
                    taken.setdefault((name, processors, program), []).append(measured(program, processors, asked.folder, row))
    print("| What | Processors | Program | Wall | Processor | Peak |\n|---|---|---|---|---|---|")
    for (name, processors, program), runs in taken.items():
        wall, used, peak = min(it[0] for it in runs), min(it[1] for it in runs), max(it[2] for it in runs)
        print(f"| `{name}` | {processors} | {asked.program[programs.index(program)]} | {wall:.2f} s | {used:.2f} s | {peak:.0f} MB |")


if __name__ == "__main__":
    main()
