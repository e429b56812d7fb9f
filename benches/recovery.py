#!/usr/bin/env python3
"""Times `recover` beside `audit` of the same lines, and prints a table for docs/BENCHMARKS.md.

    benches/recovery.py FOLDER [--program FILE] [--flights N] [--lines N] [--times N]

FOLDER gets the inputs: a season of N dated flights (93,000) by benches/season.py, and limits and a journal of N lines (900,000) by
benches/journal.py, once as it is and once without its END line, with the beginning of a line more; each alone and beside its seal, of which that of
the latter is open. Each row is taken N times (5), in
turn with the others; a recovery is of a new copy each time, which is on the disk. A row has the least wall time, processor time (user and
system) and peak memory of its runs, and how many times as much that is as `audit`'s.
"""
import argparse
import hashlib
import os
import shutil
import subprocess
import sys
import time

ROOT = os.path.dirname(os.path.dirname(os.path.abspath(__file__)))
OVER = "--set season --limits limits --first 2024-03-01 --days 200".split()
TORN = b"900001 1 1 A000"


def measured(program, folder, words):
    """Wall and processor seconds, and the peak in MB."""
    began = time.monotonic()
    run = subprocess.Popen([program, *words], cwd=folder, stdin=subprocess.DEVNULL, stdout=subprocess.PIPE, stderr=subprocess.PIPE)
    said = run.stdout.read() + run.stderr.read()
    _, status, used = os.wait4(run.pid, 0)
    wall = time.monotonic() - began
    run.returncode = os.waitstatus_to_exitcode(status)
    if run.returncode:
        sys.exit(f"{' '.join(words)}: status {run.returncode}, {said.decode()}")
    return wall, used.ru_utime + used.ru_stime, used.ru_maxrss / 1000


def write_inputs(folder, flights, lines):
    os.makedirs(folder, exist_ok=True)
    with open(f"{folder}/season", "w", encoding="ascii") as out:
        subprocess.run([sys.executable, f"{ROOT}/benches/season.py", str(flights)], check=True, stdout=out)
    subprocess.run([sys.executable, f"{ROOT}/benches/journal.py", "season", str(flights), str(lines), "limits", "journal"], check=True, cwd=folder)
    with open(f"{folder}/journal", "rb") as it:
        text = it.read()
    with open(f"{folder}/open", "wb") as out:
        out.write(text[:text.rindex(b"END ")] + TORN)


def seals_of(program, folder):
    """The seal of the whole journal, and that of the same lines to which more are added."""
    subprocess.run([program, "seal", *OVER, "journal"], check=True, cwd=folder, stdin=subprocess.DEVNULL, stdout=subprocess.DEVNULL)
    with open(f"{folder}/journal.seal", "rb") as it:
        closed = it.read()
    lines = closed[: closed.index(b"digest ")].replace(b" closed\n", b" open\n")
    return {"journal": closed, "copy": lines + b"digest %s\n" % hashlib.sha256(lines).hexdigest().encode()}


def main():
    words = argparse.ArgumentParser(description=__doc__, formatter_class=argparse.RawDescriptionHelpFormatter)
    words.add_argument("folder")
    words.add_argument("--program", default=f"{ROOT}/crates/seatdesk/out/seatdesk")
    words.add_argument("--flights", type=int, default=93_000)
    words.add_argument("--lines", type=int, default=900_000)
    words.add_argument("--times", type=int, default=5)
    asked = words.parse_args()
    program = os.path.abspath(asked.program)
    write_inputs(asked.folder, asked.flights, asked.lines)
    rows = {
        "audit": ("journal", ["audit", *OVER, "journal"]),
        "audit --open": ("open", ["audit", *OVER, "--open", "open"]),
        "recover": ("copy", ["recover", *OVER, "copy"]),
        "audit --sealed": ("journal", ["audit", *OVER, "--sealed", "journal"]),
        "recover beside its seal": ("copy", ["recover", *OVER, "copy"]),
    }
    seals = seals_of(program, asked.folder)
    taken = {name: [] for name in rows}
    for _ in range(asked.times):
        for name, (journal, row) in rows.items():
            for left in ("copy", "copy.torn-1", "copy.seal", "journal.seal"):
                if os.path.exists(f"{asked.folder}/{left}"):
                    os.remove(f"{asked.folder}/{left}")
            if "seal" in name:
                with open(f"{asked.folder}/{journal}.seal", "wb") as it:
                    it.write(seals[journal])
            shutil.copy(f"{asked.folder}/open", f"{asked.folder}/copy")
            with open(f"{asked.folder}/copy", "rb+") as copy:
                os.fsync(copy)
            taken[name].append(measured(program, asked.folder, row))
    least = [min(it) for it in zip(*taken["audit"])]
    print(f"| What, {asked.lines:,} lines over {asked.flights:,} flights | Wall | Processor | Peak | of `audit`'s |\n|---|---|---|---|---|")
    for name, runs in taken.items():
        wall, used, peak = (min(it) for it in zip(*runs))
        print(f"| `{name}` | {wall:.2f} s | {used:.2f} s | {peak:.0f} MB | {used / least[1]:.2f} times, {peak / least[2]:.2f} times |")


if __name__ == "__main__":
    main()
