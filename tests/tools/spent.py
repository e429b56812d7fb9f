#!/usr/bin/env python3
"""What the checks that a process begins take of a processor:

    tests/tools/spent.py PID

Looks at the processes below PID once a second, until it is told to end (SIGTERM) or PID is gone, and then prints a line for every few crates: the seconds of
a crate's own check, behind + those of its tests and of the building of a program, and behind ! those of its wrong bodies, how many checks these were. The
last line is the sums, and what rt itself took. Without /proc it prints nothing.
"""
import collections
import os
import signal
import sys
import time

TICK = os.sysconf("SC_CLK_TCK")
IN_A_LINE = 8


class Told(Exception):
    pass


def tell(_number, _frame):
    raise Told


def stat_of(pid):
    """The parent of a process, when it began, and its seconds so far."""
    with open(f"/proc/{pid}/stat", encoding="utf-8", errors="replace") as it:
        words = it.read().rpartition(")")[2].split()
    return int(words[1]), words[19], (int(words[11]) + int(words[12])) / TICK


def words_of(pid):
    with open(f"/proc/{pid}/cmdline", "rb") as it:
        return it.read().decode(errors="replace").split("\0")


def kind_of(pid, words):
    """Of which crate a check is, and which: its own, that of its tests or a build, or one of a wrong body, which is tried in a folder of its own."""
    name = words[words.index("--crate-name") + 1]
    if os.path.basename(os.readlink(f"/proc/{pid}/cwd")).startswith("rt-edit-"):
        return name, "!"
    is_other = "--test" in words or "--crate-checked" in words
    return name, "+" if is_other else ""


def look(top, seen, kinds):
    """Notes what each check below this process has taken until now."""
    parents, now = {}, {}
    for pid in filter(str.isdigit, os.listdir("/proc")):
        try:
            parents[pid], began, seconds = stat_of(pid)
        except (OSError, ValueError, IndexError):
            continue
        now[pid] = (began, seconds)
    for pid, (began, seconds) in now.items():
        above = pid
        while above in parents and above != top:
            above = str(parents[above])
        if above != top or pid == top:
            continue
        try:
            if (pid, began) not in kinds:
                words = words_of(pid)
                if "--crate-name" in words and words[1] in ("check", "build"):
                    kinds[pid, began] = kind_of(pid, words)
                elif len(words) > 2 and os.path.basename(words[1]) == "rt":
                    kinds[pid, began] = ("rt", "")
                else:
                    continue
            seen[pid, began] = seconds
        except (OSError, ValueError, IndexError):
            continue


def lines_of(seen, kinds):
    spent, counted = collections.Counter(), collections.Counter()
    for key, seconds in seen.items():
        spent[kinds[key]] += seconds
        counted[kinds[key]] += 1
    sums = collections.Counter()
    texts = []
    for name in sorted({it for it, _ in spent} - {"rt"}):
        text = f"{name} {spent[name, '']:.0f}"
        if spent[name, "+"]:
            text += f" +{spent[name, '+']:.0f}"
        if spent[name, "!"]:
            text += f" !{spent[name, '!']:.0f}/{counted[name, '!']}"
        texts.append(text)
        for kind in ("", "+", "!"):
            sums[kind] += spent[name, kind]
    for at in range(0, len(texts), IN_A_LINE):
        yield "; ".join(texts[at : at + IN_A_LINE])
    if texts:
        yield f"processor seconds: {sums['']:.0f} +{sums['+']:.0f} !{sums['!']:.0f}, rt {spent['rt', '']:.0f}"


def main():
    if len(sys.argv) != 2 or not os.path.isdir("/proc/self"):
        return
    top, seen, kinds = sys.argv[1], {}, {}
    signal.signal(signal.SIGTERM, tell)
    try:
        while os.path.isdir(f"/proc/{top}"):
            look(top, seen, kinds)
            time.sleep(1)
    except Told:
        pass
    for line in lines_of(seen, kinds):
        print(line)


main()
