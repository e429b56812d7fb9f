#!/usr/bin/env python3
"""The dearest functions of a crate, by its last check:

    tests/tools/dear.py CRATE..          those of five seconds and more
    tests/tools/dear.py --over N CRATE.. those of N seconds and more

A check keeps each part of a proof in out/incremental once it is done with it, so a part took what lies between it and the one ahead. The seconds
are those of the clock: after one check from nothing by one job (`rt check --jobs 1` where out/ is not there), with nothing beside it, they
are its processor's too. What an earlier check kept is not seen. Each line has the seconds of the function, and of them those of its steps (`Lts`),
which grow with its body, and of its goals (`Proof`), which grow with its clauses.
"""
import collections
import glob
import os
import sys

ROOT = os.path.dirname(os.path.dirname(os.path.dirname(os.path.abspath(__file__))))


def parts_of(crate):
    """When each part was kept, and its name, the first one first."""
    files = glob.glob(f"{ROOT}/crates/{crate}/out/incremental/*/*.oantt")
    return sorted((os.stat(it).st_mtime, os.path.basename(it)[: -len(".oantt")]) for it in files)


def function_of(name, crate):
    """The function that a part is of, and the part's own name; of a file of specs/ or proofs/ that file."""
    for folder in ("proofs", "specs"):
        head = f"Rattle-{crate}-{folder}."
        if name.startswith(head):
            path, _, last = name[len(head) :].rpartition(".")
            return path or f"{folder}/{last}", last
    return "the crate itself", name


def dear(crate, over):
    parts = parts_of(crate)
    spent = collections.defaultdict(collections.Counter)
    for (before, _), (kept, name) in zip(parts, parts[1:]):
        function, part = function_of(name, crate)
        spent[function][part] += kept - before
    sums = sorted(((sum(it.values()), function) for function, it in spent.items()), reverse=True)
    for seconds, function in sums:
        if seconds >= over:
            of = spent[function]
            print(f"{crate}  {seconds:6.1f} s  steps {of['Lts']:5.1f}  goals {of['Proof']:5.1f}  {function}")
    print(f"{crate}  {sum(it for it, _ in sums):6.1f} s in all, {len(parts)} parts" if parts else f"{crate}: nothing is kept of a check of it")


def main(words):
    over = 5.0
    if words[:1] == ["--over"]:
        over, words = float(words[1]), words[2:]
    if not words:
        sys.exit(__doc__)
    for crate in words:
        dear(crate, over)


if __name__ == "__main__":
    main(sys.argv[1:])
