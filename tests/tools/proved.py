"""The proved program that a test runs."""
import os
import subprocess
import sys

ROOT = os.path.dirname(os.path.dirname(os.path.dirname(os.path.abspath(__file__))))


def refuse(doc):
    """Shows how the test is called, and ends it."""
    print(doc, end="", file=sys.stderr)
    sys.exit(2)


def program_of(words, known, doc):
    """The program that '--program FILE' ahead of the words names, else the proved one, which is built where it is missing
    or its sources changed; and the words behind it, each of which must be known."""
    named = words[1] if words[:1] == ["--program"] and len(words) > 1 else None
    words = words[2:] if named else words
    if not set(words) <= set(known):
        refuse(doc)
    if named:
        return os.path.abspath(named), words
    it = subprocess.run([f"{ROOT}/seatdesk", "--version"], stdin=subprocess.DEVNULL, stdout=subprocess.DEVNULL)
    program = f"{ROOT}/crates/seatdesk/out/seatdesk"
    if it.returncode == 125 or not os.path.isfile(program):
        print(f"{os.path.relpath(sys.argv[0], ROOT)}: the program was not built\n0 passed, 1 failed", flush=True)
        sys.exit(2)
    return program, words
