#!/usr/bin/env python3
"""A client of a desk of 'seatdesk serve' on two named pipes. It books the messages of a script, each segment line once, wherever it or the host is
cut off: it numbers these lines, writes down what each was answered, and when it is started again goes on behind the last answer that it has.

    examples/desk.py IN OUT SCRIPT ANSWERS
    examples/desk.py --by COMMAND SCRIPT ANSWERS

COMMAND is a way to pipes that are elsewhere, as 'ssh london@host' with relay.py at its other end. ANSWERS, the memory, is made where it is not there. Its first
line has the number of the first call, the epoch of the journal that it is of and how many lines that had; then comes each answer, in the order of the script. A script may grow at its end, as long as
nothing else was booked for the desk since: then its calls have other numbers, and the client ends with an error. New lines behind those of another script are a new script, with a memory of its own.

A client that comes back asks for the advices behind the last line that it was told of, since a host that was killed may not have written them. One that is started again asks behind its last answer: what came behind that
is told to it once more.
"""
import fcntl
import os
import random
import re
import select
import shlex
import string
import subprocess
import sys
import time

SECONDS = 10  # of silence, behind which a host may be another
ADVICE = re.compile(r" KL\d+$")
SEGMENT = re.compile(r"[A-Z0-9]{2}\d{1,4}[A-Z]?[A-Z]\d\d[A-Z]{3} [A-Z]{6} [A-Z]{2}\d{1,3}")


def opened(path, way):
    """A pipe that is open for reading and for writing waits for nobody. One of another user may be open to us one way alone."""
    try:
        return os.open(path, os.O_RDWR)
    except PermissionError:
        return os.open(path, way)


class Desk:
    def __init__(self, into, out):
        self.way, self.rest, self.epoch, self.told = None, b"", "", None
        if into == "--by":
            self.way = subprocess.Popen(shlex.split(out), stdin=subprocess.PIPE, stdout=subprocess.PIPE)
            self.into, self.out = self.way.stdin.fileno(), self.way.stdout.fileno()
            return
        self.into, self.out = opened(into, os.O_WRONLY), opened(out, os.O_RDONLY)
        # a record lock keeps a second client away (the other kind is the host's)
        fcntl.lockf(self.into, fcntl.LOCK_EX)

    def gone(self):
        """No host has the pipes open."""
        if self.way:
            sys.exit("the way to the desk has ended: start the client again")
        time.sleep(1)

    def send(self, text):
        data = text.encode()
        while data:
            try:
                data = data[os.write(self.into, data) :]
            except BrokenPipeError:
                self.gone()

    def line(self):
        while b"\n" not in self.rest:
            if not select.select([self.out], [], [], SECONDS)[0]:
                return None
            more = os.read(self.out, 65536)
            if not more:
                self.gone()
                return None
            self.rest += more
        line, self.rest = self.rest.split(b"\n", 1)
        return line.decode()

    def hello(self):
        """Where the desk stands. No answer ahead of the READY that has our own word is ours."""
        while True:
            word = "".join(random.choices(string.ascii_uppercase, k=6))
            self.send(f"!\n?HELLO {word} {self.epoch}".rstrip() + "\n")
            for line in iter(self.line, None):
                if line.startswith(f"READY {word} "):
                    return line.split(" ")
                if line.endswith("!"):
                    break  # a host has started: another may have heard the word

    def seen(self, line):
        """The last line of the journal that the desk was told of."""
        if re.match(r"\d+ \d+ ", line):
            self.told = max(self.told or 0, int(line.split(" ")[1]))

    def advices(self):
        """What came behind the last answer: its own advices, which are told with it. Whether the host is there."""
        self.send("?HELLO BEHIND\n")
        for line in iter(self.line, None):
            if line.startswith("READY BEHIND "):
                return True
            # (a reply is that of a call which is sent again, and then told once more)
            if not re.match(r"\d+ \d+ ", line) or ADVICE.search(line):
                print(line)
            self.seen(line)
        return False

    def again(self):
        """What a host that was killed had not written. Whether this one is there."""
        if self.told is None:
            return True
        self.send(f"?AGAIN {self.told}\n")
        return self.advices()

    def answer(self, number):
        """What the line of this number is answered, or nothing where the host may have gone. An advice (KL) answers no line."""
        for line in iter(self.line, None):
            self.seen(line)
            if re.fullmatch(rf"FAULT (.* @{number}|(B1|H1|MEMORY) .*)", line) or re.match(r"\d+ \d+ ", line) and not ADVICE.search(line):
                return line
            print(line)
            if line.startswith("FAULT") or line.endswith("!"):
                return None
        return None


def whole_lines(answers):
    """The lines of the memory; one that a kill or a loss of power left without its end is none, and goes."""
    with open(answers, "rb+") as it:
        *lines, rest = it.read().split(b"\n")
        it.truncate(it.tell() - len(rest))
    return [line.decode() for line in lines]


def pass_memory(memory, calls):
    """Ends where the desk has other calls than the memory knows. One line may be booked whose answer never came; more are another script's."""
    first, *known = memory
    number = int(first.split()[0]) + sum(not said.startswith("FAULT") for said in known)
    if calls - number not in (-1, 0):
        sys.exit(f"the desk has {calls} calls, and ANSWERS knows those up to {number - 1}: something else was booked for it")


def main(into, out, script, answers):
    with open(script, encoding="ascii") as it:
        lines = it.read().splitlines()
    with open(answers, "a", encoding="ascii") as kept:
        fcntl.flock(kept, fcntl.LOCK_EX)  # (a second client with the same memory waits)
        desk = Desk(into, out)
        # (a memory that has no epoch is of whatever journal the desk has)
        first = [*"".join(whole_lines(answers)[:1]).split(), "", "", ""]
        desk.epoch, desk.told = first[1], int(first[2]) if first[2] else None
        for said in whole_lines(answers)[1:]:
            desk.seen(said)
        _, _, _, there, calls, _, epoch = desk.hello()
        if desk.epoch not in ("", epoch):
            sys.exit(f"the desk's journal is of epoch {epoch}, and ANSWERS of {desk.epoch}: its calls are another journal's")
        desk.epoch = epoch
        if not whole_lines(answers):
            desk.told = int(there)
            kept.write(f"{int(calls) + 1} {epoch} {there}\n")
            kept.flush()
            os.fsync(kept.fileno())
        pass_memory(whole_lines(answers), int(calls))
        while not desk.again():
            desk.hello()
        first, *known = whole_lines(answers)
        number, at, shown = int(first.split()[0]), 0, 0
        while at < len(lines):
            if not SEGMENT.fullmatch(lines[at]):
                # (a line of a message that is answered by nothing; a client that comes back sends its message's head again)
                desk.send(lines[at] + "\n")
                at += 1
                continue
            said = known.pop(0) if known else None
            if said is None:
                desk.send(f"@{number} {lines[at]}\n")
                said = desk.answer(number)
                if said is None:
                    desk.hello()
                    while not desk.again():
                        desk.hello()
                    number, at = int(first.split()[0]), 0
                    known = whole_lines(answers)[1:]
                    continue
                if re.match("FAULT H[346] ", said):
                    sys.exit(f"{said}: call {number} of the desk is another line's")
                kept.write(said + "\n")
                kept.flush()
                os.fsync(kept.fileno())
            if at >= shown:  # (once: a client that comes back goes through its answers again)
                print(said)
                shown = at + 1
            number += not said.startswith("FAULT")
            at += 1
        desk.advices()


if __name__ == "__main__":
    if len(sys.argv) != 5:
        sys.exit(__doc__)
    main(*sys.argv[1:])
