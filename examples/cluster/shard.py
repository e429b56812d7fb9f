#!/usr/bin/python3
"""The host of one shard, behind the log: it feeds the shard's stream to `seatdesk serve --feed -`, and puts what the host tells into the stream of replies.

    examples/cluster/shard.py LOG SHARD/SHARDS FOLDER [--behind LINES] [NODE..] -- COMMAND WORD..

LOG is the name of its log, and 3/4 the third shard of four. COMMAND is what starts the host, as `seatdesk serve --set .. --limits .. --first .. --days .. --journal FOLDER/journal.txt`; `--feed -` is put behind it. FOLDER is this
consumer's own. Start two of them, on two machines: the second waits until the first is gone, and then begins at the place that its own FOLDER has, or at the stream's
first message. The journal is a function of the stream, so it is the same wherever it is made, and two hosts at once would tell the same. Where the journal had lines ahead of the stream's first
message, as one that `seatdesk carry --shard` made, LINES is how many, and each FOLDER has that journal and its seal to begin with.

A message of the stream is one or more whole messages of desks behind the day on which they are read (`?DAY`). So each is a place to begin at, and its first answer, the
manager's READY, says that all ahead of it was told. FOLDER/place has such a place, the largest number of a line that was told ahead of it, and the day that held.
"""
import os
import queue
import re
import subprocess
import sys
import time

from streams import LOST, NODES, Writer, closed, fail, follow, name_of, started, turn

SECONDS = 1.0  # between two places that are kept


class Place:
    """Where the stream is read from behind a start."""

    def __init__(self, folder, behind):
        self.file, self.kept, self.behind = f"{folder}/place", 0.0, behind
        try:
            with open(self.file, encoding="ascii") as it:
                at, lines, self.day = it.read().split()
            self.at, self.lines = int(at), int(lines)
        except (OSError, ValueError):
            self.begin()

    def begin(self):
        self.at, self.lines, self.day = 0, self.behind, ""

    def keep(self, at, lines, day):
        self.at, self.lines, self.day = at, lines, day
        if time.monotonic() - self.kept >= SECONDS:
            with open(f"{self.file}.new", "w", encoding="ascii") as it:
                it.write(f"{at} {lines} {day}\n")
                it.flush()
                os.fsync(it.fileno())
            os.rename(f"{self.file}.new", self.file)
            self.kept = time.monotonic()


class Host:
    """A host from a place on, until it ends or the turn is lost."""

    def __init__(self, nodes, name, place, command):
        self.nodes, self.name, self.place = nodes, name, place
        self.heads = queue.SimpleQueue()  # the messages that the host was sent, in order
        self.turn = turn(nodes, name("turn"))
        self.said = open(f"{place.file}.said", "w+b")
        words = [*command, "--feed", "-", "--behind", str(place.lines)]
        self.process = subprocess.Popen(words, stdin=subprocess.PIPE, stdout=subprocess.PIPE, stderr=self.said, bufsize=0)
        self.works = started([self.feed, self.hold])

    def feed(self):
        """Sends the host each message from the place on."""
        try:
            if self.place.day:
                self.send(None, None, f"?DAY {self.place.day}\n".encode())
            for message in follow(self.nodes, self.name("lines"), self.place.at):
                if message:
                    self.send(*message)
                if self.process.poll() is not None:
                    return
        except BrokenPipeError:
            return  # the host is gone, and who reads it sees that

    def send(self, at, of, text):
        self.heads.put((at, of))
        while text:
            text = text[self.process.stdin.write(text) :]

    def hold(self):
        """Ends the host once somebody else may have its turn. What it has not told the other one tells."""
        try:
            while self.process.poll() is None:
                self.turn.process_data_events(1)
        except LOST:
            self.process.terminate()

    def tell(self):
        """Puts what the host tells of each message into the replies, and keeps the places behind which all is there."""
        replies, told, of, most, rest = Writer(self.nodes, self.name("replies")), b"", None, self.place.lines, b""
        while piece := os.read(self.process.stdout.fileno(), 1 << 18):
            *lines, rest = (rest + piece).split(b"\n")
            for line in lines:
                words = line.split(b" ")
                if words[1] == b"READY":
                    if told:
                        replies.put(told, of)
                    (at, of), told = self.heads.get(), b""
                    if at is not None:
                        self.place.keep(at, most, words[5].decode())
                else:
                    told += line + b"\n"
                    if words[1] != b"FAULT":
                        most = max(most, int(words[2]))
            if told:
                replies.put(told, of)
                told = b""

    def end(self):
        """What the host ended with, and what it said then."""
        status = self.process.wait()
        for work in self.works:
            work.join()
        closed(self.turn)
        self.said.seek(0)
        return status, self.said.read().decode().strip()


def main(words):
    ends = words.index("--") if "--" in words else 0
    part = re.fullmatch(r"(\d+)/(\d+)", words[1]) if ends > 2 else None
    if not part or not 1 <= int(part[1]) <= int(part[2]):
        sys.exit(__doc__)
    (log, shard, folder), nodes, command = words[:3], words[3:ends], words[ends + 1 :]
    behind = int(nodes[1]) if nodes[:1] == ["--behind"] else 0
    nodes = nodes[2 if nodes[:1] == ["--behind"] else 0 :] or NODES
    os.makedirs(folder, exist_ok=True)
    place = Place(folder, behind)
    while True:
        host = Host(nodes, lambda kind: name_of(log, kind, *part.groups()), place, command)
        host.tell()
        status, said = host.end()
        if "E2 behind" in said and (place.at, place.lines) == (0, behind):
            fail(f"shard {shard}: the journal in {folder} has not the {behind} lines with which the shard began")
        if "E2 behind" in said:
            place.begin()  # an older copy of the journal has not come to the place
        elif status == 1:
            fail(f"shard {shard}: {said}")  # a line of the stream is not the journal's own: it is another shard's
        elif status > 0:
            print(f"shard {shard}: {said}", file=sys.stderr)
            time.sleep(1)  # another host has the journal still, or its disk failed


if __name__ == "__main__":
    main(sys.argv[1:])
