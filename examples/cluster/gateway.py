#!/usr/bin/python3
"""A gateway of desks: it sends the segment lines of their scripts, and the manager's rows, to the shards of their flights, and joins what they are answered.

    examples/cluster/gateway.py LOG SHARDS DAY FOLDER [--program PROGRAM] [--lines N] [--epoch N] [--begun STEM] [--nodes NODE,..] [--changes FILE] SCRIPT..

The scripts are named as `seatdesk run` names them: SCRIPT is that of session 1, the next that of session 2, or each is 5=SCRIPT. LOG is the name of the shards' log. A session belongs to one gateway.
DAY is the one on which the lines are read, as 2024-06-20. Up to N lines, 16 if left out, go as one message of the log. Where `seatdesk carry --shard` made the journals with which the shards began, those are
STEM.1, STEM.2, .. as they were then: a session's numbers go on behind its own lines there, for journals of the epoch that --epoch says.

FOLDER is the gateway's memory: FOLDER/sent has each numbered line, on the disk, before it is published, and FOLDER/told what the shards told of it, each line once (the log has it too, so that it
need not be synced, and may be taken away). FOLDER/own has the name under which the log knows its messages. So a gateway that is started again sends what has no answer, under the same numbers, and
goes on; its scripts may have grown at their ends. With an empty FOLDER it first reads what the log has of its sessions, which must be what the scripts ask. Once all is answered, and nothing more is told
for a second, it writes the answers in the order of the scripts' lines into FOLDER/answers, and ends.
"""
import argparse
import collections
import datetime
import fcntl
import os
import re
import subprocess
import sys
import threading
import uuid

from streams import NODES, Writer, fail, follow, name_of, started

SECONDS = 20  # of silence, behind which what has no answer is sent once more; then twice as long, and so on
MOST = 4096  # lines of a shard that may be without an answer
ADVICE = re.compile(r" KL\d+$")
ROW_FAULT = re.compile(r"0 FAULT (?!H|B1).* @(\d+)")  # of a row of the manager that can't be carried out, with the number that it had
LEADING = re.compile(r"^(..)0+(?=\d)")  # zeros ahead of the number of a flight, or of seats
Row = collections.namedtuple("Row", "session place text")  # whose it is, its line in the script, and the address, the locator and the line, or the manager's row


class Line:
    """A row that has a number."""

    def __init__(self, row, call):
        self.row, self.call, self.answer = row, call, None

    def text(self):
        return f"{self.row.session} {self.call} {self.row.place} {self.row.text}\n"

    def told(self):
        """Its answer, without whose it is."""
        return self.answer[2 if " FAULT " in self.answer else 4 :]


def speaks_of(reply, row):
    """Whether a reply speaks of this row: of its locator, segment and seats, or of the manager's flight and day. A segment that no flight has is '-'."""
    words = [text.split("/")[0].split(" ")[at:] for text, at in ((reply, 3), (row.text, 1))]
    told, asked = ([LEADING.sub(r"\1", word) for word in own] for own in words)
    if not row.session:
        return told[:2] == asked[:2]
    return told[0] == asked[0] and told[1:-1] in (["-"], asked[1:-1]) and told[-1][2:] == asked[-1][2:]


def body_of(lines, head):
    """The message of the log: each segment line behind the first line of its message, and an empty line behind that."""
    text, begun = head, None
    for line in lines:
        session, first, own = line.row.session, "", line.row.text
        if session:
            first, own = own[:12], own[13:]
        if begun and begun != (session, first):
            text += f"{begun[0]} \n"
        if session and begun != (session, first):
            text += f"{session} {first}\n"
        begun = (session, first) if session else None
        text += f"{session} @{line.call} {own}\n"
    return (text + (f"{begun[0]} \n" if begun else "")).encode()


class Shard:
    """What goes to one shard, and what comes from it."""

    def __init__(self, shard, rows, memory, way, begun):
        self.shard, self.rows, self.memory, self.way = shard, collections.defaultdict(collections.deque), memory, way
        for row in rows:
            self.rows[row.session].append(row)
        self.lines, self.of_call = [], collections.defaultdict(list)  # in the order in which they were sent; by session and call
        self.calls, self.own, self.told = collections.Counter(begun), collections.Counter(begun), set()  # of each session: the last number, the answers
        self.sent, self.open, self.place, self.patience, self.changed = 0, 0, 0, SECONDS, threading.Condition()
        self.of_row = {}  # the manager's rows, by their lines in FILE

    def name(self, kind):
        return name_of(self.way.log, kind, self.shard, self.way.shards)

    # ---- what the memory has

    def remember(self, session, call, place, text):
        """A line that was sent: it is the session's next row still, at this line of its script where that is known."""
        row = self.rows[session].popleft() if self.rows[session] else None
        if not row or row.text != text or place not in (None, row.place):
            fail(f"what was sent to shard {self.shard} is not what the scripts ask: call {call} of session {session}: {text}")
        self.number(row, call)

    def number(self, row, call):
        line = Line(row, call)
        self.calls[row.session] = call
        self.of_call[row.session, call].append(line)
        self.lines.append(line)
        self.open += 1
        if not row.session:
            self.of_row[row.place] = line
        return line

    def recover(self):
        """What these sessions were sent by a gateway whose memory is gone: the stream has it, ahead of a message of our own that has nothing but its day."""
        mark, seen, first = uuid.uuid4().hex, set(), {}
        Writer(self.way.nodes, self.name("lines")).put(self.way.head.encode(), mark)
        for message in follow(self.way.nodes, self.name("lines"), 0):
            _, of, body = message or (None, None, b"")
            if of == mark:
                return
            for session, text in ((text[0], text[2:]) for text in body.decode().splitlines() if text[0] in self.way.sessions):
                if text[:1] != "@":
                    first[session] = f"{text} "
                    continue
                call, own = text[1:].split(" ", 1)
                line = (int(session), int(call), None, first.get(session, "") + own)
                if line not in seen:
                    seen.add(line)
                    self.remember(*line)
                    self.memory.own = (of or "").split(" ")[0]

    def hear(self, of, text):
        """What is told of a line, in answer to a message of this name, and whether that is new. The calls of a session are its own lines of the journal, counted from 1."""
        session, kind, *_ = text.split(" ", 2)
        if kind == "FAULT":
            return self.refuse(of, text)
        if text in self.told:
            return False
        self.told.add(text)
        if not ADVICE.search(text):
            self.own[int(session)] += 1
            lines = self.of_call[int(session), self.own[int(session)]]
            if not lines or of.split(" ")[0] != self.memory.own or not speaks_of(text, lines[-1].row):
                fail(f"shard {self.shard} has a line of session {session} that was not sent from here: {text}")
            self.answer(lines[-1], text)
        return True

    def refuse(self, of, text):
        """A row of the manager that was refused has no call: the next one takes its number. A right segment line is refused only where one ahead of it is not there
        (H4), and is sent again then; and each line where the journal is full or of another epoch, which is said."""
        own, _, place = of.partition(" ")
        line = self.of_row.get(int(place)) if own == self.memory.own and text[0] == "0" else None
        if own != self.memory.own or line and line.answer:
            return False
        if not line or not ROW_FAULT.fullmatch(text):
            if " H4 " not in text:
                print(f"gateway.py: shard {self.shard}: {text}", file=sys.stderr)
            return False
        if line is self.of_call[0, line.call][-1]:
            self.calls[0] = line.call - 1
        self.answer(line, text)
        return True

    def recall(self, place, text):
        """What was told already."""
        self.place = max(self.place, place)
        refused = ROW_FAULT.fullmatch(text)
        line = next(line for line in self.of_call[0, int(refused[1])] if not line.answer) if refused else None
        self.hear(self.memory.of(line), text)

    def answer(self, line, text):
        if line.answer is None:
            self.open -= 1
        line.answer = text

    # ---- the threads

    def publish(self):
        """Sends what has no answer, in order, and then what is new."""
        log = Writer(self.way.nodes, self.name("lines"))
        while lines := self.next_lines():
            log.put(body_of(lines, self.way.head), self.memory.of(lines[0]))

    def next_lines(self):
        """The lines of the next message, once there are some; none once all are answered."""
        with self.changed:
            while True:
                while self.sent < len(self.lines) and self.lines[self.sent].answer:
                    self.sent += 1
                if self.sent < len(self.lines):
                    break
                if not self.number_more() and self.is_done():
                    return []
                if self.sent == len(self.lines) and not self.changed.wait(self.patience):
                    self.sent, self.patience = 0, 2 * self.patience
            lines = [self.lines[self.sent]]
            for line in self.lines[self.sent + 1 : self.sent + self.way.lines]:
                if line.answer or not line.row.session or not lines[0].row.session:
                    break
                lines.append(line)
            self.sent += len(lines)
            return lines

    def number_more(self):
        """Gives rows their numbers, some of each session in turn, and keeps them, as far as they may go now: many at once, since they are synced together."""
        new = []
        while self.open < (MOST if new else MOST // 2):
            some = [self.number(rows.popleft(), self.calls[session] + 1) for session, rows in self.rows.items() for _ in range(self.may_go(session, len(rows)))]
            if not some:
                break
            new += some
        self.memory.keep("sent", [f"{self.shard} {line.text()}" for line in new], True)
        return new

    def may_go(self, session, left):
        """How many rows of a session may be numbered now. The manager's wait for each other."""
        waits = not session and any(not line.answer for line in self.of_call[0, self.calls[0]])
        return 0 if waits else min(left, self.way.lines if session else 1)

    def is_done(self):
        return not self.open and not any(self.rows.values())

    def listen(self):
        """Keeps what is told, each once, until all is answered and nothing comes behind it. The last message may be kept in part, so it is read once more behind a start."""
        for message in follow(self.way.nodes, self.name("replies"), self.place):
            with self.changed:
                if message:
                    (place, of, body), self.patience = message, SECONDS
                    texts = [text for text in body.decode().splitlines() if text[0] in self.way.sessions]
                    self.memory.keep("told", [f"{self.shard} {place} {text}\n" for text in texts if self.hear(of or "- 0", text)])
                    self.changed.notify()
                elif self.is_done():
                    return


class Memory:
    def __init__(self, folder):
        self.folder, self.lock = folder, threading.Lock()
        os.makedirs(folder, exist_ok=True)
        self.files = {name: open(f"{folder}/{name}", "a+b") for name in ("own", "sent", "told")}
        try:
            fcntl.flock(self.files["sent"], fcntl.LOCK_EX | fcntl.LOCK_NB)
        except OSError:
            fail(f"another one has {folder}")
        self.own = "".join(self.read("own"))

    def begin(self, sent):
        """Keeps what the log has of these sessions, and behind it the name of their messages: where that is there all of it is."""
        for name in ("sent", "told"):
            self.files[name].truncate(0)
        self.keep("sent", sent, True)
        self.own = self.own or uuid.uuid4().hex
        self.keep("own", [f"{self.own}\n"], True)
        folder = os.open(self.folder, os.O_RDONLY)
        os.fsync(folder)
        os.close(folder)

    def of(self, line):
        """What the log knows a message by that begins with this line."""
        return f"{self.own} {line.row.place if line else 0}"

    def read(self, name):
        """The whole lines. A rest without its end was on the way when the gateway was killed, and nothing followed from it."""
        it = self.files[name]
        it.seek(0)
        text = it.read()
        it.truncate(text.rfind(b"\n") + 1)
        return text[: text.rfind(b"\n") + 1].decode().splitlines()

    def keep(self, name, lines, is_synced=False):
        if lines:
            with self.lock:
                self.files[name].write("".join(lines).encode())
                self.files[name].flush()
                if is_synced:
                    os.fsync(self.files[name].fileno())


def routed(options):
    """The rows of each shard, as `seatdesk route` says."""
    words = [options.program, "route", "--shards", str(options.shards)]
    words += ["--changes", options.changes] if options.changes else []
    ran = subprocess.run([*words, *options.scripts], stdout=subprocess.PIPE, check=False, text=True)
    if ran.returncode:
        sys.exit(ran.returncode)
    rows = collections.defaultdict(list)
    for text in ran.stdout.splitlines():
        shard, session, place, rest = text.split(" ", 3)
        rows[int(shard)].append(Row(int(session), int(place), rest))
    return rows


def begun(way, shard):
    """How many lines each session had when the shard began."""
    if not way.begun:
        return {}
    with open(f"{way.begun}.{shard}", encoding="ascii") as it:
        return collections.Counter(int(line.split(" ")[1]) for line in it if line[0].isdigit())


def day(text):
    if not text.startswith("20") or str(datetime.date.fromisoformat(text)) != text:
        raise ValueError  # (a wrong day could not be taken out of a stream again)
    return text


def count(text):
    if not 1 <= int(text) <= 999_999:
        raise ValueError
    return int(text)


def main():
    reader = argparse.ArgumentParser(description=__doc__, formatter_class=argparse.RawDescriptionHelpFormatter)
    reader.add_argument("log")
    reader.add_argument("shards", type=count)
    reader.add_argument("day", type=day)
    reader.add_argument("folder")
    reader.add_argument("scripts", nargs="*")
    reader.add_argument("--program", default="seatdesk")
    reader.add_argument("--lines", type=count, default=16)
    reader.add_argument("--epoch", type=count, default=1)
    reader.add_argument("--begun", metavar="STEM")
    reader.add_argument("--nodes", type=lambda it: it.split(","), default=NODES)
    reader.add_argument("--changes")
    way = reader.parse_intermixed_args()
    way.head = f"?DAY {way.day}\n?EPOCH {way.epoch}\n"
    rows, memory = routed(way), Memory(way.folder)
    way.sessions = {str(row.session) for own in rows.values() for row in own}
    shards = {shard: Shard(shard, rows[shard], memory, way, begun(way, shard)) for shard in range(1, way.shards + 1)}
    if memory.own:
        for text in memory.read("sent"):
            shard, session, call, place, rest = text.split(" ", 4)
            shards[int(shard)].remember(int(session), int(call), int(place), rest)
        for text in memory.read("told"):
            shard, place, rest = text.split(" ", 2)
            shards[int(shard)].recall(int(place), rest)
    else:
        for own in shards.values():
            own.recover()
        memory.begin([f"{own.shard} {line.text()}" for own in shards.values() for line in own.lines])
    for thread in started([work for own in shards.values() for work in (own.publish, own.listen)]):
        thread.join()
    answers = [(line.row.session, line.row.place, shard, line.told()) for shard, own in shards.items() for line in own.lines]
    with open(f"{way.folder}/answers", "w", encoding="ascii") as out:
        out.writelines(f"{session} {place} {shard} {answer}\n" for session, place, shard, answer in sorted(answers))


if __name__ == "__main__":
    main()
