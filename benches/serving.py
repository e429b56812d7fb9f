#!/usr/bin/env python3
"""Times an open host (`serve`) over named pipes, and prints a table for docs/BENCHMARKS.md.

    benches/serving.py FOLDER [--program FILE] [--seconds N] [--flights N] [--lines N] [--days]

FOLDER is on the disk that is measured; a second table is of /dev/shm, where a sync costs nothing. Over a season of N dated flights (93,000) by benches/season.py and limits
by benches/journal.py: what a sync of one line costs there; one desk with one line in flight; eight desks with 32 lines each in flight; looks of
a ninth client, one in flight, in a process of its own, while eight desks book; looks at a whole day, one in flight, by a desk on standard input and by one on a pipe, with nothing beside them; how long a host takes
from its start to the first READY over a journal of N lines (900,000), beside `audit` of it.
Each reply is read and counted by the clients; replies a second are over the time from the first line sent to the last reply read.
"""
import argparse
import atexit
import os
import random
import select
import shutil
import subprocess
import sys
import tempfile
import time

from recovery import OVER, write_inputs

ROOT = os.path.dirname(os.path.dirname(os.path.abspath(__file__)))
MOST = 900_000  # lines of all desks: a journal has room for 999,999


class Client:
    """One end of a desk's pipes, which sends lines ahead of their answers."""

    def __init__(self, folder, desk):
        self.desk, self.rest = desk, b""
        self.into, self.out = (os.open(f"{folder}/{desk}.{end}", os.O_RDWR) for end in ("in", "out"))

    def send(self, data):
        while data:
            data = data[os.write(self.into, data) :]

    def lines(self, seconds=60.0):
        if not select.select([self.out], [], [], seconds)[0]:
            sys.exit(f"desk {self.desk} heard nothing for {seconds} s")
        self.rest += os.read(self.out, 65536)
        *whole, self.rest = self.rest.split(b"\n")
        return whole

    def hello(self):
        self.send(b"!\n?HELLO BENCHS\n")
        while not any(line.startswith(b"READY BENCHS ") for line in self.lines(600.0)):
            pass


def percentile(taken, part):
    return sorted(taken)[min(len(taken) - 1, int(len(taken) * part))] * 1000


def sync_cost(folder):
    """The median of 200 appended lines of 40 bytes, each synced, in ms."""
    taken = []
    with open(f"{folder}/sync", "ab", buffering=0) as it:
        for _ in range(200):
            began = time.monotonic()
            it.write(b"1" * 39 + b"\n")
            os.fdatasync(it.fileno())
            taken.append(time.monotonic() - began)
    os.unlink(f"{folder}/sync")
    return percentile(taken, 0.5)


def requests(season, count, seed):
    """Segment lines of one seat of class Y, each over the first leg of a flight number of the season, on days of a month."""
    chance = random.Random(seed)
    with open(season, encoding="ascii") as it:
        legs = [(int(line[5:9]), line[36:39] + line[54:57]) for line in it if line[0] == "3" and line[11:13] == "01"]
    wanted = (chance.choice(legs) for _ in range(count))
    return [b"XX%dY%02dJUN %s NN1\n" % (number, 1 + chance.randrange(30), pair.encode()) for number, pair in wanted]


class Seller:
    """A desk that keeps so many of its lines without an answer, and notes how long each waited."""

    def __init__(self, client, lines, window):
        self.client, self.lines, self.window = client, lines, window
        self.sent, self.at, self.taken = [], 0, []
        client.send(b"LONLZ D%dA000\n1DOE/J\n" % client.desk)

    def go_on(self):
        ready = self.lines[self.at : self.at + self.window - len(self.sent)]
        if ready:
            self.at += len(ready)
            self.sent += [time.monotonic()] * len(ready)
            self.client.send(b"".join(ready))

    def hear(self):
        now = time.monotonic()
        for line in self.client.lines():
            if b" KL" not in line:
                self.taken.append(now - self.sent.pop(0))
            if line.startswith(b"FAULT"):
                sys.exit(line.decode())


def sell(sellers, seconds):
    """Lets desks book for so long, and then reads what is due. Replies a second, and how long each waited."""
    began = time.monotonic()
    outs = {seller.client.out: seller for seller in sellers}
    poll = select.poll()
    for out in outs:
        poll.register(out, select.POLLIN)
    while time.monotonic() < began + seconds and any(seller.at < len(seller.lines) for seller in sellers):
        for seller in sellers:
            seller.go_on()
        for out, _ in poll.poll(1000):
            outs[out].hear()
    while any(seller.sent for seller in sellers):
        for out, _ in poll.poll(60_000):
            outs[out].hear()
    waited = [taken for seller in sellers for taken in seller.taken]
    return len(waited) / (time.monotonic() - began), waited


class Looker:
    """A client in a process of its own that looks for so long, one look in flight, and rests for a millisecond behind each."""

    def __init__(self, client, line, seconds):
        self.told, into = os.pipe()
        self.child = os.fork()
        if self.child == 0:
            taken, until = [], time.monotonic() + seconds
            while time.monotonic() < until:
                sent = time.monotonic()
                client.send(line)
                while not any(it.startswith(b"LOOK ") for it in client.lines()):
                    pass
                taken.append(time.monotonic() - sent)
                time.sleep(0.001)
            with open(into, "w", encoding="ascii") as out:
                out.write("\n".join(map(repr, taken)))
            os._exit(0)
        os.close(into)

    def taken(self):
        with open(self.told, encoding="ascii") as it:
            taken = [float(line) for line in it]
        os.waitpid(self.child, 0)
        return taken


class Host:
    def __init__(self, program, inputs, folder, journal, desks):
        self.folder = tempfile.mkdtemp(dir=folder)
        for desk in range(desks + 1):
            for end in ("in", "out"):
                os.mkfifo(f"{self.folder}/{desk}.{end}", 0o600)
        words = [word for desk in range(1, desks + 1) for word in ("--desk", f"{desk}={self.folder}/{desk}.in:{self.folder}/{desk}.out")]
        self.began = time.monotonic()
        self.it = subprocess.Popen(
            [program, "serve", *OVER, "--today", "2024-05-01", "--journal", f"{folder}/{journal}", *words, "--manager", f"{self.folder}/0.in:{self.folder}/0.out"],
            cwd=inputs, stdin=subprocess.DEVNULL,
        )
        atexit.register(self.it.kill)
        self.clients = [Client(self.folder, desk) for desk in range(desks + 1)]

    def started(self):
        for client in self.clients:
            client.hello()
        return time.monotonic() - self.began

    def end(self):
        self.clients[0].send(b"?STOP\n")
        if self.it.wait(120):
            sys.exit("the host ended badly")
        shutil.rmtree(self.folder)


def table(program, inputs, folder, asked):
    print(f"| On {folder}, a line synced in {sync_cost(folder):.3f} ms | Replies a second | Median | 99 of 100 within |\n|---|---|---|---|")
    for desks, window in ((1, 1), (1, 32), (8, 1), (8, 32)):
        host = Host(program, inputs, folder, f"journal-{desks}-{window}", desks)
        host.started()
        sellers = [Seller(client, requests(f"{inputs}/season", MOST // desks, client.desk), window) for client in host.clients[1:]]
        looker = Looker(host.clients[0], b"? XX1Y10JUN %s\n" % first_pair(inputs), asked.seconds) if desks == 8 else None
        rate, waited = sell(sellers, asked.seconds)
        print(f"| {desks} desk{'s' * (desks > 1)}, {window} line{'s' * (window > 1)} in flight | {rate:,.0f} | {percentile(waited, 0.5):.2f} ms | {percentile(waited, 0.99):.2f} ms |")
        if looker:
            looks = looker.taken()
            print(f"| looks beside them | {len(looks) / asked.seconds:,.0f} | {percentile(looks, 0.5):.2f} ms | {percentile(looks, 0.99):.2f} ms |")
        host.end()
        for left in ("", ".seal"):
            os.unlink(f"{folder}/journal-{desks}-{window}{left}")


def first_pair(inputs):
    with open(f"{inputs}/season", encoding="ascii") as it:
        return next((line[36:39] + line[54:57]).encode() for line in it if line[0] == "3")


class Standard:
    """The desk of a host on standard input and output."""

    def __init__(self, program, inputs, folder):
        self.rest = b""
        self.it = subprocess.Popen(
            [program, "serve", *OVER, "--today", "2024-05-01", "--journal", f"{folder}/journal-day", "--desk", "-"],
            cwd=inputs, stdin=subprocess.PIPE, stdout=subprocess.PIPE, bufsize=0,
        )
        atexit.register(self.it.kill)
        while not self.lines():
            pass

    def send(self, data):
        self.it.stdin.write(data)

    def lines(self):
        self.rest += self.it.stdout.read(65536)
        *whole, self.rest = self.rest.split(b"\n")
        return whole

    def end(self):
        self.it.stdin.close()
        if self.it.wait(120):
            sys.exit("the host ended badly")


def day_looks(client, line, count):
    """The time of each of so many looks, and how many lines one is answered by, which a wrong word behind the first tells."""
    client.send(line + b"?END\n")
    answer = []
    while not any(it.startswith(b"FAULT H2 ") for it in answer):
        answer += client.lines()
    lines, taken = len(answer) - 1, []
    for _ in range(count):
        sent, left = time.monotonic(), lines
        client.send(line)
        while left > 0:
            left -= len(client.lines())
        taken.append(time.monotonic() - sent)
    return taken, lines


def days(program, inputs, folder):
    """Looks at a whole day, by a desk on standard input and by one on a pipe."""
    line = b"? 10JUN %s\n" % first_pair(inputs)
    print(f"| A look at a whole day, on {folder} | Lines | Median | 99 of 100 within |\n|---|---|---|---|")
    desk = Standard(program, inputs, folder)
    found = [("on standard input", *day_looks(desk, line, 2000))]
    desk.end()
    host = Host(program, inputs, folder, "journal-day", 1)
    host.started()
    found.append(("on a pipe", *day_looks(host.clients[1], line, 2000)))
    host.end()
    for where, taken, lines in found:
        print(f"| {where} | {lines} | {percentile(taken, 0.5):.3f} ms | {percentile(taken, 0.99):.3f} ms |")
    for left in ("", ".seal"):
        os.unlink(f"{folder}/journal-day{left}")


def starts(program, inputs, folder):
    taken = {"audit": [], "serve": []}
    for _ in range(3):
        began = time.monotonic()
        subprocess.run([program, "audit", *OVER, "journal"], cwd=inputs, check=True, stdin=subprocess.DEVNULL, stdout=subprocess.DEVNULL)
        taken["audit"].append(time.monotonic() - began)
        shutil.copy(f"{inputs}/journal", f"{folder}/started")
        host = Host(program, inputs, folder, "started", 1)
        taken["serve"].append(host.started())
        host.end()
        for left in ("", ".seal"):
            os.unlink(f"{folder}/started{left}")
    audit, serve = min(taken["audit"]), min(taken["serve"])
    print(f"A start over the journal to the first READY: {serve:.2f} s, {serve / audit:.2f} times the {audit:.2f} s of `audit`.")


def main():
    words = argparse.ArgumentParser(description=__doc__, formatter_class=argparse.RawDescriptionHelpFormatter)
    words.add_argument("folder")
    words.add_argument("--program", default=f"{ROOT}/crates/seatdesk/out/seatdesk")
    words.add_argument("--seconds", type=float, default=5.0)
    words.add_argument("--flights", type=int, default=93_000)
    words.add_argument("--lines", type=int, default=900_000)
    words.add_argument("--days", action="store_true", help="the looks at a whole day alone")
    asked = words.parse_args()
    program, inputs = os.path.abspath(asked.program), os.path.abspath(asked.folder)
    write_inputs(inputs, asked.flights, asked.lines)
    memory = tempfile.mkdtemp(dir="/dev/shm")
    if asked.days:
        days(program, inputs, memory)
        shutil.rmtree(memory)
        return
    for folder in (inputs, memory):
        table(program, inputs, folder, asked)
    days(program, inputs, memory)
    starts(program, inputs, inputs)
    shutil.rmtree(memory)


if __name__ == "__main__":
    main()
