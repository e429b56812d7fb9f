#!/usr/bin/env python3
"""Writes input for `seatdesk ladder` in which each line has many bookings to look through, the same for the same words.

    benches/hostile.py N held|fresh|confirming|behind|grouped|stuck [--seed S]

held        one class: 999 bookings of one seat are held and 999 wait. Then cancels of any of them alternate with
            listings of new locators. A cancel of a held one confirms the first that waits.
fresh       26 classes: one booking holds all 999 seats, and in each class 999 bookings of one seat wait. Then sales of
            fresh locators find neither room nor a place to wait.
confirming  the same 26 classes. Then one seat is given back, which confirms the first that waits; its cancel confirms
            the next, and so on, and after each cancel a new locator is listed.
behind      26 classes, of which the last 25 are full below the first. In each of those 999 wait, and then 499 in the first. Then
            seats of the first are given back one by one: each confirms from the end of the list, is given back in turn, and a new
            locator is listed.
grouped     26 classes, one after the other, with 499 parties of two waiting in each but M, in which 999 parties of one wait. Then
            seats of M are given back one by one: each confirms from the middle of the list, is given back in turn, and a new
            locator is listed.
stuck       as behind, but a party of two, for which there is never room, waits in the first class before all others.

Example: benches/hostile.py 900000 held > held.txt && time ./seatdesk ladder < held.txt > replies.txt
"""
import collections
import itertools
import random
import sys

from ladder import locator

CLASSES = "ABCDEFGHIJKLMNOPQRSTUVWXYZ"


def held(chance):
    yield "F999/999"
    live = []
    for number in itertools.count():
        if number >= 1998:
            at = chance.randrange(len(live))
            yield f"{live[at]} F XX 1"
            live[at] = live[-1]
            live.pop()
        live.append(locator(number))
        yield f"{live[-1]} F LL 1"


def crowd():
    """The limits, the holding booking, and those that wait: one of each class in turn."""
    yield " ".join(f"{letter}999/999" for letter in CLASSES)
    yield f"{locator(0)} A NN 999"
    for number in range(999 * 26):
        yield f"{locator(number + 1)} {CLASSES[number % 26]} LL 1"


def fresh(chance):
    yield from crowd()
    for number in itertools.count(999 * 26 + 1):
        yield f"{locator(number)} {chance.choice(CLASSES)} SS 1"


def confirming(chance):
    yield from crowd()
    queue = collections.deque((locator(number + 1), CLASSES[number % 26]) for number in range(999 * 26))
    yield f"{locator(0)} A XX 1"
    for number in itertools.count(999 * 26 + 1):
        gone, letter = queue.popleft()
        yield f"{gone} {letter} XX 1"
        queue.append((locator(number), letter))
        yield f"{locator(number)} {letter} LL 1"


def in_turn(letter, held, queue, number):
    """Seats of a class are given back one by one: each confirms the first of those in the queue, and a new locator is listed."""
    for fresh in itertools.count(number):
        yield f"{held.popleft()} {letter} XX 1"
        held.append(queue.popleft())
        queue.append(locator(fresh))
        yield f"{queue[-1]} {letter} LL 1"


def full_below(party):
    """Those that wait in the last 25 classes, behind a party in the first where there is one, and then in the first."""
    yield "A999/999 " + " ".join(f"{letter}500/999" for letter in CLASSES[1:])
    yield f"{locator(0)} B NN 500"
    held = collections.deque(locator(number) for number in range(1, 500))
    for name in held:
        yield f"{name} A NN 1"
    if party:
        yield f"{locator(39_000)} A LL {party}"
    for number in range(999 * 25):
        yield f"{locator(500 + number)} {CLASSES[number % 25 + 1]} LL 1"
    queue = collections.deque(locator(40_000 + number) for number in range(499))
    for name in queue:
        yield f"{name} A LL 1"
    yield from in_turn("A", held, queue, 50_000)


def behind(_):
    yield from full_below(0)


def stuck(_):
    yield from full_below(2)


def grouped(_):
    yield " ".join(f"{letter}999/999" for letter in CLASSES)
    yield f"{locator(0)} A NN 500"
    held = collections.deque(locator(number) for number in range(1, 500))
    for name in held:
        yield f"{name} M NN 1"
    queue = collections.deque()
    numbers = itertools.count(1_000)
    for letter in CLASSES:
        seats = 1 if letter == "M" else 2
        for _ in range(999 // seats):
            name = locator(next(numbers))
            yield f"{name} {letter} LL {seats}"
            if letter == "M":
                queue.append(name)
    yield from in_turn("M", held, queue, 60_000)


def main(words):
    seed = 1
    if "--seed" in words:
        at = words.index("--seed")
        seed, words = int(words[at + 1]), words[:at] + words[at + 2 :]
    modes = {"held": held, "fresh": fresh, "confirming": confirming, "behind": behind, "grouped": grouped, "stuck": stuck}
    if len(words) != 2 or words[1] not in modes or not words[0].isdigit():
        print(__doc__, end="", file=sys.stderr)
        return 2
    for line in itertools.islice(modes[words[1]](random.Random(seed)), int(words[0]) + 1):
        sys.stdout.write(f"{line}\n")
    return 0


if __name__ == "__main__":
    sys.exit(main(sys.argv[1:]))
