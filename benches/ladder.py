#!/usr/bin/env python3
"""Writes input for `seatdesk ladder`: a ladder and N lines of commands, the same for the same words.

    benches/ladder.py N [distinct|mix|waiting] [--seed S]

distinct   needs of one seat with distinct locators, in classes F, Y and M. The leg is soon sold out, as at most 999
           seats can be held, so most are refused. The default.
mix        a desk's day: needs, sales and listings of one to nine seats with distinct locators, and cancels, whole or in
           part, of what was asked for and not yet cancelled. Some 600 such bookings are about at a time, so the leg
           stays near its limits: a third of the lines sell or list, a third cancel, and a quarter of these cancels
           confirm from the waitlist.
waiting    a full leg on which most bookings wait and cannot be confirmed: one holds all 999 seats, parties of one are
           listed up to the wait of 999, and then cancels of waiting bookings alternate with new ones. A cancel of the
           holding booking never comes, so each pass finds nothing.

Example: benches/ladder.py 100000 mix > mix.txt && time ./seatdesk ladder < mix.txt > replies.txt
"""
import random
import sys

LETTERS = "0123456789ABCDEFGHIJKLMNOPQRSTUVWXYZ"
LADDER = "F999/999 Y800/999 M500/999"


def locator(number):
    """The number in base 36, six places: a locator of its own for each number below 36^6."""
    text = ""
    for _ in range(6):
        number, digit = divmod(number, 36)
        text = LETTERS[digit] + text
    return text


def distinct(count, chance):
    for number in range(count):
        yield f"{locator(number)} {chance.choice('FYM')} NN 1"


def mix(count, chance):
    asked = []
    for number in range(count):
        if chance.random() < len(asked) / 1200:
            at = chance.randrange(len(asked))
            name, letter, seats = asked[at]
            gone = seats if chance.random() < 0.8 else chance.randint(1, seats)
            if gone == seats:
                asked[at] = asked[-1]
                asked.pop()
            else:
                asked[at] = name, letter, seats - gone
            yield f"{name} {letter} XX {gone}"
        else:
            code = chance.choices(("NN", "SS", "LL"), (6, 3, 1))[0]
            seats = chance.choices((1, 2, 3, 4, 5, 9), (40, 30, 10, 10, 5, 5))[0]
            asked.append((locator(number), chance.choice("FYM"), seats))
            yield f"{asked[-1][0]} {asked[-1][1]} {code} {seats}"


def waiting(count, chance):
    if count:
        yield f"{locator(0)} F NN 999"
    waits = []
    for number in range(1, count):
        if len(waits) == 999 or (waits and number > 999 and number % 2):
            at = chance.randrange(len(waits))
            waits[at], waits[-1] = waits[-1], waits[at]
            yield f"{waits.pop()} F XX 1"
        else:
            waits.append(locator(number))
            yield f"{waits[-1]} F SS 1"


def main(words):
    seed = 1
    if "--seed" in words:
        at = words.index("--seed")
        seed, words = int(words[at + 1]), words[:at] + words[at + 2 :]
    modes = {"distinct": distinct, "mix": mix, "waiting": waiting}
    mode = words[1] if len(words) == 2 else "distinct"
    if not words or len(words) > 2 or mode not in modes or not words[0].isdigit():
        print(__doc__, end="", file=sys.stderr)
        return 2
    out = sys.stdout
    out.write(f"{LADDER}\n")
    for line in modes[mode](int(words[0]), random.Random(seed)):
        out.write(f"{line}\n")
    return 0


if __name__ == "__main__":
    sys.exit(main(sys.argv[1:]))
