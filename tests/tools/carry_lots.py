"""Seasons by lot, what another season makes of one, and what desks and a manager ask.

    Draft(routes, rows)             a schedule without its days: `season(first, days)` and `put(folder, ..)` have them
    drafted(lot)                    one by lot
    turned(lot, draft, days)        another one: flights that are gone, fly less, stop elsewhere, a day later or at another time; limits, classes and their order that are others
    asked(lot, season, names, n)    a script of n messages
    managed(lot, season)            rows of changes
"""
import dataclasses
import datetime
import os

import plain_carry
from plain_carry import Row, day_text

# A flight's name, and its stations, each with the days by which its leg departs later there.
CATALOG = {
    "LZ601": "LHR KEF", "LZ602": "KEF LHR", "LZ331": "LHR CDG", "LZ11": "LHR SIN+1 SYD", "LZ209": "LHR LIS FNC", "LZ71": "LHR DXB+1 BOM",
    "LZ77A": "LHR KEF LHR AMS", "LZ78": "LHR KEF LHR KEF", "LZ5": "LHR JFK LAX+1 SFO",
}
STOPS = "OPO MAD FRA BOS".split()
NOON, TIMES = "1130", ["0000", "0005", "1129", "1130", "1825", "2359", "2400"]  # when each leg departs at first, and when it may in another season
CLASSES = "FJYMQ"
EVER = datetime.date(2024, 1, 1), datetime.date(2025, 12, 31)  # the period of what has no other
LIMITS = [0, 1, 2, 4, 6, 9, 14, 20]


@dataclasses.dataclass
class Route:
    """An itinerary: its legs have a board point, an off point, the days by which they depart later than the first, and a local time of departure."""

    name: str
    legs: list
    days: str = "1234567"
    first: datetime.date = EVER[0]
    last: datetime.date = EVER[1]

    def operates(self, day):
        return self.first <= day <= self.last and str(day.isoweekday()) in self.days

    def flown(self, day):
        return self.name, [(board, day + datetime.timedelta(shift), off, time) for board, off, shift, time in self.legs]


def route_of(name, stations):
    points = [it.partition("+") for it in stations.split()]
    return Route(name, [(here[0], there[0], int(here[2] or 0), NOON) for here, there in zip(points, points[1:])])


def leg_record(route, variation, at):
    number, suffix = (route.name[2:-1], route.name[-1]) if route.name[-1].isalpha() else (route.name[2:], " ")
    board, off, shift, time = route.legs[at]
    days = "".join(it if it in route.days else " " for it in "1234567")
    period = day_text(route.first) + day_text(route.last)
    return f"3{suffix}LZ {number:>4}{variation:02d}{at + 1:02d}J{period}{days} {board}1130{time}+01003 {off}14301430+01003 77WJYMQ".ljust(192) + str(shift or " ")


class Draft:
    def __init__(self, routes, rows):
        self.routes, self.rows = routes, rows

    def season(self, first, days):
        horizon = [first + datetime.timedelta(it) for it in range(days)]
        return plain_carry.Season([route.flown(day) for route in self.routes for day in horizon if route.operates(day)], self.rows)

    def data_set(self):
        records = ["1AIRLINE STANDARD SCHEDULE DATA SET     1".ljust(191) + "001", "2LLZ      S24 01JAN2431DEC2514MAR24ALL OF 2024                  15MAR24C".ljust(190) + "0930"]
        seen = []
        for route in self.routes:
            seen.append(route.name)
            records += [leg_record(route, seen.count(route.name), at) for at in range(len(route.legs))]
        records = [f"{it.ljust(194)}{at:06d}" for at, it in enumerate(records, 1)]
        trailer = "5 LZ 15MAR24".ljust(187) + f"{len(records):06d}E{len(records) + 1:06d}"
        return "".join(f"{it}\n" for it in [*records, trailer])

    def limits(self):
        return "".join(row.text() for row in self.rows)

    def put(self, folder, first, days):
        """Writes the season's files; its season file, and the words that stand for it."""
        os.makedirs(folder, exist_ok=True)
        for name, text in (("set", self.data_set()), ("limits", self.limits()), ("season.toml", f'set = "set"\nlimits = "limits"\nfirst = {first}\ndays = {days}\n')):
            with open(f"{folder}/{name}", "w", encoding="ascii") as it:
                it.write(text)
        return f"{folder}/season.toml", ["--set", f"{folder}/set", "--limits", f"{folder}/limits", "--first", str(first), "--days", str(days)]


# ---- seasons by lot


def ladder(lot, letters=None):
    """Classes in any order, their limits and waits."""
    letters = letters or lot.sample(CLASSES, lot.randint(1, 5))
    limits = sorted((lot.choice(LIMITS) for _ in letters), reverse=True)
    limits[0] = max(limits[0], lot.choice([6, 9, 14, 20]))
    return [(letter, limit, lot.choice([0, 2, 4, 9]), lot.random() < 0.4) for letter, limit in zip(letters, limits)]


def rows_for(lot, routes):
    """A row for most legs, and for some another one of a few days."""
    rows = []
    for name, pair in dict.fromkeys((route.name, board + off) for route in routes for board, off, *_ in route.legs):
        if lot.random() < 0.95:
            rows.append(Row(name, *EVER, pair, ladder(lot, lot.sample(CLASSES, lot.randint(2, 5)))))
        if lot.random() < 0.2:
            first = datetime.date(2024, 7, lot.randint(1, 20))
            rows.append(Row(name, first, first + datetime.timedelta(lot.randrange(4)), pair, ladder(lot)))
    return rows


def drafted(lot):
    names = lot.sample(sorted(CATALOG), lot.randint(3, 5))
    routes = [route_of(name, CATALOG[name]) for name in names]
    for route in routes:
        route.days = "".join(it for it in "1234567" if lot.random() < 0.7) or "3"
    return Draft(routes, rows_for(lot, routes))


def stopping(lot, legs):
    """The legs with one more station on the way."""
    at, stop = lot.randrange(len(legs)), lot.choice(STOPS)
    board, off, shift, time = legs[at]
    return [*legs[:at], (board, stop, shift, time), (stop, off, shift, time), *legs[at + 1 :]]


def elsewhere(lot, legs):
    """The legs with another end, or another beginning."""
    if lot.random() < 0.5:
        return [*legs[:-1], (legs[-1][0], lot.choice(STOPS), *legs[-1][2:])]
    return [(lot.choice(STOPS), *legs[0][1:]), *legs[1:]]


def later(lot, legs):
    """The legs, the last ones of which depart a day later."""
    at = lot.randrange(len(legs))
    return [(board, off, shift + (leg >= at and at > 0), time) for leg, (board, off, shift, time) in enumerate(legs)]


def retimed(lot, legs):
    """The legs, one of which departs at another time of the same day, or at the same."""
    at = lot.randrange(len(legs))
    return [*legs[:at], (*legs[at][:3], lot.choice(TIMES)), *legs[at + 1 :]]


def routes_turned(lot, route, middle):
    """What another season has of a route: a list, which is empty where it is gone."""
    kind = lot.choice(["kept", "kept", "kept", "gone", "fewer", "stopping", "elsewhere", "later", "retimed", "split"])
    turn = {"stopping": stopping, "elsewhere": elsewhere, "later": later, "retimed": retimed}.get(kind)
    if kind == "gone":
        return []
    if kind == "fewer":
        return [dataclasses.replace(route, days="".join(it for it in route.days if lot.random() < 0.6) or route.days[:1])]
    if kind == "split" and route.first <= middle < route.last:
        behind = dataclasses.replace(route, first=middle + datetime.timedelta(1), legs=lot.choice([stopping, elsewhere, later, retimed])(lot, route.legs))
        return [dataclasses.replace(route, last=middle), behind]
    return [dataclasses.replace(route, legs=turn(lot, route.legs) if turn else route.legs)]


def steps_turned(lot, steps):
    """Other limits, classes or waits; limits nest."""
    steps, kind = list(steps), lot.choice(["kept", "kept", "smaller", "larger", "gone", "new", "other order", "waits"])
    if kind == "smaller":
        most = lot.choice([1, 3, 5, 8])
        steps = [(letter, min(limit, most), wait, mark) for letter, limit, wait, mark in steps]
    if kind == "larger":
        steps = [(letter, limit + 5, wait, mark) for letter, limit, wait, mark in steps]
    if kind == "gone" and len(steps) > 1:
        steps.remove(lot.choice(steps))
    letters = [it[0] for it in steps]
    if kind == "new" and len(letters) < len(CLASSES):
        letters.insert(lot.randint(0, len(letters)), lot.choice([it for it in CLASSES if it not in letters]))
        return ladder(lot, letters)
    if kind == "other order":
        lot.shuffle(letters)
        return [(letter, *it[1:]) for letter, it in zip(letters, steps)]
    if kind == "waits":
        steps = [(letter, limit, lot.choice([0, 1, 3, 20]), not mark) for letter, limit, wait, mark in steps]
    return steps


def turned(lot, draft, middle):
    """Another schedule; `middle` is a day on which some flights come to be others."""
    routes = [it for route in draft.routes for it in routes_turned(lot, route, middle)]
    lot.shuffle(routes)
    if lot.random() < 0.3:
        name = lot.choice(sorted(set(CATALOG) - {it.name for it in draft.routes}))
        routes.append(route_of(name, CATALOG[name]))
    if not routes:
        routes = draft.routes[:1]
    rows = [dataclasses.replace(it, steps=steps_turned(lot, it.steps)) for it in draft.rows if lot.random() < 0.97]
    known = {(it.name, it.pair) for it in rows}
    return Draft(routes, rows + [it for it in rows_for(lot, routes) if (it.name, it.pair) not in known])


# ---- what is asked


def asked(lot, season, names, count):
    """A script of so many messages, each of a new locator or of one of these names, which grow."""
    places, text = list(season.found.values()), ""
    for _ in range(count if places else 0):
        if names and lot.random() < 0.35:
            locator, lines = lot.choice(names)
            lines = [f"{lot.choice(lines)} {lot.choice(['XX', 'XX', 'XX', 'SS'])}{lot.choice([1, 1, 2, 3])}"]
        else:
            locator = f"{lot.choice('ABCDEFGH')}{len(names):05d}"
            segments = [segment(lot, season, lot.choice(places)) for _ in range(lot.choice([1, 1, 2, 3]))]
            names.append((locator, segments))
            lines = [f"{it} {lot.choice(['NN', 'NN', 'SS', 'SS', 'LL', 'QQ'] if lot.random() < 0.1 else ['NN', 'SS', 'SS', 'LL'])}{lot.choice([1, 1, 2, 3, 5])}" for it in segments]
        text += f"LONLZ {locator}\n" + "".join(f"{it}\n" for it in lines) + "\n"
    return text


def segment(lot, season, place):
    """A segment line up to its code: most often a class that the place sells."""
    letters = [it for it in CLASSES if season.sells(place, it)]
    letter = lot.choice(letters) if letters and lot.random() < 0.95 else lot.choice(CLASSES)
    return season.segment(place, letter, "", "").rstrip()


def managed(lot, season, inventory):
    """Rows that change limits, and close and open classes, of some legs that their names find."""
    legs, rows = [it for it in season.found.values() if it[1] == it[2] and inventory.ladders[it[:2]]], []
    for _ in range(lot.choice([0, 1, 2, 4]) if legs else 0):
        place = lot.choice(legs)
        name, day, board, off = season.name_of(place)
        step = lot.choice(inventory.ladders[place[:2]])
        kind = lot.choice(["AU", "AU", "AU", "CLOSE", "CLOSE", "OPEN"])
        if kind == "AU":
            rows.append(f"AU {name} {day_text(day)} {board}{off} {step.letter}{max(0, step.limit + lot.choice([-4, -2, -1, 0, 1, 3])):03d}/{lot.choice([0, 1, 5, 12]):03d}")
        else:
            rows.append(f"{kind} {name} {day_text(day)} {board}{off}{lot.choice(['', ' ' + step.letter, ' ' + step.letter])}")
    return "".join(f"{it}\n" for it in rows)
