"""The searches whose results stand in found.py: python3 tests/generator --search writes it anew, in about a minute."""

from fractions import Fraction
from math import gcd, isqrt
from pprint import pformat

from .dice import Dice
from .figures import BILLION, FULL, FULL_HEIGHT, ONE_FOURTH, Figures, down, up
from .frames import Hull, Row
from .shapes import every_group


def plain(ls, breadth=2000, bulkheads=()):
    return Figures(Hull(ls, breadth, 8000, 5000, tuple(bulkheads)), [])


class Moved(Figures):
    """The band is that of a length given beside the span's own."""

    moved = 0

    def band(self, x):
        return super().band(x + self.moved)


def moved(ls, by):
    figures = Moved(Hull(ls, 2000, 8000, 5000), [])
    figures.moved = by
    return figures


def band_edges(most=3):
    """Lengths at which a band taken one centimetre too soon or too late changes a printed end: edge, side, ends touched, then (L, x)."""
    found = {}
    for ls in range(8000, 19801):
        right = plain(ls)
        for edge in (5, 10):
            last = edge * ls // 33
            for side, x in ((1, last), (-1, last + 1)):
                wrong = moved(ls, side)
                for ends in (0, 1):
                    if right.chance(x, ends) != wrong.chance(x, ends):
                        found.setdefault((edge, side, ends), []).append((ls, x))
    return {key: (len(pairs), pairs[:most]) for key, pairs in sorted(found.items())}


class Late(Figures):
    """15Bx < bL in the place of <=."""

    def short(self, x, b):
        return 15 * self.hull.breadth * x < b * self.hull.ls


def depth_edges(most=4, tries=200000, seed=1):
    """Hulls and b with 15Bx = bL for a zone of length x, where < for <= changes Q: ends touched, then (L, B, x, b)."""
    dice, found = Dice(seed), {0: [], 1: []}
    for _ in range(tries):
        ls, breadth = dice.between(8000, 19800), 2 * dice.between(500, 3000)
        x = dice.between(1, ls // 30)
        if 15 * breadth * x % ls:
            continue
        b = 15 * breadth * x // ls
        if not 1 <= b < breadth // 2:
            continue
        hull = Hull(ls, breadth, 8000, 5000)
        for ends, (aft, fore) in ((0, (100, 100 + x)), (1, (0, x))):
            if Figures(hull, []).within(aft, fore, b) != Late(hull, []).within(aft, fore, b):
                found[ends].append((ls, breadth, x, b))
    return {ends: (len(all_found), all_found[:most]) for ends, all_found in found.items()}


def width(hull, a, n, b, before):
    low, high = Figures(hull, []).share(Row(a, n, b, hull.top, ()), before)
    return high - low


def wide_rows(least=30, tries=400000, seed=2, most=10):
    """Rows whose share ends lie far apart: (width, L, B, bulkheads, a, n, b, b before)."""
    dice, found = Dice(seed), []
    for _ in range(tries):
        ls, breadth = dice.between(8000, 19800), 2 * dice.between(500, 3000)
        places = sorted({dice.between(1, ls - 1) for _ in range(4)})
        if len(places) < 4:
            continue
        hull = Hull(ls, breadth, 8000, 5000, tuple(places))
        before = dice.between(1, hull.half - 2)
        b = dice.between(before + 1, hull.half - 1)
        far = width(hull, 2, 3, b, before)
        if far >= least:
            found.append((far, ls, breadth, tuple(places), 2, 3, b, before))
    return sorted(found, reverse=True)[:most]


def full_ships(tries=400, seed=3, most=3):
    """Ships of 20 zones, all groups in two layers, all surviving: how far As's upper end is above one, then L, B, bulkheads, layers."""
    dice, found = Dice(seed), []
    for _ in range(tries):
        ls, breadth = dice.between(8000, 19800), 2 * dice.between(500, 3000)
        places = tuple(dice.some(range(1, ls), 19))
        hull = Hull(ls, breadth, 8000, 5000, places)
        layers = (dice.between(1, hull.half - 1),)
        high = Figures(hull, every_group(hull, layers=layers)).answer()[1][1][1] - BILLION
        found.append((high, ls, breadth, places, layers))
    return sorted(found, reverse=True)[:most]


def tuned(over, under, wanted):
    """Heights of two rows above the draught and the survival s of a third (theirs are s + 2 and s + 1) whose ends stand as wanted to the mark."""
    figures = plain(12000)
    mark = up(BILLION * over, under)
    for third in (10000 * over // under, 10000 * over // under - 1):
        need = (mark - BILLION // 10000 * third) * FULL // BILLION
        for first in range(1, 7800):
            step = 7800 + (need - figures.reach(first) - 733200) // 39
            for second in (step - 1, step, step + 1):
                if not 7800 <= second < 12500:
                    continue
                reach = [0, figures.reach(first), figures.reach(second), FULL_HEIGHT]
                adds = [(high - low) * (third + 2 - at) * BILLION for at, (low, high) in enumerate(zip(reach, reach[1:]))]
                if wanted(sum(down(add, FULL) for add in adds) - mark, sum(up(add, FULL) for add in adds) - mark):
                    return first, second, third
    raise ValueError("no heights found for the mark %d/%d" % (over, under))


WANTED = {1: lambda low, high: low == 0, 2: lambda low, high: high == -1, 3: lambda low, high: low < 0 == high}


def marks():
    """For each length, whole or half mark, and verdict: the rows whose ends just meet the mark, just fail it, or end on it from below."""
    found = {}
    for ls in (8000, 8001, 9999, 10000, 10001, 10400, 16050, 19800):
        over, under = plain(ls).required()
        for part in (1, 2) if ls in (10400, 19800) else (1,):
            for verdict, wanted in WANTED.items():
                found[ls, part, verdict] = tuned(over, part * under, wanted)
    return found


def near_roots(most=6):
    """Results (lever, range, heel) whose s comes out whole, or as near to whole as can be from below and from above."""
    figures, whole, under, over = plain(12000), set(), [], []
    for lever in range(1, 121):
        for reach in range(1, 1601):
            for heel in (0, 2501, 2600, 2750, 2875, 2990):
                exact = 625000 * lever * reach * (500 if heel <= 2500 else 3000 - heel) ** 2
                bottom, top = figures.root(exact, 3)
                if bottom == top:
                    whole.add((bottom, lever, reach, heel))
                else:
                    above, below = exact - 3 * bottom ** 4, 3 * top ** 4 - exact
                    over.append((above * 10 ** 9 // (12 * bottom ** 3 + 1), lever, reach, heel))
                    under.append((below * 10 ** 9 // (12 * top ** 3), lever, reach, heel))
                    if len(over) > 50000:
                        over, under = sorted(over)[:most], sorted(under)[:most]
    spread = sorted(whole)
    return {"whole": [one[1:] for one in spread[::max(len(spread) // 12, 1)]],
            "above": [one[1:] for one in sorted(over)[:most]], "below": [one[1:] for one in sorted(under)[:most]]}


def near_ties():
    """For two different bytes of marks, the lower result's first: the two results (lever, range, heel) that are closest in s to the fourth and not
    equal, with the same bottom and top."""
    figures, by_fourth, found = plain(12000), {}, {}
    results = [(lever, reach, heel) for heel in (2500, 2750, 2999) for lever in range(1, 121) for reach in range(1, 1601)]
    for result in results + [(120, 1600, heel) for heel in range(2501, 2999)]:
        byte = figures.added_up(*figures.marked(*result, 0))
        by_fourth.setdefault(figures.fourth(*result, 0), {}).setdefault(byte, result)
    rising = sorted(by_fourth)
    for low, high in zip(rising, rising[1:]):
        for below, lower in by_fourth[low].items():
            for above, higher in by_fourth[high].items():
                apart = (high - low) / low  # what counts is how near they are for their size
                if below == above or (below, above) in found and found[below, above][0] <= apart:
                    continue
                if figures.root(10 ** 16 * low, ONE_FOURTH) == figures.root(10 ** 16 * high, ONE_FOURTH):
                    found[below, above] = apart, lower, higher
    return {pair: results for pair, (_, *results) in sorted(found.items())}


def passenger_marks():
    """For passenger ships by length and persons, ten tenths of the mark or nine, and verdict: rows as in marks()."""
    found = {}
    for ls, persons in ((2000, (0, 0)), (2500, (1900, 0)), (9900, (400, 600)), (19800, (10000, 10000))):
        over, under = Figures(Hull(ls, 2000, 8000, 5000, (), persons), []).required()
        for tenths in (10, 9):
            for verdict, wanted in WANTED.items():
                found[ls, persons, tenths, verdict] = tuned(tenths * over, 10 * under, wanted)
    return found


def rule_marks():
    """For passenger ships under the rule of 2020 by persons, ten tenths of the mark or nine, and verdict: rows as in marks()."""
    found = {}
    for persons in ((0, 399), (399, 1), (700, 650), (6000, 1), (10000, 10000)):
        over, under = Figures(Hull(9000, 2000, 8000, 5000, (), persons, 1), []).required()
        for tenths in (10, 9):
            for verdict, wanted in WANTED.items():
                found[persons, tenths, verdict] = tuned(tenths * over, 10 * under, wanted)
    return found


def near_moments(most=3):
    """Levers, displacements and moments whose s-mom is next to a whole ten-thousandth, as near as can be with these moments, from above and from below."""
    found = {"above": [], "below": []}
    for moment in range(1999999, 1000000, -1234):
        for lever in (41, 47, 143, 1039, 5000):
            tens = 10 * (lever - 40)  # times displacement over moment it is s-mom in ten-thousandths
            if gcd(tens, moment) > 1:
                continue
            more = pow(tens, -1, moment)
            for name, displacement in (("above", more), ("below", moment - more)):
                if displacement <= 300000 and 1000 < tens * displacement // moment < 9999:
                    found[name].append((lever, displacement, moment))
    return {name: sorted(all_found)[::max(len(all_found) // most, 1)][:most] for name, all_found in found.items()}


def near_products(most=3, tries=20000, seed=4):
    """Final stages with displacements and moments whose s-final times s-mom is next to a whole ten-thousandth, the nearest from above and from below,
    without a ro-ro mark and with one: lever, range, heel, displacement, moment."""
    dice, figures, found = Dice(seed), plain(12000), {}
    for at in range(tries):
        roro = at % 2
        lever, reach, heel = dice.between(60, dice.pick((200, 5000))), dice.between(100, 2100), dice.pick((0, dice.between(0, 1499)))
        (over, under), s = figures.final(lever, reach, heel, roro), dice.between(500, 9000)
        root = isqrt(isqrt(10 ** 120 * over // under))  # s-final to thirty places
        near = Fraction(s * 10 ** 30, 10 * root * (lever - 40)).limit_denominator(2000000)
        displacement, moment = near.numerator, near.denominator
        if not 1 <= displacement <= 300000 or (lever - 40) * displacement >= 1000 * moment:
            continue
        apart = over * ((lever - 40) * displacement) ** 4 * 10 ** 16 - under * (1000 * moment * s) ** 4
        if apart:
            far = abs(apart) * 10 ** 30 // (under * (1000 * moment * s) ** 4)
            found.setdefault(("above" if apart > 0 else "below", roro), []).append((far, lever, reach, heel, displacement, moment))
    return {key: [one[1:] for one in sorted(all_found)[:most]] for key, all_found in sorted(found.items())}


SEARCHES = (band_edges, depth_edges, wide_rows, full_ships, marks, near_roots, near_ties, passenger_marks, rule_marks, near_moments, near_products)


def write(path):
    """Runs every search and writes its result as the file of found parameters."""
    text = ['"""Parameters that the searches of search.py found; written by: python3 tests/generator --search"""']
    for search in SEARCHES:
        text.append("%s = %s" % (search.__name__.upper(), pformat(search(), width=130, compact=True)))
    path.write_text("\n\n".join(text) + "\n", encoding="ascii")
