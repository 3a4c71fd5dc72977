"""The generator's own reading of the figures: shares, heights, survivals, openings, second sets, passenger ships' survivals and marks, each rule a method
that can be broken."""

from .required import BILLION, Required

FULL_HEIGHT = 916500
FULL = FULL_HEIGHT * 10 ** 4
ONE_FOURTH = 120 * 1600 * 250000  # a survival of one


def down(value, by):
    return value // by


def up(value, by):
    return -(-value // by)


class Figures(Required):
    """The figures of one case by documents 01 and 02; low and high always travel as a pair."""

    cap_lever, cap_range = 120, 1600

    def __init__(self, hull, rows):
        self.hull, self.rows = hull, rows
        self.places = (0,) + hull.bulkheads + (hull.ls,)
        self.kept = {}

    # the chance of damage within a span

    def band(self, x):
        ls = self.hull.ls
        return 1 if 33 * x <= 5 * ls else 2 if 33 * x <= 10 * ls else 3

    def inner(self, x):
        """p as a fraction."""
        ls = self.hull.ls
        band = self.band(x)
        if band == 1:
            return 550 * x * x * ls - 1089 * x ** 3, 100 * ls ** 3
        if band == 2:
            return (-1000 * ls ** 3 + 19800 * x * ls ** 2 + 32670 * x * x * ls - 35937 * x ** 3, 29700 * ls ** 3)
        return 297 * x - 20 * ls, 297 * ls

    def ends_of(self, fraction):
        over, under = fraction
        return down(BILLION * over, under), up(BILLION * over, under)

    def touched(self, aft, fore):
        """How many ends of the ship the span touches."""
        return (aft == 0) + (fore == self.hull.ls)

    def chance(self, x, ends):
        """P's ends."""
        if ends == 2:
            return BILLION, BILLION
        over, under = self.inner(x)
        if ends == 1:
            over, under = over * self.hull.ls + x * under, 2 * under * self.hull.ls
        return self.ends_of((over, under))

    # penetration

    def depth(self, b):
        """C as a fraction."""
        breadth = self.hull.breadth
        return 16 * b * breadth - 12 * b * b, 5 * breadth * breadth

    def g1(self, b):
        breadth = self.hull.breadth
        return self.ends_of((5500 * b * breadth - 1089 * b * b, 7500 * breadth ** 2))

    def g3(self, b):
        breadth = self.hull.breadth
        return self.ends_of((1375 * b * b * breadth - 363 * b ** 3, 56250 * breadth ** 3))

    def short(self, x, b):
        return 15 * self.hull.breadth * x <= b * self.hull.ls

    def along(self, x, b):
        """The ends of xG1/L."""
        low, high = self.g1(b)
        return down(x * low, self.hull.ls), up(x * high, self.hull.ls)

    def shallow(self, x, ends, b):
        """G's ends."""
        if ends == 2:
            return self.g1(b)
        along = self.along(x, b)
        if self.short(x, b):
            inner = self.ends_of(self.inner(x))
            if ends == 0:
                return inner
            return down(inner[0] + along[0], 2), up(inner[1] + along[1], 2)
        less = self.g3(b)
        if ends == 1:
            less = down(less[0], 2), up(less[1], 2)
        return max(along[0] - less[1], 0), along[1] - less[0]

    def within(self, aft, fore, b):
        """Q's ends for the span between two places."""
        key = aft, fore, b
        if key not in self.kept:
            ends = self.touched(aft, fore)
            chance, shallow = self.chance(fore - aft, ends), self.shallow(fore - aft, ends, b)
            over, under = self.depth(b)
            self.kept[key] = (down(chance[0] * over + shallow[0] * (under - over), under),
                              up(chance[1] * over + shallow[1] * (under - over), under))
        return self.kept[key]

    # shares

    def spans(self, a, n):
        """The spans of a group's rule with their signs, as aft and fore places."""
        at = self.places
        first, last = a - 1, a - 1 + n
        spans = [(1, at[first], at[last])]
        if n >= 2:
            spans += [(-1, at[first], at[last - 1]), (-1, at[first + 1], at[last])]
        if n >= 3:
            spans += [(1, at[first + 1], at[last - 1])]
        return spans

    def terms(self, row, before):
        """The signed Q of a row: those at its b, and the other way those at the layer before."""
        terms = [(sign, self.within(aft, fore, row.b)) for sign, aft, fore in self.spans(row.a, row.n)]
        if before:
            terms += [(-sign, self.within(aft, fore, before)) for sign, aft, fore in self.spans(row.a, row.n)]
        return terms

    def share(self, row, before):
        """A row's share ends; before is the b of the layer before, 0 where there is none."""
        terms = self.terms(row, before)
        low = sum(ends[0] if sign > 0 else -ends[1] for sign, ends in terms)
        high = sum(ends[1] if sign > 0 else -ends[0] for sign, ends in terms)
        return self.held(low, high)

    def held(self, low, high):
        return max(low, 0), min(high, BILLION)

    def below(self):
        """For each row, the b of the layer before it and the H of the row under it, 0 and None where there is none."""
        under = []
        for at, row in enumerate(self.rows):
            last = self.rows[at - 1] if at else None
            if last is None or (last.a, last.n) != (row.a, row.n):
                under.append((0, None))
            elif last.b != row.b:
                under.append((last.b, None))
            else:
                under.append((under[-1][0], last.h))
        return under

    # height and survival

    def draughts(self):
        ds, dl = self.hull.ds, self.hull.dl
        return ds, dl + 3 * (ds - dl) // 5, dl

    def reach(self, h):
        """v in 916,500ths at a height above the draught."""
        if h <= 0:
            return 0
        if h <= 7800:
            return 94 * h
        return min(733200 + 39 * (h - 7800), FULL_HEIGHT)

    def height(self, row, under, draught):
        return self.reach(row.h - draught) - (0 if under is None else self.reach(under - draught))

    def heeled(self, heel):
        """k as a fraction over 500 squared."""
        return 250000 if heel <= 2500 else 0 if heel >= 3000 else (3000 - heel) ** 2

    def result(self, row, draught, of=0):
        """Lever, range, heel and opening at draught 0, 1 or 2, of the first set or of the second."""
        at = 12 * of + 4 * draught
        return row.figures[at:at + 4]

    def immersed(self, opening):
        return opening < 0

    def fourth(self, lever, reach, heel, opening):
        """s to the fourth over ONE_FOURTH."""
        if self.immersed(opening):
            return 0
        return min(lever, self.cap_lever) * min(reach, self.cap_range) * self.heeled(heel)

    def counting(self, row, draught):
        """The result that counts at a draught: of two sets' the one that is lower exactly, the first's when equal."""
        first = self.result(row, draught)
        if len(row.figures) == 12:
            return first
        second = self.result(row, draught, 1)
        return second if self.fourth(*second) < self.fourth(*first) else first

    def survival(self, row, draught):
        """Bottom and top in ten-thousandths at draught 0, 1 or 2."""
        if len(row.figures) == 3:
            return row.figures[draught], row.figures[draught]
        if len(row.figures) == 30:
            return self.passenger_survival(row, draught)
        return self.rounded(self.counting(row, draught))

    def rounded(self, result):
        """Bottom and top of one result."""
        return self.root(10 ** 16 * self.fourth(*result), ONE_FOURTH)

    def root(self, over, under):
        bottom, above = 0, 10001
        while above - bottom > 1:
            middle = (bottom + above) // 2
            if middle ** 4 * under <= over:
                bottom = middle
            else:
                above = middle
        return bottom, bottom + (bottom ** 4 * under < over)

    # a passenger ship's survival, in fractions of two whole numbers

    def stage(self, row, draught):
        """Displacement, moment, the intermediate stage's lever, range and heel, and the ro-ro mark at draught 0, 1 or 2."""
        at = 12 + 6 * draught
        return row.figures[at:at + 6]

    def caps(self, roro):
        """The caps of the final stage's lever and range."""
        return (200, 2000) if roro else (120, 1600)

    def passenger_heeled(self, heel):
        """k of the final stage over 800 squared."""
        return 640000 if heel <= 700 else 0 if heel >= 1500 else (1500 - heel) ** 2

    def intermediate(self, lever, reach, heel):
        """s-intermediate to the fourth."""
        return 0 if heel > 1500 else min(lever, 50) * min(reach, 700), 50 * 700

    def final(self, lever, reach, heel, roro):
        """s-final to the fourth."""
        most_lever, most_range = self.caps(roro)
        return min(lever, most_lever) * min(reach, most_range) * self.passenger_heeled(heel), most_lever * most_range * 640000

    def moved(self, lever, displacement, moment):
        """s-mom: the lever in millimetres less 40, and no cap on it."""
        over, under = (lever - 40) * displacement, 1000 * moment
        return (0, 1) if over < 0 else (1, 1) if over > under else (over, under)

    def lesser(self, one, other):
        return one if one[0] * other[1] < other[0] * one[1] else other

    def upright(self, row, draught):
        """s-final times s-mom, to the fourth."""
        lever, reach, heel, _ = self.result(row, draught)
        displacement, moment, *_, roro = self.stage(row, draught)
        (over, under), (turned, whole) = self.final(lever, reach, heel, roro), self.moved(lever, displacement, moment)
        return over * turned ** 4, under * whole ** 4

    def passenger_fourth(self, row, draught):
        """s to the fourth: the lesser of the two, nothing where the opening is immersed."""
        if self.immersed(self.result(row, draught)[3]):
            return 0, 1
        return self.lesser(self.intermediate(*self.stage(row, draught)[2:5]), self.upright(row, draught))

    def passenger_survival(self, row, draught):
        over, under = self.passenger_fourth(row, draught)
        return self.root(10 ** 16 * over, under)

    def passenger_marked(self, lever, reach, heel, opening, roro):
        """Yes or no to the final stage's lever, range, heel and opening."""
        most_lever, most_range = self.caps(roro)
        return lever < most_lever, reach < most_range, heel > 700, opening < 0

    # what holds a survival down

    def marked(self, lever, reach, heel, opening):
        """Yes or no to lever, range, heel and opening."""
        return lever < 120, reach < 1600, heel > 2500, opening < 0

    def added_up(self, lever, reach, heel, opening):
        """Four answers as one byte."""
        return sum(one for one, held in ((1, lever), (2, reach), (4, heel), (8, opening)) if held)

    def marks_at(self, row, draught):
        """The byte of a row's marks at draught 0, 1 or 2; a given survival has none."""
        if len(row.figures) == 3:
            return 0
        if len(row.figures) == 30:
            return self.added_up(*self.passenger_marked(*self.result(row, draught), self.stage(row, draught)[5]))
        return self.added_up(*self.marked(*self.counting(row, draught)))

    def row_marks(self):
        """Three bytes for each row."""
        return [tuple(self.marks_at(row, draught) for draught in range(3)) for row in self.rows]

    # the answer

    def adds(self, share, v, s):
        return down(share[0] * v * s[0], FULL), up(share[1] * v * s[1], FULL)

    def weighed(self, partials):
        """A's ends from those at the three draughts."""
        low, high = (2 * partials[0][end] + 2 * partials[1][end] + partials[2][end] for end in (0, 1))
        return down(low, 5), up(high, 5)

    def answer(self):
        """The verdict, the ends of A, As, Ap and Al, and each row's share ends and marks."""
        shares, partials = [], [[0, 0], [0, 0], [0, 0]]
        for row, (before, under) in zip(self.rows, self.below()):
            share = self.share(row, before)
            shares.append(share)
            for at, draught in enumerate(self.draughts()):
                low, high = self.adds(share, self.height(row, under, draught), self.survival(row, at))
                partials[at][0] += low
                partials[at][1] += high
        ends = [self.weighed(partials)] + [tuple(ends) for ends in partials]
        return self.verdict(ends), ends, shares, self.row_marks()
