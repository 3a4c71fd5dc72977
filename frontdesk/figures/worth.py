"""What rows, zone groups and reasons are worth: chance, what is added, what is lost, as ends in whole numbers, and their sums."""

from collections import defaultdict
from dataclasses import dataclass
from itertools import groupby
from typing import NamedTuple

from frontdesk.figures import reasons
from frontdesk.figures.decimals import SURVIVALS, per_cent
from frontdesk.ship import Row


class Ends(NamedTuple):
    """The exact figure is not below the lower and not above the upper end."""

    lower: int
    upper: int


class Worth(NamedTuple):
    """In billionths at a draught; of A in tenths of billionths, in which it is exact."""

    chance: Ends  # what a survival of one would add: the twin's
    adds: Ends
    loss: Ends  # chance less what is added; nothing where the survival is one

    @property
    def kept(self):
        """Per cent that are survived at least, cut off; nothing where there is no chance."""
        if self.chance.upper and not self.loss.upper:
            return 100
        return per_cent(self.adds.lower, self.chance.upper)


class At(NamedTuple):
    """A case at one draught."""

    v: int  # 916,500ths
    bottom: int  # ten-thousandths, as the next
    top: int
    marks: int
    worth: Worth
    reasons: tuple


@dataclass(frozen=True)
class Case:
    """A row with what the library found of it."""

    number: int  # in the file's order, from 1
    row: Row
    share: Ends
    at: tuple  # an At at the deepest, the partial and the light draught
    whole: Worth  # of A

    @property
    def reasons(self):
        """Those of any draught at which something is lost."""
        found = {reason for at in self.at if at.worth.loss.upper for reason in at.reasons}
        return tuple(reason for reason in reasons.REASONS if reason in found)


@dataclass(frozen=True)
class Summed:
    """A sum over rows."""

    at: tuple  # a Worth at the deepest, the partial and the light draught
    whole: Worth  # of A


@dataclass(frozen=True)
class Group(Summed):
    """A group of zones, listed or not."""

    first: int
    count: int
    share: Ends  # down to B/2
    cases: tuple

    @property
    def name(self):
        return str(self.first) if self.count == 1 else "%d-%d" % (self.first, self.first + self.count - 1)

    @property
    def listed(self):
        return bool(self.cases)

    @property
    def missing(self):
        """Not listed, and it has a share or may have one. The share's upper end is the most that it could add."""
        return not self.cases and self.share.upper > 0

    @property
    def surely(self):
        """It has a share; where the lower end is 0 it may have none."""
        return self.share.lower > 0


class Grouped:
    """What has groups: those of them that are missing."""

    @property
    def missing(self):
        return tuple(group for group in self.groups if group.missing)

    @property
    def missing_most(self):
        """What they could add at most, to A and to each partial index, billionths."""
        return sum(group.share.upper for group in self.missing)


@dataclass(frozen=True)
class Count(Summed, Grouped):
    """All groups of so many zones."""

    zones: int
    groups: tuple
    share: Ends  # of all these groups

    @property
    def listed(self):
        return tuple(group for group in self.groups if group.listed)

    @property
    def kept(self):
        """Per cent of these groups' whole share that are survived at least, cut off: what is not listed is not survived."""
        return per_cent(self.whole.adds.lower, 10 * self.share.upper) if any(group.surely for group in self.missing) else self.whole.kept


class Cause(NamedTuple):
    """What is lost of A by these reasons, in tenths of billionths, in how many cases, and the case that loses most by them."""

    reasons: tuple
    loss: Ends
    cases: int
    worst: Case


def weighed(three):
    """What three figures in billionths are of A, in tenths of billionths: two fifths, two fifths and one fifth, exactly."""
    return 4 * three[0] + 4 * three[1] + 2 * three[2]


def of_index(three):
    """The worth at three draughts as worth of A."""
    return Worth(*(Ends(*(weighed([at[part][end] for at in three]) for end in (0, 1))) for part in range(3)))


def added(ends):
    """A sum of ends, lower with lower and upper with upper."""
    ends = list(ends)
    return Ends(sum(end[0] for end in ends), sum(end[1] for end in ends))


def summed(cases):
    """The sum over cases at each draught, and of A."""
    three = tuple(Worth(*(added(case.at[draught].worth[part] for case in cases) for part in range(3))) for draught in range(3))
    return Summed(three, of_index(three))


def cased(number, row, told, could, upright=None, staged=None):
    """A row with its twenty numbers and those of its twin; of a passenger ship also those without its final stage, and without its intermediate stage
    and moment. What the survival rises without holds it down."""
    three = []
    for at in (2, 8, 14):
        v, bottom, top, marks = told[at:at + 4]
        stage = staged is not None and staged[at + 1:at + 3] != (bottom, top)
        final = not stage or upright[at + 1:at + 3] != (bottom, top)
        adds, chance = Ends(*told[at + 4:at + 6]), Ends(*could[at + 4:at + 6])
        loss = Ends(0, 0) if bottom == SURVIVALS else Ends(max(chance.lower - adds.upper, 0), chance.upper - adds.lower)
        three.append(At(v, bottom, top, marks, Worth(chance, adds, loss), reasons.of(row, marks, bottom, final, stage)))
    return Case(number, row, Ends(*told[:2]), tuple(three), of_index([at.worth for at in three]))


def grouped(ship, shares, cases):
    """Every group of the hull, by first zone and then by number of zones, with its cases."""
    listed = {key: tuple(rows) for key, rows in groupby(cases, key=lambda case: (case.row.first, case.row.count))}
    keys = [(first, count) for first in range(1, ship.zones + 1) for count in range(1, ship.zones - first + 2)]
    if len(keys) != len(shares):
        raise RuntimeError("the library has %d zone groups where %d are" % (len(shares), len(keys)))
    groups = []
    for (first, count), share in zip(keys, shares):
        rows = listed.get((first, count), ())
        total = summed(rows)
        groups.append(Group(total.at, total.whole, first, count, Ends(*share), rows))
    return tuple(groups)


def counted(zones, groups):
    """The sum over the groups of so many zones."""
    total = summed([case for group in groups for case in group.cases])
    return Count(total.at, total.whole, zones, tuple(groups), added(group.share for group in groups))


def caused(cases, headings):
    """What is lost under each heading, the greatest first; headings tells under which the reasons of a case at a draught stand."""
    lost = defaultdict(lambda: defaultdict(lambda: [0, 0]))
    for case in cases:
        for at, weight in zip(case.at, (4, 4, 2)):
            for heading in headings(at.reasons) if at.worth.loss.upper else ():
                so_far = lost[heading][case.number]
                so_far[0] += weight * at.worth.loss.lower
                so_far[1] += weight * at.worth.loss.upper
    causes = []
    for heading, of_case in lost.items():
        worst = max(of_case, key=lambda number: (of_case[number], -number))
        causes.append(Cause(heading, added(of_case.values()), len(of_case), cases[worst - 1]))
    return tuple(sorted(causes, key=lambda cause: (-cause.loss.lower, -cause.loss.upper, cause.reasons)))
