"""What index and verdict would have been with the middle span never put back: worked out by the desk itself in exact fractions, and not proved."""

from dataclasses import dataclass
from fractions import Fraction
from functools import lru_cache
from itertools import groupby

from frontdesk.figures.decimals import BILLION, HEIGHTS, SURVIVALS
from frontdesk.figures.engine import FAILS, MEETS, UNSETTLED
from frontdesk.figures.worth import Group

# regulation 7-1 for ships up to 198 m, where the longest damage is 10/33 of the length
J_M, J_K = Fraction(10, 33), Fraction(5, 33)
B11, B12, B21, B22 = Fraction(-3267, 50), Fraction(11), Fraction(-363, 50), Fraction(11, 5)
WEIGHTS = (Fraction(2, 5), Fraction(2, 5), Fraction(1, 5))

NOT_PROVED = "No figure of this section is proved. It shows a mistake, and what the mistake would have made of this ship."
HOW = (
    "A group of three and more zones is the chance of the whole span, less that of the span without its last zone, less that of the span without its first; "
    "the span without both has then been taken away twice, and is put back once. With the slip it is not put back.",
    "The desk works out these chances itself, in exact fractions, from p and r of regulation 7-1. Survival, v, R and the marks are the library's: lower ends "
    "with the bottoms of the survivals, upper ends with their tops. Groups that are not listed add nothing, with the slip as without it.",
    "With the slip a chance can fall below zero. What an engine with this slip did with such a chance is not known, so both are shown: "
    "taken as it comes out, and held at 0 in each row.",
)


def inner(J):
    """p of a span that touches neither end of the ship, of so much of its length."""
    if J <= J_K:
        return J**2 * (B11 * J + 3 * B12) / 6
    n = min(J, J_M)
    short = -B11 * J_K**3 / 3 + (B11 * J - B12) * J_K**2 / 2 + B12 * J * J_K
    return short - B21 * (n**3 - J_K**3) / 3 + (B21 * J - B22) * (n**2 - J_K**2) / 2 + B22 * J * (n - J_K)


@lru_cache(maxsize=8192)
def chance(aft, forward, length, depth, breadth):
    """p times r of a span between two places: the chance of damage within it that reaches no deeper."""
    J, Jb = Fraction(forward - aft, length), Fraction(depth, 15 * breadth)
    C = 12 * Jb * (4 - 45 * Jb)
    J0 = min(J, Jb)
    G1 = B11 * Jb**2 / 2 + B12 * Jb
    G2 = -B11 * J0**3 / 3 + (B11 * J - B12) * J0**2 / 2 + B12 * J * J0
    touched = (aft == 0) + (forward == length)
    p = (inner, lambda J: (inner(J) + J) / 2, lambda J: Fraction(1))[touched](J)
    G = (G2, (G2 + G1 * J) / 2, G1)[touched]
    return p - (1 - C) * (p - G)


def within(ship, first, last, depth):
    """The chance of damage within the zones from first to last; none where there is no zone or no depth."""
    if last < first or not depth:
        return Fraction(0)
    return chance(ship.places[first - 1], ship.places[last], ship.length, depth, ship.breadth)


def middle(ship, first, count, depth):
    """The chance of a group's middle span, which is put back; none of one or two zones."""
    return within(ship, first + 1, first + count - 2, depth)


def share(ship, first, count, depth):
    """The share of a group down to a depth, the middle span put back."""
    last = first + count - 1
    whole = within(ship, first, last, depth)
    return whole if count == 1 else whole - within(ship, first, last - 1, depth) - within(ship, first + 1, last, depth) + middle(ship, first, count, depth)


@dataclass(frozen=True)
class Slipped:
    """A group with its share down to B/2, and what the slip leaves of it."""

    group: Group
    right: Fraction
    middle: Fraction

    @property
    def slipped(self):
        return self.right - self.middle


@dataclass(frozen=True)
class Outcome:
    """A, As, Ap and Al as lower and upper ends in fractions, and the verdict on them."""

    name: str
    ends: tuple
    verdict: int


@dataclass(frozen=True)
class Slip:
    groups: tuple  # every group, in the hull's order
    right: Outcome  # worked out in the same way with the middle span put back: must lie within the proved ends
    as_it_comes: Outcome
    held: Outcome
    proved: tuple  # the proved verdict, and the proved ends of A, As, Ap and Al

    @property
    def total(self):
        """The shares of all groups together with the slip; without it they are one."""
        return sum((group.slipped for group in self.groups), Fraction(0))

    @property
    def total_held(self):
        """The same with each group that falls below zero held at 0."""
        return sum((max(group.slipped, Fraction(0)) for group in self.groups), Fraction(0))

    @property
    def agrees(self):
        """Whether the desk's own working, without the slip, lies within the proved ends."""
        return all(Fraction(end.lower, BILLION) <= low and high <= Fraction(end.upper, BILLION) for end, (low, high) in zip(self.proved[1], self.right.ends))

    @property
    def answer(self):
        """Was this ship among those judged wrongly? In one sentence."""
        comes, held, proved = (SAID[verdict] for verdict in (self.as_it_comes.verdict, self.held.verdict, self.proved[0]))
        if comes != held:
            both = "It depends on what was done with chances below zero: taken as they come out, the ship %s; held at 0, it %s." % (comes, held)
            return "%s The proved verdict is that it %s." % (both, proved)
        if comes == proved:
            return "No: the ship %s, with the slip and without it." % proved
        return "Yes: with the slip the ship %s. The proved verdict is that it %s." % (comes, proved)


SAID = {MEETS: "meets", FAILS: "fails", UNSETTLED: "is unsettled"}


def slip(findings):
    """The slip's figures of a ship that was found."""
    ship = findings.ship
    half = ship.half_breadth
    groups = tuple(
        Slipped(group, share(ship, group.first, group.count, half), middle(ship, group.first, group.count, half)) for group in findings.groups
    )
    rows = [row for group in findings.groups for row in of_group(ship, group)]
    marks = [index.mark for index in findings.indices]
    right, comes, held = (
        outcome(name, [(case, chances[at]) for case, *chances in rows], marks) for at, name in enumerate(("put back", "as it comes out", "held at 0"))
    )
    return Slip(groups, right, comes, held, (findings.verdict, tuple(index.ends for index in findings.indices)))


def of_group(ship, group):
    """Each case of a group with its row's right share, its slipped share, and that held at 0."""
    before = (Fraction(0), Fraction(0))
    for depth, cases in groupby(group.cases, key=lambda case: case.row.depth):
        reached = (share(ship, group.first, group.count, depth), middle(ship, group.first, group.count, depth))
        right, lost = reached[0] - before[0], reached[1] - before[1]
        for case in cases:
            yield case, right, right - lost, max(right - lost, Fraction(0))
        before = reached


def outcome(name, rows, marks):
    """The ends with these shares: a chance below zero is at its lowest with the greatest survival."""
    partials = []
    for draught in range(3):
        low = high = Fraction(0)
        for case, part in rows:
            at = case.at[draught]
            least, most = sorted((part * at.v * at.bottom, part * at.v * at.top))
            low, high = low + least, high + most
        partials.append((low / (HEIGHTS * SURVIVALS), high / (HEIGHTS * SURVIVALS)))
    ends = (tuple(sum(weight * partial[end] for weight, partial in zip(WEIGHTS, partials)) for end in (0, 1)), *partials)
    if all(low >= mark for (low, _), mark in zip(ends, marks)):
        return Outcome(name, ends, MEETS)
    return Outcome(name, ends, FAILS if any(high < mark for (_, high), mark in zip(ends, marks)) else UNSETTLED)
