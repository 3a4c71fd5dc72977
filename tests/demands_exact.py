"""The exact figures of a drawn ship by the regulation's own letters, each fourth root between two close fractions."""

from fractions import Fraction
from functools import lru_cache
from math import isqrt
from typing import NamedTuple, Optional, Tuple

from independent import letters

ROOT_SCALE = 10**24
WEIGHTS = (Fraction(2, 5), Fraction(2, 5), Fraction(1, 5))
BEST = (Fraction(5), Fraction(90), Fraction(0), Fraction(30))        # the best lever, range, heel and opening that a result may have
CAPS = (Fraction(12, 100), Fraction(16), Fraction(25), Fraction(0))  # those from which on they leave survival as it is
PASSENGER_CAPS = {0: (Fraction(12, 100), Fraction(16), Fraction(7), Fraction(0)), 1: (Fraction(20, 100), Fraction(20), Fraction(7), Fraction(0))}


class Bracket(NamedTuple):
    """A figure that lies at or between two fractions; both are the same where it is a fraction itself."""

    low: Fraction
    high: Fraction


class Held(NamedTuple):
    """Of lever, range, heel and opening, which keep survival below one beside the best others, and which make it one when brought to their cap;
    and whether it is one. In a passenger ship all this is said of s-final; an intermediate stage or a heeling moment may hold survival down beside them."""

    by: Tuple[bool, bool, bool, bool]
    mended: Tuple[bool, bool, bool, bool]
    is_one: bool
    elsewhere: bool = False


class Parts(NamedTuple):
    """Of a passenger ship's survival at a draught, what decides it and where s-mom lies, in words."""

    decided_by: str
    moment: str


class Exact(NamedTuple):
    """Row shares, chances by draught, A, As, Ap, Al and their marks, each row's survivals, what holds them down, which of two sets is lower and what
    decides a passenger ship's, whether every exposed group is listed, each row's v and what it adds by draught, and the share of every group."""

    shares: Tuple[Fraction, ...]
    chances: Tuple[Fraction, ...]
    figures: Tuple[Bracket, ...]
    marks: Tuple[Fraction, ...]
    survivals: Tuple[Tuple[Bracket, ...], ...]
    held: Tuple[Tuple[Optional[Held], ...], ...]
    lower: Tuple[Tuple[Optional[str], ...], ...]
    parts: Tuple[Tuple[Optional[Parts], ...], ...]
    all_listed: bool
    heights: Tuple[Tuple[Fraction, ...], ...]
    added: Tuple[Tuple[Bracket, ...], ...]
    groups: Tuple[Fraction, ...]


class Spans:
    """The chances p·r of a ship's spans, each worked out once."""

    def __init__(self, ship):
        self.ship = ship
        self.known = {}

    def within(self, first, last, b):
        """p·r of the span from one zone to another at b; nothing where there is no zone."""
        if last < first or b == 0:
            return Fraction(0)
        key = (first, last, b)
        if key not in self.known:
            aft, forward = self.ship.places[first - 1], self.ship.places[last]
            touched = (aft == 0) + (forward == self.ship.L)
            J = Fraction(forward - aft, self.ship.L)
            self.known[key] = letters.p(J, touched) * letters.r(J, touched, b, self.ship.B)
        return self.known[key]

    def share(self, a, n, b):
        """The share of a group at b, as a second difference over its first and last zone."""
        last = a + n - 1
        with_first = self.within(a, last, b) - self.within(a, last - 1, b)
        without_first = self.within(a + 1, last, b) - self.within(a + 1, last - 1, b)
        return with_first - without_first


def fourth_root(fraction):
    """The fourth root of a fraction, between two neighbours at the root scale."""
    scaled = fraction * ROOT_SCALE**4
    root = isqrt(isqrt(scaled.numerator // scaled.denominator))
    assert root**4 <= scaled < (root + 1) ** 4
    low = Fraction(root, ROOT_SCALE)
    return Bracket(low, low if root**4 == scaled else low + Fraction(1, ROOT_SCALE))


def in_metres(result):
    """A result's lever in metres, its range and heel in degrees, its opening in metres."""
    lever, reach, heel, opening = result
    return Fraction(lever, 1_000), Fraction(reach, 100), Fraction(heel, 100), Fraction(opening, 1_000)


@lru_cache(maxsize=None)
def s_fourth(result):
    """The exact s⁴ of a result."""
    return letters.s_fourth(*in_metres(result))


@lru_cache(maxsize=None)
def root(result):
    """The exact survival of a result."""
    return fourth_root(s_fourth(result))


def survival(height, draught):
    """A row's exact survival at one draught, the lower root of its two sets."""
    if height.given:
        given = Fraction(height.given[draught], 10_000)
        return Bracket(given, given)
    if height.stages:
        return passenger_survival(height.results[draught], height.stages[draught])
    roots = [root(results[draught]) for results in (height.results, height.second) if results]
    return Bracket(min(one.low for one in roots), min(one.high for one in roots))


def lower(height, draught):
    """Which of a row's two sets is lower at one draught; None where it has not two."""
    if not height.second:
        return None
    first, second = s_fourth(height.results[draught]), s_fourth(height.second[draught])
    return "the first" if first < second else "the second" if second < first else "neither"


def held(height, draught):
    """What holds a row's survival down at one draught, in its second set where that is lower; None where it is given."""
    if height.given:
        return None
    if height.stages:
        return passenger_holding(height.results[draught], height.stages[draught])
    results = height.second if lower(height, draught) == "the second" else height.results
    return holding(results[draught])


@lru_cache(maxsize=None)
def holding(result):
    """What holds the survival of a result down."""
    return held_by(in_metres(result), letters.s_fourth, CAPS)


def held_by(numbers, fourth, caps):
    """What holds an s⁴ of four numbers down."""
    alone = [BEST[:at] + numbers[at:at + 1] + BEST[at + 1:] for at in range(4)]
    brought = [numbers[:at] + caps[at:at + 1] + numbers[at + 1:] for at in range(4)]
    return Held(tuple(fourth(*one) < 1 for one in alone), tuple(fourth(*one) == 1 for one in brought), fourth(*numbers) == 1)


# Passenger ships


def dry_final_fourth(lever, reach, heel, opening, roro):
    """s-final⁴, or nothing where the opening is immersed (002, 2.7.6.2.3)."""
    return Fraction(0) if opening < 0 else letters.s_final_fourth(lever, reach, heel, roro)


def factors(result, stage):
    """s-intermediate⁴, s-final⁴ and s-mom."""
    displacement, moment, *between, roro = stage
    lever, reach, heel, opening = in_metres(result)
    early = letters.s_intermediate_fourth(*in_metres((*between, 0))[:3])
    return early, dry_final_fourth(lever, reach, heel, opening, roro), letters.s_mom(lever, displacement, moment)


@lru_cache(maxsize=None)
def passenger_survival(result, stage):
    """The exact survival: the lesser of one root and of another times s-mom."""
    early, final, moment = factors(result, stage)
    early, final = fourth_root(early), fourth_root(final)
    return Bracket(min(early.low, final.low * moment), min(early.high, final.high * moment)) if result[3] >= 0 else Bracket(Fraction(0), Fraction(0))


@lru_cache(maxsize=None)
def passenger_holding(result, stage):
    """What holds s-final down, and whether another factor is below one too."""
    early, _, moment = factors(result, stage)
    return held_by(in_metres(result), lambda *numbers: dry_final_fourth(*numbers, stage[5]), PASSENGER_CAPS[stage[5]])._replace(elsewhere=early < 1 or moment < 1)


def parts(height, draught):
    """What decides a passenger ship's survival at one draught; None in a cargo ship."""
    if not height.stages:
        return None
    early, final, moment = factors(height.results[draught], height.stages[draught])
    late = final * moment**4
    decided_by = "the intermediate stage" if early < late else "the final stage" if late < early else "both alike"
    return Parts(decided_by, "nothing" if moment == 0 else "one" if moment == 1 else "between")


def passenger_R(L, persons, rule):
    """R of a passenger ship by the rule that it is under."""
    return letters.passenger_R_of_2020(sum(persons)) if rule == 1 else letters.passenger_R(Fraction(L, 100), *persons)


def index_marks(ship):
    """What A, As, Ap and Al must reach."""
    if ship.persons is None:
        required, part = letters.R(Fraction(ship.L, 100)), Fraction(1, 2)
    else:
        required, part = passenger_R(ship.L, ship.persons, ship.rule), Fraction(9, 10)
    return (required, required * part, required * part, required * part)


# The whole ship


def chance_of_height(H, below, draught):
    """v of a row in metres: that of its own boundary less that of the row below it."""
    return letters.v((H - draught) / 1_000) - letters.v((below - draught) / 1_000)


def group_shares(ship, spans):
    """The share of each group down to B/2, by its first zone and then by how many it has."""
    m = len(ship.places) - 1
    return {(a, n): spans.share(a, n, ship.B // 2) for a in range(1, m + 1) for n in range(1, m - a + 2)}


def every_exposed_group_is_listed(ship, shares):
    """Whether each group of non-zero share is among the ship's groups."""
    listed = {(group.a, group.n) for group in ship.groups}
    return all(share == 0 for group, share in shares.items() if group not in listed)


def exact_figures(ship):
    """All exact figures of a ship."""
    spans = Spans(ship)
    ds, dl = Fraction(ship.ds), Fraction(ship.dl)
    draughts = (ds, dl + 3 * (ds - dl) / 5, dl)
    shares, survivals, helds, lowers, decided, heights, added = [], [], [], [], [], [], []
    for group in ship.groups:
        b_before = 0
        for layer in group.layers:
            share = spans.share(group.a, group.n, layer.b) - spans.share(group.a, group.n, b_before)
            b_before = layer.b
            below = 0
            for height in layer.heights:
                shares.append(share)
                survivals.append(tuple(survival(height, draught) for draught in range(3)))
                helds.append(tuple(held(height, draught) for draught in range(3)))
                lowers.append(tuple(lower(height, draught) for draught in range(3)))
                decided.append(tuple(parts(height, draught) for draught in range(3)))
                heights.append(tuple(chance_of_height(height.H, below, draught) for draught in draughts))
                added.append(tuple(Bracket(share * v * exact.low, share * v * exact.high) for v, exact in zip(heights[-1], survivals[-1])))
                below = height.H
    chances = tuple(sum((share * three[j] for share, three in zip(shares, heights)), Fraction(0)) for j in range(3))
    partials = tuple(Bracket(sum((three[j].low for three in added), Fraction(0)), sum((three[j].high for three in added), Fraction(0))) for j in range(3))
    of_groups = group_shares(ship, spans)
    attained = Bracket(
        sum(weight * partial.low for weight, partial in zip(WEIGHTS, partials)),
        sum(weight * partial.high for weight, partial in zip(WEIGHTS, partials)))
    return Exact(
        tuple(shares), chances, (attained, *partials), index_marks(ship),
        tuple(survivals), tuple(helds), tuple(lowers), tuple(decided), every_exposed_group_is_listed(ship, of_groups),
        tuple(heights), tuple(added), tuple(of_groups.values()))
