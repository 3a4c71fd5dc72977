"""The exact figures of documents 01 and 02 as fractions: chances, shares, height, survival and the required index."""

from fractions import Fraction
from functools import lru_cache
from typing import NamedTuple

WHOLE_V = 916_500        # v of a boundary that no damage passes
WHOLE_SURVIVAL = 10_000  # a survival of one
KEPT = 8_192             # figures kept by the caches: more than the spans and layers of any one file

EARLIER_RULE, RULE_OF_2020 = 0, 1  # the marks of the rule that a passenger ship is under


class Marks(NamedTuple):
    """What holds one result's survival down, yes or no: its lever, its range, its heel, its opening."""

    lever: bool
    reach: bool
    heel: bool
    opening: bool


NO_MARKS = Marks(False, False, False, False)


class Span(NamedTuple):
    """A stretch of the ship by its aft and forward place, in centimetres from the aft end."""

    aft: int
    forward: int

    @property
    def length(self):
        return self.forward - self.aft


# Chance of damage within a span (regulation 7-1)


def p(x, L):
    """Chance of damage within a span: inner p, one of three bands."""
    if 33 * x <= 5 * L:
        return Fraction(550 * x**2 * L - 1089 * x**3, 100 * L**3)
    if 33 * x <= 10 * L:
        return Fraction(-1000 * L**3 + 19800 * x * L**2 + 32670 * x**2 * L - 35937 * x**3, 29700 * L**3)
    return Fraction(297 * x - 20 * L, 297 * L)


def ends_touched(span, L):
    """Chance of damage within a span: how many ends of the ship the span touches, by place."""
    return (span.aft == 0) + (span.forward == L)


@lru_cache(maxsize=KEPT)
def P(span, L):
    """Chance of damage within a span: P of an inner span, of one that touches one end, and of the whole ship."""
    touched = ends_touched(span, L)
    if touched == 2:
        return Fraction(1)
    if touched == 1:
        return (p(span.length, L) + Fraction(span.length, L)) / 2
    return p(span.length, L)


# Penetration


def C(b, B):
    """Penetration: C."""
    return Fraction(16 * b * B - 12 * b**2, 5 * B**2)


def G1(b, B):
    """Penetration: G1."""
    return Fraction(5500 * b * B - 1089 * b**2, 7500 * B**2)


def G3(b, B):
    """Penetration: G3."""
    return Fraction(1375 * b**2 * B - 363 * b**3, 56250 * B**3)


def is_short(x, b, L, B):
    """Penetration: the spans that take the second form of G."""
    return 15 * B * x <= b * L


def G(span, b, L, B):
    """Penetration: exact G of the whole ship, of a span with one end, and with neither."""
    x = span.length
    touched = ends_touched(span, L)
    if touched == 2:
        return G1(b, B)
    if touched == 1:
        if is_short(x, b, L, B):
            return (p(x, L) + x * G1(b, B) / L) / 2
        return x * G1(b, B) / L - G3(b, B) / 2
    if is_short(x, b, L, B):
        return p(x, L)
    return x * G1(b, B) / L - G3(b, B)


@lru_cache(maxsize=KEPT)
def Q(span, b, L, B):
    """Penetration: the chance of damage within the span and within b."""
    return P(span, L) * C(b, B) + G(span, b, L, B) * (1 - C(b, B))


# Shares


def group_terms(zones, a, n):
    """Shares: the spans of group (a, n), each with the sign of its Q."""

    def zones_from(first, last):
        return Span(zones[first - 1].aft, zones[last - 1].forward)

    last = a + n - 1
    if n == 1:
        return [(+1, zones_from(a, a))]
    if n == 2:
        return [(+1, zones_from(a, last)), (-1, zones_from(a, a)), (-1, zones_from(last, last))]
    return [
        (+1, zones_from(a, last)),
        (-1, zones_from(a, last - 1)),
        (-1, zones_from(a + 1, last)),
        (+1, zones_from(a + 1, last - 1)),
    ]


def row_terms(zones, a, n, b, b_before):
    """Shares: the up to eight terms (sign, span, b) of a row; b_before is 0 in a group's first layer."""
    terms = [(sign, span, b) for sign, span in group_terms(zones, a, n)]
    if b_before > 0:
        terms += [(-sign, span, b_before) for sign, span in group_terms(zones, a, n)]
    return terms


def row_share(hull, row):
    """Shares: a row's exact share, that at its b less that at the layer before."""
    terms = row_terms(hull.zones, row.a, row.n, row.b, row.b_before)
    return sum((sign * Q(span, b, hull.L, hull.B) for sign, span, b in terms), Fraction(0))


def groups(zones):
    """Shares: every group (a, n) of a ship of so many zones, by its first zone and then by how many it has."""
    return [(a, n) for a in range(1, zones + 1) for n in range(1, zones - a + 2)]


def group_share(hull, a, n):
    """Shares: the exact share of group (a, n) over its full depth, at b = B/2."""
    return sum(sign * Q(span, hull.B // 2, hull.L, hull.B) for sign, span in group_terms(hull.zones, a, n))


# Height and survival


def v(h):
    """Height and survival: v at h = H - d, in 916,500ths."""
    if h <= 0:
        return 0
    if h <= 7_800:
        return 94 * h
    if h <= 12_500:
        return 733_200 + 39 * (h - 7_800)
    return WHOLE_V


def row_v(row, d):
    """Height and survival: a row's v at draught d; H_below is None for the first row of a layer."""
    below = 0 if row.H_below is None else v(row.H_below - d)
    return v(row.H - d) - below


def s_fourth(lever, reach, heel, opening):
    """Height and survival: s⁴ of one result, from its lever, range and heel; Openings: nothing where its opening is immersed."""
    if opening < 0:
        return Fraction(0)
    g = min(lever, 120)
    t = min(reach, 1_600)
    if heel <= 2_500:
        k = Fraction(1)
    elif heel >= 3_000:
        k = Fraction(0)
    else:
        k = Fraction(3_000 - heel, 500) ** 2
    return Fraction(g, 120) * Fraction(t, 1_600) * k


def row_s_fourth(row, draught):
    """Height and survival: s⁴ of a row's result at one draught; Smaller damage, worse result: the lower one of its two; Passenger ships: theirs."""
    if row.stages is not None:
        return passenger_s_fourth(row.results[draught], row.stages[draught])
    return min(s_fourth(*results[draught]) for results in row.sets)


def survival_marks(lever, reach, heel, opening):
    """Why is this survival not one: lever below its cap, range below its cap, heel above 2,500; Openings: opening below the final waterline."""
    return Marks(lever < 120, reach < 1_600, heel > 2_500, opening < 0)


# Passenger ships


def s_intermediate_fourth(stage):
    """Passenger ships, 002 2.7.2: s-intermediate⁴ of one stage; its heel may be 15 degrees."""
    if stage.heel > 1_500:
        return Fraction(0)
    return Fraction(min(stage.lever, 50), 50) * Fraction(min(stage.reach, 700), 700)


def final_caps(roro):
    """Passenger ships, 002 2.7.3: the caps of the final stage's lever and range."""
    return (200, 2_000) if roro else (120, 1_600)


def s_final_fourth(result, roro):
    """Passenger ships, 002 2.7.3: s-final⁴, from the final stage's lever, range and heel."""
    most_lever, most_reach = final_caps(roro)
    if result.heel <= 700:
        k = Fraction(1)
    elif result.heel >= 1_500:
        k = Fraction(0)
    else:
        k = Fraction(1_500 - result.heel, 800) ** 2
    return Fraction(min(result.lever, most_lever), most_lever) * Fraction(min(result.reach, most_reach), most_reach) * k


def s_mom(lever, stage):
    """Passenger ships, 002 2.7.4: s-mom from the final stage's lever, which has no cap here, in millimetres, held between 0 and 1."""
    return min(max(Fraction((lever - 40) * stage.displacement, 1_000 * stage.moment), Fraction(0)), Fraction(1))


def passenger_s_fourth(result, stage):
    """Passenger ships: s⁴ at one draught, the lesser of s-intermediate⁴ and s-final⁴ times s-mom⁴; Openings: nothing where the opening is immersed."""
    if result.opening < 0:
        return Fraction(0)
    return min(s_intermediate_fourth(stage), s_final_fourth(result, stage.roro) * s_mom(result.lever, stage) ** 4)


def passenger_marks(result, roro):
    """Passenger ships: the marks of the final stage, with its own caps and heel limit."""
    most_lever, most_reach = final_caps(roro)
    return Marks(result.lever < most_lever, result.reach < most_reach, result.heel > 700, result.opening < 0)


# Draughts and the required index


def draughts(ds, dl):
    """Height and survival: deepest, partial, light; dp is whole because ds - dl is a multiple of 5."""
    return (ds, dl + 3 * (ds - dl) // 5, dl)


def R(L):
    """Height and survival: the required index of a cargo ship."""
    if L > 10_000:
        return Fraction(L + 2_400, L + 15_200)
    return Fraction(L * (L + 2_400), L * (L + 2_400) + 128_000_000)


def passenger_R(L, in_lifeboats, in_excess):
    """Passenger ships, 003 10.2: the required index by the earlier rule, with L in centimetres."""
    length_and_persons = L + 250 * (in_lifeboats + 2 * in_excess)
    return Fraction(length_and_persons + 1_022_500, length_and_persons + 1_522_500)


def passenger_R_of_2020(in_lifeboats, in_excess):
    """The 2020 passenger rule: the required index of N persons on board; ships of 1,351 to 6,000 are refused, and have none here."""
    N = in_lifeboats + in_excess
    if N < 400:
        return Fraction("0.722")
    if N <= 1_350:
        return Fraction(N, 7_580) + Fraction("0.66923")
    return 1 - (Fraction("852.5") + Fraction("0.03875") * N) / (N + 5_000)


def marks(L, persons=None, rule=EARLIER_RULE):
    """Height and survival: what A, As, Ap and Al must reach; Passenger ships: with these persons, and nine tenths for each partial; The 2020 passenger rule:
    by the rule that the ship is under."""
    if persons is None:
        return (R(L), R(L) / 2, R(L) / 2, R(L) / 2)
    required = passenger_R_of_2020(*persons) if rule == RULE_OF_2020 else passenger_R(L, *persons)
    return (required,) + 3 * (required * Fraction(9, 10),)


def required_denominator(L, persons=None, rule=EARLIER_RULE):
    """What R is a fraction of, before anything is cancelled: in 01's two forms, in 02's form of the earlier rule, and in the three of the rule of 2020 the
    least that makes its decimals whole, 7,580 counted in."""
    if persons is None:
        return L + 15_200 if L > 10_000 else L * (L + 2_400) + 128_000_000
    if rule == EARLIER_RULE:
        return L + 250 * (persons[0] + 2 * persons[1]) + 1_522_500
    N = sum(persons)
    return 1_000 if N < 400 else 37_900_000 if N <= 1_350 else 800 * (N + 5_000)


def required_numbers(L, persons=None, rule=EARLIER_RULE):
    """R and the mark of a partial index, numerator and denominator of each: the mark's is twice R's or ten times, and nothing is cancelled."""
    required, partial, *_ = marks(L, persons, rule)
    whole = required_denominator(L, persons, rule)
    part = whole * (2 if persons is None else 10)
    return int(required * whole), whole, int(partial * part), part
