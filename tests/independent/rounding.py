"""The lower and upper ends of document 01's figures, in whole billionths, each step rounded as 01 says."""

from functools import lru_cache
from typing import NamedTuple

from .regulation import (
    C, G1, G3, KEPT, P, WHOLE_SURVIVAL, WHOLE_V, ends_touched, group_terms, is_short, p, row_terms, row_v,
)

BILLION = 10**9


class Ends(NamedTuple):
    """A lower and an upper end in billionths."""

    lower: int
    upper: int


def quotient_down(numerator, denominator):
    """The whole part of a quotient, rounded down."""
    return numerator // denominator


def quotient_up(numerator, denominator):
    """The whole part of a quotient, rounded up."""
    return -(-numerator // denominator)


def billionths(exact):
    """Rounding: an exact fraction, to billionths down for the lower end, up for the upper."""
    scaled = exact.numerator * BILLION
    return Ends(quotient_down(scaled, exact.denominator), quotient_up(scaled, exact.denominator))


# Chance of damage within a span


@lru_cache(maxsize=KEPT)
def p_ends(x, L):
    """Rounding: the ends of p."""
    return billionths(p(x, L))


@lru_cache(maxsize=KEPT)
def P_ends(span, L):
    """Chance of damage within a span: lower end 10⁹P rounded down, upper rounded up."""
    return billionths(P(span, L))


# Penetration


@lru_cache(maxsize=KEPT)
def G1_ends(b, B):
    """Rounding: the ends of G1."""
    return billionths(G1(b, B))


@lru_cache(maxsize=KEPT)
def G3_ends(b, B):
    """Rounding: the ends of G3."""
    return billionths(G3(b, B))


def product_ends(x, b, L, B):
    """Rounding: the product x·G1/L, each end from G1's own end."""
    g1 = G1_ends(b, B)
    return Ends(quotient_down(x * g1.lower, L), quotient_up(x * g1.upper, L))


def unheld_G_ends(span, b, L, B):
    """Rounding: the ends of G before the lower one is held at 0."""
    touched = ends_touched(span, L)
    if touched == 2:
        return G1_ends(b, B)
    x = span.length
    product = product_ends(x, b, L, B)
    if touched == 1:
        if is_short(x, b, L, B):
            inner = p_ends(x, L)
            return Ends(
                quotient_down(inner.lower + product.lower, 2),
                quotient_up(inner.upper + product.upper, 2),
            )
        g3 = G3_ends(b, B)
        return Ends(product.lower - quotient_up(g3.upper, 2), product.upper - quotient_down(g3.lower, 2))
    if is_short(x, b, L, B):
        return p_ends(x, L)
    g3 = G3_ends(b, B)
    return Ends(product.lower - g3.upper, product.upper - g3.lower)


def G_ends(span, b, L, B):
    """Rounding: the ends of G; a lower end below 0 is 0."""
    lower, upper = unheld_G_ends(span, b, L, B)
    return Ends(max(lower, 0), upper)


@lru_cache(maxsize=KEPT)
def C_parts(b, B):
    """Penetration: exact C, numerator and denominator."""
    exact = C(b, B)
    return exact.numerator, exact.denominator


@lru_cache(maxsize=KEPT)
def Q_ends(span, b, L, B):
    """Rounding: Q's ends from those of P and G with C exact, rounded once."""
    c, whole = C_parts(b, B)
    chance = P_ends(span, L)
    g = G_ends(span, b, L, B)
    return Ends(
        quotient_down(chance.lower * c + g.lower * (whole - c), whole),
        quotient_up(chance.upper * c + g.upper * (whole - c), whole),
    )


# Shares


def share_ends(hull, row):
    """Shares: a row's ends, each added Q one way and each subtracted Q the other, then held once to 0 and 10⁹."""
    lower = upper = 0
    for sign, span, b in row_terms(hull.zones, row.a, row.n, row.b, row.b_before):
        q = Q_ends(span, b, hull.L, hull.B)
        if sign > 0:
            lower += q.lower
            upper += q.upper
        else:
            lower -= q.upper
            upper -= q.lower
    return Ends(max(lower, 0), min(upper, BILLION))


def group_share_ends(hull, a, n):
    """Shares: the ends of group (a, n) over its full depth, those of a row down to B/2 with no layer before it."""
    lower = upper = 0
    for sign, span in group_terms(hull.zones, a, n):
        near, far = Q_ends(span, hull.B // 2, hull.L, hull.B)[::sign]
        lower, upper = lower + sign * near, upper + sign * far
    return Ends(max(lower, 0), min(upper, BILLION))


# Height and survival


def survival_ends(s_fourth):
    """Height and survival: the greatest whole s with s⁴ not above 10¹⁶ times the fraction, and the least not below."""
    scaled = s_fourth.numerator * WHOLE_SURVIVAL**4
    bottom = greatest_with_fourth_power_within(quotient_down(scaled, s_fourth.denominator))
    reaches = bottom**4 * s_fourth.denominator >= scaled
    return Ends(bottom, bottom if reaches else bottom + 1)


def greatest_with_fourth_power_within(bound):
    """Height and survival: the greatest whole s up to 10,000 whose fourth power is at most the bound."""
    low, high = 0, WHOLE_SURVIVAL
    while low < high:
        middle = (low + high + 1) // 2
        if middle**4 <= bound:
            low = middle
        else:
            high = middle - 1
    return low


def added_ends(share, row, d, survival):
    """Height and survival: what a row adds at draught d, share x v x s, down with the bottom s, up with the top."""
    height = row_v(row, d)
    whole = WHOLE_V * WHOLE_SURVIVAL
    return Ends(
        quotient_down(share.lower * height * survival.lower, whole),
        quotient_up(share.upper * height * survival.upper, whole),
    )


def sum_ends(parts):
    """Height and survival: a partial index is a sum, end by end."""
    return Ends(sum(part.lower for part in parts), sum(part.upper for part in parts))


def attained_ends(deepest, partial, light):
    """Height and survival: A = (2As + 2Ap + Al)/5, rounded likewise."""
    return Ends(
        quotient_down(2 * deepest.lower + 2 * partial.lower + light.lower, 5),
        quotient_up(2 * deepest.upper + 2 * partial.upper + light.upper, 5),
    )
