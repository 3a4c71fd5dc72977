"""The regulation's formulas in its own letters and in metres, to hold document 01's closed forms against."""

from fractions import Fraction
from math import isqrt

# Source document 002, 2.6.2: what it gives, and what it makes of it for ships up to 198 m
P_K, J_MAX, J_KN = Fraction(11, 12), Fraction(10, 33), Fraction(5, 33)
L_MAX = 60     # the longest damage, in metres
LONGEST = 198  # the longest ship that document 01 takes on, in metres


def longest_damage(length):
    """002, 2.6.2: Jm of a ship of so many metres, up to 260."""
    return min(J_MAX, L_MAX / Fraction(length))


def root(square):
    """The root of a fraction that is the square of one."""
    found = Fraction(isqrt(square.numerator), isqrt(square.denominator))
    if found**2 != square:
        raise ArithmeticError(f"{square} has no root among the fractions")
    return found


B0 = 2 * (P_K / J_KN - (1 - P_K) / (J_MAX - J_KN))
J_M = longest_damage(LONGEST)
UNDER_THE_ROOT = 1 + (1 - 2 * P_K) * B0 * J_M + B0**2 * J_M**2 / 4
J_K = J_M / 2 + (1 - root(UNDER_THE_ROOT)) / B0
B12 = B0
B11 = 4 * (1 - P_K) / ((J_M - J_K) * J_K) - 2 * P_K / J_K**2
B21 = -2 * (1 - P_K) / (J_M - J_K) ** 2
B22 = -B21 * J_M


def inner_p(J):
    """Regulation 7-1: p of a span that touches neither end, from Jm, Jk and the four b's."""
    if J <= J_K:
        return J**2 * (B11 * J + 3 * B12) / 6
    Jn = min(J, J_M)
    below = -B11 * J_K**3 / 3 + (B11 * J - B12) * J_K**2 / 2 + B12 * J * J_K
    above = -B21 * (Jn**3 - J_K**3) / 3 + (B21 * J - B22) * (Jn**2 - J_K**2) / 2 + B22 * J * (Jn - J_K)
    return below + above


def p(J, touched):
    """Regulation 7-1: p of a span by the number of ends that it touches."""
    return (inner_p(J), (inner_p(J) + J) / 2, Fraction(1))[touched]


def r(J, touched, b, B):
    """Regulation 7-1: r = 1 - (1 - C)(1 - G/p), with G from G1 and G2."""
    Jb = Fraction(b, 15 * B)
    J0 = min(J, Jb)
    C = 12 * Jb * (4 - 45 * Jb)
    G1 = B11 * Jb**2 / 2 + B12 * Jb
    G2 = -B11 * J0**3 / 3 + (B11 * J - B12) * J0**2 / 2 + B12 * J * J0
    G = (G2, (G2 + G1 * J) / 2, G1)[touched]
    return 1 - (1 - C) * (1 - G / p(J, touched))


def sloping_v(height):
    """Regulation 7-2: v of a boundary that stands so many metres above the waterline, with no cap."""
    if height <= Fraction(78, 10):
        return Fraction(8, 10) * height / Fraction(78, 10)
    return Fraction(8, 10) + Fraction(2, 10) * (height - Fraction(78, 10)) / Fraction(47, 10)


def v(height):
    """Document 01's cap: v stays within 0 and 1. 002 has none on v: it holds only a difference of two, v_m, within them."""
    return min(Fraction(1), max(Fraction(0), sloping_v(height)))


def s_fourth(lever, reach, heel, opening):
    """Regulation 7-2: s⁴ from metres and degrees, K being the root of (30 - heel)/5; 002, 2.7.6.2.1: zero where the opening is immersed."""
    if opening < 0:
        return Fraction(0)
    K_fourth = min(Fraction(1), max(Fraction(0), (30 - heel) / Fraction(5))) ** 2
    return K_fourth * min(lever, Fraction(12, 100)) / Fraction(12, 100) * min(reach, Fraction(16)) / 16


def s_intermediate_fourth(lever, reach, heel):
    """002, 2.7.2: s-intermediate⁴ of a passenger ship, from metres and degrees; zero where the heel exceeds 15 degrees."""
    return Fraction(0) if heel > 15 else min(lever, Fraction(5, 100)) / Fraction(5, 100) * min(reach, Fraction(7)) / 7


def s_final_fourth(lever, reach, heel, roro):
    """002, 2.7.3: s-final⁴ of a passenger ship, K being the root of (15 - heel)/(15 - 7); TGZmax and TRange are those of ro-ro spaces where there are such."""
    TGZmax, TRange = (Fraction(20, 100), 20) if roro else (Fraction(12, 100), 16)
    K_fourth = min(Fraction(1), max(Fraction(0), (15 - heel) / Fraction(15 - 7))) ** 2
    return K_fourth * min(lever, TGZmax) / TGZmax * min(reach, Fraction(TRange)) / TRange


def s_mom(lever, displacement, moment):
    """002, 2.7.4: s-mom of a passenger ship, from metres, tonnes and tonne-metres: not above one, and not below zero."""
    return min(Fraction(1), max(Fraction(0), (lever - Fraction(4, 100)) * displacement / moment))


def R(length):
    """Regulation 6: the required index of a cargo ship of so many metres."""
    above = 1 - Fraction(128) / (length + 152)
    if length > 100:
        return above
    return 1 - 1 / (1 + length / 100 * above / (1 - above))


def passenger_R(length, in_lifeboats, in_excess):
    """003, 10.2: the required index of a passenger ship of so many metres by the earlier rule, N1 persons in lifeboats and N2 in excess of them."""
    N = in_lifeboats + 2 * in_excess
    return 1 - 5_000 / (length + Fraction(5, 2) * N + 15_225)


def passenger_R_of_2020(N):
    """002, 2.4.2.3: the required index of a passenger ship by the rule of 2020, N persons on board in all; from 1,351 to 6,000 it has a logarithm."""
    if N < 400:
        return Fraction(722, 1_000)
    if N <= 1_350:
        return Fraction(N) / 7_580 + Fraction(66_923, 100_000)
    if N <= 6_000:
        raise ValueError(f"R of {N} persons is no fraction")
    return 1 - (Fraction(8_525, 10) + Fraction(3_875, 100_000) * N) / (N + 5_000)
