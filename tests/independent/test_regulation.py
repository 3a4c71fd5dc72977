"""Tests of the exact figures: the values that document 01 prints, the regulation's own letters, and the total of one."""

import random
import unittest
from fractions import Fraction

from independent import letters
from independent.casefile import Case, reading
from independent.regulation import (
    C, G, G1, P, Q, R, Span, draughts, group_share, group_terms, marks, p, row_share, row_v, s_fourth, v,
)
from independent.writing import given_row, hull_line, whole_file


def some_spans(chooser, L):
    """Spans of a ship by number of ends touched: short ones, long ones, and those beside the edges of the bands."""
    lengths = {1, 2, L // 3, L - 2}
    for edge in (5 * L // 33, 10 * L // 33, L // 300):
        lengths.update(x for x in range(edge - 2, edge + 3) if 0 < x < L - 1)
    lengths.update(chooser.randrange(1, L - 1) for _ in range(6))
    for x in sorted(lengths):
        yield 0, Span(1, 1 + x)
        yield 1, Span(0, x)
        yield 1, Span(L - x, L)
    yield 2, Span(0, L)


class ProvedValues(unittest.TestCase):
    """Document 01, "Proved values"."""

    def test_p(self):
        self.assertEqual(p(1_500, 9_900), Fraction(35, 396))
        self.assertEqual(p(3_000, 9_900), Fraction(70, 297))

    def test_penetration(self):
        self.assertEqual(C(160, 1_600), Fraction(37, 125))
        self.assertEqual(G1(160, 1_600), Fraction(53_911, 750_000))
        self.assertEqual(C(800, 1_600), 1)

    def test_height(self):
        self.assertEqual(v(7_800), 733_200)
        self.assertEqual(v(7_801), 733_239)

    def test_required_index(self):
        self.assertEqual(R(8_000), Fraction(13, 33))
        self.assertEqual(R(10_000), Fraction(31, 63))


class RegulationLetters(unittest.TestCase):
    """The closed forms of document 01 against the regulation's constants."""

    def test_root_is_of_one(self):
        self.assertEqual(letters.UNDER_THE_ROOT, 1)
        self.assertEqual(letters.B0, 11)
        for no_square in (Fraction(2), Fraction(1, 2), Fraction(4, 3)):
            self.assertRaises(ArithmeticError, letters.root, no_square)

    def test_constants(self):
        self.assertEqual((letters.J_M, letters.J_K), (Fraction(10, 33), Fraction(5, 33)))
        self.assertEqual((letters.B11, letters.B12), (Fraction(-3_267, 50), 11))
        self.assertEqual((letters.B21, letters.B22), (Fraction(-363, 50), Fraction(11, 5)))

    def test_constants_are_the_same_up_to_198_metres(self):
        for L in (8_000, 13_900, 19_799, 19_800):
            self.assertEqual(letters.longest_damage(Fraction(L, 100)), letters.J_M)
        self.assertLess(letters.longest_damage(Fraction(19_801, 100)), letters.J_M)

    def test_p_and_P(self):
        chooser = random.Random(71)
        for L in [8_000, 9_900, 10_000, 13_200, 19_800] + [chooser.randrange(8_000, 19_801) for _ in range(15)]:
            for touched, span in some_spans(chooser, L):
                self.assertEqual(P(span, L), letters.p(Fraction(span.length, L), touched), (L, span))

    def test_Q_is_p_times_r(self):
        chooser = random.Random(72)
        for _ in range(15):
            L, B = chooser.randrange(8_000, 19_801), 2 * chooser.randrange(500, 3_001)
            for touched, span in some_spans(chooser, L):
                J = Fraction(span.length, L)
                for b in (1, chooser.randrange(1, B // 2), B // 2):
                    expected = letters.p(J, touched) * letters.r(J, touched, b, B)
                    self.assertEqual(Q(span, b, L, B), expected, (L, B, span, b))

    def test_both_forms_of_G_at_the_edge(self):
        edge = Span(100, 166)
        inner = p(66, 9_900)
        self.assertEqual(15 * 1_600 * edge.length, 160 * 9_900)
        self.assertEqual(G(edge, 160, 9_900, 1_600), inner)
        self.assertEqual(G(Span(0, 66), 160, 9_900, 1_600), (inner + 66 * G1(160, 1_600) / 9_900) / 2)

    def test_v(self):
        for h in range(-10, 13_000):
            self.assertEqual(Fraction(v(h), 916_500), letters.v(Fraction(h, 1_000)), h)

    def test_v_is_capped_where_its_slopes_end(self):
        self.assertEqual((letters.sloping_v(Fraction(0)), letters.sloping_v(Fraction(125, 10))), (0, 1))
        self.assertEqual([v(h) for h in (-30_000, -1, 12_500, 12_501, 60_000)], [0, 0] + 3 * [916_500])

    def test_R(self):
        for L in range(8_000, 19_801):
            self.assertEqual(R(L), letters.R(Fraction(L, 100)), L)

    def test_s_fourth(self):
        for lever in (0, 1, 119, 120, 121, 5_000):
            for reach in (0, 1, 1_599, 1_600, 1_601, 9_000):
                for heel in (0, 2_500, 2_501, 2_750, 2_999, 3_000, 3_001, 9_000):
                    for opening in (-30_000, -1, 0, 1, 30_000):
                        expected = letters.s_fourth(Fraction(lever, 1_000), Fraction(reach, 100), Fraction(heel, 100), Fraction(opening, 1_000))
                        self.assertEqual(s_fourth(lever, reach, heel, opening), expected, (lever, reach, heel, opening))

    def test_s_fourth_by_hand(self):
        self.assertEqual(s_fourth(5_000, 9_000, 0, 0), 1)
        self.assertEqual(s_fourth(60, 9_000, 2_750, 0), Fraction(1, 8))
        self.assertEqual(s_fourth(5_000, 400, 2_600, 0), Fraction(4, 25))
        self.assertEqual(s_fourth(120, 1_600, 3_000, 0), 0)
        self.assertEqual(s_fourth(0, 1_600, 0, 0), 0)

    def test_s_fourth_of_an_immersed_opening(self):
        for opening, fourth in ((-30_000, 0), (-2, 0), (-1, 0), (0, Fraction(1, 8)), (1, Fraction(1, 8)), (30_000, Fraction(1, 8))):
            self.assertEqual(s_fourth(60, 1_600, 2_750, opening), fourth)
            self.assertEqual(letters.s_fourth(Fraction(6, 100), Fraction(16), Fraction(55, 2), Fraction(opening, 1_000)), fourth)


class Shares(unittest.TestCase):
    """Which spans make a share, and what the shares come to."""

    def hull(self, L, bulkheads, B=1_600):
        rows = [given_row(1, 1, B // 2, 60_000, (0, 0, 0))]
        case = reading(whole_file(hull_line(L, B, 6_000, 4_000, bulkheads), rows))
        self.assertIsInstance(case, Case)
        return case.hull

    def test_spans_of_groups(self):
        zones = self.hull(9_900, [1_000, 3_000, 6_000]).zones
        self.assertEqual(group_terms(zones, 4, 1), [(1, Span(6_000, 9_900))])
        self.assertEqual(
            group_terms(zones, 2, 2), [(1, Span(1_000, 6_000)), (-1, Span(1_000, 3_000)), (-1, Span(3_000, 6_000))])
        self.assertEqual(
            group_terms(zones, 1, 3),
            [(1, Span(0, 6_000)), (-1, Span(0, 3_000)), (-1, Span(1_000, 6_000)), (1, Span(1_000, 3_000))])
        self.assertEqual(
            group_terms(zones, 1, 4),
            [(1, Span(0, 9_900)), (-1, Span(0, 6_000)), (-1, Span(1_000, 9_900)), (1, Span(1_000, 6_000))])

    def test_all_groups_total_one(self):
        chooser = random.Random(73)
        for m in range(1, 21):
            L = chooser.randrange(8_000, 19_801)
            hull = self.hull(L, sorted(chooser.sample(range(1, L), m - 1)))
            shares = [group_share(hull, a, n) for a in range(1, m + 1) for n in range(1, m - a + 2)]
            self.assertTrue(all(share >= 0 for share in shares))
            self.assertEqual(sum(shares), 1)

    def test_group_over_a_long_middle_has_no_share(self):
        hull = self.hull(9_900, [1_000, 4_000, 5_000])
        self.assertEqual(group_share(hull, 1, 3), 0)
        hull = self.hull(9_900, [1_000, 3_999, 5_000])
        self.assertGreater(group_share(hull, 1, 3), 0)

    def test_layers_total_the_group(self):
        rows = [given_row(1, 2, b, H, (0, 0, 0)) for b in (7, 300, 301, 800) for H in (9_000, 9_001, 60_000)]
        case = reading(whole_file(hull_line(9_900, 1_600, 6_000, 4_000, [1_500]), rows))
        self.assertEqual([row.b_before for row in case.rows], 3 * [0] + 3 * [7] + 3 * [300] + 3 * [301])
        self.assertEqual(sum(row_share(case.hull, row) for row in case.rows), 3 * Fraction(155, 2_376))


class DraughtsAndHeights(unittest.TestCase):
    """The three draughts, a row's own v, and the marks."""

    def test_draughts(self):
        self.assertEqual(draughts(6_000, 4_000), (6_000, 5_200, 4_000))
        self.assertEqual(draughts(1_005, 1_000), (1_005, 1_003, 1_000))

    def test_new_group_starts_anew(self):
        rows = [given_row(a, 1, b, H, (0, 0, 0)) for a in (1, 2) for b in (400, 800) for H in (9_000, 18_500)]
        case = reading(whole_file(hull_line(9_900, 1_600, 6_000, 4_000, [1_500]), rows))
        self.assertEqual([row.b_before for row in case.rows], 2 * [0, 0, 400, 400])
        self.assertEqual([row.H_below for row in case.rows], 4 * [None, 9_000])

    def test_row_v_is_less_the_row_below(self):
        rows = [given_row(1, 1, b, H, (0, 0, 0)) for b in (400, 800) for H in (5_000, 7_000, 14_000, 18_500)]
        case = reading(whole_file(hull_line(9_900, 1_600, 6_000, 4_000, []), rows))
        self.assertEqual([row.H_below for row in case.rows], 2 * [None, 5_000, 7_000, 14_000])
        self.assertEqual([row_v(row, 6_000) for row in case.rows], 2 * [0, 94_000, 647_000, 175_500])
        self.assertEqual([row_v(row, 4_000) for row in case.rows], 2 * [94_000, 188_000, 537_000, 97_500])

    def test_marks(self):
        self.assertEqual(marks(8_000), (Fraction(13, 33),) + 3 * (Fraction(13, 66),))
