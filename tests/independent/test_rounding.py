"""Tests of the ends: rounding steps worked by hand, the survival values that document 01 prints, and the widest row."""

import unittest
from fractions import Fraction

from independent.casefile import Hull, Row, reading
from independent.regulation import C, P, Span, group_share, row_share, s_fourth
from independent.rounding import (
    Ends, G1_ends, G3_ends, G_ends, P_ends, Q_ends, added_ends, attained_ends, billionths, p_ends, product_ends,
    share_ends, survival_ends,
)
from independent.writing import given_row, hull_line, whole_file

L, B = 9_900, 1_600
INNER, AFT, BOW, SHIP = Span(100, 3_100), Span(0, 3_000), Span(6_900, 9_900), Span(0, 9_900)


class Chances(unittest.TestCase):
    """Steps in a ship of 9,900 by 1,600, worked by hand."""

    def test_billionths(self):
        self.assertEqual(billionths(Fraction(1, 3)), Ends(333_333_333, 333_333_334))
        self.assertEqual(billionths(Fraction(1, 4)), Ends(250_000_000, 250_000_000))

    def test_p_and_P(self):
        self.assertEqual(p_ends(1_500, L), Ends(88_383_838, 88_383_839))
        self.assertEqual(P_ends(Span(100, 1_600), L), Ends(88_383_838, 88_383_839))
        self.assertEqual(P_ends(Span(0, 1_500), L), Ends(119_949_494, 119_949_495))
        self.assertEqual(P_ends(Span(8_400, L), L), Ends(119_949_494, 119_949_495))
        self.assertEqual(P_ends(SHIP, L), Ends(10**9, 10**9))

    def test_P_is_not_made_from_the_ends_of_p(self):
        p_low, x_low = 846_884_028, 914_224_095
        self.assertEqual(p_ends(9_326, 10_201).lower, p_low)
        self.assertEqual(9_326 * 10**9 // 10_201, x_low)
        self.assertEqual(P_ends(Span(0, 9_326), 10_201).lower, (p_low + x_low) // 2 + 1)

    def test_G1_G3_and_the_product(self):
        self.assertEqual(G1_ends(160, B), Ends(71_881_333, 71_881_334))
        self.assertEqual(G3_ends(160, B), Ends(237_991, 237_992))
        self.assertEqual(product_ends(3_000, 160, L, B), Ends(21_782_222, 21_782_223))

    def test_G_by_ends_touched(self):
        self.assertEqual(G_ends(INNER, 160, L, B), Ends(21_782_222 - 237_992, 21_782_223 - 237_991))
        self.assertEqual(G_ends(AFT, 160, L, B), Ends(21_782_222 - 118_996, 21_782_223 - 118_995))
        self.assertEqual(G_ends(BOW, 160, L, B), G_ends(AFT, 160, L, B))
        self.assertEqual(G_ends(SHIP, 160, L, B), Ends(71_881_333, 71_881_334))

    def test_half_of_G3_widens_G(self):
        self.assertEqual(G3_ends(4, B), Ends(152, 153))
        self.assertEqual(product_ends(3_000, 4, L, B), Ends(555_280, 555_281))
        self.assertEqual(G_ends(AFT, 4, L, B), Ends(555_280 - 77, 555_281 - 76))

    def test_short_spans(self):
        self.assertEqual(p_ends(66, L), Ends(241_217, 241_218))
        self.assertEqual(product_ends(66, 160, L, B), Ends(479_208, 479_209))
        self.assertEqual(G_ends(Span(100, 166), 160, L, B), Ends(241_217, 241_218))
        self.assertEqual(479_208 - G3_ends(160, B).upper, 241_216)
        self.assertEqual(G_ends(Span(0, 66), 160, L, B), Ends(360_212, 360_214))
        self.assertEqual(G_ends(Span(9_834, L), 160, L, B), Ends(360_212, 360_214))

    def test_shorter_spans(self):
        self.assertEqual(p_ends(50, L), Ends(10**9 // 7_200, 10**9 // 7_200 + 1))
        self.assertEqual(product_ends(50, 160, L, B), Ends(363_037, 363_038))
        self.assertEqual(G_ends(Span(100, 150), 160, L, B), Ends(138_888, 138_889))
        self.assertEqual(G_ends(Span(0, 50), 160, L, B), Ends(501_925 // 2, 501_927 // 2 + 1))

    def test_lower_end_of_G_is_held_at_nothing(self):
        far_outside_the_limits = 100_000
        self.assertEqual(product_ends(1, 1, 19_800, far_outside_the_limits), Ends(0, 1))
        self.assertEqual(G3_ends(1, far_outside_the_limits), Ends(0, 1))
        self.assertEqual(G_ends(Span(1, 2), 1, 19_800, far_outside_the_limits), Ends(0, 1))

    def test_Q_is_rounded_once(self):
        self.assertEqual(10_616_430_935, 235_690_235 * 37 + 21_544_230 * 88)
        self.assertEqual(10_616_431_148, 235_690_236 * 37 + 21_544_232 * 88)
        self.assertEqual(Q_ends(INNER, 160, L, B), Ends(10_616_430_935 // 125, 10_616_431_148 // 125 + 1))

    def test_Q_is_made_from_the_ends_of_P_and_G(self):
        span = Span(100, 1_600)
        self.assertEqual(C(400, B), Fraction(13, 20))
        self.assertEqual(P_ends(span, L), Ends(88_383_838, 88_383_839))
        self.assertEqual(G_ends(span, 400, L, B), Ends(24_975_832, 24_975_834))
        lower, upper = 88_383_838 * 13 + 24_975_832 * 7, 88_383_839 * 13 + 24_975_834 * 7
        self.assertEqual(Q_ends(span, 400, L, B), Ends(lower // 20, upper // 20 + 1))
        from_exact_P = P(span, L) * 10**9 * 13
        self.assertEqual((from_exact_P + 24_975_832 * 7) // 20, lower // 20 + 1)
        self.assertEqual((from_exact_P + 24_975_834 * 7) // 20, upper // 20 - 1)

    def test_Q_has_C_exact(self):
        self.assertEqual(C(200, 1_200), Fraction(7, 15))
        self.assertEqual(G1_ends(200, 1_200), Ends(118_188_888, 118_188_889))
        self.assertEqual(7_945_511_104, 10**9 * 7 + 118_188_888 * 8)
        self.assertEqual(7_945_511_112, 10**9 * 7 + 118_188_889 * 8)
        # C in billionths, down or up, would move one of the ends
        self.assertEqual(Q_ends(SHIP, 200, L, 1_200), Ends(7_945_511_104 // 15, 7_945_511_112 // 15 + 1))

    def test_Q_at_half_the_breadth_is_P(self):
        for span in (INNER, AFT, BOW, SHIP, Span(100, 110)):
            self.assertEqual(Q_ends(span, 800, L, B), P_ends(span, L))


class Shares(unittest.TestCase):
    """A row's ends from the ends of its spans."""

    def case(self, hull, rows):
        return reading(whole_file(hull, rows))

    def test_subtracted_spans_go_the_other_way(self):
        case = self.case(hull_line(L, B, 6_000, 4_000, [1_500]), [given_row(1, 2, 800, 60_000, (0, 0, 0))])
        expected = Ends(10**9 - 119_949_495 - 814_814_815, 10**9 - 119_949_494 - 814_814_814)
        self.assertEqual(share_ends(case.hull, case.rows[0]), expected)

    def test_layer_before_is_taken_away(self):
        rows = [given_row(1, 1, b, 60_000, (0, 0, 0)) for b in (160, 800)]
        case = self.case(hull_line(L, B, 6_000, 4_000, [3_000]), rows)
        inside = Q_ends(AFT, 160, L, B)
        outside = P_ends(AFT, L)
        self.assertEqual(share_ends(case.hull, case.rows[0]), inside)
        expected = Ends(outside.lower - inside.upper, outside.upper - inside.lower)
        self.assertEqual(share_ends(case.hull, case.rows[1]), expected)

    def test_lower_end_is_held_at_nothing(self):
        case = self.case(hull_line(L, B, 6_000, 4_000, [1_001, 4_003, 5_000]), [given_row(1, 3, 800, 60_000, (0, 0, 0))])
        self.assertEqual(group_share(case.hull, 1, 3), 0)
        added = P_ends(Span(0, 5_000), L).lower + P_ends(Span(1_001, 4_003), L).lower
        taken = P_ends(Span(0, 4_003), L).upper + P_ends(Span(1_001, 5_000), L).upper
        self.assertLess(added - taken, 0)
        self.assertEqual(share_ends(case.hull, case.rows[0]).lower, 0)

    def test_upper_end_is_held_at_one(self):
        hull, deeper_than_any = Hull(L, 1_500, 6_000, 4_000, (SHIP,)), 1_000
        self.assertEqual(C(deeper_than_any, 1_500), Fraction(16, 15))
        self.assertGreater(Q_ends(SHIP, deeper_than_any, L, 1_500).upper, 10**9)
        self.assertEqual(share_ends(hull, Row(1, 1, deeper_than_any, 60_000, None, None)).upper, 10**9)

    def test_widest_row(self):
        rows = [given_row(2, 3, b, 60_000, (10_000, 10_000, 10_000)) for b in (48, 122, 1_983)]
        case = self.case(hull_line(10_621, 3_966, 6_000, 4_000, [1_371, 3_256, 4_258, 4_766]), rows)
        ends = [share_ends(case.hull, row) for row in case.rows]
        self.assertEqual(ends[1].upper - ends[1].lower, 32)
        for row, end in zip(case.rows, ends):
            self.assertLessEqual(end.lower, row_share(case.hull, row) * 10**9)
            self.assertGreaterEqual(end.upper, row_share(case.hull, row) * 10**9)


class Survival(unittest.TestCase):
    """Bottom and top of a survival."""

    def test_proved_values(self):
        self.assertEqual(survival_ends(s_fourth(30, 400, 0, 0)), Ends(5_000, 5_000))
        self.assertEqual(survival_ends(s_fourth(60, 800, 0, 0)), Ends(7_071, 7_072))
        self.assertEqual(survival_ends(s_fourth(120, 1_600, 2_995, 0)), Ends(1_000, 1_000))
        self.assertEqual(survival_ends(s_fourth(120, 1_600, 3_000, 0)), Ends(0, 0))

    def test_immersed_opening(self):
        for numbers in ((30, 400, 0), (60, 800, 0), (120, 1_600, 2_995), (120, 1_600, 3_000), (5_000, 9_000, 0)):
            self.assertEqual(survival_ends(s_fourth(*numbers, -1)), Ends(0, 0))
            self.assertEqual(survival_ends(s_fourth(*numbers, 30_000)), survival_ends(s_fourth(*numbers, 0)))

    def test_edges(self):
        self.assertEqual(survival_ends(Fraction(1)), Ends(10_000, 10_000))
        self.assertEqual(survival_ends(Fraction(10**20 - 1, 10**20)), Ends(9_999, 10_000))
        self.assertEqual(survival_ends(Fraction(1, 10**16)), Ends(1, 1))
        self.assertEqual(survival_ends(Fraction(1, 10**16 + 1)), Ends(0, 1))
        self.assertEqual(survival_ends(Fraction(16 * 10**4 + 1, 10**20)), Ends(2, 3))

    def test_every_whole_survival(self):
        for s in range(1, 10_000, 37):
            self.assertEqual(survival_ends(Fraction(s, 10_000) ** 4), Ends(s, s))
            self.assertEqual(survival_ends(Fraction(s, 10_000) ** 4 - Fraction(1, 10**30)), Ends(s - 1, s))
            self.assertEqual(survival_ends(Fraction(s, 10_000) ** 4 + Fraction(1, 10**30)), Ends(s, s + 1))


class Sums(unittest.TestCase):
    """What rows add, and the attained index."""

    FOUR_FIFTHS = Row(1, 1, 800, 13_800, None, None)  # its v at a draught of 6,000

    def added(self, share, survival):
        return added_ends(share, self.FOUR_FIFTHS, 6_000, survival)

    def test_added(self):
        self.assertEqual(self.added(Ends(11, 12), Ends(5_000, 5_001)), Ends(4, 5))
        self.assertEqual(self.added(Ends(10, 10), Ends(5_000, 5_000)), Ends(4, 4))
        self.assertEqual(self.added(Ends(1_000, 1_000), Ends(5_000, 5_001)), Ends(400, 401))

    def test_added_goes_by_bottom_and_top(self):
        self.assertEqual(self.added(Ends(10**9, 10**9), Ends(7_071, 7_072)), Ends(565_680_000, 565_760_000))

    def test_added_is_rounded_once(self):
        # rounded after v or after s as well, the ends would be 5 and 8
        self.assertEqual(self.added(Ends(11, 12), Ends(7_071, 7_072)), Ends(6, 7))

    def test_attained(self):
        self.assertEqual(attained_ends(Ends(1, 2), Ends(3, 4), Ends(5, 6)), Ends(2, 4))
        self.assertEqual(attained_ends(Ends(5, 5), Ends(10, 10), Ends(15, 15)), Ends(9, 9))
