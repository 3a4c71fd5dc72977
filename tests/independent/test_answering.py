"""Tests of the answer: what each draught comes to, and the verdict at and beside its marks."""

import unittest

from independent.answering import FAILS, MEETS, UNSETTLED, answer, verdict_of
from independent.rounding import Ends
from independent.writing import given_row, hull_line, lever_row, whole_file

L, B = 9_900, 1_600


class Indices(unittest.TestCase):
    """As, Ap and Al, each at its own draught, and A."""

    def test_draughts_have_their_own_survivals(self):
        rows = [given_row(1, 1, 800, 60_000, (1_000, 2_000, 4_000))]
        ends = answer(whole_file(hull_line(L, B, 6_000, 4_000, []), rows)).ends
        expected = (200_000_000, 100_000_000, 200_000_000, 400_000_000)
        self.assertEqual(ends, tuple(Ends(whole, whole) for whole in expected))

    def test_draughts_have_their_own_results(self):
        rows = [lever_row(1, 1, 800, 60_000, ((120, 1_600, 0, 0), (30, 400, 0, 0), (0, 0, 0, 0)))]
        ends = answer(whole_file(hull_line(L, B, 6_000, 4_000, []), rows)).ends
        self.assertEqual(ends, tuple(Ends(whole, whole) for whole in (600_000_000, 10**9, 500_000_000, 0)))

    def ends_with(self, *openings):
        """A, As, Ap and Al of a ship of one zone that survives but for its openings at the three draughts."""
        rows = [lever_row(1, 1, 800, 60_000, [(120, 1_600, 0, opening) for opening in openings])]
        ends = answer(whole_file(hull_line(L, B, 6_000, 4_000, []), rows)).ends
        self.assertTrue(all(end.lower == end.upper for end in ends))
        return tuple(end.lower for end in ends)

    def test_draughts_have_their_own_openings(self):
        one = 10**9
        self.assertEqual(self.ends_with(0, 0, 0), (one, one, one, one))
        self.assertEqual(self.ends_with(1, 30_000, 0), (one, one, one, one))
        self.assertEqual(self.ends_with(-1, 0, 0), (600_000_000, 0, one, one))
        self.assertEqual(self.ends_with(0, -1, 0), (600_000_000, one, 0, one))
        self.assertEqual(self.ends_with(0, 0, -1), (800_000_000, one, one, 0))
        self.assertEqual(self.ends_with(-30_000, -300, -1), (0, 0, 0, 0))

    def test_rows_have_their_own_openings(self):
        def ends(below, above):
            rows = [lever_row(1, 1, 800, H, ((120, 1_600, 0, opening),) * 3) for H, opening in ((13_800, below), (60_000, above))]
            return answer(whole_file(hull_line(L, B, 6_000, 6_000, []), rows)).ends

        self.assertEqual(ends(0, 0), (Ends(10**9, 10**9),) * 4)
        self.assertEqual(ends(-1, 0), (Ends(200_000_000, 200_000_000),) * 4)  # v of the row above is 1/5
        self.assertEqual(ends(0, -1), (Ends(800_000_000, 800_000_000),) * 4)

    def test_draughts_have_their_own_heights(self):
        rows = [given_row(1, 1, 800, 13_800, (10_000,) * 3), given_row(1, 1, 800, 60_000, (0, 0, 0))]
        ends = answer(whole_file(hull_line(L, B, 6_000, 4_000, []), rows)).ends
        deepest, partial, light = (10**9 * v // 916_500 for v in (733_200, 764_400, 811_200))
        self.assertEqual(ends[1:], (Ends(deepest, deepest), Ends(partial, partial + 1), Ends(light, light + 1)))
        self.assertEqual(ends[0], Ends(4_153_191_488 // 5, 4_153_191_491 // 5 + 1))

    def test_sums_are_not_held_at_one(self):
        zones = range(1, 21)
        rows = [given_row(a, n, 800, 60_000, (10_000,) * 3) for a in zones for n in range(1, 22 - a)]
        bulkheads = [487 * i for i in range(1, 20)]
        ends = answer(whole_file(hull_line(L, B, 6_000, 4_000, bulkheads), rows)).ends
        self.assertTrue(all(end.lower < 10**9 < end.upper for end in ends))


class Verdict(unittest.TestCase):
    """1 meets, 2 fails, 3 unsettled."""

    def test_verdict_at_a_whole_mark(self):
        half, quarter = 500_000_000, 250_000_000
        good = [Ends(half, half)] + 3 * [Ends(quarter, quarter)]
        self.assertEqual(verdict_of(good, 10_400), MEETS)
        for place in range(4):
            mark = good[place].lower
            for end, verdict in ((Ends(mark - 1, mark), UNSETTLED), (Ends(mark - 1, mark - 1), FAILS)):
                self.assertEqual(verdict_of(good[:place] + [end] + good[place + 1:], 10_400), verdict)

    def test_verdict_between_whole_numbers(self):
        good = [Ends(393_939_394, 10**9)] + 3 * [Ends(196_969_697, 10**9)]
        self.assertEqual(verdict_of(good, 8_000), MEETS)
        self.assertEqual(verdict_of([Ends(393_939_393, 393_939_394)] + good[1:], 8_000), UNSETTLED)
        self.assertEqual(verdict_of([Ends(393_939_393, 393_939_393)] + good[1:], 8_000), FAILS)
        self.assertEqual(verdict_of(good[:3] + [Ends(196_969_696, 196_969_696)], 8_000), FAILS)

    def test_one_opening_turns_the_verdict(self):
        for draught in range(3):
            for opening, verdict in ((0, MEETS), (-1, FAILS)):
                results = [(120, 1_600, 2_500, opening if j == draught else 0) for j in range(3)]
                told = answer(whole_file(hull_line(L, B, 6_000, 4_000, []), [lever_row(1, 1, 800, 60_000, results)]))
                self.assertEqual(told.verdict, verdict, (draught, opening))

    def test_one_failing_mark_outweighs_unsettled_ones(self):
        ends = [Ends(0, 10**9)] * 3 + [Ends(0, 1)]
        self.assertEqual(verdict_of(ends, 8_000), FAILS)
