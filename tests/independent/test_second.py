"""Tests of the second set: which of two results counts at a draught, whose marks are told, and what comes of it in the index and the exact figures."""

import unittest
from fractions import Fraction
from itertools import product

from independent import answer, reading, run
from independent.answering import FAILS, MEETS, UNSETTLED, lower_survival, result_survival
from independent.printing import mark_byte
from independent.regulation import row_s_fourth, s_fourth
from independent.rounding import Ends
from independent.settling import figures_of, settled
from independent.test_printing import program, survival_numbers
from independent.writing import given_row, hull_line, lever_row, two_sets_row, whole_file

HULL = hull_line(9_900, 1_600, 6_000, 4_000, [])
TOP = 60_000
SAFE, HALF, LOST = (120, 1_600, 2_500, 0), (30, 400, 0, 0), (0, 0, 9_000, 0)  # survivals 1, 1/2 and 0
IMMERSED = (120, 1_600, 2_500, -1)
BY_LEVER, BY_RANGE = (60, 1_600, 0, 0), (120, 800, 0, 0)                       # s⁴ is 1/2 of both
NEAR_LEVER, NEAR_RANGE = (119, 1_600, 0, 0), (120, 1_587, 0, 0)                # both 9979/9980; s⁴ is 119/120, and 1587/1600 is more
EXACT, ABOVE, BELOW = (120, 100, 0, 0), (11, 1_091, 0, 0), (13, 923, 0, 0)     # s⁴ is 12,000, 12,001 and 11,999 of 192,000


def of_two(first, second):
    """Bottom, top and mark byte of two results at one draught."""
    ends, marks = lower_survival(first, second)
    return (*ends, mark_byte(marks))


def rows_of(*rows):
    """A file of one zone whose rows rise from 1 mm on: two sets of three results, one set, or three given survivals."""
    lines = []
    for H, row in zip([*range(1, len(rows)), TOP], rows):
        if len(row) == 2:
            lines.append(two_sets_row(1, 1, 800, H, *row))
        else:
            lines.append((lever_row if isinstance(row[0], tuple) else given_row)(1, 1, 800, H, row))
    return whole_file(HULL, lines)


class TwoResults(unittest.TestCase):
    """Two results at one draught."""

    def test_lower_counts(self):
        self.assertEqual(of_two(SAFE, HALF), (5_000, 5_000, 3))
        self.assertEqual(of_two(HALF, SAFE), (5_000, 5_000, 3))
        self.assertEqual(of_two(SAFE, SAFE), (10_000, 10_000, 0))
        self.assertEqual(of_two(LOST, HALF), (0, 0, 7))
        self.assertEqual(of_two(HALF, LOST), (0, 0, 7))

    def test_marks_are_those_of_the_lower_one_alone(self):
        self.assertEqual(of_two((119, 1_599, 2_501, 0), (60, 1_600, 0, 0))[2], 1)  # three numbers a little short, one by far
        self.assertEqual(of_two((60, 1_600, 0, 0), (119, 1_599, 2_501, 0))[2], 1)
        self.assertEqual(of_two(BY_RANGE, (59, 1_600, 0, 0)), (8_373, 8_374, 1))
        self.assertEqual(of_two(BY_LEVER, (120, 799, 0, 0)), (8_406, 8_407, 2))

    def test_first_ones_marks_when_equal(self):
        self.assertEqual(s_fourth(*BY_LEVER), s_fourth(*BY_RANGE))
        self.assertEqual((of_two(BY_LEVER, BY_RANGE), of_two(BY_RANGE, BY_LEVER)), ((8_408, 8_409, 1), (8_408, 8_409, 2)))
        quarter = {1: (30, 1_600, 0, 0), 2: (120, 400, 0, 0), 3: (60, 800, 0, 0), 4: (120, 1_600, 2_750, 0)}
        nothing = {1: (0, 1_600, 0, 0), 2: (120, 0, 0, 0), 4: (120, 1_600, 3_000, 0), 7: LOST, 8: IMMERSED, 15: (0, 0, 9_000, -30_000)}
        for results in (quarter, nothing):
            for (byte, first), (_, second) in product(results.items(), repeat=2):
                self.assertEqual(of_two(first, second)[2], byte, (first, second))

    def test_marks_by_the_exact_s_fourth(self):
        self.assertEqual(result_survival(NEAR_LEVER).ends, result_survival(NEAR_RANGE).ends)
        self.assertLess(s_fourth(*NEAR_LEVER), s_fourth(*NEAR_RANGE))
        self.assertEqual(of_two(NEAR_RANGE, NEAR_LEVER), (9_979, 9_980, 1))
        self.assertEqual(of_two(NEAR_LEVER, NEAR_RANGE), (9_979, 9_980, 1))
        lower, higher = (110, 1_600, 2_999, 0), (119, 1_479, 2_999, 0)
        self.assertEqual(s_fourth(*higher) - s_fourth(*lower), Fraction(1, 48 * 10**9))  # no billionth tells them apart
        self.assertEqual((of_two(lower, higher), of_two(higher, lower)), ((437, 438, 5),) * 2)

    def test_bottom_and_top_each_the_lower(self):
        self.assertEqual([tuple(result_survival(one).ends) for one in (EXACT, ABOVE, BELOW)], [(5_000, 5_000), (5_000, 5_001), (4_999, 5_000)])
        self.assertEqual((of_two(EXACT, ABOVE), of_two(ABOVE, EXACT)), ((5_000, 5_000, 2),) * 2)
        self.assertEqual((of_two(EXACT, BELOW), of_two(BELOW, EXACT)), ((4_999, 5_000, 3),) * 2)

    def test_lower_by_capped_numbers(self):
        self.assertEqual(of_two((5_000, 800, 0, 0), (100, 1_600, 0, 0))[2], 2)
        self.assertEqual(of_two((120, 1_200, 0, 0), (60, 9_000, 0, 0))[2], 1)
        self.assertEqual(of_two((120, 1_600, 2_900, 0), (30, 1_600, 0, 0))[2], 4)
        self.assertEqual(of_two((84, 1_600, 0, 0), (120, 1_600, 2_600, 0))[2], 4)  # 16/25 against 7/10

    def test_opening_of_one(self):
        self.assertEqual(of_two(HALF, IMMERSED), (0, 0, 8))
        self.assertEqual(of_two(IMMERSED, HALF), (0, 0, 8))
        self.assertEqual(of_two(SAFE, IMMERSED), (0, 0, 8))
        self.assertEqual(of_two(SAFE[:3] + (30_000,), SAFE), (10_000, 10_000, 0))

    def test_never_above_either(self):
        numbers = product((0, 60, 119, 120, 121), (0, 800, 1_599, 1_600), (2_500, 2_501, 2_750, 3_000), (-1, 0))
        results = list(numbers)[::3]
        for first, second in product(results, repeat=2):
            lower, upper, byte = of_two(first, second)
            ends = [result_survival(one).ends for one in (first, second)]
            self.assertIn(Ends(lower, upper), ends)
            self.assertTrue(all(lower <= end.lower and upper <= end.upper for end in ends))
            self.assertIn(byte, [mark_byte(result_survival(one).marks) for one in (first, second)])
            self.assertEqual(byte == 0, lower == 10_000)


class Rows(unittest.TestCase):
    """Rows of two sets among others."""

    def test_each_draught_by_itself(self):
        first, second = (HALF, SAFE, IMMERSED), (SAFE, BY_LEVER, HALF)
        self.assertEqual(survival_numbers(answer(rows_of((first, second)))), [5_000, 5_000, 3, 8_408, 8_409, 1, 0, 0, 8])
        self.assertEqual(survival_numbers(answer(rows_of((second, first)))), [5_000, 5_000, 3, 8_408, 8_409, 1, 0, 0, 8])

    def test_sets_that_are_equal(self):
        results = (HALF, BY_LEVER, IMMERSED)
        self.assertEqual(run(rows_of((results, results))), run(rows_of(results)))

    def test_a_better_second_set_changes_nothing(self):
        self.assertEqual(run(rows_of(((HALF,) * 3, (SAFE,) * 3))), run(rows_of((HALF,) * 3)))
        self.assertEqual(run(rows_of(((SAFE,) * 3, (HALF,) * 3))), run(rows_of((HALF,) * 3)))

    def test_each_row_has_its_own(self):
        data = rows_of(((SAFE,) * 3, (BY_LEVER,) * 3), (SAFE,) * 3, (1, 2, 3), ((BY_RANGE,) * 3, (SAFE,) * 3), (IMMERSED,) * 3)
        self.assertEqual([line[18:] for line in run(data).decode("ascii").splitlines()[1:]], ["010101", "000000", "000000", "020202", "080808"])

    def test_index(self):
        ends = answer(rows_of(((SAFE, HALF, SAFE), (HALF, SAFE, LOST)))).ends
        self.assertEqual(ends, tuple(Ends(whole, whole) for whole in (400_000_000, 500_000_000, 500_000_000, 0)))

    def test_verdict(self):
        ship = hull_line(10_400, 1_600, 6_000, 4_000, [])  # R is 1/2
        for sets, verdict in ((((SAFE,) * 3, (EXACT,) * 3), MEETS), (((SAFE,) * 3, (BELOW,) * 3), UNSETTLED), (((EXACT,) * 3, (SAFE,) * 3), MEETS),
                              (((SAFE,) * 3, (SAFE, SAFE, LOST)), FAILS), (((LOST, SAFE, SAFE), (SAFE,) * 3), FAILS)):
            self.assertEqual(answer(whole_file(ship, [two_sets_row(1, 1, 800, TOP, *sets)])).verdict, verdict, sets)

    def test_longest_answer(self):
        rows = [two_sets_row(1, 1, 800, H, (SAFE,) * 3, (HALF,) * 3) for H in [*range(1, 500), TOP]]
        self.assertEqual(len(run(whole_file(HULL, rows))), 12_569)


class Exact(unittest.TestCase):
    """The exact figures of rows of two sets."""

    def test_lower_s_fourth(self):
        row = reading(rows_of(((NEAR_LEVER, SAFE, HALF), (NEAR_RANGE, BY_RANGE, IMMERSED)))).rows[0]
        self.assertEqual([row_s_fourth(row, draught) for draught in range(3)], [Fraction(119, 120), Fraction(1, 2), 0])

    def test_text(self):
        data = rows_of(((NEAR_RANGE, SAFE, HALF), (NEAR_LEVER, BY_RANGE, IMMERSED)))
        lines = program("--exact", data=data).decode().splitlines()
        self.assertEqual([line.split("s^4 ")[1] for line in lines[1:4]], ["119/120", "1/2", "0"])
        self.assertEqual(survival_numbers(answer(data)), [9_979, 9_980, 1, 8_408, 8_409, 2, 0, 0, 8])

    def test_settled_by_the_lower_set(self):
        ship = hull_line(10_400, 1_600, 6_000, 4_000, [])
        for sets, reached in ((((SAFE,) * 3, (BELOW,) * 3), False), (((EXACT,) * 3, (ABOVE,) * 3), True), (((BELOW,) * 3, (SAFE,) * 3), False)):
            figures = figures_of(reading(whole_file(ship, [two_sets_row(1, 1, 800, TOP, *sets)])))
            self.assertEqual(settled(figures[0]).reaches, reached, sets)
