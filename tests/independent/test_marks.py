"""Tests of the marks: each number at its cap and beside it, what a given survival has, the byte, and each row's and draught's own marks."""

import unittest
from itertools import product

from independent import answer, reading, run
from independent.answering import row_survival
from independent.printing import mark_byte
from independent.regulation import NO_MARKS, Marks, s_fourth, survival_marks
from independent.test_printing import PRINTED_CASE, survival_numbers
from independent.writing import file_of, given_row, hull_line, lever_row, whole_file

HULL = hull_line(9_900, 1_600, 6_000, 4_000, [])
TOP = 60_000
SAFE = (120, 1_600, 2_500, 0)
LEVER, RANGE, HEEL, OPENING = (119, 1_600, 2_500, 0), (120, 1_599, 2_500, 0), (120, 1_600, 2_501, 0), (120, 1_600, 2_500, -1)  # one mark each


def rows_of(*rows):
    """A file of one zone whose rows rise from 1 mm on: three results each, or three given survivals."""
    heights = [*range(1, len(rows)), TOP]
    return whole_file(HULL, [(lever_row if isinstance(row[0], tuple) else given_row)(1, 1, 800, H, row) for H, row in zip(heights, rows)])


def bytes_of(data):
    """The mark bytes that are printed, three a row."""
    return [line[18:] for line in run(data).decode("ascii").splitlines()[1:]]


class Results(unittest.TestCase):
    """The four marks of one result."""

    def test_lever(self):
        for lever, marked in ((0, True), (1, True), (119, True), (120, False), (121, False), (5_000, False)):
            for reach, heel, opening in ((1_600, 0, 0), (0, 3_000, 0), (1_600, 0, -1)):
                self.assertIs(survival_marks(lever, reach, heel, opening).lever, marked)

    def test_range(self):
        for reach, marked in ((0, True), (1, True), (1_599, True), (1_600, False), (1_601, False), (9_000, False)):
            for lever, heel, opening in ((120, 0, 0), (0, 3_000, 0), (120, 0, -1)):
                self.assertIs(survival_marks(lever, reach, heel, opening).reach, marked)

    def test_heel(self):
        for heel, marked in ((0, False), (2_499, False), (2_500, False), (2_501, True), (2_999, True), (3_000, True), (3_001, True), (9_000, True)):
            for lever, reach, opening in ((120, 1_600, 0), (0, 0, 0), (120, 1_600, -1)):
                self.assertIs(survival_marks(lever, reach, heel, opening).heel, marked)

    def test_opening(self):
        for opening, marked in ((-30_000, True), (-2, True), (-1, True), (0, False), (1, False), (30_000, False)):
            for others in ((120, 1_600, 0), (0, 1_600, 0), (120, 0, 0), (120, 1_600, 3_000), (0, 0, 9_000)):
                self.assertIs(survival_marks(*others, opening).opening, marked)

    def test_survival_is_one_exactly_without_a_mark(self):
        numbers = (0, 1, 119, 120, 121), (0, 1, 1_599, 1_600, 1_601), (0, 2_499, 2_500, 2_501, 2_999, 3_000, 3_001), (-30_000, -1, 0, 1, 30_000)
        for result in product(*numbers):
            self.assertEqual(survival_marks(*result) == NO_MARKS, s_fourth(*result) == 1, result)

    def test_facts_also_where_survival_is_nothing(self):
        self.assertEqual(survival_marks(0, 1_600, 0, 0), Marks(True, False, False, False))
        self.assertEqual(survival_marks(120, 1_600, 3_000, 0), Marks(False, False, True, False))
        self.assertEqual(survival_marks(0, 1_600, 3_000, 0), Marks(True, False, True, False))
        self.assertEqual(survival_marks(0, 0, 9_000, 0), Marks(True, True, True, False))
        self.assertEqual(survival_marks(120, 1_600, 2_500, -1), Marks(False, False, False, True))
        self.assertEqual(survival_marks(119, 1_600, 2_500, -1), Marks(True, False, False, True))
        self.assertEqual(survival_marks(0, 0, 9_000, -30_000), Marks(True, True, True, True))

    def test_given_survival_has_none(self):
        for given in ((0, 5_000, 10_000), (119, 1_599, 2_501), (1, 0, 3_000)):
            row = reading(rows_of(given)).rows[0]
            self.assertEqual([row_survival(row, draught) for draught in range(3)], [((s, s), NO_MARKS) for s in given])


class Bytes(unittest.TestCase):
    """1 for lever, 2 for range, 4 for heel, 8 for the opening."""

    def test_byte(self):
        self.assertEqual([mark_byte(Marks(*(bool(byte & one) for one in (1, 2, 4, 8)))) for byte in range(16)], list(range(16)))

    def test_each_draught_has_its_own(self):
        self.assertEqual(bytes_of(rows_of((LEVER, RANGE, HEEL))), ["010204"])
        self.assertEqual(bytes_of(rows_of((HEEL, LEVER, RANGE))), ["040102"])
        self.assertEqual(bytes_of(rows_of((SAFE, (0, 0, 9_000, 0), (119, 1_600, 3_000, 0)))), ["000705"])
        self.assertEqual(bytes_of(rows_of((OPENING, SAFE, SAFE), (SAFE, OPENING, SAFE), (SAFE, SAFE, OPENING))), ["080000", "000800", "000008"])
        self.assertEqual(bytes_of(rows_of((LEVER[:3] + (-1,), RANGE[:3] + (-1,), HEEL[:3] + (-1,)))), ["090a0c"])
        self.assertEqual(bytes_of(rows_of(((0, 0, 9_000, -30_000), (119, 1_599, 2_500, -1), (119, 1_600, 3_000, -1)))), ["0f0b0d"])

    def test_each_row_has_its_own(self):
        rows = ((LEVER,) * 3, (RANGE,) * 3, (OPENING,) * 3, (0, 0, 0), (SAFE,) * 3, (HEEL, SAFE, LEVER))
        self.assertEqual(bytes_of(rows_of(*rows)), ["010101", "020202", "080808", "000000", "000000", "040001"])

    def test_rows_of_no_weight_have_theirs(self):
        rows = [lever_row(1, 1, 800, H, (result,) * 3) for H, result in ((100, LEVER), (200, HEEL), (300, OPENING), (TOP, RANGE))]
        self.assertEqual(bytes_of(whole_file(HULL, rows)), ["010101", "040404", "080808", "020202"])

    def test_layers_and_groups(self):
        hull = hull_line(9_900, 1_600, 6_000, 4_000, [1_500])
        results = iter((LEVER, RANGE, HEEL, SAFE, OPENING, SAFE))
        rows = [lever_row(a, 1, b, TOP, (next(results),) * 3) for a in (1, 2) for b in (400, 600, 800)]
        self.assertEqual(bytes_of(whole_file(hull, rows)), ["010101", "020202", "040404", "000000", "080808", "000000"])

    def test_marks_change_no_other_byte(self):
        answers = [run(rows_of((result,) * 3)) for result in ((120, 1_600, 0, 0), (5_000, 9_000, 2_500, 30_000))]
        self.assertEqual(*answers)
        self.assertEqual(len(answers[0]), 69 + 25)

    def test_longest_answer(self):
        rows = [lever_row(1, 1, 800, H, (LEVER,) * 3) for H in [*range(1, 500), TOP]]
        self.assertEqual(len(run(whole_file(HULL, rows))), 12_569)


class Rows(unittest.TestCase):
    """Bottom, top and mark byte among a row's numbers."""

    def test_printed_case(self):
        self.assertEqual(survival_numbers(answer(PRINTED_CASE)), 3 * [5_000, 5_000, 3] + 3 * [0, 0, 0] + 3 * [10_000, 10_000, 0])

    def test_draughts_in_order(self):
        data = rows_of(((60, 800, 0, 0), (120, 1_600, 2_995, 0), (120, 1_600, 0, 0)), (1, 2, 3))
        self.assertEqual(survival_numbers(answer(data)), [7_071, 7_072, 3, 1_000, 1_000, 4, 10_000, 10_000, 0, 1, 1, 0, 2, 2, 0, 3, 3, 0])

    def test_immersed_opening_leaves_nothing(self):
        data = rows_of(((60, 800, 0, -1), (120, 1_600, 2_995, 0), (120, 1_600, 0, -1)))
        self.assertEqual(survival_numbers(answer(data)), [0, 0, 11, 1_000, 1_000, 4, 0, 0, 8])

    def test_nothing_of_a_refused_file_or_of_no_rows(self):
        self.assertEqual(survival_numbers(answer(b"")), [])
        self.assertEqual(survival_numbers(answer(PRINTED_CASE, 5)), [])
        self.assertEqual(survival_numbers(answer(file_of([HULL, "0f0000"]))), [])
