"""Tests of what the library's entries lend: a row's twenty numbers, R and its part as fractions, and the share of every group."""

import unittest
from fractions import Fraction

from independent import answer, group_numbers, groups_text, reading, required_of, required_text, row_numbers, rows_text
from independent.regulation import group_share, groups, marks, required_numbers
from independent.rounding import BILLION, group_share_ends, share_ends
from independent.test_printing import PRINTED_CASE, program
from independent.writing import file_of, given_row, hull_line, lever_row, passenger_hull_line, whole_file

HULL = hull_line(9_900, 1_600, 6_000, 4_000, [])
TOP = 60_000
PRINTED_ROWS = [
    119_949_494, 119_949_495, *3 * (916_500, 5_000, 5_000, 3, 59_974_747, 59_974_748),
    65_235_690, 65_235_692, *3 * (916_500, 0, 0, 0, 0, 0),
    814_814_814, 814_814_815, *3 * (916_500, 10_000, 10_000, 0, 814_814_814, 814_814_815),
]


def as_text(told, width):
    """So many numbers a line."""
    return "".join(" ".join(map(str, told[at:at + width])) + "\n" for at in range(0, len(told), width)).encode("ascii")


class Rows(unittest.TestCase):
    """Twenty numbers a row."""

    def test_printed_case(self):
        self.assertEqual(row_numbers(answer(PRINTED_CASE)), PRINTED_ROWS)

    def test_every_place(self):
        rows = [lever_row(1, 1, 800, 13_800, ((60, 800, 0, 0), (120, 1_600, 2_995, 0), (120, 1_600, 0, -1))), given_row(1, 1, 800, TOP, (1, 2, 10_000))]
        self.assertEqual(row_numbers(answer(whole_file(HULL, rows))), [
            1_000_000_000, 1_000_000_000,
            733_200, 7_071, 7_072, 3, 565_680_000, 565_760_000,      # v 4/5
            764_400, 1_000, 1_000, 4, 83_404_255, 83_404_256,        # v 392/470, of which a tenth
            811_200, 0, 0, 8, 0, 0,
            1_000_000_000, 1_000_000_000,
            183_300, 1, 1, 0, 20_000, 20_000,                        # the row above has what is left of v
            152_100, 2, 2, 0, 33_191, 33_192,
            105_300, 10_000, 10_000, 0, 114_893_617, 114_893_618,
        ])

    def test_share_and_height_are_the_rows_own(self):
        hull = hull_line(9_900, 1_600, 6_000, 6_000, [1_500])
        heads = [(a, 1, b, H) for a in (1, 2) for b in (400, 800) for H in (6_000, 13_800, TOP)]
        data = whole_file(hull, [given_row(*head, (10_000,) * 3) for head in heads])
        case, told = reading(data), row_numbers(answer(data))
        self.assertEqual([tuple(told[at:at + 2]) for at in range(0, len(told), 20)], [tuple(share_ends(case.hull, row)) for row in case.rows])
        for place in (2, 8, 14):
            self.assertEqual(told[place::20], 4 * [0, 733_200, 183_300])
            self.assertEqual([told[at + place + 4] for at in range(0, 120, 60)], [0, 0])
            self.assertEqual([told[at + place + 4] for at in range(0, 240, 20)], [told[at] * told[at + place] // 916_500 for at in range(0, 240, 20)])

    def test_what_rows_add_comes_to_the_partial_indices(self):
        hull = hull_line(9_900, 1_600, 6_000, 4_000, [1_500, 4_000, 5_100])
        rows = [lever_row(a, n, b, H, ((17 * a, 911, 0, 0), (101, 1_000 + n, 2_600, 0), (119, 1_599, 2_501 + b, 0)))
                for a, n in groups(4) for b in (333, 800) for H in (9_001, TOP)]
        told, numbers = answer(whole_file(hull, rows)), row_numbers(answer(whole_file(hull, rows)))
        sums = [sum(numbers[place::20]) for place in (6, 7, 12, 13, 18, 19)]
        self.assertEqual(sums, [end for ends in told.ends[1:] for end in ends])
        self.assertTrue(all(sums[at] < sums[at + 1] for at in (0, 2, 4)))

    def test_nothing_of_a_refused_file_or_of_no_rows(self):
        for told in (answer(b""), answer(PRINTED_CASE, 5), answer(file_of([HULL, "0f0000"]))):
            self.assertEqual(row_numbers(told), [])

    def test_command_line(self):
        self.assertEqual(program("--rows", data=PRINTED_CASE), as_text(PRINTED_ROWS, 20))
        self.assertEqual(rows_text(answer(PRINTED_CASE)).encode("ascii"), as_text(PRINTED_ROWS, 20))
        self.assertEqual(program("--rows"), b"refused 10 at line 1\n")


class Required(unittest.TestCase):
    """R and the mark of a partial index, not reduced."""

    def test_cargo_ship(self):
        self.assertEqual(required_numbers(8_000), (83_200_000, 211_200_000, 83_200_000, 422_400_000))
        self.assertEqual(required_numbers(10_000), (124_000_000, 252_000_000, 124_000_000, 504_000_000))
        self.assertEqual(required_numbers(10_001), (12_401, 25_201, 12_401, 50_402))
        self.assertEqual(required_numbers(10_400), (12_800, 25_600, 12_800, 51_200))
        self.assertEqual(required_numbers(19_800), (22_200, 35_000, 22_200, 70_000))

    def test_earlier_rule(self):
        self.assertEqual(required_numbers(2_500, (1_900, 0)), (1_500_000, 2_000_000, 13_500_000, 20_000_000))
        self.assertEqual(required_numbers(15_840, (960, 120)), (1_338_340, 1_838_340, 12_045_060, 18_383_400))

    def test_rule_of_2020(self):
        self.assertEqual(required_numbers(9_900, (0, 0), 1), (722, 1_000, 6_498, 10_000))
        self.assertEqual(required_numbers(9_900, (199, 200), 1), (722, 1_000, 6_498, 10_000))
        self.assertEqual(required_numbers(9_900, (400, 0), 1), (27_363_817, 37_900_000, 246_274_353, 379_000_000))
        self.assertEqual(required_numbers(9_900, (0, 1_350), 1), (32_113_817, 37_900_000, 289_024_353, 379_000_000))
        self.assertEqual(required_numbers(9_900, (6_000, 1), 1), (7_932_769, 8_800_800, 71_394_921, 88_008_000))
        self.assertEqual(required_numbers(9_900, (10_000, 10_000), 1), (18_698_000, 20_000_000, 168_282_000, 200_000_000))

    def test_both_are_the_marks_that_the_verdict_goes_by(self):
        persons = (None, (0, 0), (1, 398), (500, 0), (0, 1_350), (3_001, 3_000), (10_000, 10_000))
        for L in (2_000, 8_000, 9_999, 10_000, 10_001, 19_800):
            for aboard in persons:
                for rule in (0, 1):
                    top, whole, part, of = required_numbers(L, aboard, rule)
                    self.assertEqual((Fraction(top, whole), Fraction(part, of)), marks(L, aboard, rule)[:2])

    def test_file(self):
        self.assertEqual(required_of(reading(PRINTED_CASE)), [121_770_000, 249_770_000, 121_770_000, 499_540_000])
        hull = passenger_hull_line(2_500, 1_600, 6_000, 4_000, (0, 950), [], rule=0)
        self.assertEqual(required_of(reading(file_of([hull, "0f0000"]))), [1_500_000, 2_000_000, 13_500_000, 20_000_000])
        hull = passenger_hull_line(2_500, 1_600, 6_000, 4_000, (0, 950), [], rule=1)
        self.assertEqual(required_of(reading(file_of([hull, "0f0000"])))[:2], [30_113_817, 37_900_000])
        self.assertEqual(required_of(reading(file_of([hull]))), [])

    def test_command_line(self):
        self.assertEqual(program("--required", data=PRINTED_CASE), b"121770000 249770000\n121770000 499540000\n")
        self.assertEqual(required_text(reading(b"")), "refused 10 at line 1\n")


class Groups(unittest.TestCase):
    """The share of every group of the hull down to B/2."""

    def test_order(self):
        self.assertEqual(groups(3), [(1, 1), (1, 2), (1, 3), (2, 1), (2, 2), (3, 1)])
        self.assertEqual([2 * len(groups(zones)) for zones in (1, 2, 3, 20)], [2, 6, 12, 420])
        self.assertEqual(groups(20), sorted(groups(20)))

    def test_listed_or_not(self):
        whole = [119_949_494, 119_949_495, 65_235_690, 65_235_692, 814_814_814, 814_814_815]
        self.assertEqual(group_numbers(reading(PRINTED_CASE)), whole)
        self.assertEqual(group_numbers(reading(file_of([PRINTED_CASE.decode("ascii").split()[0], "0f0000"]))), whole)

    def test_those_of_a_row_of_one_layer(self):
        for hull in (hull_line(9_900, 1_600, 6_000, 4_000, [1_000, 4_000, 5_000, 5_001]), hull_line(19_799, 5_998, 6_000, 4_000, [7, 9_000, 9_001])):
            zones = len(reading(file_of([hull, "0f0000"])).hull.zones)
            case = reading(whole_file(hull, [given_row(a, n, int(hull[6:10], 16) // 2, TOP, (0, 0, 0)) for a, n in groups(zones)]))
            self.assertEqual(group_numbers(case), [end for row in case.rows for end in share_ends(case.hull, row)])
            for a, n in groups(zones):
                lower, upper = group_share_ends(case.hull, a, n)
                self.assertTrue(0 <= lower <= group_share(case.hull, a, n) * BILLION <= upper <= BILLION)

    def test_group_of_no_share(self):
        hull = reading(file_of([hull_line(9_900, 1_600, 6_000, 4_000, [1_000, 4_000, 5_000]), "0f0000"])).hull
        self.assertEqual((group_share(hull, 1, 3), group_share_ends(hull, 1, 3).lower), (0, 0))  # zone 2 is as long as the longest damage
        self.assertEqual(len(group_numbers(reading(file_of([hull_line(9_900, 1_600, 6_000, 4_000, [1_000, 4_000, 5_000]), "0f0000"])))), 20)

    def test_command_line(self):
        self.assertEqual(program("--groups", data=PRINTED_CASE), b"1 1 119949494 119949495\n1 2 65235690 65235692\n2 1 814814814 814814815\n")
        self.assertEqual((groups_text(reading(b"")), group_numbers(reading(b""))), ("refused 10 at line 1\n", []))
