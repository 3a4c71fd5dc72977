"""Tests of the 2020 passenger rule: R by the persons on board, the verdict by either rule, the byte that says which, refusal 13, and frames without it."""

import unittest
from fractions import Fraction
from itertools import product

from independent import Case, answer, judge, letters, reading, run, settled_text
from independent.answering import FAILS, MEETS, UNSETTLED, verdict_of
from independent.regulation import EARLIER_RULE, RULE_OF_2020, marks, passenger_R, passenger_R_of_2020
from independent.rounding import Ends
from independent.test_passengers import ANSWER_IN_FULL, CALM, FILE_IN_FULL, SAFE, TOP, moved_by
from independent.test_printing import program
from independent.writing import end_line, file_of, passenger_hull_line, passenger_row, whole_file

ACCEPTED = (0, 0)


def hull(persons=(400, 600), rule=RULE_OF_2020, L=9_900, B=1_600, ds=6_000, dl=4_000, bulkheads=(), m=None):
    """A hull line of a ship under the rule of 2020, unless another is asked for."""
    return passenger_hull_line(L, B, ds, dl, persons, bulkheads, m, rule)


def alone(line):
    """A file of a hull line and no rows."""
    return file_of([line, end_line(0)])


def one_row(persons, rule, *three, L=9_900):
    """A ship of one zone with a result and a stage by draught."""
    return whole_file(hull(persons, rule, L), [passenger_row(1, 1, 800, TOP, *zip(*three))])


def splits(N):
    """Both counts of N persons: all in lifeboats, all in excess, one of either, and about half of each."""
    both = ((N, 0), (0, N), (N - 1, 1), (1, N - 1), (N // 2, N - N // 2))
    return [persons for persons in both if 0 <= min(persons) and max(persons) <= 10_000]


class RequiredIndex(unittest.TestCase):
    """R of 2020."""

    def test_worked(self):
        for N, R in ((0, Fraction(722, 1_000)), (1, Fraction(722, 1_000)), (399, Fraction(722, 1_000)), (400, Fraction(27_363_817, 37_900_000)),
                     (1_000, Fraction(30_363_817, 37_900_000)), (1_350, Fraction(32_113_817, 37_900_000)), (6_001, Fraction(7_932_769, 8_800_800)),
                     (10_000, Fraction(11_008, 12_000)), (20_000, Fraction(9_349, 10_000))):
            for persons in splits(N):
                self.assertEqual(passenger_R_of_2020(*persons), R, persons)

    def test_decimals(self):
        cut = [(int(10**7 * passenger_R_of_2020(N, 0))) for N in (399, 400, 1_350, 6_001)]
        self.assertEqual(cut, [7_220_000, 7_220_004, 8_473_302, 9_013_690])

    def test_whole_numbers(self):
        for N in (*range(400), *range(400, 1_351), *range(6_001, 20_001, 7)):
            persons = min(N, 10_000), N - min(N, 10_000)
            over, under = (722, 1_000) if N < 400 else (5_000 * N + 25_363_817, 37_900_000) if N <= 1_350 else (769 * N + 3_318_000, 800 * (N + 5_000))
            self.assertEqual(passenger_R_of_2020(*persons), Fraction(over, under), N)

    def test_letters(self):
        for N in (0, 1, 399, 400, 401, 1_349, 1_350, 6_001, 6_002, 10_000):
            self.assertEqual(passenger_R_of_2020(N, 0), letters.passenger_R_of_2020(N), N)
        for N in (1_351, 6_000):
            self.assertRaises(ValueError, letters.passenger_R_of_2020, N)

    def test_it_rises(self):
        found = [passenger_R_of_2020(min(N, 10_000), max(N - 10_000, 0)) for N in (*range(399, 1_351), *range(6_001, 20_001))]
        self.assertTrue(all(fewer < more for fewer, more in zip(found, found[1:])))
        self.assertTrue(all(0 < R < 1 for R in found))

    def test_persons_count_once(self):
        self.assertEqual(passenger_R_of_2020(400, 500), Fraction(900, 7_580) + Fraction(66_923, 100_000))
        self.assertEqual(passenger_R_of_2020(700, 650), passenger_R_of_2020(1_350, 0))
        self.assertEqual(passenger_R_of_2020(199, 200), Fraction(722, 1_000))
        self.assertEqual(passenger_R_of_2020(10_000, 5_000), passenger_R_of_2020(5_000, 10_000))

    def test_marks(self):
        tenths = Fraction(9, 10)
        for L, persons in product((2_000, 9_900, 19_800), ((0, 0), (399, 0), (0, 400), (675, 675), (6_001, 0), (10_000, 10_000))):
            for rule, R in ((EARLIER_RULE, passenger_R(L, *persons)), (RULE_OF_2020, passenger_R_of_2020(*persons))):
                self.assertEqual(marks(L, persons, rule), (R, R * tenths, R * tenths, R * tenths))
        self.assertEqual(marks(2_500, (1_900, 0)), marks(2_500, (1_900, 0), EARLIER_RULE))

    def test_which_is_higher(self):
        in_some, in_all = set(), set()  # N at which R of 2020 is above the earlier R, which rises with the length and with the excess
        for N in (*range(1_351), *range(6_001, 20_001)):
            fewest, most = max(N - 10_000, 0), min(N, 10_000)
            R = passenger_R_of_2020(most, fewest)
            in_some |= {N} if R > passenger_R(2_000, most, fewest) else set()
            in_all |= {N} if R > passenger_R(40_000, fewest, most) else set()
        self.assertEqual(in_all, {*range(1_351), *range(6_001, 8_113)})
        self.assertEqual(in_some, {*range(1_351), *range(6_001, 16_305)})

    def test_when_it_is_higher(self):
        for L, N in product((2_000, 9_900, 19_800, 40_000), range(6_001, 20_001, 101)):
            least, most = max(N - 10_000, 0), min(N, 10_000)
            for in_excess in (least, (least + most) // 2, most):
                persons = N - in_excess, in_excess
                above = (682_000 + 31 * N) * (L + 250 * (N + in_excess) + 1_522_500) < 400_000_000 * (N + 5_000)
                self.assertEqual(passenger_R_of_2020(*persons) > passenger_R(L, *persons), above, (L, persons))


class Verdicts(unittest.TestCase):
    """The verdict is that of the ship's own rule."""

    def test_at_the_marks(self):
        good = [Ends(722_000_000, 722_000_000)] + 3 * [Ends(649_800_000, 649_800_000)]
        self.assertEqual(verdict_of(good, 9_900, (399, 0), RULE_OF_2020), MEETS)
        self.assertEqual(verdict_of(good, 9_900, (400, 0), RULE_OF_2020), FAILS)
        for place in range(4):
            mark = good[place].lower
            for end, verdict in ((Ends(mark - 1, mark), UNSETTLED), (Ends(mark - 1, mark - 1), FAILS)):
                self.assertEqual(verdict_of(good[:place] + [end] + good[place + 1:], 9_900, (0, 399), RULE_OF_2020), verdict)

    def test_ship_at_R(self):
        for persons, survival in (((399, 0), 7_220), ((200, 199), 7_220), ((0, 0), 7_220), ((10_000, 10_000), 9_349)):
            result, stage = moved_by(survival)
            less, more = stage._replace(displacement=10 * survival - 1), stage._replace(displacement=10 * survival - 10)
            for three, verdict in (((stage,) * 3, MEETS), ((stage, stage, less), UNSETTLED), ((less,) * 3, UNSETTLED), ((more,) * 3, FAILS),
                                   ((stage, stage, more), FAILS)):
                self.assertEqual(answer(one_row(persons, RULE_OF_2020, *((result, one) for one in three))).verdict, verdict, (persons, three))

    def test_ship_at_nine_tenths_of_R(self):
        for draught in range(3):
            for survival, verdict in ((6_499, MEETS), (6_498, MEETS), (6_497, FAILS), (3_610, FAILS)):
                three = [moved_by(survival) if j == draught else (SAFE, CALM) for j in range(3)]
                self.assertEqual(answer(one_row((0, 399), RULE_OF_2020, *three)).verdict, verdict, (draught, survival))
            result, stage = moved_by(6_498)
            three = [(result, stage._replace(displacement=64_979)) if j == draught else (SAFE, CALM) for j in range(3)]
            self.assertEqual(answer(one_row((0, 399), RULE_OF_2020, *three)).verdict, UNSETTLED)

    def test_the_rule_turns_the_verdict(self):
        for persons, survival, earlier, later in (
                ((0, 0), 7_000, MEETS, FAILS), ((399, 0), 7_200, MEETS, FAILS), ((399, 0), 7_220, MEETS, MEETS), ((400, 0), 7_220, MEETS, FAILS),
                ((400, 0), 7_221, MEETS, MEETS), ((1_350, 0), 8_473, MEETS, FAILS), ((1_350, 0), 8_474, MEETS, MEETS), ((700, 650), 8_473, MEETS, FAILS),
                ((0, 1_350), 8_474, MEETS, MEETS), ((6_001, 0), 9_013, MEETS, FAILS), ((6_001, 0), 9_014, MEETS, MEETS), ((0, 6_001), 8_880, FAILS, FAILS),
                ((10_000, 10_000), 9_349, FAILS, MEETS), ((10_000, 10_000), 9_348, FAILS, FAILS), ((10_000, 10_000), 9_447, MEETS, MEETS)):
            for rule, verdict in ((EARLIER_RULE, earlier), (RULE_OF_2020, later)):
                self.assertEqual(answer(one_row(persons, rule, *[moved_by(survival)] * 3)).verdict, verdict, (persons, survival, rule))

    def test_length_does_not_count(self):
        for L in (2_000, 9_900, 19_800):
            for survival, verdict in ((7_220, MEETS), (7_219, FAILS)):
                self.assertEqual(answer(one_row((399, 0), RULE_OF_2020, *[moved_by(survival)] * 3, L=L)).verdict, verdict, (L, survival))

    def test_figures_are_the_same_under_either_rule(self):
        later = FILE_IN_FULL.replace(b"01900258000205dc", b"01900258010205dc")
        self.assertNotEqual(later, FILE_IN_FULL)
        self.assertEqual((run(FILE_IN_FULL), run(later)), (ANSWER_IN_FULL, ANSWER_IN_FULL))
        self.assertIn(b"R 30363817/37900000\npartial mark 273274353/379000000\n", program("--exact", data=later))

    def test_settled(self):
        result, stage = moved_by(7_220)
        data = one_row((399, 0), RULE_OF_2020, (result, stage), (result, stage), (result, stage._replace(displacement=72_199)))
        self.assertEqual(settled_text(reading(data)).splitlines(), [
            "A falls short of R, exactly: it is 0.721998, and R is 0.722000",
            "As reaches 0.9 R, exactly: it is 0.722000, and 0.9 R is 0.649800",
            "Ap reaches 0.9 R, exactly: it is 0.722000, and 0.9 R is 0.649800",
            "Al reaches 0.9 R, exactly: it is 0.721990, and 0.9 R is 0.649800",
            "the ship fails",
        ])


class Frames(unittest.TestCase):
    """The byte after the persons, and refusals 4 and 13."""

    def expect(self, lines, refusal):
        for line in lines:
            self.assertEqual(judge(alone(line)), refusal, line)

    def test_rule_in_digits(self):
        for rule in (EARLIER_RULE, RULE_OF_2020):
            case = reading(file_of(["0607d0019017700fa001900258%02x03" % rule + "01f403e8", "0f0000"]))
            self.assertIsInstance(case, Case)
            self.assertEqual((case.hull.persons, case.hull.rule, len(case.hull.zones)), ((400, 600), rule, 3))
        self.assertEqual(hull(L=2_000, B=400, bulkheads=(500, 1_000)), "0607d0019017700fa001900258" + "0103" + "01f403e8")

    def test_unknown_rules(self):
        for rule in (2, 3, 16, 20, 128, 254, 255):
            self.expect([hull(persons, rule) for persons in ((0, 0), (400, 600), (1_351, 0), (6_000, 0))], (4, 1))
            self.expect([hull(rule=rule, **numbers) for numbers in ({"m": 0}, {"m": 21}, {"bulkheads": (2, 1)})] + [hull(rule=rule) + "00"], (4, 1))

    def test_persons_not_taken_yet(self):
        for N in (1_351, 1_352, 2_000, 5_999, 6_000):
            for persons in splits(N):
                self.expect([hull(persons)], (13, 1))
                self.expect([hull(persons, EARLIER_RULE)], ACCEPTED)

    def test_persons_taken(self):
        for N in (0, 1, 399, 400, 1_349, 1_350, 6_001, 6_002, 10_000, 10_001, 20_000):
            for persons in splits(N) or [(10_000, N - 10_000), (N - 10_000, 10_000)]:
                self.expect([hull(persons, rule) for rule in (EARLIER_RULE, RULE_OF_2020)], ACCEPTED)

    def test_the_sum_is_judged_and_the_excess_counts_once(self):
        self.expect([hull(persons) for persons in ((700, 650), (0, 1_350), (0, 700), (676, 674), (6_001, 6_000), (3_000, 3_001), (1_350, 10_000))], ACCEPTED)
        self.expect([hull(persons) for persons in ((700, 651), (676, 675), (1_350, 1), (1, 1_350), (0, 6_000), (1, 5_999), (5_000, 1_000))], (13, 1))

    def test_4_comes_before_13(self):
        persons = (1_351, 0)
        self.expect([hull(persons, L=1_999), hull(persons, L=19_801), hull(persons, B=398), hull(persons, B=1_601), hull(persons, ds=999, dl=504),
                     hull(persons, dl=6_005), hull(persons, dl=3_999), hull(persons, 2), hull((10_001, 0)), hull((0, 10_001)), hull((65_535, 2_000)),
                     hull((32_768, 34_768)), hull(persons, 2, bulkheads=(0,)), hull((10_001, 0), 2, m=0)], (4, 1))

    def test_13_comes_before_5(self):
        persons = (3_000, 3_000)
        wrong = [{"m": 0}, {"m": 2}, {"m": 21}, {"m": 255}, {"bulkheads": (0,)}, {"bulkheads": (9_900,)}, {"bulkheads": (2, 2)}, {"bulkheads": (2, 1)},
                 {"bulkheads": (1_500,), "m": 1}, {"bulkheads": range(1, 21)}]
        self.expect([hull(persons, **numbers) for numbers in wrong] + [hull(persons) + "00", hull(persons) + "0000"], (13, 1))
        self.expect([hull((6_001, 0), **numbers) for numbers in wrong] + [hull((6_001, 0)) + "00", hull((6_001, 0)) + "0000"], (5, 1))

    def test_3_and_2_come_before_13(self):
        line = hull((1_351, 0))
        self.assertEqual(len(line), 2 * 15)
        self.expect([line[:2 * length] for length in range(1, 15)], (3, 1))
        self.expect([line + "0", line[:-1] + "g", line.replace("a", "A"), ""], (2, 1))
        self.assertEqual(judge(line.encode("ascii")), (2, 1))

    def test_13_comes_before_what_follows(self):
        line = hull((1_351, 0))
        for data in (file_of([line]), file_of([line, line]), file_of([line, "0g"]), file_of([line, end_line(1)])):
            self.assertEqual(judge(data), (13, 1))
        self.assertEqual(judge(file_of([line]) + b"0" * 65_536), (1, 0))
        self.assertEqual(run(alone(line)), b"8f0d0001\n")
        self.assertEqual(run(alone(line), 0), b"8f0d0001\n")

    def test_frames_without_the_byte(self):
        def old(persons, bulkheads, m=None):
            line = hull(persons, bulkheads=bulkheads, m=m)
            return line[:26] + line[28:]

        self.expect([old(persons, ()) for persons in ((400, 600), (1_351, 0), (0, 0))], (3, 1))
        for zones in range(2, 21):
            self.expect([old(persons, range(400, 400 * zones, 400)) for persons in ((400, 600), (1_351, 0), (0, 0))], (4, 1))
        # Frames that were refused before: their zone count of 0 or 1 is a rule now, and the high byte of a bulkhead the zone count
        self.expect([old((400, 600), (), 0)], (3, 1))
        self.expect([old((400, 600), (1_500,), m) for m in (0, 1)] + [old((400, 600), (256, 512), m) for m in (0, 1)] + [old((1_351, 0), (1_500,), 0)], (5, 1))
        self.expect([old((1_351, 0), (1_500,), 1)], (13, 1))
