"""Tests of passenger ships: what each factor of s comes to by hand and by the regulation's letters, the marks, R, the verdict and whole answers."""

import unittest
from fractions import Fraction
from itertools import product

from independent import Result, Stage, answer, figures, letters, reading, run, settled_text
from independent.answering import FAILS, MEETS, UNSETTLED, passenger_survival, verdict_of
from independent.printing import mark_byte
from independent.regulation import (
    final_caps, marks, passenger_R, passenger_marks, passenger_s_fourth, row_s_fourth, s_final_fourth, s_intermediate_fourth, s_mom,
)
from independent.rounding import Ends, survival_ends
from independent.test_printing import PRINTED_ANSWER, program, survival_numbers
from independent.writing import hull_line, lever_row, passenger_hull_line, passenger_row, whole_file

HULL = passenger_hull_line(9_900, 1_600, 6_000, 4_000, (400, 600), [1_500, 5_000])
THREE_QUARTERS = passenger_hull_line(2_500, 1_600, 6_000, 4_000, (1_900, 0), [])  # R is 3/4, and 0.9 R is 27/40
TOP = 18_500
SAFE, LOST = Result(5_000, 9_000, 700, 0), Result(0, 0, 9_000, -1)
CALM = Stage(300_000, 1, 50, 700, 1_500, 0)  # leaves survival to the final stage
ROW = passenger_row(1, 1, 800, TOP, (SAFE,) * 3, (CALM,) * 3)
CARGO_HULL = hull_line(9_900, 1_600, 6_000, 4_000, [1_500, 5_000])

# Document 01's printed ship with passengers: zone 1 is survived by a half, by its range at ds, by its heeling moment at dp and by ro-ro caps at dl; the
# pair is lost in its intermediate stage. The ends are those that document 01 prints.
FILE_IN_FULL = b"""\
0626ac064017700fa001900258000205dc
0701010320484400780064000000000410064002bc000000c8007d02bc0000000493e000000001003202bc05dc00000186a000030d40003202bc05dc00000493e000000001003202bc05dc01
070102032048441388232802bc00001388232802bc00001388232802bc0000000493e000000001003202bc05dd00000493e000000001003202bc05dd00000493e000000001003202bc05dd00
070201032048441388232802bc00001388232802bc00001388232802bc0000000493e000000001003202bc05dc00000493e000000001003202bc05dc00000493e000000001003202bc05dc00
0f0003
"""
ANSWER_IN_FULL = b"""\
810134243ab934243abb34243ab934243abb34243ab934243abb34243ab934243abb
82072648b6072648b7020002
8203e36aea03e36aec000000
823091165e3091165f000000
"""


def with_rows(*rows, hull=HULL):
    """A file of these rows on a passenger ship's hull."""
    return whole_file(hull, rows)


def moved_by(survival):
    """A result and a stage whose s is so many ten-thousandths, all by s-mom."""
    return SAFE._replace(lever=1_040), CALM._replace(displacement=10 * survival, moment=100_000)


def one_zone(*three):
    """A ship whose R is 3/4 with a result and a stage by draught."""
    results, stages = zip(*three)
    return whole_file(THREE_QUARTERS, [passenger_row(1, 1, 800, TOP, results, stages)])


def of(result, stage):
    """Bottom, top and mark byte of one draught."""
    ends, told = passenger_survival(result, stage)
    return (*ends, mark_byte(told))


class Factors(unittest.TestCase):
    """s-intermediate, s-final and s-mom, each alone."""

    def test_intermediate(self):
        half = Fraction(1, 2)
        for lever, reach, heel, fourth in (
                (50, 700, 0, 1), (5_000, 9_000, 1_500, 1), (50, 700, 1_501, 0), (5_000, 9_000, 9_000, 0), (25, 700, 0, half), (50, 350, 1_500, half),
                (49, 699, 0, Fraction(49 * 699, 35_000)), (0, 700, 0, 0), (50, 0, 0, 0), (51, 699, 701, Fraction(699, 700)),
                (49, 701, 1_499, Fraction(49, 50)), (1, 1, 0, Fraction(1, 35_000))):
            for roro in (0, 1):
                self.assertEqual(s_intermediate_fourth(Stage(1, 1, lever, reach, heel, roro)), fourth, (lever, reach, heel))

    def test_final(self):
        self.assertEqual((final_caps(0), final_caps(1)), ((120, 1_600), (200, 2_000)))
        for lever, reach, heel, fourth, of_roro in (
                (120, 1_600, 700, 1, Fraction(12, 25)), (200, 2_000, 0, 1, 1), (5_000, 9_000, 700, 1, 1),
                (199, 1_999, 0, 1, Fraction(199 * 1_999, 400_000)), (60, 800, 0, Fraction(1, 4), Fraction(3, 25)),
                (120, 1_600, 1_100, Fraction(1, 4), Fraction(3, 25)), (200, 2_000, 1_100, *(Fraction(1, 4),) * 2),
                (200, 2_000, 701, *(Fraction(799, 800) ** 2,) * 2), (200, 2_000, 1_499, *(Fraction(1, 640_000),) * 2), (200, 2_000, 1_500, 0, 0),
                (200, 2_000, 1_501, 0, 0), (5_000, 9_000, 9_000, 0, 0), (0, 2_000, 0, 0, 0), (200, 0, 0, 0, 0), (200, 2_000, 2_300, 0, 0)):
            result = Result(lever, reach, heel, 0)
            self.assertEqual((s_final_fourth(result, 0), s_final_fourth(result, 1)), (fourth, of_roro), result)

    def test_moment(self):
        for lever, displacement, moment, mom in (
                (40, 300_000, 1, 0), (39, 300_000, 1, 0), (0, 300_000, 1, 0), (41, 1, 2_000_000, Fraction(1, 2_000_000_000)), (41, 1_000, 1, 1),
                (41, 999, 1, Fraction(999, 1_000)), (41, 1_001, 1, 1), (1_040, 1, 1, 1), (1_040, 3, 4, Fraction(3, 4)),
                (5_000, 299_999, 1_488_000, Fraction(299_999, 300_000)), (5_000, 300_000, 1_488_000, 1),
                (5_000, 300_000, 2_000_000, Fraction(1_488, 2_000)), (5_000, 1, 2_000_000, Fraction(496, 200_000_000))):
            self.assertEqual(s_mom(lever, Stage(displacement, moment, 0, 0, 0, 0)), mom, (lever, displacement, moment))

    def test_letters(self):
        for lever, reach, heel in product((0, 1, 49, 50, 51, 5_000), (0, 1, 699, 700, 701, 9_000), (0, 700, 1_500, 1_501, 9_000)):
            in_metres = Fraction(lever, 1_000), Fraction(reach, 100), Fraction(heel, 100)
            self.assertEqual(s_intermediate_fourth(Stage(1, 1, lever, reach, heel, 0)), letters.s_intermediate_fourth(*in_metres))
        levers, heels = (0, 1, 119, 120, 121, 199, 200, 201, 5_000), (0, 699, 700, 701, 1_100, 1_499, 1_500, 1_501, 3_000, 9_000)
        for lever, reach, heel, roro in product(levers, (0, 1, 1_599, 1_600, 1_601, 1_999, 2_000, 2_001, 9_000), heels, (0, 1)):
            in_metres = Fraction(lever, 1_000), Fraction(reach, 100), Fraction(heel, 100)
            self.assertEqual(s_final_fourth(Result(lever, reach, heel, 0), roro), letters.s_final_fourth(*in_metres, bool(roro)))
        for lever, displacement, moment in product((0, 39, 40, 41, 120, 1_040, 5_000), (1, 999, 1_000, 299_999, 300_000), (1, 2, 1_488_000, 2_000_000)):
            expected = letters.s_mom(Fraction(lever, 1_000), displacement, moment)
            self.assertEqual(s_mom(lever, Stage(displacement, moment, 0, 0, 0, 0)), expected, (lever, displacement, moment))


class Survivals(unittest.TestCase):
    """The lesser of s-intermediate and s-final times s-mom."""

    def test_one(self):
        self.assertEqual(of(SAFE, CALM), (10_000, 10_000, 0))
        self.assertEqual(of(Result(120, 1_600, 700, 0), Stage(25, 2, 50, 700, 1_500, 0)), (10_000, 10_000, 0))  # each just enough
        self.assertEqual(of(Result(200, 2_000, 700, 0), Stage(25, 4, 50, 700, 1_500, 1)), (10_000, 10_000, 0))

    def test_each_factor_holds_it_down(self):
        self.assertEqual(of(Result(30, 400, 0, 0), CALM), (0, 0, 3))                      # a lever of 30 mm leaves nothing of s-mom
        self.assertEqual(of(Result(120, 100, 0, 0), CALM), (5_000, 5_000, 2))              # s-final is 1/2
        self.assertEqual(of(SAFE, CALM._replace(lever=25, reach=350)), (7_071, 7_072, 0))  # s-intermediate⁴ is 1/4
        self.assertEqual(of(*moved_by(5_000)), (5_000, 5_000, 0))
        self.assertEqual(of(Result(1_040, 100, 0, 0), moved_by(5_000)[1]), (2_500, 2_500, 2))

    def test_moment_next_to_one(self):
        near = SAFE._replace(heel=0)
        self.assertEqual(of(near, CALM._replace(displacement=299_999, moment=1_488_000)), (9_999, 10_000, 0))
        self.assertEqual(of(near, CALM._replace(displacement=300_000, moment=1_488_000)), (10_000, 10_000, 0))
        self.assertEqual(of(near, CALM._replace(displacement=300_000, moment=1_488_001)), (9_999, 10_000, 0))
        self.assertEqual(of(near, CALM._replace(displacement=299_970, moment=1_488_000)), (9_999, 9_999, 0))

    def test_lesser_counts(self):
        result, stage = moved_by(5_000)
        self.assertEqual(of(result, stage._replace(lever=25, reach=700)), (5_000, 5_000, 0))   # 1/2 against the root of the root of 1/2
        self.assertEqual(of(*moved_by(9_000)), (9_000, 9_000, 0))
        result, stage = moved_by(9_000)
        self.assertEqual(of(result, stage._replace(lever=25, reach=700)), (8_408, 8_409, 0))
        self.assertEqual(of(SAFE, CALM._replace(heel=1_501)), (0, 0, 0))
        self.assertEqual(of(Result(1_040, 9_000, 1_100, 0), stage._replace(lever=50, reach=44)), (5_007, 5_008, 4))

    def test_product_is_rounded_once(self):
        stage = Stage(7, 9, 50, 700, 0, 0)  # s-mom is 7/9, s-final⁴ is 1/2
        self.assertEqual(survival_ends(Fraction(1, 2)), Ends(8_408, 8_409))
        self.assertEqual(of(Result(1_040, 800, 0, 0), stage), (6_540, 6_541, 2))
        self.assertEqual(passenger_s_fourth(Result(1_040, 800, 0, 0), stage), Fraction(7, 9) ** 4 / 2)
        self.assertEqual(8_408 * 7_777 // 10_000, 6_538)
        stage = stage._replace(displacement=1, moment=3)
        self.assertEqual(of(Result(1_040, 9_000, 0, 0), stage), (3_333, 3_334, 0))
        self.assertEqual(of(Result(1_040, 100, 0, 0), stage), (1_666, 1_667, 2))

    def test_lever_without_a_cap_counts_in_the_moment_alone(self):
        stage = Stage(1_000, 1_000, 50, 700, 0, 0)
        for lever, bottom in ((120, 800), (200, 1_600), (540, 5_000), (1_039, 9_990), (1_040, 10_000), (5_000, 10_000)):
            self.assertEqual(of(Result(lever, 1_600, 0, 0), stage)[:2], (bottom, bottom), lever)

    def test_opening(self):
        for opening, ends in ((-30_000, (0, 0)), (-1, (0, 0)), (0, (10_000, 10_000)), (30_000, (10_000, 10_000))):
            self.assertEqual(of(SAFE._replace(opening=opening), CALM), (*ends, 8 * (opening < 0)))

    def test_heels(self):
        for heel, told in ((700, (10_000, 10_000, 0)), (701, (9_993, 9_994, 4)), (1_100, (7_071, 7_072, 4)), (1_499, (353, 354, 4)),
                           (1_500, (0, 0, 4)), (9_000, (0, 0, 4))):
            self.assertEqual(of(SAFE._replace(heel=heel), CALM), told)
        for heel, told in ((0, (10_000, 10_000, 0)), (701, (10_000, 10_000, 0)), (1_500, (10_000, 10_000, 0)), (1_501, (0, 0, 0)), (9_000, (0, 0, 0))):
            self.assertEqual(of(SAFE, CALM._replace(heel=heel)), told)

    def test_roro_changes_the_final_stage_alone(self):
        plain, roro = CALM._replace(displacement=1, moment=1), CALM._replace(displacement=1, moment=1, roro=1)
        self.assertEqual((of(Result(1_040, 1_600, 0, 0), plain), of(Result(1_040, 1_600, 0, 0), roro)), ((10_000, 10_000, 0), (9_457, 9_458, 2)))
        self.assertEqual((of(Result(540, 2_000, 0, 0), plain), of(Result(540, 2_000, 0, 0), roro)), ((5_000, 5_000, 0),) * 2)
        for stage in (plain, roro):
            self.assertEqual(of(SAFE, stage._replace(lever=25, reach=350)), (7_071, 7_072, 0))

    def test_marks(self):
        levers, ranges = (0, 119, 120, 199, 200, 5_000), (0, 1_599, 1_600, 1_999, 2_000, 9_000)
        for lever, reach, heel, opening, roro in product(levers, ranges, (0, 700, 701, 1_500), (-1, 0), (0, 1)):
            most_lever, most_reach = (200, 2_000) if roro else (120, 1_600)
            told = passenger_marks(Result(lever, reach, heel, opening), roro)
            self.assertEqual(told, (lever < most_lever, reach < most_reach, heel > 700, opening < 0))
            self.assertEqual(not any(told), s_final_fourth(Result(lever, reach, heel, 0), roro) == 1 and opening >= 0)

    def test_marks_are_those_of_the_final_stage(self):
        worst = Stage(1, 2_000_000, 0, 0, 9_000, 0)
        self.assertEqual(of(SAFE, worst), (0, 0, 0))
        self.assertEqual(of(SAFE._replace(heel=701), worst), (0, 0, 4))
        self.assertEqual(of(LOST, CALM), (0, 0, 15))
        self.assertEqual([of(Result(150, 1_800, 700, 0), CALM._replace(roro=roro))[2] for roro in (0, 1)], [0, 3])


class Verdicts(unittest.TestCase):
    """R, 0.9 R, and what comes of them."""

    def test_required_index(self):
        self.assertEqual(passenger_R(2_500, 1_900, 0), Fraction(3, 4))
        self.assertEqual([passenger_R(2_500, 1_900 - 2 * excess, excess) for excess in (1, 450, 950)], [Fraction(3, 4)] * 3)
        self.assertEqual(passenger_R(2_000, 0, 0), Fraction(2_049, 3_049))
        self.assertEqual(passenger_R(19_800, 10_000, 10_000), Fraction(85_423, 90_423))
        self.assertEqual(marks(2_500, (1_900, 0)), (Fraction(3, 4),) + 3 * (Fraction(27, 40),))

    def test_letters(self):
        for L, in_lifeboats, in_excess in product((2_000, 2_001, 7_999, 10_000, 19_800), (0, 1, 399, 10_000), (0, 1, 5_000, 10_000)):
            self.assertEqual(passenger_R(L, in_lifeboats, in_excess), letters.passenger_R(Fraction(L, 100), in_lifeboats, in_excess))

    def test_verdict_at_the_marks(self):
        good = [Ends(750_000_000, 750_000_000)] + 3 * [Ends(675_000_000, 675_000_000)]
        self.assertEqual(verdict_of(good, 2_500, (1_900, 0)), MEETS)
        for place in range(4):
            mark = good[place].lower
            for end, verdict in ((Ends(mark - 1, mark), UNSETTLED), (Ends(mark - 1, mark - 1), FAILS)):
                self.assertEqual(verdict_of(good[:place] + [end] + good[place + 1:], 2_500, (1_900, 0)), verdict)

    def test_ship_at_R(self):
        result, stage = moved_by(7_500)
        less, more = stage._replace(displacement=74_999), stage._replace(displacement=74_990)
        for three, verdict in (((stage,) * 3, MEETS), ((stage, stage, less), UNSETTLED), ((less,) * 3, UNSETTLED), ((more,) * 3, FAILS),
                               ((stage, stage, more), FAILS)):
            self.assertEqual(answer(one_zone(*((result, one) for one in three))).verdict, verdict, three)

    def test_ship_at_nine_tenths_of_R(self):
        for draught in range(3):
            for survival, verdict in ((6_751, MEETS), (6_750, MEETS), (6_749, FAILS)):
                three = [moved_by(survival) if j == draught else (SAFE, CALM) for j in range(3)]
                self.assertEqual(answer(one_zone(*three)).verdict, verdict, (draught, survival))
            result, stage = moved_by(6_750)
            three = [(result, stage._replace(displacement=67_499)) if j == draught else (SAFE, CALM) for j in range(3)]
            self.assertEqual(answer(one_zone(*three)).verdict, UNSETTLED)

    def test_persons_turn_the_verdict(self):
        row = passenger_row(1, 1, 800, TOP, *zip(*[moved_by(7_500)] * 3))
        for persons, verdict in (((1_900, 0), MEETS), ((1_901, 0), FAILS), ((0, 950), MEETS), ((0, 951), FAILS), ((1_898, 1), MEETS), ((1_899, 1), FAILS)):
            self.assertEqual(answer(whole_file(passenger_hull_line(2_500, 1_600, 6_000, 4_000, persons, []), [row])).verdict, verdict, persons)


class Answers(unittest.TestCase):
    """Whole files of passenger ships."""

    def test_file_in_full(self):
        self.assertEqual(run(FILE_IN_FULL), ANSWER_IN_FULL)
        self.assertEqual(ANSWER_IN_FULL.replace(b"020002", b"030303"), PRINTED_ANSWER)
        self.assertEqual(survival_numbers(answer(FILE_IN_FULL)), [5_000, 5_000, 2, 5_000, 5_000, 0, 5_000, 5_000, 2] + 3 * [0, 0, 0] + 3 * [10_000, 10_000, 0])
        self.assertIn(b"R 3581/4831\npartial mark 32229/48310\n", program("--exact", data=FILE_IN_FULL))

    def test_draughts_have_their_own(self):
        data = one_zone(moved_by(1_000), (SAFE, CALM._replace(lever=25, reach=350)), (SAFE._replace(heel=1_100), CALM._replace(roro=1)))
        self.assertEqual(survival_numbers(answer(data)), [1_000, 1_000, 0, 7_071, 7_072, 0, 7_071, 7_072, 4])
        self.assertEqual(answer(data).ends[1:], (Ends(100_000_000, 100_000_000), Ends(707_100_000, 707_200_000), Ends(707_100_000, 707_200_000)))

    def test_each_draught_has_its_own_roro_mark(self):
        for three in product((0, 1), repeat=3):
            told = survival_numbers(answer(one_zone(*((Result(150, 1_800, 0, 0), CALM._replace(roro=roro)) for roro in three))))
            self.assertEqual(told[2::3], [3 * roro for roro in three])
            self.assertEqual(told[::3], [9_064 if roro else 10_000 for roro in three])

    def test_each_draught_has_its_own_stage(self):
        lost = CALM._replace(heel=1_501)
        for draught, whole in enumerate((600_000_000, 600_000_000, 800_000_000)):
            told = answer(one_zone(*((SAFE, lost if j == draught else CALM) for j in range(3))))
            self.assertEqual(told.ends, (Ends(whole, whole), *(Ends(10**9 * (j != draught), 10**9 * (j != draught)) for j in range(3))))

    def test_rows_have_their_own(self):
        stages = [CALM._replace(lever=lever) for lever in (50, 0, 25)]
        rows = [passenger_row(1, 1, 800, H, (SAFE._replace(heel=heel),) * 3, (stage,) * 3) for H, heel, stage in zip((1, 2, TOP), (0, 701, 700), stages)]
        data = whole_file(THREE_QUARTERS, rows)
        self.assertEqual([line[18:] for line in run(data).decode("ascii").splitlines()[1:]], ["000000", "040404", "000000"])
        self.assertEqual(survival_numbers(answer(data))[::9], [10_000, 0, 8_408])

    def test_shares_are_those_of_a_cargo_ship(self):
        heads = ((1, 1, 300, 9_000), (1, 1, 300, TOP), (1, 1, 800, TOP), (1, 2, 800, TOP), (1, 3, 800, TOP), (2, 2, 800, TOP))
        passengers = answer(with_rows(*(passenger_row(*head, (SAFE,) * 3, (CALM,) * 3) for head in heads)))
        cargo = answer(whole_file(CARGO_HULL, [lever_row(*head, ((120, 1_600, 0, 0),) * 3) for head in heads]))
        self.assertEqual(passengers[3:], cargo[3:])

    def test_short_ship(self):
        hull = passenger_hull_line(2_000, 400, 1_000, 500, (0, 0), [300, 1_000, 1_001])
        rows = [passenger_row(a, n, 200, TOP, (SAFE,) * 3, (CALM,) * 3) for a in range(1, 5) for n in range(1, 6 - a)]
        self.assertEqual(program("--total", data=whole_file(hull, rows)), b"total 1\n")
        self.assertEqual(answer(whole_file(hull, rows)).verdict, MEETS)

    def test_no_rows(self):
        self.assertEqual(run(with_rows()), b"8102" + b"0" * 64 + b"\n")
        self.assertEqual(figures(answer(with_rows())), [0, 0, 2] + 9 * [0])

    def test_sheet(self):
        self.assertEqual((run(with_rows(ROW), 1), run(with_rows(ROW), 2)[:2]), (b"8f0b0000\n", b"81"))

    def test_exact(self):
        product_of_two = Result(1_040, 800, 0, 0), CALM._replace(displacement=7, moment=9)
        data = one_zone(moved_by(7_500), product_of_two, (SAFE, CALM._replace(lever=25, reach=350, roro=1)))
        row = reading(data).rows[0]
        self.assertEqual([row_s_fourth(row, draught) for draught in range(3)], [Fraction(81, 256), Fraction(7, 9) ** 4 / 2, Fraction(1, 4)])
        lines = program("--exact", data=data).decode().splitlines()
        self.assertEqual([line.split("s^4 ")[1] for line in lines[1:4]], ["81/256", "2401/13122", "1/4"])
        self.assertIn("R 3/4", lines)
        self.assertIn("partial mark 27/40", lines)
        self.assertEqual(survival_numbers(answer(data)), [7_500, 7_500, 0, 6_540, 6_541, 2, 7_071, 7_072, 0])

    def test_settled(self):
        result, stage = moved_by(7_500)
        data = one_zone((result, stage), (result, stage), (result, stage._replace(displacement=74_999)))
        self.assertEqual(settled_text(reading(data)).splitlines(), [
            "A falls short of R, exactly: it is 0.749998, and R is 0.750000",
            "As reaches 0.9 R, exactly: it is 0.750000, and 0.9 R is 0.675000",
            "Ap reaches 0.9 R, exactly: it is 0.750000, and 0.9 R is 0.675000",
            "Al reaches 0.9 R, exactly: it is 0.749990, and 0.9 R is 0.675000",
            "the ship fails",
        ])
        self.assertEqual(settled_text(reading(one_zone(*[moved_by(7_500)] * 3))).splitlines()[2],
                         "As reaches 0.9 R: it lies between 0.750000000 and 0.750000000, and 0.9 R is 0.675000000")
