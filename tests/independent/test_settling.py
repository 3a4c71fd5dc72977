"""Tests of the settling: roots to many places, ships just above, just below and exactly at their marks, and the stop at 200 places."""

import unittest
from fractions import Fraction
from pathlib import Path

from independent import reading, settled_text
from independent.answering import FAILS, MEETS, UNSETTLED, answer
from independent.settling import Figure, figures_of, in_words, root_bounds, settled, sum_bounds, verdict_in_words
from independent.test_printing import program
from independent.writing import given_row, hull_line, lever_row, whole_file

EXAMPLES = Path(__file__).resolve().parent.parent.parent / "examples"
HALF = 10_400  # a length whose R is 1/2
TOP = 60_000
AT_HALF, BELOW_HALF, ABOVE_HALF = (30, 400, 0, 0), (13, 923, 0, 0), (34, 353, 0, 0)  # s⁴ is 12,000, 11,999 and 12,002 of 192,000


def one_zone(*results):
    """A ship of one zone whose R is 1/2, with its results by draught."""
    return whole_file(hull_line(HALF, 1_600, 6_000, 4_000, []), [lever_row(1, 1, 800, TOP, results)])


def three_zones(*survivals):
    """A ship whose R is 1/2 with a middle zone of a centimetre, all groups listed: the survival of each, by group, at every draught."""
    groups = ((1, 1), (1, 2), (1, 3), (2, 1), (2, 2), (3, 1))
    rows = [given_row(a, n, 800, TOP, (survival,) * 3) for (a, n), survival in zip(groups, survivals)]
    return whole_file(hull_line(HALF, 1_600, 6_000, 4_000, [3_467, 3_468]), rows)


def ship_is(data):
    """The last line of what is said of a file."""
    return settled_text(reading(data)).splitlines()[-1]


class Roots(unittest.TestCase):
    """Fourth roots of fractions and their sums."""

    def test_root_that_is_a_fraction(self):
        for root in (Fraction(0), Fraction(1), Fraction(1, 2), Fraction(2, 3), Fraction(9_383, 10_000)):
            self.assertEqual(root_bounds(root**4, 4), (root, root))

    def test_root_that_is_none(self):
        self.assertEqual(root_bounds(Fraction(1, 4), 4), (Fraction(7_071, 10**4), Fraction(7_072, 10**4)))
        self.assertEqual(root_bounds(Fraction(1, 4), 12), (Fraction(707_106_781_186, 10**12), Fraction(707_106_781_187, 10**12)))
        self.assertEqual(root_bounds(Fraction(16, 3), 0), (1, 2))
        self.assertEqual(root_bounds(Fraction(3, 16), 1), (Fraction(6, 10), Fraction(7, 10)))

    def test_root_lies_between(self):
        for fourth in (Fraction(1, 192_000), Fraction(31, 40), Fraction(191_999, 192_000)):
            for places in (4, 8, 200):
                lower, upper = root_bounds(fourth, places)
                self.assertTrue(lower**4 < fourth < upper**4)
                self.assertEqual(upper - lower, Fraction(1, 10**places))

    def test_sum(self):
        parts = [(Fraction(1, 3), Fraction(1, 16)), (Fraction(1, 2), Fraction(1, 4)), (Fraction(0), Fraction(1, 2))]
        self.assertEqual(sum_bounds(parts, 4), (Fraction(1, 6) + Fraction(7_071, 20_000), Fraction(1, 6) + Fraction(7_072, 20_000)))
        self.assertEqual(sum_bounds([], 4), (0, 0))

    def test_what_has_no_weight_leaves_a_sum_a_fraction(self):
        self.assertEqual(sum_bounds([(Fraction(1, 3), Fraction(1, 16)), (Fraction(0), Fraction(1, 2))], 4), (Fraction(1, 6),) * 2)


class Figures(unittest.TestCase):
    """One figure against its mark."""

    def figure(self, *bounds):
        """A figure against 1/2, with these bounds by places, the last of them for all further places."""
        told = dict(zip((4, 8, 16, 32, 64, 128, 200), bounds))
        return Figure("A", "R", Fraction(1, 2), lambda places: told.get(places, bounds[-1]))

    def found(self, *bounds):
        return settled(self.figure(*bounds))[:2]

    def test_lower_bound_reaches_and_upper_falls_short(self):
        half, less, more = Fraction(1, 2), Fraction(49, 100), Fraction(51, 100)
        self.assertEqual(self.found((half, more)), (True, 4))
        self.assertEqual(self.found((half, half)), (True, 4))
        self.assertEqual(self.found((less, less)), (False, 4))
        self.assertEqual(self.found((less, half), (half, half)), (True, 8))
        self.assertEqual(self.found((less, more), (less, half), (less, less)), (False, 16))
        self.assertEqual(self.found((less, more), (less, more), (less, more), (more, more)), (True, 32))

    def test_stops_at_200_places(self):
        around = Fraction(49, 100), Fraction(51, 100)
        asked = []
        never = Figure("Ap", "R/2", Fraction(1, 2), lambda places: asked.append(places) or around)
        found = settled(never)
        self.assertEqual(found, (None, 200, *around))
        self.assertEqual(asked, [4, 8, 16, 32, 64, 128, 200])
        self.assertEqual(in_words(never, found), "Ap stays open: with the roots to 200 places R/2 lies between its bounds")

    def test_verdict(self):
        above, below, neither = (settled(self.figure(bounds)) for bounds in ((1, 1), (0, 0), (0, 1)))
        self.assertEqual(verdict_in_words([above] * 4), "the ship meets")
        self.assertEqual(verdict_in_words([above, above, neither, above]), "the ship stays unsettled")
        self.assertEqual(verdict_in_words([neither, above, below, above]), "the ship fails")
        self.assertEqual(verdict_in_words([neither] * 4), "the ship stays unsettled")

    def test_words(self):
        def words(*bounds):
            figure = self.figure(*bounds)
            return in_words(figure, settled(figure))

        half, tiny = Fraction(1, 2), Fraction(1, 10**12)
        self.assertEqual(words((half, half)), "A reaches R, exactly: both are 1/2")
        self.assertEqual(words((half, 1)), "A reaches R, with the roots to 4 places: it is above 1/2")
        self.assertEqual(words((Fraction(2, 3),) * 2), "A reaches R, exactly: it is 0.666666..., and R is 0.500000")
        self.assertEqual(words((half - tiny,) * 2), "A falls short of R, exactly: it is 0.499999999999, and R is 0.500000000000")
        self.assertEqual(words((0, 1), (Fraction(2, 3), Fraction(3, 4))),
                         "A reaches R, with the roots to 8 places: it lies between 0.666666 and 0.750000, and R is 0.500000")
        self.assertEqual(words((Fraction(1, 3), Fraction(4, 9))),
                         "A falls short of R, with the roots to 4 places: it lies between 0.333333 and 0.444445, and R is 0.500000")

    def test_mark_that_is_no_decimal(self):
        for more, said in ((1, "0.33333333334, and R is 0.33333333333..."), (-1, "0.33333333332, and R is 0.33333333333...")):
            figure = Figure("A", "R", Fraction(1, 3), lambda places: (Fraction(33_333_333_333 + more, 10**11),) * 2)
            self.assertEqual(in_words(figure, settled(figure)).split(" it is ")[1], said)


class Ships(unittest.TestCase):
    """Whole files."""

    def test_reefer(self):
        said = settled_text(reading((EXAMPLES / "reefer.case").read_bytes())).splitlines()
        self.assertEqual(said[0], "A reaches R, with the roots to 8 places: it lies between 0.564046 and 0.564047, and R is 0.564032...")
        self.assertEqual([line.split(":")[0] for line in said[1:4]],
                         [f"{name} reaches R/2, with the roots to 4 places" for name in ("As", "Ap", "Al")])
        self.assertEqual(said[4:], ["the ship meets"])

    def test_roots_just_below(self):
        data = one_zone(BELOW_HALF, AT_HALF, AT_HALF)
        self.assertEqual(answer(data).verdict, UNSETTLED)
        self.assertEqual(settled_text(reading(data)).splitlines(), [
            "A falls short of R, with the roots to 8 places: it lies between 0.499995 and 0.499996, and R is 0.500000",
            "As reaches R/2, with the roots to 4 places: it lies between 0.499900 and 0.500000, and R/2 is 0.250000",
            "Ap reaches R/2, exactly: it is 0.500000, and R/2 is 0.250000",
            "Al reaches R/2, exactly: it is 0.500000, and R/2 is 0.250000",
            "the ship fails",
        ])

    def test_roots_just_above(self):
        data = one_zone(BELOW_HALF, ABOVE_HALF, AT_HALF)
        self.assertEqual(answer(data).verdict, UNSETTLED)
        self.assertEqual(settled_text(reading(data)).splitlines()[0],
                         "A reaches R, with the roots to 8 places: it lies between 0.500004 and 0.500005, and R is 0.500000")
        self.assertEqual(ship_is(data), "the ship meets")

    def test_fractions_at_the_mark(self):
        data = three_zones(*[5_000] * 6)
        self.assertEqual(answer(data).verdict, UNSETTLED)
        self.assertEqual(settled_text(reading(data)).splitlines()[0], "A reaches R, exactly: both are 1/2")
        self.assertEqual(ship_is(data), "the ship meets")

    def test_fractions_beside_the_mark(self):
        for survival, side, ship in ((5_001, "reaches", "meets"), (4_999, "falls short of", "fails")):
            data = three_zones(5_000, 5_000, 5_000, survival, 5_000, 5_000)
            self.assertEqual(answer(data).verdict, UNSETTLED)
            words, _, figures = settled_text(reading(data)).splitlines()[0].partition(": ")
            self.assertEqual(words, f"A {side} R, exactly")
            self.assertRegex(figures, r"^it is 0\.(500000000005|499999999994)\.\.\., and R is 0\.500000000000$")
            self.assertEqual(ship_is(data), f"the ship {ship}")

    def test_each_figure_has_its_own_mark_and_draught(self):
        low, high = (3, 249, 0, 0), (120, 1_600, 0, 0)  # s is 0.24975 and 1
        for results, reached in (((low, high, high), [True, False, True, True]), ((high, low, high), [True, True, False, True]),
                                 ((high, high, low), [True, True, True, False]), ((low, low, high), [False, False, False, True])):
            self.assertEqual([settled(figure).reaches for figure in figures_of(reading(one_zone(*results)))], reached)

    def test_each_figure_has_its_own_opening(self):
        high, under = (120, 1_600, 0, 0), (120, 1_600, 0, -1)
        for results, reached in (((under, high, high), [True, False, True, True]), ((high, under, high), [True, True, False, True]),
                                 ((high, high, under), [True, True, True, False]), ((under, under, high), [False, False, False, True])):
            found = [settled(figure) for figure in figures_of(reading(one_zone(*results)))]
            self.assertEqual([figure.reaches for figure in found], reached)
            self.assertTrue(all(figure.exact for figure in found))  # nothing of an immersed opening's root is left

    def test_opening_alone_settles(self):
        near, under = BELOW_HALF, BELOW_HALF[:3] + (-1,)
        self.assertEqual(answer(one_zone(near, near, ABOVE_HALF)).verdict, UNSETTLED)
        self.assertEqual(answer(one_zone(near, near, under)).verdict, FAILS)
        self.assertEqual(settled_text(reading(one_zone(near, near, under))).splitlines()[4:], [
            "Al falls short of R/2: it lies between 0.000000000 and 0.000000000, and R/2 is 0.250000000",
            "the ship fails",
        ])

    def test_rows_above_the_water_alone_count(self):
        rows = [lever_row(1, 1, 800, 5_000, (BELOW_HALF,) * 3), given_row(1, 1, 800, TOP, (5_000,) * 3)]
        case = reading(whole_file(hull_line(HALF, 1_600, 6_000, 4_000, []), rows))
        exact = [figure.bounds(4)[0] == figure.bounds(4)[1] for figure in figures_of(case)]
        self.assertEqual(exact, [False, True, True, False])  # H lies above the light draught alone

    def test_settled_agrees_with_the_answer(self):
        for path in sorted(EXAMPLES.glob("*.case")):
            told = answer(path.read_bytes())
            found = [settled(figure) for figure in figures_of(reading(path.read_bytes()))]
            for one, ends in zip(found, told.ends):
                self.assertLessEqual(ends.lower, one.lower * 10**9)
                self.assertGreaterEqual(ends.upper, one.upper * 10**9)
            if told.verdict != UNSETTLED:
                self.assertEqual(verdict_in_words(found), {MEETS: "the ship meets", FAILS: "the ship fails"}[told.verdict], path.name)

    def test_answer_that_settles(self):
        said = settled_text(reading((EXAMPLES / "timber-carrier.case").read_bytes())).splitlines()
        self.assertEqual(said[:3] + said[5:], [
            "the answer's figures settle it",
            "A reaches R: it lies between 0.518461472 and 0.518496051, and R is 0.500000000",
            "As falls short of R/2: it lies between 0.156853940 and 0.156878150, and R/2 is 0.250000000",
            "the ship fails",
        ])
        self.assertEqual(ship_is((EXAMPLES / "coaster.case").read_bytes()), "the ship meets")

    def test_answer_that_settles_with_a_figure_open(self):
        data = one_zone((3, 249, 0, 0), (10, 1_202, 0, 0), (120, 1_600, 0, 0))
        self.assertEqual(answer(data).verdict, FAILS)
        self.assertEqual(settled_text(reading(data)).splitlines()[1:3], [
            "A may reach R or not: it lies between 0.499960000 and 0.500040000, and R is 0.500000000",
            "As falls short of R/2: it lies between 0.249700000 and 0.249800000, and R/2 is 0.250000000",
        ])
        self.assertEqual(ship_is(data), "the ship fails")

    def test_refused(self):
        self.assertEqual(settled_text(reading(b"")), "refused 10 at line 1\n")


class CommandLine(unittest.TestCase):
    """The program as users call it."""

    def test_settle(self):
        data = one_zone(BELOW_HALF, AT_HALF, AT_HALF)
        self.assertEqual(program("--settle", data=data), settled_text(reading(data)).encode())
        self.assertEqual(program("--settle", str(EXAMPLES / "reefer.case")).splitlines()[-1], b"the ship meets")
        self.assertEqual(program("--settle"), b"refused 10 at line 1\n")
