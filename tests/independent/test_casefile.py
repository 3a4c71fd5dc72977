"""Tests of the reading: each refusal of document 01 with its line, both sides of each limit, and the judging order."""

import unittest

from independent import Case, Result, judge, reading
from independent.writing import end_line, file_of, given_row, hull_line, lever_row, two_sets_row, whole_file

ACCEPTED = (0, 0)
HULL = hull_line(9_900, 1_600, 6_000, 4_000, [1_500, 5_000])
TOP = 18_500
FINE = ((30, 400, 0, 0),) * 3
ROW = lever_row(1, 1, 800, TOP, FINE)
WITHOUT_OPENINGS = "02010103204844" + "001e01900000" * 3  # as a row was before it had openings
GIVEN = given_row(2, 1, 800, TOP, (0, 5_000, 10_000))
TWO_SETS = two_sets_row(1, 1, 800, TOP, FINE, ((60, 800, 0, 0),) * 3)
END = end_line(1)


def with_rows(*rows):
    """A file of these rows on the common hull, with an end frame that counts them."""
    return whole_file(HULL, rows)


class ReadingTest(unittest.TestCase):
    """The ground of the classes below."""

    def expect(self, files, refusal):
        for name, data in files.items():
            self.assertEqual(judge(data), refusal, name)


class WholeInput(ReadingTest):
    """Refusals 1 and 10, and what is accepted as a whole."""

    def test_accepted(self):
        self.expect({
            "no rows": with_rows(),
            "one row": with_rows(ROW),
            "two kinds": with_rows(ROW, GIVEN),
            "three kinds": with_rows(ROW, GIVEN, "0503" + TWO_SETS[4:]),
            "one zone": whole_file(hull_line(9_900, 1_600, 6_000, 4_000, []), [ROW]),
        }, ACCEPTED)

    def test_too_long(self):
        self.expect({"just too long": b"\n" * 65_537, "valid but for it": with_rows(ROW) + b"\n" * 65_536}, (1, 0))
        self.expect({"as long as allowed": b"\n" * 65_536, "too long before there were second sets": b"\n" * 32_769}, (2, 1))
        for length in (32_768, 32_769, 65_535, 65_536):
            self.expect({length: (with_rows(ROW) + b"\n" * 65_536)[:length]}, (10, 4))

    def test_no_end_frame(self):
        self.expect({"empty": b""}, (10, 1))
        self.expect({"hull alone": file_of([HULL])}, (10, 2))
        self.expect({"group left open": file_of([HULL, lever_row(1, 1, 700, TOP, FINE)])}, (10, 3))

    def test_line_after_the_end(self):
        for tail in (b"\n", b"0", b"zz\n", b"0f0001\n", b"02\n"):
            self.expect({tail: with_rows(ROW) + tail}, (10, 4))

    def test_earlier_line_comes_first(self):
        self.expect({"bad line, no end": file_of([HULL, "02", ROW])}, (3, 2))


class Lines(ReadingTest):
    """Refusals 2 and 3."""

    def test_writing_of_a_line(self):
        for bad in ("", "0", HULL + "0", HULL.replace("a", "A", 1), "g" + HULL[1:], " " + HULL[1:],
                    *(HULL[:-1] + wrong for wrong in "/:`g\r")):
            self.assertNotEqual(bad, HULL)
            self.expect({bad: file_of([bad, ROW, END])}, (2, 1))
        for bad in ("", ROW[:-1], ROW + "0", ROW.replace("e", "E", 1), ROW[:10] + " " + ROW[11:]):
            self.assertNotEqual(bad, ROW)
            self.expect({bad: file_of([HULL, bad, END])}, (2, 2))
        self.expect({"high byte": file_of([HULL])[:-2] + b"\xff\n"}, (2, 1))

    def test_no_closing_line_feed(self):
        self.expect({"hull": HULL.encode()}, (2, 1))
        self.expect({"row": file_of([HULL]) + ROW.encode()}, (2, 2))
        self.expect({"end": with_rows(ROW)[:-1]}, (2, 3))

    def test_digits_come_before_kind_and_numbers(self):
        self.expect({"long hull": file_of([hull_line(1, 1, 1, 1, []) + "00" * 300 + "0x"])}, (2, 1))

    def test_kind_of_line_one(self):
        for kind in ("00", "02", "03", "05", "0f", "10", "81"):
            self.expect({kind: file_of([kind + HULL[2:], ROW, END])}, (3, 1))

    def test_kind_of_later_lines(self):
        for kind in ("00", "01", "04", "05", "0e", "10", "12", "f0", "82"):
            self.expect({kind: file_of([HULL, kind + ROW[2:], END])}, (3, 2))
        for kind in ("00", "01", "02", "03", "04", "06", "07", "0d", "15", "45", "50", "85"):
            self.expect({kind: file_of([HULL, kind + TWO_SETS[2:], END])}, (3, 2))
        self.expect({"hull again": file_of([HULL, HULL, END])}, (3, 2))

    def test_lengths(self):
        self.expect({"kind alone": file_of(["01"]), "nine bytes": file_of([HULL[:18]])}, (3, 1))
        for bad in (ROW[:-2], ROW + "00", GIVEN[:-2], GIVEN + "00", TWO_SETS[:-2], TWO_SETS + "00", "02", "03", "05", "0f", "0f00", "0f000100",
                    "02" + GIVEN[2:], "03" + ROW[2:], "05" + ROW[2:], "05" + GIVEN[2:], "0f" + TWO_SETS[2:]):
            self.expect({bad: file_of([HULL, bad, END])}, (3, 2))

    def test_lengths_of_kind_02(self):
        self.assertEqual((len(ROW), len(WITHOUT_OPENINGS)), (2 * 31, 2 * 25))
        for length in range(1, 64):
            line = (ROW + "00" * 32)[:2 * length]
            self.expect({length: file_of([HULL, line, END])}, ACCEPTED if length == 31 else (3, 2))
        self.expect({"no openings": file_of([HULL, WITHOUT_OPENINGS, END])}, (3, 2))

    def test_lengths_of_kind_05(self):
        without_openings = "05" + WITHOUT_OPENINGS[2:] + "001e01900000" * 3
        self.assertEqual((len(TWO_SETS), len(without_openings)), (2 * 55, 2 * 43))
        for length in range(1, 112):
            line = (TWO_SETS + "00" * 56)[:2 * length]
            self.expect({length: file_of([HULL, line, END])}, ACCEPTED if length == 55 else (3, 2))
        self.expect({"no openings": file_of([HULL, without_openings, END])}, (3, 2))

    def test_length_comes_before_numbers(self):
        outside = lever_row(1, 1, 800, TOP, ((30, 400, 0, 30_001),) * 3)
        self.expect({bad: file_of([HULL, bad, END]) for bad in (outside[:-2], outside + "00", "0200" + WITHOUT_OPENINGS[4:])}, (3, 2))
        outside = two_sets_row(1, 1, 800, TOP, FINE, ((30, 400, 0, 30_001),) * 3)
        self.expect({bad: file_of([HULL, bad, END]) for bad in (outside[:-2], outside + "00", outside[:86], "02" + outside[2:])}, (3, 2))


class HullNumbers(ReadingTest):
    """Refusals 4 and 5."""

    def hull(self, L=9_900, B=1_600, ds=6_000, dl=4_000, bulkheads=(1_500,), m=None):
        return file_of([hull_line(L, B, ds, dl, bulkheads, m), end_line(0)])

    def test_within_the_limits(self):
        for numbers in ({"L": 8_000}, {"L": 19_800}, {"B": 1_000}, {"B": 6_000},
                        {"ds": 1_000, "dl": 500}, {"ds": 30_000}, {"dl": 500}, {"dl": 6_000},
                        {"bulkheads": ()}, {"bulkheads": range(1, 20)}, {"bulkheads": (1, 2, 9_899)}):
            self.expect({str(numbers): self.hull(**numbers)}, ACCEPTED)

    def test_outside_the_limits(self):
        for numbers in ({"L": 0}, {"L": 7_999}, {"L": 19_801},
                        {"B": 998}, {"B": 999}, {"B": 1_601}, {"B": 6_001}, {"B": 6_002},
                        {"ds": 995, "dl": 500}, {"ds": 999, "dl": 504}, {"ds": 30_001, "dl": 4_001},
                        {"dl": 499, "ds": 5_999}, {"dl": 495}, {"dl": 6_005}, {"dl": 3_999}, {"dl": 4_004}):
            self.expect({str(numbers): self.hull(**numbers)}, (4, 1))

    def test_zone_count_and_length(self):
        for numbers in ({"m": 0}, {"m": 1}, {"m": 3}, {"m": 21}, {"m": 255},
                        {"bulkheads": (), "m": 0}, {"bulkheads": range(1, 21)}):
            self.expect({str(numbers): self.hull(**numbers)}, (5, 1))
        self.expect({"half a bulkhead": file_of([HULL + "00", end_line(0)])}, (5, 1))

    def test_bulkheads(self):
        for bulkheads in ((0,), (9_900,), (9_901,), (0, 1_500), (1_500, 1_500), (1_500, 1_499), (1_500, 9_900),
                          (2_000, 1_000, 3_000)):
            self.expect({bulkheads: self.hull(bulkheads=bulkheads)}, (5, 1))

    def test_limits_come_before_zones(self):
        self.expect({"both": self.hull(L=7_999, m=0)}, (4, 1))


class RowNumbers(ReadingTest):
    """Refusals 6 and 7."""

    def test_row_count(self):
        self.expect({"none": file_of([HULL, end_line(1)])}, (6, 2))
        self.expect({"fewer": file_of([HULL, ROW, end_line(0)]), "more": file_of([HULL, ROW, end_line(2)]),
                     "wrapped": file_of([HULL, ROW, end_line(257)])}, (6, 3))
        self.expect({"count before closure": file_of([HULL, lever_row(1, 1, 700, TOP, FINE), end_line(0)])}, (6, 3))

    def test_row_five_hundred_and_one(self):
        full = [given_row(1, 1, 800, H, (0, 0, 0)) for H in range(TOP - 499, TOP + 1)]
        self.assertEqual(len(full), 500)
        self.expect({"five hundred": with_rows(*full)}, ACCEPTED)
        for last in (GIVEN, full[0], given_row(0, 0, 0, 0, (0, 0, 0)), TWO_SETS, two_sets_row(2, 1, 800, TOP, FINE, ((5_001, 0, 0, 0),) * 3)):
            self.expect({last: with_rows(*full, last)}, (6, 502))
        for last in ("04", "02", "03", "05", "0f", ROW[:-2], ROW + "00", GIVEN[:-2], GIVEN + "00", TWO_SETS[:-2], TWO_SETS + "00"):
            self.expect({last: file_of([HULL, *full, last])}, (3, 502))
        self.expect({"odd digits": file_of([HULL, *full, GIVEN + "0"])}, (2, 502))

    def test_five_hundred_rows_of_two_sets(self):
        hull = hull_line(9_900, 1_600, 6_000, 4_000, range(100, 2_000, 100))
        full = [two_sets_row(1, 1, 800, H, FINE, FINE) for H in range(TOP - 499, TOP + 1)]
        self.assertEqual(len(whole_file(hull, full)), 55_604)
        self.expect({"five hundred": whole_file(hull, full)}, ACCEPTED)
        self.expect({"one more": whole_file(hull, [*full, "0502" + TWO_SETS[4:]])}, (6, 502))
        for count in (0, 499, 501, 1_000):
            self.expect({count: file_of([hull, *full, end_line(count)])}, (6, 502))

    def test_within_the_limits(self):
        for row in (given_row(1, 3, 800, TOP, (0, 0, 0)), given_row(3, 1, 800, TOP, (10_000,) * 3),
                    given_row(1, 1, 800, 60_000, (0, 0, 0)), lever_row(1, 1, 800, TOP, ((0, 0, 0, -30_000),) * 3),
                    lever_row(1, 1, 800, TOP, ((5_000, 9_000, 9_000, 30_000),) * 3),
                    two_sets_row(1, 1, 800, TOP, FINE, ((5_000, 9_000, 9_000, 30_000),) * 3),
                    two_sets_row(1, 1, 800, TOP, ((0, 0, 0, -30_000),) * 3, ((0, 0, 0, -30_000),) * 3)):
            self.expect({row: with_rows(row)}, ACCEPTED)
        low = [given_row(1, 1, b, H, (0, 0, 0)) for b, H in ((1, 1), (1, TOP), (800, TOP))]
        self.expect({"least b and H": with_rows(*low)}, ACCEPTED)

    def test_outside_the_limits(self):
        for a, n, b, H in ((0, 1, 800, TOP), (1, 0, 800, TOP), (4, 1, 800, TOP), (1, 4, 800, TOP), (3, 2, 800, TOP),
                           (255, 2, 800, TOP), (2, 255, 800, TOP), (1, 1, 0, TOP), (1, 1, 801, TOP),
                           (1, 1, 800, 0), (1, 1, 800, 60_001)):
            self.expect({(a, n, b, H): with_rows(given_row(a, n, b, H, (0, 0, 0)))}, (7, 2))
        for draught in range(3):
            for wrong in ((5_001, 0, 0, 0), (0, 9_001, 0, 0), (0, 0, 9_001, 0), (0, 0, 0, 30_001), (0, 0, 0, -30_001)):
                results = [(0, 0, 0, 0)] * draught + [wrong] + [(0, 0, 0, 0)] * (2 - draught)
                self.expect({(draught, wrong): with_rows(lever_row(1, 1, 800, TOP, results))}, (7, 2))
                for first, second in ((results, FINE), (FINE, results)):
                    self.expect({(draught, wrong): with_rows(two_sets_row(1, 1, 800, TOP, first, second))}, (7, 2))
            survivals = [10_001 if j == draught else 0 for j in range(3)]
            self.expect({draught: with_rows(given_row(1, 1, 800, TOP, survivals))}, (7, 2))
        for a, n, b, H in ((0, 1, 800, TOP), (1, 4, 800, TOP), (1, 1, 801, TOP), (1, 1, 800, 60_001)):
            self.expect({(a, n, b, H): with_rows(two_sets_row(a, n, b, H, FINE, FINE))}, (7, 2))

    def test_openings(self):
        inside = (-30_000, -29_999, -257, -256, -2, -1, 0, 1, 255, 256, 29_999, 30_000, 35_536, 65_535)
        outside = (-30_001, -32_768, 30_001, 32_767, 32_768, 35_535)
        for openings, refusal in ((inside, ACCEPTED), (outside, (7, 2))):
            for opening in openings:
                for draught in range(3):
                    results = [(30, 400, 0, opening if j == draught else 0) for j in range(3)]
                    self.expect({(draught, opening): with_rows(lever_row(1, 1, 800, TOP, results))}, refusal)
                    self.expect({(draught, opening, "second"): with_rows(two_sets_row(1, 1, 800, TOP, FINE, results))}, refusal)

    def test_limits_come_before_order(self):
        self.expect({"earlier and outside": with_rows(GIVEN, given_row(1, 1, 801, TOP, (0, 0, 0)))}, (7, 3))
        outside = lever_row(1, 1, 800, TOP, ((30, 400, 0, -30_001),) * 3)
        self.expect({"earlier group, opening outside": with_rows(GIVEN, outside), "row again, opening outside": with_rows(ROW, outside)}, (7, 3))
        outside = two_sets_row(1, 1, 800, TOP, FINE, ((30, 9_001, 0, 0),) * 3)
        self.expect({"earlier group, second set outside": with_rows(GIVEN, outside), "row again, second set outside": with_rows(ROW, outside),
                     "open group, second set outside": with_rows(given_row(1, 1, 700, TOP, (0, 0, 0)), "0502" + outside[4:])}, (7, 3))


class RowFields(unittest.TestCase):
    """What is read from a row of results."""

    def row(self, line):
        read = reading(with_rows(line))
        self.assertIsInstance(read, Case)
        return read.rows[0]

    def results(self, line):
        self.assertEqual(self.row(line).sets, (self.row(line).results,))
        return self.row(line).results

    def test_each_number_has_its_place(self):
        results = tuple(Result(*range(4 * j + 1, 4 * j + 5)) for j in range(3))
        self.assertEqual(self.results(lever_row(1, 1, 800, TOP, results)), results)
        results = tuple(result._replace(opening=-result.opening) for result in results)
        self.assertEqual(self.results(lever_row(1, 1, 800, TOP, results)), results)

    def test_each_number_of_two_sets_has_its_place(self):
        for sign in (1, -1):
            results = [Result(4 * j + 1, 4 * j + 2, 4 * j + 3, sign * (4 * j + 4)) for j in range(6)]
            row = self.row(two_sets_row(1, 1, 800, TOP, results[:3], results[3:]))
            self.assertEqual((row.results, row.second), (tuple(results[:3]), tuple(results[3:])))
            self.assertEqual(row.sets, (row.results, row.second))
            self.assertIsNone(row.given)

    def test_row_of_two_sets_in_digits(self):
        line = "05010103204844" + "001e019000000000" * 3 + "00780640" + "09c4ffff" + "003c0320" + "00000000" + "00000000" + "0bb87530"
        row = self.row(line)
        self.assertEqual(row[:4], (1, 1, 800, TOP))
        self.assertEqual(row.results, (Result(30, 400, 0, 0),) * 3)
        self.assertEqual(row.second, (Result(120, 1_600, 2_500, -1), Result(60, 800, 0, 0), Result(0, 0, 3_000, 30_000)))
        self.assertEqual(two_sets_row(1, 1, 800, TOP, row.results, row.second), line)

    def test_rows_have_their_own_sets(self):
        rows = reading(with_rows(TWO_SETS, GIVEN, "0203" + ROW[4:])).rows
        self.assertEqual([len(row.sets) for row in rows], [2, 0, 1])

    def test_bytes_of_an_opening(self):
        for digits, opening in (("0000", 0), ("0001", 1), ("00ff", 255), ("0100", 256), ("7530", 30_000), ("ffff", -1), ("fffe", -2),
                                ("ff00", -256), ("feff", -257), ("8ad0", -30_000)):
            line = WITHOUT_OPENINGS[:14] + ("001e01900000" + digits) * 3
            self.assertEqual(self.results(line), (Result(30, 400, 0, opening),) * 3, digits)

    def test_printed_row(self):
        line = "02010103204844001e019000000000001e019000000000001e019000000000"
        self.assertEqual(self.results(line), (Result(30, 400, 0, 0),) * 3)
        self.assertEqual(lever_row(1, 1, 800, TOP, FINE), line)


class Order(ReadingTest):
    """Refusals 8 and 9."""

    def rows(self, *heads):
        return with_rows(*(given_row(*head, (0, 0, 0)) for head in heads))

    def test_rising_order(self):
        self.expect({
            "groups by a, then n": self.rows(*((a, n, 800, TOP) for a, n in ((1, 1), (1, 3), (2, 1), (2, 2), (3, 1)))),
            "layers": self.rows((1, 1, 1, TOP), (1, 1, 2, TOP + 5), (1, 1, 800, TOP)),
            "heights": self.rows((1, 1, 800, 1), (1, 1, 800, TOP - 1), (1, 1, 800, TOP)),
        }, ACCEPTED)

    def test_rows_of_two_sets_have_the_same_order(self):
        def rows(*heads):
            return with_rows(*(two_sets_row(*head, FINE, FINE) for head in heads))

        self.expect({"layers and heights": rows((1, 1, 700, 1), (1, 1, 700, TOP), (1, 1, 800, TOP), (2, 1, 800, TOP))}, ACCEPTED)
        self.expect({"earlier group": rows((2, 1, 800, TOP), (1, 3, 800, TOP)), "smaller b": rows((1, 1, 700, TOP), (1, 1, 699, TOP)),
                     "lower": rows((1, 1, 800, 5_000), (1, 1, 800, 5_000)), "after the top": rows((1, 1, 800, TOP), (1, 1, 800, TOP + 1))}, (8, 3))
        self.expect({"group left open": rows((1, 1, 799, TOP), (1, 2, 800, TOP)), "layer left open": rows((1, 1, 700, TOP - 1), (1, 1, 800, TOP)),
                     "end": rows((1, 1, 800, TOP - 1))}, (9, 3))
        for before, after in ((ROW, TWO_SETS), (TWO_SETS, ROW), (TWO_SETS, TWO_SETS)):
            self.expect({(before, after): with_rows(before, after)}, (8, 3))

    def test_group_earlier(self):
        self.expect({
            "a": self.rows((2, 1, 800, TOP), (1, 3, 800, TOP)),
            "n": self.rows((1, 2, 800, TOP), (1, 1, 800, TOP)),
            "last open": self.rows((2, 1, 700, 1), (1, 1, 800, TOP)),
        }, (8, 3))
        self.expect({"group again": self.rows((1, 1, 800, TOP), (1, 2, 800, TOP), (1, 1, 800, TOP))}, (8, 4))

    def test_smaller_b(self):
        self.expect({
            "closed layer": self.rows((1, 1, 700, TOP), (1, 1, 699, TOP)),
            "open layer": self.rows((1, 1, 700, 1), (1, 1, 699, TOP)),
        }, (8, 3))

    def test_same_layer(self):
        self.expect({
            "same height": self.rows((1, 1, 800, 5_000), (1, 1, 800, 5_000)),
            "lower": self.rows((1, 1, 800, 5_000), (1, 1, 800, 4_999)),
            "after the top": self.rows((1, 1, 800, TOP), (1, 1, 800, TOP + 1)),
            "group twice": self.rows((1, 1, 800, TOP), (1, 1, 800, TOP)),
        }, (8, 3))

    def test_not_closed(self):
        self.expect({
            "group, depth": self.rows((1, 1, 799, TOP), (1, 2, 800, TOP)),
            "group, height": self.rows((1, 1, 800, TOP - 1), (2, 1, 800, TOP)),
            "layer": self.rows((1, 1, 700, TOP - 1), (1, 1, 800, TOP)),
            "end, depth": self.rows((1, 1, 799, TOP)),
            "end, height": self.rows((1, 1, 800, TOP - 1)),
        }, (9, 3))
