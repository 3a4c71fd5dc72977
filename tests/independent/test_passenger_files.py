"""Tests of a passenger ship's file: what is read from its frames, each refusal on both sides of its limit, rows of the other ship type, and the order."""

import unittest

from independent import Case, Result, Stage, judge, reading
from independent.test_passengers import CALM, CARGO_HULL, HULL, ROW, SAFE, TOP, with_rows
from independent.writing import end_line, file_of, given_row, hull_line, lever_row, passenger_hull_line, passenger_row, two_sets_row, whole_file

ACCEPTED = (0, 0)
CARGO_ROWS = (lever_row(1, 1, 800, TOP, (SAFE,) * 3), given_row(1, 1, 800, TOP, (0, 0, 0)), two_sets_row(1, 1, 800, TOP, (SAFE,) * 3, (SAFE,) * 3))


class Frames(unittest.TestCase):
    """What is read from a passenger ship's frames."""

    def read(self, data):
        case = reading(data)
        self.assertIsInstance(case, Case)
        return case

    def test_hull_in_digits(self):
        hull = self.read(file_of(["0607d0019017700fa0019002580003" + "01f403e8", "0f0000"])).hull
        self.assertEqual(hull[:4], (2_000, 400, 6_000, 4_000))
        self.assertEqual(hull.persons, (400, 600))
        self.assertEqual([tuple(zone) for zone in hull.zones], [(0, 500), (500, 1_000), (1_000, 2_000)])
        self.assertIsNone(self.read(whole_file(CARGO_HULL, [])).hull.persons)

    def test_row_in_digits(self):
        line = ("07010103204844" + "0078064002bc0000" + "00c807d0000affff" + "1388232805dc7530"
                + "000493e0" + "00000001" + "0032" + "02bc" + "05dc" + "00" + "00000001" + "001e8480" + "1388" + "2328" + "2328" + "01"
                + "00012345" + "00023456" + "0001" + "0002" + "0003" + "00")
        self.assertEqual(len(line), 2 * 76)
        row = self.read(with_rows(line)).rows[0]
        self.assertEqual(row[:4], (1, 1, 800, TOP))
        self.assertEqual(row.results, (Result(120, 1_600, 700, 0), Result(200, 2_000, 10, -1), Result(5_000, 9_000, 1_500, 30_000)))
        stages = Stage(300_000, 1, 50, 700, 1_500, 0), Stage(1, 2_000_000, 5_000, 9_000, 9_000, 1), Stage(74_565, 144_470, 1, 2, 3, 0)
        self.assertEqual(row.stages, stages)
        self.assertEqual((row.given, row.second), (None, None))
        self.assertEqual(passenger_row(1, 1, 800, TOP, row.results, row.stages), line)

    def test_each_number_has_its_place(self):
        results = [Result(*range(4 * j + 1, 4 * j + 5)) for j in range(3)]
        stages = [Stage(0x10203 + j, 0x40506 + j, 300 + j, 400 + j, 500 + j, j % 2) for j in range(3)]
        row = self.read(with_rows(passenger_row(1, 1, 800, TOP, results, stages))).rows[0]
        self.assertEqual((row.results, row.stages), (tuple(results), tuple(stages)))

    def test_rows_follow_one_another(self):
        lines = [passenger_row(1, 1, b, H, (SAFE,) * 3, (CALM._replace(moment=1 + H),) * 3) for b in (400, 800) for H in (9_000, TOP)]
        rows = self.read(with_rows(*lines)).rows
        self.assertEqual([(row.b_before, row.H_below, row.stages[0].moment) for row in rows],
                         [(0, None, 9_001), (0, 9_000, TOP + 1), (400, None, 9_001), (400, 9_000, TOP + 1)])


class Refusals(unittest.TestCase):
    """What is refused of a passenger ship's file."""

    def expect(self, files, refusal):
        for name, data in files.items():
            self.assertEqual(judge(data), refusal, name)

    def hull(self, L=9_900, B=1_600, ds=6_000, dl=4_000, persons=(400, 600), bulkheads=(1_500,), m=None):
        return file_of([passenger_hull_line(L, B, ds, dl, persons, bulkheads, m), end_line(0)])

    def test_hull_within_the_limits(self):
        for numbers in ({"L": 2_000}, {"L": 7_999}, {"L": 8_000}, {"L": 19_800}, {"B": 400}, {"B": 998}, {"B": 1_000}, {"B": 6_000},
                        {"ds": 1_000, "dl": 500}, {"ds": 30_000}, {"dl": 500}, {"dl": 6_000}, {"persons": (0, 0)}, {"persons": (10_000, 10_000)}, {"bulkheads": ()},
                        {"bulkheads": range(1, 20)}, {"L": 2_000, "B": 400, "bulkheads": (1, 2, 1_999)}):
            self.expect({str(numbers): self.hull(**numbers)}, ACCEPTED)

    def test_hull_outside_the_limits(self):
        for numbers in ({"L": 0}, {"L": 1_999}, {"L": 19_801}, {"B": 398}, {"B": 399}, {"B": 401}, {"B": 6_001}, {"B": 6_002}, {"ds": 999, "dl": 504},
                        {"ds": 30_001, "dl": 4_001}, {"dl": 495}, {"dl": 6_005}, {"dl": 3_999}, {"persons": (10_001, 0)}, {"persons": (0, 10_001)},
                        {"persons": (65_535, 65_535)}, {"persons": (10_001, 10_001), "m": 0}, {"L": 1_999, "bulkheads": (0,)}):
            self.expect({str(numbers): self.hull(**numbers)}, (4, 1))

    def test_cargo_ships_keep_their_limits(self):
        for L, B, refusal in ((7_999, 1_600, (4, 1)), (9_900, 998, (4, 1)), (2_000, 400, (4, 1)), (8_000, 1_000, ACCEPTED)):
            self.expect({(L, B): file_of([hull_line(L, B, 6_000, 4_000, []), end_line(0)])}, refusal)

    def test_zones(self):
        for numbers in ({"m": 0}, {"m": 1}, {"m": 3}, {"m": 21}, {"bulkheads": (), "m": 0}, {"bulkheads": range(1, 21)}, {"bulkheads": (0,)},
                        {"bulkheads": (9_900,)}, {"bulkheads": (1_500, 1_500)}, {"bulkheads": (1_500, 1_499)}, {"L": 2_000, "bulkheads": (2_000,)}):
            self.expect({str(numbers): self.hull(**numbers)}, (5, 1))
        self.expect({"half a bulkhead": file_of([HULL + "00", end_line(0)])}, (5, 1))

    def test_hull_lengths(self):
        one = passenger_hull_line(9_900, 1_600, 6_000, 4_000, (400, 600), [])
        self.assertEqual(len(one), 2 * 15)
        for length in range(1, 19):
            line = (one + "0000000000")[:2 * length]
            self.expect({length: file_of([line, end_line(0)])}, (3, 1) if length < 15 else ACCEPTED if length == 15 else (5, 1))
        self.expect({"cargo hull as passenger": file_of(["06" + hull_line(9_900, 1_600, 6_000, 4_000, [])[2:], end_line(0)]),
                     "short, and outside": file_of([passenger_hull_line(1, 1, 1, 1, (20_000, 20_000), [])[:28]])}, (3, 1))
        self.expect({"passenger hull as cargo": file_of(["01" + HULL[2:], end_line(0)])}, (5, 1))

    def test_row_lengths(self):
        for length in range(1, 160):
            line = (ROW + "00" * 90)[:2 * length]
            self.expect({length: file_of([HULL, line, end_line(1)])}, ACCEPTED if length == 76 else (3, 2))
        without_openings = ROW[:14] + "".join(ROW[at:at + 12] for at in (14, 30, 46)) + ROW[62:]
        self.assertEqual(len(without_openings), 2 * 70)
        self.expect({"without openings": file_of([HULL, without_openings, end_line(1)])}, (3, 2))

    def test_rows_of_the_other_ship_type(self):
        for row in CARGO_ROWS:
            self.expect({row: with_rows(row)}, (3, 2))
            self.expect({row: with_rows(ROW, "%s02" % row[:2] + row[4:])}, (3, 3))
            self.expect({row: whole_file(CARGO_HULL, [row])}, ACCEPTED)
            self.expect({row: whole_file(CARGO_HULL, [row, ROW])}, (3, 3))
        self.expect({"07 in a cargo file": whole_file(CARGO_HULL, [ROW])}, (3, 2))
        self.expect({"a hull again": with_rows(HULL), "a cargo hull": with_rows(CARGO_HULL), "06 after 01": whole_file(CARGO_HULL, [HULL])}, (3, 2))
        self.expect({"07 first": file_of([ROW, HULL, end_line(0)])}, (3, 1))
        for kind in ("00", "01", "02", "03", "04", "05", "06", "08", "0f", "17", "70", "87"):
            self.expect({kind: file_of([HULL, kind + ROW[2:], end_line(1)])}, (3, 2))

    def test_stage_limits(self):
        for draught in range(3):
            for name, inside, outside in (
                    ("displacement", (1, 65_536, 299_999, 300_000), (0, 300_001, 2**32 - 1)), ("moment", (1, 65_536, 2_000_000), (0, 2_000_001, 2**31, 2**32 - 1)),
                    ("lever", (0, 5_000), (5_001, 65_535)), ("reach", (0, 9_000), (9_001,)), ("heel", (0, 9_000), (9_001,)), ("roro", (0, 1), (2, 255))):
                for numbers, refusal in ((inside, ACCEPTED), (outside, (7, 2))):
                    for number in numbers:
                        stages = [CALM._replace(**{name: number}) if j == draught else CALM for j in range(3)]
                        self.expect({(draught, name, number): with_rows(passenger_row(1, 1, 800, TOP, (SAFE,) * 3, stages))}, refusal)

    def test_row_limits(self):
        for a, n, b, H in ((0, 1, 800, TOP), (1, 0, 800, TOP), (4, 1, 800, TOP), (1, 4, 800, TOP), (1, 1, 0, TOP), (1, 1, 801, TOP), (1, 1, 800, 0),
                           (1, 1, 800, 60_001)):
            self.expect({(a, n, b, H): with_rows(passenger_row(a, n, b, H, (SAFE,) * 3, (CALM,) * 3))}, (7, 2))
        for draught in range(3):
            for name, number in (("lever", 5_001), ("reach", 9_001), ("heel", 9_001), ("opening", 30_001), ("opening", -30_001)):
                results = [SAFE._replace(**{name: number}) if j == draught else SAFE for j in range(3)]
                self.expect({(draught, name): with_rows(passenger_row(1, 1, 800, TOP, results, (CALM,) * 3))}, (7, 2))

    def test_order_of_refusals(self):
        outside = passenger_row(1, 1, 800, TOP, (SAFE,) * 3, (CALM, CALM, CALM._replace(roro=2)))
        second, open_row = "0702" + ROW[4:], passenger_row(1, 1, 700, TOP, (SAFE,) * 3, (CALM,) * 3)
        self.expect({"7 before 8": with_rows(second, outside), "7 before 9": with_rows(open_row, "0702" + outside[4:])}, (7, 3))
        self.expect({"3 before 7": with_rows(second, outside + "00"), "3 before 7 of the other type": with_rows(second, given_row(3, 1, 801, TOP, (0, 0, 0))),
                     "3 before 8": with_rows(second, CARGO_ROWS[0]), "3 before 9": with_rows(open_row, "0302" + CARGO_ROWS[1][4:]),
                     "3 before 10": file_of([HULL, ROW, CARGO_ROWS[0]])}, (3, 3))
        self.expect({"8": with_rows(second, ROW)}, (8, 3))
        self.expect({"9": with_rows(open_row, second), "9 at the end": with_rows(open_row)}, (9, 3))
        self.expect({"6 before 9": file_of([HULL, open_row, end_line(2)])}, (6, 3))
        self.expect({"2 before 3": file_of([HULL, CARGO_ROWS[0] + "0"]), "2 before 7": file_of([HULL, outside[:-1] + "g"])}, (2, 2))
        self.expect({"10 before all": with_rows(ROW) + CARGO_ROWS[0].encode()}, (10, 4))
        full = [given_row(1, 1, 800, H, (0, 0, 0)) for H in range(TOP - 499, TOP + 1)]
        self.expect({"3 before 6": whole_file(CARGO_HULL, [*full, second])}, (3, 502))

    def test_most_rows(self):
        def ship(zones, rows):
            hull = passenger_hull_line(9_900, 1_600, 6_000, 4_000, (400, 600), [100 * i for i in range(1, zones)])
            return whole_file(hull, [passenger_row(1, 1, 800, H, (SAFE,) * 3, (CALM,) * 3) for H in [*range(1, rows), TOP]])

        self.assertEqual([len(ship(*one)) for one in ((4, 428), (5, 428), (1, 429), (20, 427))], [65_534, 65_538, 65_675, 65_445])
        self.expect({one: ship(*one) for one in ((1, 428), (4, 428), (5, 427), (20, 427))}, ACCEPTED)
        self.expect({one: ship(*one) for one in ((5, 428), (1, 429), (20, 428), (20, 501))}, (1, 0))
