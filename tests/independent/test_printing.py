"""Tests of what is printed: document 01's file with the openings of document 02 byte for byte, the sheet, and the command line."""

import subprocess
import sys
import unittest
from pathlib import Path

from independent import answer, figures, reading, row_numbers, run, total_text
from independent.writing import end_line, file_of, given_row, hull_line, lever_row, whole_file

PROGRAM = Path(__file__).resolve().parent

PRINTED_CASE = b"""\
0126ac064017700fa00205dc
02010103204844001e019000000000001e019000000000001e019000000000
03010203204844000000000000
03020103204844271027102710
0f0003
"""
PRINTED_ANSWER = b"""\
810134243ab934243abb34243ab934243abb34243ab934243abb34243ab934243abb
82072648b6072648b7030303
8203e36aea03e36aec000000
823091165e3091165f000000
"""
SHARES = [119_949_494, 119_949_495, 65_235_690, 65_235_692, 814_814_814, 814_814_815]
FIGURES = [0, 0, 1, 3] + 4 * [874_789_561, 874_789_563] + SHARES


def program(*words, data=b""):
    """What the command writes for these words and this input."""
    done = subprocess.run([sys.executable, str(PROGRAM), *words], input=data, capture_output=True, check=True)
    return done.stdout


def survival_numbers(told):
    """Bottom, top and mark byte at each draught, row after row, out of the rows' twenty numbers."""
    numbers = row_numbers(told)
    return [numbers[row + 2 + 6 * draught + place] for row in range(0, len(numbers), 20) for draught in range(3) for place in (1, 2, 3)]


class Printed(unittest.TestCase):
    """Document 01, "One file in full"."""

    def test_printed_case(self):
        self.assertEqual(run(PRINTED_CASE), PRINTED_ANSWER)

    def test_figures(self):
        self.assertEqual(figures(answer(PRINTED_CASE)), FIGURES)

    def test_openings_of_the_printed_case(self):
        row, places = b"001e019000000000", [PRINTED_CASE.index(b"001e019000000000") + 16 * j + 12 for j in range(3)]
        self.assertEqual(PRINTED_CASE.count(row), 3)
        for place, byte in zip(places, (b"0b0303", b"030b03", b"03030b")):
            for digits, marks in ((b"0000", b"030303"), (b"0001", b"030303"), (b"7530", b"030303"), (b"ffff", byte), (b"8ad0", byte)):
                told = run(PRINTED_CASE[:place] + digits + PRINTED_CASE[place + 4:])
                self.assertEqual(told[69:94], b"82072648b6072648b7" + marks + b"\n")
                self.assertEqual(told[94:], PRINTED_ANSWER[94:])
                self.assertEqual(told[:69] == PRINTED_ANSWER[:69], marks == b"030303")

    def test_answers_do_not_depend_on_files_before(self):
        other = PRINTED_CASE.replace(b"05dc", b"05dd")
        turns = [run(data) for data in (other, PRINTED_CASE, other, PRINTED_CASE)]
        self.assertEqual(turns[1::2], [PRINTED_ANSWER] * 2)
        self.assertEqual(turns[0], turns[2])
        self.assertNotEqual(turns[0], PRINTED_ANSWER)

    def test_refusals(self):
        self.assertEqual(run(b""), b"8f0a0001\n")
        self.assertEqual(run(b"\n" * 70_000), b"8f010000\n")
        self.assertEqual(run(file_of([hull_line(9_900, 1_600, 6_000, 4_000, [])] + ["0f"])), b"8f030002\n")
        self.assertEqual(figures(answer(b"")), [10, 1] + 10 * [0])

    def test_line_number_of_two_bytes(self):
        rows = [given_row(1, 1, 800, 18_000 + i, (0, 0, 0)) for i in range(499)]
        hull = hull_line(9_900, 1_600, 6_000, 4_000, [])
        self.assertEqual(run(file_of([hull, *rows, end_line(499)])), b"8f0901f5\n")

    def test_no_rows(self):
        data = whole_file(hull_line(9_900, 1_600, 6_000, 4_000, [1_500]), [])
        self.assertEqual(run(data), b"8102" + b"0" * 64 + b"\n")
        self.assertEqual(figures(answer(data)), [0, 0, 2] + 9 * [0])


class Sheet(unittest.TestCase):
    """Refusal 11."""

    def test_short_sheet(self):
        for length in (0, 1, 5):
            self.assertEqual(run(PRINTED_CASE, length), b"8f0b0000\n")
        for length in (6, 7, 1_000):
            self.assertEqual(run(PRINTED_CASE, length), PRINTED_ANSWER)

    def test_short_sheet_comes_last(self):
        self.assertEqual(run(PRINTED_CASE + b"\n", 0), b"8f0a0006\n")

    def test_no_rows_need_no_sheet(self):
        self.assertEqual(run(whole_file(hull_line(9_900, 1_600, 6_000, 4_000, []), []), 0)[:4], b"8102")


class Total(unittest.TestCase):
    """What the listed groups come to."""

    def of(self, bulkheads, groups):
        rows = [given_row(a, n, b, H, (0, 0, 0)) for a, n in groups for b in (200, 800) for H in (9_000, 18_500)]
        return total_text(reading(whole_file(hull_line(9_900, 1_600, 6_000, 4_000, bulkheads), rows))).splitlines()

    def test_missing_groups(self):
        self.assertEqual(self.of([1_500], [(1, 1), (2, 1)]), [
            "total 2221/2376 = 0.934764309...",
            "not listed: group (1, 2) share 155/2376 = 0.065235690...",
        ])
        self.assertEqual(len(self.of([1_500], [])), 4)
        self.assertEqual(self.of([1_500], [])[0], "total 0")

    def test_group_of_no_share_is_not_missed(self):
        groups = [(a, n) for a in range(1, 5) for n in range(1, 6 - a)]
        bulkheads = [1_000, 4_000, 5_000]  # zone 2 is as long as the longest damage
        self.assertEqual(self.of(bulkheads, groups), ["total 1"])
        self.assertEqual(self.of(bulkheads, [group for group in groups if group not in ((1, 3), (1, 4))]), ["total 1"])
        told = self.of(bulkheads, [group for group in groups if group not in ((1, 3), (2, 3))])
        self.assertEqual([line.split(" share ")[0] for line in told[1:]], ["not listed: group (2, 3)"])


class CommandLine(unittest.TestCase):
    """The program as others call it."""

    def test_standard_input(self):
        self.assertEqual(program(data=PRINTED_CASE), PRINTED_ANSWER)

    def test_sheet(self):
        self.assertEqual(program("--sheet", "5", data=PRINTED_CASE), b"8f0b0000\n")
        self.assertEqual(program("--sheet", "6", data=PRINTED_CASE), PRINTED_ANSWER)

    def test_figures(self):
        self.assertEqual(program("--figures", data=PRINTED_CASE), "".join(f"{n}\n" for n in FIGURES).encode())

    def test_exact(self):
        lines = program("--exact", data=PRINTED_CASE).decode().splitlines()
        shares = [line.split(" share ")[1] for line in lines if " share " in line]
        self.assertEqual(shares, ["95/792", "155/2376", "22/27"])
        self.assertIn("  partial: v 916500/916500 s^4 1/16", lines)
        self.assertIn("  light: v 916500/916500 s 10000/10000 given", lines)
        self.assertIn("R 12177/24977", lines)
        self.assertIn("partial mark 12177/49954", lines)
        self.assertIn("total chance at partial draught 5200: 1", lines)
        self.assertEqual(program("--exact"), b"refused 10 at line 1\n")

    def test_exact_survival_of_an_immersed_opening(self):
        rows = [lever_row(1, 1, 800, 60_000, ((120, 1_600, 0, -1), (60, 1_600, 0, 0), (120, 1_600, 0, -30_000)))]
        lines = program("--exact", data=whole_file(hull_line(9_900, 1_600, 6_000, 4_000, []), rows)).decode().splitlines()
        self.assertEqual(lines[1:4], [f"  {name}: v 916500/916500 s^4 {fourth}" for name, fourth in (("deepest", 0), ("partial", "1/2"), ("light", 0))])

    def test_total(self):
        self.assertEqual(program("--total", data=PRINTED_CASE), b"total 1\n")
        immersed = PRINTED_CASE.replace(b"001e019000000000", b"001e01900000ffff")
        self.assertEqual(program("--total", data=immersed), b"total 1\n")
        self.assertEqual(program("--total"), b"refused 10 at line 1\n")

    def test_every_byte_is_a_byte(self):
        self.assertEqual(program(data=bytes(range(256))), b"8f020001\n")
        self.assertEqual(program(data=PRINTED_CASE.replace(b"\n", b"\r\n")), b"8f020001\n")
