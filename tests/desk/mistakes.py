"""Deliberate mistakes, one at a time in a good workbook: each is told with its sheet, row and heading, in just these words."""

import datetime
import sys
from pathlib import Path

ROOT = Path(__file__).resolve().parent.parent.parent
sys.path[:0] = [str(ROOT), str(ROOT / "tests" / "desk")]

from books import cargo, passenger  # noqa: E402
from tally import Tally  # noqa: E402

from frontdesk.reading import intake  # noqa: E402
from frontdesk.reading.mistakes import MOST_SHOWN, Mistakes  # noqa: E402

OF_SHIP = "name; type; Ls m; B m; deepest draught m; light draught m; persons in lifeboats; persons beyond; rule"
OF_CASES = ("zones; b m; H m; case; lever m, DRAUGHT; range deg, DRAUGHT; heel deg, DRAUGHT; opening m, DRAUGHT; second lever m, DRAUGHT; "
            "second range deg, DRAUGHT; second heel deg, DRAUGHT; second opening m, DRAUGHT; displacement t, DRAUGHT; heeling moment tm, "
            "DRAUGHT; intermediate lever m, DRAUGHT; intermediate range deg, DRAUGHT; intermediate heel deg, DRAUGHT; ro-ro, DRAUGHT; given "
            "survival, DRAUGHT (DRAUGHT is deepest, partial or light)")

MISTAKES = [
    (cargo, lambda book: book.put("ship", 2, "type", "tanker"),
     'ship, row 2, "type": found "tanker"; expected cargo or passenger.'),
    (cargo, lambda book: book.put("ship", 2, "type", "cargos"),
     'ship, row 2, "type": found "cargos"; expected cargo or passenger. Did you mean cargo?'),
    (cargo, lambda book: book.put("ship", 2, "type", None),
     'ship, row 2, "type": found nothing; expected cargo or passenger.'),
    (cargo, lambda book: book.put("ship", 2, "Ls m", 9000),
     'ship, row 2, "Ls m": found 9000; expected 80 to 198 m. Did you enter centimetres?'),
    (cargo, lambda book: book.put("ship", 2, "Ls m", 79.99),
     'ship, row 2, "Ls m": found 79.99; expected 80 to 198 m.'),
    (cargo, lambda book: book.put("ship", 2, "Ls m", "90 m"),
     'ship, row 2, "Ls m": found "90 m"; expected 80 to 198 m. Leave the unit out: the heading has it.'),
    (cargo, lambda book: book.put("ship", 2, "Ls m", 90.005),
     'ship, row 2, "Ls m": found 90.005, which is 9000.5 cm; expected whole centimetres.'),
    (cargo, lambda book: book.put("ship", 2, "B m", 16.01),
     'ship, row 2, "B m": found 16.01; expected an even number of centimetres, so that B/2 is whole: 16 or 16.02.'),
    (cargo, lambda book: book.put("ship", 2, "B m", 9.98),
     'ship, row 2, "B m": found 9.98; expected 10 to 60 m.'),
    (cargo, lambda book: book.put("ship", 2, "B m", 1600),
     'ship, row 2, "B m": found 1600; expected 10 to 60 m. Did you enter centimetres?'),
    (cargo, lambda book: book.put("ship", 2, "deepest draught m", 7000),
     'ship, row 2, "deepest draught m": found 7000; expected 1 to 30 m. Did you enter millimetres?'),
    (cargo, lambda book: book.put("ship", 2, "deepest draught m", None),
     'ship, row 2, "deepest draught m": found nothing; expected 1 to 30 m.'),
    (cargo, lambda book: book.put("ship", 2, "light draught m", 7.005),
     'ship, row 2, "light draught m": found 7.005; expected at most the deepest draught, 7 m. Are the two turned?'),
    (cargo, lambda book: book.put("ship", 2, "light draught m", 4.003),
     'ship, row 2, "light draught m": found 4.003; expected a light draught that is a multiple of 5 mm below the deepest, 7 m: 4 or 4.005.'),
    (cargo, lambda book: book.put("ship", 2, "light draught m", "4,0"),
     'ship, row 2, "light draught m": found "4,0"; expected 0.5 to 30 m. Write the decimal comma as a point: 4.0.'),
    (cargo, lambda book: book.column("ship", "rule", ["2020"]),
     'ship, row 2, "rule": found 2020; expected nothing: it is asked of passenger ships alone. Is the type wrong?'),
    (cargo, lambda book: book.column("ship", "persons beyond", [12]),
     'ship, row 2, "persons beyond": found 12; expected nothing: it is asked of passenger ships alone. Is the type wrong?'),
    (cargo, lambda book: book.put("ship", 3, "type", "cargo"),
     'ship, row 3: found another row; expected one ship, which is in row 2.'),
    (cargo, lambda book: book.drop("ship", 2),
     "ship, row 2: found nothing; expected the ship's data in this row."),
    (cargo, lambda book: book.head("ship", "Ls m", "Length m"),
     'ship, row 1, "Length m": this heading is not known. Expected are: ' + OF_SHIP + '.',
     'ship, row 1, "Ls m": this heading is missing; expected in row 1.'),
    (cargo, lambda book: book.head("ship", "B m", "b M m"),
     'ship, row 1, "b M m": this heading is not known. Did you mean "B m"? Expected are: ' + OF_SHIP + '.',
     'ship, row 1, "B m": this heading is missing; expected in row 1.'),
    (cargo, lambda book: book.column("ship", "type", ["cargo"]),
     'ship, row 1, "type": found twice; expected once.'),
    (cargo, lambda book: book.without("ship", "light draught m"),
     'ship, row 1, "light draught m": this heading is missing; expected in row 1.'),
    (cargo, lambda book: book.put("zones", 3, "aft m", 20.4),
     'zones, row 3, "aft m": found 20.4; expected 20.5 m, where zone 1 in row 2 ends: zones abut, and here is an overlap of 0.1 m.'),
    (cargo, lambda book: book.put("zones", 3, "aft m", 21),
     'zones, row 3, "aft m": found 21; expected 20.5 m, where zone 1 in row 2 ends: zones abut, and here is a gap of 0.5 m.'),
    (cargo, lambda book: book.put("zones", 2, "aft m", 1),
     'zones, row 2, "aft m": found 1; expected 0, the aft end of Ls, for zone 1.'),
    (cargo, lambda book: book.put("zones", 4, "forward m", 89),
     'zones, row 4, "forward m": found 89; expected 90 m, the forward end of Ls, for the last zone.'),
    (cargo, lambda book: book.put("zones", 3, "forward m", 20),
     'zones, row 3, "forward m": found 20; expected more than 20.5 m, where the zone begins.',
     'zones, row 4, "aft m": found 80; expected 20 m, where zone 2 in row 3 ends: zones abut, and here is a gap of 60 m.'),
    (cargo, lambda book: book.put("zones", 4, "zone", 2),
     'zones, row 4, "zone": found 2; expected each zone once: row 3 has it already.'),
    (cargo, lambda book: book.put("zones", 4, "zone", 4),
     'zones, row 4, "zone": found 4; expected 1 to 3, as many zones as there are rows.'),
    (cargo, lambda book: book.put("zones", 4, "zone", 21),
     'zones, row 4, "zone": found 21; expected 1 to 20.'),
    (cargo, lambda book: book.put("zones", 3, "forward m", 8000),
     'zones, row 3, "forward m": found 8000; expected 0 to 90 m. Did you enter centimetres?'),
    (cargo, lambda book: book.put("zones", 3, "forward m", None),
     'zones, row 3, "forward m": found nothing; expected 0 to 90 m.'),
    (cargo, lambda book: book.put("cases", 2, "zones", "4"),
     'cases, row 2, "zones": found 4; expected a zone such as 2 or zones such as 2-4, of 1 to 3.'),
    (cargo, lambda book: book.put("cases", 3, "zones", "2-1"),
     'cases, row 3, "zones": found "2-1"; expected a zone such as 2 or zones such as 2-4, of 1 to 3. From aft forward, that is 1-2.'),
    (cargo, lambda book: book.put("cases", 3, "zones", "all"),
     'cases, row 3, "zones": found "all"; expected a zone such as 2 or zones such as 2-4, of 1 to 3.'),
    (cargo, lambda book: book.put("cases", 3, "zones", None),
     'cases, row 3, "zones": found nothing; expected a zone such as 2 or zones such as 2-4, of 1 to 3.'),
    (cargo, lambda book: book.put("cases", 3, "zones", datetime.datetime(2024, 2, 1)),
     'cases, row 3, "zones": found the date 2024-02-01; expected a zone such as 2 or zones such as 2-4, of 1 to 3. The spreadsheet took '
     'what was typed for a date. Make the column text, and enter it again.'),
    (cargo, lambda book: book.put("cases", 3, "zones", 1.2),
     'cases, row 3, "zones": found 1.2; expected a zone such as 2 or zones such as 2-4, of 1 to 3.'),
    (cargo, lambda book: book.put("cases", 4, "b m", 8.01),
     'cases, row 4, "b m": found 8.01; expected 0.01 to 8 m, or B/2.'),
    (cargo, lambda book: book.put("cases", 4, "b m", 250),
     'cases, row 4, "b m": found 250; expected 0.01 to 8 m, or B/2. Did you enter centimetres?'),
    (cargo, lambda book: book.put("cases", 4, "b m", "half"),
     'cases, row 4, "b m": found "half"; expected 0.01 to 8 m, or B/2.'),
    (cargo, lambda book: book.put("cases", 4, "b m", 2.505),
     'cases, row 4, "b m": found 2.505, which is 250.5 cm; expected whole centimetres.'),
    (cargo, lambda book: book.put("cases", 4, "H m", 8000),
     'cases, row 4, "H m": found 8000; expected 0.001 to 60 m, or top. Did you enter millimetres?'),
    (cargo, lambda book: book.put("cases", 4, "H m", 0),
     'cases, row 4, "H m": found 0; expected 0.001 to 60 m, or top.'),
    (cargo, lambda book: book.put("cases", 7, "H m", 19.499),
     'cases, row 7, "H m": this is the last row of zone 3 at b 8 m, and ends at 19.499 m; expected one more at the top, 19.5 m or higher.'),
    (cargo, lambda book: book.put("cases", 7, "b m", 7.99),
     'cases, row 7, "b m": this is the last row of zone 3, and ends at b 7.99 m; expected one more layer at B/2, 8 m.'),
    (cargo, lambda book: book.put("cases", 4, "H m", 20),
     'cases, row 4, "H m": row 5 has closed this layer at 19.5 m; expected one row at or above the top, 19.5 m.'),
    (cargo, lambda book: book.put("cases", 3, "zones", "1"),
     'cases, row 3, "zones": row 2 has the same zones, b and H; expected one row for a place.'),
    (cargo, lambda book: book.put("cases", 2, "lever m, deepest", 100),
     'cases, row 2, "lever m, deepest": found 100; expected 0 to 5 m. Did you enter millimetres?'),
    (cargo, lambda book: book.put("cases", 2, "lever m, deepest", 0.1255),
     'cases, row 2, "lever m, deepest": found 0.1255, which is 125.5 mm; expected whole millimetres. Or give --against, which rounds it '
     'so that survival can only be lower.'),
    (cargo, lambda book: book.put("cases", 2, "lever m, light", -0.1),
     'cases, row 2, "lever m, light": found -0.1; expected 0 to 5 m.'),
    (cargo, lambda book: book.put("cases", 2, "lever m, light", "lost"),
     'cases, row 2, "lever m, light": found "lost"; expected 0 to 5 m.'),
    (cargo, lambda book: book.put("cases", 2, "range deg, partial", 1450),
     'cases, row 2, "range deg, partial": found 1450; expected 0 to 90 degrees. Did you enter hundredths of a degree?'),
    (cargo, lambda book: book.put("cases", 2, "range deg, partial", None),
     'cases, row 2, "range deg, partial": found nothing; expected 0 to 90 degrees. The row has "lever m, deepest".'),
    (cargo, lambda book: book.put("cases", 2, "heel deg, light", True),
     'cases, row 2, "heel deg, light": found TRUE; expected 0 to 90 degrees.'),
    (cargo, lambda book: book.put("cases", 2, "heel deg, light", datetime.datetime(2024, 5, 3)),
     'cases, row 2, "heel deg, light": found the date 2024-05-03; expected 0 to 90 degrees. The spreadsheet took what was typed for a date.'),
    (cargo, lambda book: book.put("cases", 2, "heel deg, light", "#DIV/0!"),
     'cases, row 2, "heel deg, light": found "#DIV/0!"; expected 0 to 90 degrees. A formula of the spreadsheet ended in an error.'),
    (cargo, lambda book: book.put("cases", 2, "opening m, deepest", 800),
     'cases, row 2, "opening m, deepest": found 800; expected -30 to 30 m, or none. Did you enter millimetres?'),
    (cargo, lambda book: book.put("cases", 2, "opening m, deepest", "no"),
     'cases, row 2, "opening m, deepest": found "no"; expected -30 to 30 m, or none.'),
    (cargo, lambda book: book.put("cases", 2, "opening m, deepest", "=A1*2"),
     'cases, row 2, "opening m, deepest": found a formula without a stored value; expected -30 to 30 m, or none. Open the workbook in a '
     'spreadsheet program and save it.'),
    (cargo, lambda book: book.put("cases", 4, "second heel deg, light", None),
     'cases, row 4, "second heel deg, light": found nothing; expected 0 to 90 degrees. The row has "second lever m, deepest".'),
    (cargo, lambda book: book.put("cases", 2, "second lever m, deepest", 0.05),
     'cases, row 2, "second range deg, deepest": found nothing; expected all 12 cells of the second results, and 11 are blank. The row '
     'has "second lever m, deepest".'),
    (cargo, lambda book: book.put("cases", 6, "given survival, light", 50),
     'cases, row 6, "given survival, light": found 50; expected 0 to 1. Did you enter per cent?'),
    (cargo, lambda book: book.put("cases", 6, "given survival, light", None),
     'cases, row 6, "given survival, light": found nothing; expected 0 to 1. The row has "given survival, deepest".'),
    (cargo, lambda book: book.put("cases", 6, "lever m, deepest", 0.1),
     'cases, row 6, "given survival, deepest": found 0.5; expected results or given survivals, and not both in one row.'),
    (cargo, lambda book: book.column("cases", "displacement t, deepest", [None, 9000]),
     'cases, row 3, "displacement t, deepest": found 9000; expected nothing: these columns belong to a passenger ship.'),
    (cargo, lambda book: book.head("cases", "range deg, light", "range deg light"),
     'cases, row 1, "range deg light": this heading is not known. Did you mean "range deg, light"? Expected are: ' + OF_CASES + '.',
     'cases, row 1, "range deg, light": this heading is missing; expected in row 1.'),
    (cargo, lambda book: book.head("cases", "second heel deg, light", "heel deg, light"),
     'cases, row 1, "heel deg, light": found twice; expected once.',
     'cases, row 1, "second heel deg, light": this heading is missing; expected in row 1.'),
    (cargo, lambda book: book.without("cases", "opening m, partial"),
     'cases, row 1, "opening m, partial": this heading is missing; expected in row 1.'),
    (cargo, lambda book: book.without("cases", "H m"),
     'cases, row 1, "H m": this heading is missing; expected in row 1.'),
    (cargo, lambda book: book.column("cases", None, [None, "check"]),
     'cases, row 3: found "check" in column AF, which has no heading in row 1; expected a heading, or nothing below it.'),
    (cargo, lambda book: book.put("cases", 8, "zones", "3-4"),
     'cases, row 8, "zones": found "3-4"; expected a zone such as 2 or zones such as 2-4, of 1 to 3.',
     'cases, row 8, "b m": found nothing; expected 0.01 to 8 m, or B/2.',
     'cases, row 8, "H m": found nothing; expected 0.001 to 60 m, or top.',
     'cases, row 8: found no results; expected results, or given survivals. A damage that is not survived is left out, or has zeros.'),
    (cargo, lambda book: book.put("cases", 8, "case", "only a name"),
     'cases, row 8, "zones": found nothing; expected a zone such as 2 or zones such as 2-4, of 1 to 3.',
     'cases, row 8, "b m": found nothing; expected 0.01 to 8 m, or B/2.',
     'cases, row 8, "H m": found nothing; expected 0.001 to 60 m, or top.',
     'cases, row 8: found no results; expected results, or given survivals. A damage that is not survived is left out, or has zeros.'),
    (passenger, lambda book: book.put("ship", 2, "Ls m", 19.99),
     'ship, row 2, "Ls m": found 19.99; expected 20 to 198 m.'),
    (passenger, lambda book: book.put("ship", 2, "B m", 3.98),
     'ship, row 2, "B m": found 3.98; expected 4 to 60 m.'),
    (passenger, lambda book: book.put("ship", 2, "persons in lifeboats", 10001),
     'ship, row 2, "persons in lifeboats": found 10001; expected 0 to 10000 persons.'),
    (passenger, lambda book: book.put("ship", 2, "persons in lifeboats", 1301),
     'ship, row 2, "rule": found 2020 with 1351 persons; expected at most 1350 or at least 6001 persons: between them R has a '
     'logarithm, and no verdict is given.'),
    (passenger, lambda book: book.put("ship", 2, "persons beyond", None),
     'ship, row 2, "persons beyond": found nothing; expected 0 to 10000 persons.'),
    (passenger, lambda book: book.put("ship", 2, "persons beyond", 1.5),
     'ship, row 2, "persons beyond": found 1.5; expected whole numbers.'),
    (passenger, lambda book: book.put("ship", 2, "rule", "2009"),
     'ship, row 2, "rule": found 2009; expected earlier or 2020.'),
    (passenger, lambda book: book.without("ship", "rule"),
     'ship, row 1, "rule": this heading is missing; expected in row 1.'),
    (passenger, lambda book: book.put("ship", 2, "type", "cargo"),
     'ship, row 2, "Ls m": found 60; expected 80 to 198 m.',
     'ship, row 2, "persons in lifeboats": found 300; expected nothing: it is asked of passenger ships alone. Is the type wrong?',
     'ship, row 2, "persons beyond": found 50; expected nothing: it is asked of passenger ships alone. Is the type wrong?',
     'ship, row 2, "rule": found 2020; expected nothing: it is asked of passenger ships alone. Is the type wrong?',
     'cases, row 2, "displacement t, deepest": found 9460; expected nothing: these columns belong to a passenger ship.',
     'cases, row 3, "displacement t, deepest": found 9460; expected nothing: these columns belong to a passenger ship.',
     'cases, row 4, "displacement t, deepest": found 9460; expected nothing: these columns belong to a passenger ship.',
     'cases, row 5, "displacement t, deepest": found 9460; expected nothing: these columns belong to a passenger ship.'),
    (passenger, lambda book: book.put("cases", 3, "displacement t, deepest", 9460500),
     'cases, row 3, "displacement t, deepest": found 9460500; expected 1 to 300000 t. Did you enter kilograms?'),
    (passenger, lambda book: book.put("cases", 3, "displacement t, deepest", 0),
     'cases, row 3, "displacement t, deepest": found 0; expected 1 to 300000 t.'),
    (passenger, lambda book: book.put("cases", 3, "displacement t, deepest", "9 460"),
     'cases, row 3, "displacement t, deepest": found "9 460"; expected 1 to 300000 t. Write it without separators: 9460.'),
    (passenger, lambda book: book.put("cases", 3, "displacement t, deepest", 9460.5),
     'cases, row 3, "displacement t, deepest": found 9460.5; expected whole tonnes. Or give --against, which rounds it so that survival '
     'can only be lower.'),
    (passenger, lambda book: book.put("cases", 3, "heeling moment tm, partial", None),
     'cases, row 3, "heeling moment tm, partial": found nothing; expected 1 to 2000000 tm. The row has "displacement t, deepest".'),
    (passenger, lambda book: book.put("cases", 3, "heeling moment tm, partial", 2000001),
     'cases, row 3, "heeling moment tm, partial": found 2000001; expected 1 to 2000000 tm.'),
    (passenger, lambda book: book.put("cases", 3, "intermediate range deg, light", 900),
     'cases, row 3, "intermediate range deg, light": found 900; expected 0 to 90 degrees. Did you enter hundredths of a degree?'),
    (passenger, lambda book: book.put("cases", 3, "intermediate heel deg, light", 91),
     'cases, row 3, "intermediate heel deg, light": found 91; expected 0 to 90 degrees.'),
    (passenger, lambda book: book.put("cases", 3, "ro-ro, light", "maybe"),
     'cases, row 3, "ro-ro, light": found "maybe"; expected yes or no.'),
    (passenger, lambda book: book.put("cases", 3, "ro-ro, light", None),
     'cases, row 3, "ro-ro, light": found nothing; expected yes or no. The row has "displacement t, deepest".'),
    (passenger, lambda book: book.column("cases", "given survival, light", [None, 1]),
     'cases, row 3, "given survival, light": found 1; expected nothing: given survivals belong to a cargo ship.'),
    (passenger, lambda book: book.column("cases", "second lever m, light", [0.1]),
     'cases, row 2, "second lever m, light": found 0.1; expected nothing: second results belong to a cargo ship.'),
    (passenger, lambda book: book.without("cases", "ro-ro, partial"),
     'cases, row 1, "ro-ro, partial": this heading is missing; expected in row 1.'),
    (passenger, lambda book: book.drop("cases", 5),
     'cases, row 4, "b m": this is the last row of zone 2, and ends at b 1.5 m; expected one more layer at B/2, 6 m.'),
]


def lines_of(data):
    """What is told of a workbook, or nothing where it is read."""
    try:
        intake.read("book.xlsx", data)
    except Mistakes as found:
        return found.lines()
    return []


def each_is_told(tally):
    for number, (ship, change, *wanted) in enumerate(MISTAKES, 1):
        tally.same(lines_of(change(ship()).bytes()), wanted, "mistake %d" % number)


def all_at_once(tally):
    """Three sheets with a mistake each are told together; of many the first fifty, and how many more there are."""
    book = cargo().put("ship", 2, "Ls m", 90.005).put("zones", 2, "zone", "one").put("cases", 2, "heel deg, light", 95)
    found = lines_of(book.bytes())
    places = ['ship, row 2, "Ls m"', 'zones, row 2, "zone"', 'cases, row 2, "heel deg, light"']
    tally.same([line.partition(": ")[0] for line in found], places, "a mistake in each sheet")
    book = cargo()
    for row in range(2, 8):
        for at in range(4, 16):
            book.sheets["cases"][row - 1][at] = "lost"
    found = lines_of(book.bytes())
    tally.same((len(found), found[-1]), (MOST_SHOWN + 1, "and 11 more"), "more than fifty mistakes")


def good_ones_are_read(tally):
    for ship in (cargo, passenger):
        tally.same(lines_of(ship().bytes()), [], "the workbook before the mistake")


if __name__ == "__main__":
    tally = Tally()
    good_ones_are_read(tally)
    each_is_told(tally)
    all_at_once(tally)
    sys.exit(tally.close())
