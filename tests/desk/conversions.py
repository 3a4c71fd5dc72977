"""Cells to whole numbers of the file's units, exactly: every sort of cell, every unit, and which way --against rounds."""

import datetime
import sys
from decimal import Decimal
from pathlib import Path

ROOT = Path(__file__).resolve().parent.parent.parent
sys.path[:0] = [str(ROOT), str(ROOT / "tests"), str(ROOT / "tests" / "desk")]

from books import cargo, passenger  # noqa: E402
from generator.dice import Dice  # noqa: E402
from tally import Tally  # noqa: E402

from frontdesk.reading import tables, units  # noqa: E402
from frontdesk.reading.columns import OF_SHEET  # noqa: E402
from frontdesk.reading.mistakes import Mistakes  # noqa: E402

THOUSANDTHS = [  # a cell, and what it is in thousandths: the number itself, or next below and above where it is between two
    ("0.12", 120), (0.125, 125), (0.1255, (125, 126)), ("0.1255", (125, 126)), (16, 16_000), (16.0, 16_000), ("1e-3", 1), ("1E3", 1_000_000), (".5", 500),
    ("5.", 5_000),
    ("-0.3", -300), ("\u22120.3", -300), (-0.0005, (-1, 0)), ("+7", 7_000), (" 16\u00a0", 16_000), ("\u200916", 16_000), (Decimal("0.001"), 1), (1e-7, (0, 1)),
    (0.1 + 0.2, (300, 301)), (5e-324, (0, 1)), ("0e999", 0), (1e22, 10**25), (0.29, 290), (1.005, 1_005), (4.35, 4_350), (-0.0, 0), ("-0", 0)]

NO_NUMBERS = [  # a cell, how it is shown, and the guess
    ("lost", '"lost"', ""), ("", "nothing", ""), ("NaN", '"NaN"', ""), (float("nan"), '"nan"', ""), (float("inf"), '"inf"', ""), ("1_000", '"1_000"', ""),
    ("\u0663", '"\u0663"', ""),
    ("1e9999", "1e9999", ""), ("0x10", '"0x10"', ""), (True, "TRUE", ""), (False, "FALSE", ""), ("1.2.3", '"1.2.3"', ""),
    ("0,12", '"0,12"', "Write the decimal comma as a point: 0.12."), ("1,605", '"1,605"', "Write 1.605 or 1605."),
    ("1 605", '"1 605"', "Write it without separators: 1605."),
    ("1\u2009605", '"1 605"', "Write it without separators: 1605."), ("1'605.5", '"1\'605.5"', "Write it without separators: 1605.5."),
    ("1,605.5", '"1,605.5"', "Write it without separators: 1605.5."), ("12 m", '"12 m"', "Leave the unit out: the heading has it."),
    ("12%", '"12%"', "Leave the unit out: the heading has it."), ("#REF!", '"#REF!"', "A formula of the spreadsheet ended in an error."),
    (datetime.datetime(2024, 5, 3), "the date 2024-05-03", "The spreadsheet took what was typed for a date."),
    (datetime.date(2024, 5, 3), "the date 2024-05-03", "The spreadsheet took what was typed for a date."),
    (datetime.time(1, 30), "the time 01:30:00", "The spreadsheet took what was typed for a time."),
    (units.Unstored(), "a formula without a stored value", "Open the workbook in a spreadsheet program and save it.")]

DOWN = ("lever m", "range deg", "opening m", "displacement t", "second lever m", "second range deg", "second opening m", "intermediate lever m",
        "intermediate range deg", "given survival")
UP = ("heel deg", "heeling moment tm", "second heel deg", "intermediate heel deg")


def numbers(tally):
    for cell, wanted in THOUSANDTHS:
        scaled = units.exact(cell).times_ten(3)
        below, above = wanted if isinstance(wanted, tuple) else (wanted, wanted)
        tally.same((scaled.rounded("down")[0], scaled.rounded("up")[0]), (below, above), repr(cell))
        tally.same(scaled.rounded(""), (below, True) if below == above else (None, False), repr(cell) + " without rounding")
    for cell, comma in (("0,12", 120), ("-1605,5", -1_605_500), ("7", 7_000), (",5", 500)):
        tally.same(units.exact(cell, comma=True).times_ten(3).rounded("")[0], comma, cell + " with a decimal comma")


def no_numbers(tally):
    for cell, found, guess in NO_NUMBERS:
        tally.same(refused(cell), (found, guess), repr(cell))
    for cell in ("1.605", "1.605,5"):
        tally.that(refused(cell, comma=True), cell, "where the file has decimal commas")
    tally.same(refused("9" * 100)[0], '"' + 37 * "9" + '.."', "a very long number")


def refused(cell, comma=False):
    try:
        units.exact(cell, comma)
    except units.NoNumber as fault:
        return fault.found, fault.guess
    return None


def back(tally):
    """Every number of every column is written so that it reads the same, as text and as the float of a spreadsheet."""
    dice = Dice(7)
    for whole, places, text in ((120, 3, "0.12"), (1600, 2, "16"), (750, 2, "7.5"), (0, 3, "0"), (-5, 3, "-0.005"), (-30_000, 3, "-30"), (12, 0, "12"),
                                (10_000, 4, "1")):
        tally.same(units.plain(whole, places), text, "%d with %d places" % (whole, places))
    for columns in OF_SHEET.values():
        for column in columns:
            some = (column.least, column.most, *(dice.between(column.least, column.most) for _ in range(100)))
            told = [units.plain(whole, column.places) for whole in some]
            for form, cells in (("text", told), ("float", map(float, told))):
                taken = [units.exact(cell).times_ten(column.places).rounded("") for cell in cells]
                tally.that(taken == [(whole, True) for whole in some], column.heading, "as", form)


def against(tally):
    """Each column that is rounded, one thousandth of its unit off: the way that survival can only be lower. And those that never are."""
    for ship, row in ((cargo, 4), (cargo, 6), (passenger, 3)):
        good = tables.read(ship().bytes())
        for column in OF_SHEET["cases"]:
            heading = column.heading.rpartition(", ")[0]
            book = ship()
            if heading not in DOWN + UP or column.heading not in book.sheets["cases"][0] or not isinstance(cell_of(book, row, column), (int, float)):
                continue
            cell = Decimal(str(cell_of(book, row, column)))
            step = Decimal(1).scaleb(-column.places)
            moved = cell + step / 1000 if heading in DOWN else cell - step / 1000
            book.put("cases", row, column.heading, str(moved))
            sheets = tables.read(book.bytes(), against=True)
            tally.same((sheets.rows, sheets.source.rounded), (good.rows, 1), "%s %s" % (moved, column.heading))
            tally.that(told(book.bytes()), moved, column.heading, "without --against")
    for sheet, row, heading, cell in (("ship", 2, "Ls m", 90.005), ("ship", 2, "B m", 16.001), ("ship", 2, "deepest draught m", 7.0001),
                                      ("ship", 2, "light draught m", 4.0001), ("zones", 2, "forward m", 20.501), ("zones", 3, "aft m", 20.501),
                                      ("cases", 4, "b m", 2.501), ("cases", 4, "H m", 8.0001)):
        tally.that(told(cargo().put(sheet, row, heading, cell).bytes(), against=True), heading, "is never rounded")
    tally.that(told(passenger().put("ship", 2, "persons beyond", 50.5).bytes(), against=True), "persons are never rounded")


def edges_of_against(tally):
    """What rounding takes over a limit, and numbers that were above one before it."""
    for ship, heading, cell, taken in ((passenger, "heeling moment tm, light", 0.2, True), (passenger, "displacement t, light", 0.9, False),
                                       (cargo, "opening m, light", -30.0001, False), (cargo, "opening m, light", -0.0001, True),
                                       (cargo, "lever m, light", 5.0001, False), (cargo, "lever m, light", -0.0001, False),
                                       (cargo, "heel deg, light", 89.999, True), (cargo, "heel deg, light", 90.001, False)):
        tally.same(not told(ship().put("cases", 3, heading, cell).bytes(), against=True), taken, "%s %s" % (cell, heading))
    opening = tables.read(cargo().put("cases", 3, "opening m, light", -0.0001).bytes(), against=True).rows[1].results[2].opening
    tally.same(opening, -1, "an opening just below the waterline is immersed")


def cell_of(book, row, column):
    return book.sheets["cases"][row - 1][book.at("cases", column.heading)]


def told(data, against=False):
    try:
        tables.read(data, against=against)
    except Mistakes as found:
        return found.lines()
    return []


if __name__ == "__main__":
    tally = Tally()
    for test in (numbers, no_numbers, back, against, edges_of_against):
        test(tally)
    sys.exit(tally.close())
