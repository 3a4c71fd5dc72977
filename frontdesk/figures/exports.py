"""The case table for spreadsheets, as CSV or as a workbook: every figure of the library and its sums, in full, in the user's units."""

import csv
import io
from decimal import Decimal

from frontdesk.figures import reasons
from frontdesk.figures.decimals import BILLION, SURVIVALS, TENTHS, exact, text_of
from frontdesk.figures.engine import FAILS, MEETS, UNSETTLED
from frontdesk.outputs import LIKE_FORMULAS
from frontdesk.reading.binding import WRITTEN, repacked
from frontdesk.reading.sheets import letters
from frontdesk.reading.workbook import openpyxl_or_words
from frontdesk.ship import DRAUGHTS

VERDICTS = {MEETS: "meets", FAILS: "fails", UNSETTLED: "unsettled"}
PARTS = ("could add", "adds", "loss")  # as a Worth has them


def headings():
    yield from ("case", "row", "first zone", "last zone", "name", "b m", "H m", "share at least", "share at most")
    for draught in DRAUGHTS:
        for part in ("v in 916,500ths", "survival at least", "survival at most", "held down by"):
            yield "%s, %s" % (part, draught)
        yield from ("%s at %s, %s" % (part, end, draught) for part in PARTS for end in ("least", "most"))
    yield from ("%s %s A at %s" % (part, "of" if part == "loss" else "to", end) for part in PARTS for end in ("least", "most"))


def cells(case):
    """A case's cells: whole numbers, decimals that are exact, and text."""
    row = case.row
    yield from (case.number, row.place, row.first, row.first + row.count - 1, row.name, number(row.depth, 2, 100), number(row.height, 3, 1000))
    yield from (number(end, 9, BILLION) for end in case.share)
    for draught, at in enumerate(case.at):
        yield from (at.v, number(at.bottom, 4, SURVIVALS), number(at.top, 4, SURVIVALS), reasons.told(at.reasons, row, draught))
        yield from (number(end, 9, BILLION) for ends in at.worth for end in ends)
    yield from (number(end, 10, TENTHS) for ends in case.whole for end in ends)


def number(count, places, per):
    return Decimal(exact(count, places, per))


def index_cells(findings):
    """What stands beside the cases: the indices, what they are held against, and what they were found from."""
    yield ("", "at least", "at most", "to reach: numerator", "denominator")
    for index, parts in zip(findings.indices, (findings.required, *(findings.mark,) * 3)):
        yield (index.name, *(number(end, 9, BILLION) for end in index.ends), *parts)
    yield ("verdict", VERDICTS[findings.verdict])
    yield ("sums of the rows against the proved ends", "agrees" if findings.agrees else "DIFFERS")
    yield ("library", findings.version)
    yield ("SHA-256 of the case file", findings.sha256)


def commas(findings):
    """The case table as the bytes of a CSV file. A name that a spreadsheet would take for a formula gets an apostrophe before it."""
    text = io.StringIO()
    lines = csv.writer(text, lineterminator="\r\n")
    lines.writerow(headings())
    for case in findings.cases:
        lines.writerow([plain(cell) for cell in cells(case)])
    return text.getvalue().encode("utf-8")


def plain(cell):
    if isinstance(cell, Decimal):
        return format(cell, "f")
    return "'" + cell if isinstance(cell, str) and cell.startswith(LIKE_FORMULAS) else cell


def workbook(findings):
    """The case table as the bytes of a workbook: the sheet `cases`, and the sheet `indices` beside it."""
    book = openpyxl_or_words().Workbook(write_only=True)
    book.properties.creator, book.properties.created = "Pisquruk", WRITTEN
    sheet, beside = book.create_sheet("cases"), book.create_sheet("indices")
    sheet.freeze_panes = "F2"
    columns = list(headings())
    for column, heading in enumerate(columns):
        sheet.column_dimensions[letters(column)].width = 36 if heading.startswith(("held", "name")) else 13
    beside.column_dimensions["A"].width = 40
    filled(sheet, [columns, *(cells(case) for case in findings.cases)])
    filled(beside, index_cells(findings))
    made = io.BytesIO()
    book.save(made)
    return repacked(made.getvalue())


def filled(sheet, lines):
    """Appends lines, the first of them bold: text stays text whatever it begins with, and a decimal shows all its places."""
    from openpyxl.cell import WriteOnlyCell
    from openpyxl.cell.cell import ILLEGAL_CHARACTERS_RE
    from openpyxl.styles import Alignment, Font

    for at, line in enumerate(lines):
        made = []
        for value in line:
            cell = WriteOnlyCell(sheet, ILLEGAL_CHARACTERS_RE.sub("\ufffd", value) if isinstance(value, str) else value)
            if isinstance(value, str):
                cell.data_type = "s"
            elif isinstance(value, Decimal):
                cell.number_format = text_of(0, -value.as_tuple().exponent)
            if not at:
                cell.font, cell.alignment = Font(bold=True), Alignment(wrap_text=True, vertical="top")
            made.append(cell)
        sheet.append(made)
