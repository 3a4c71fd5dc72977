"""Sheets bound to a workbook by openpyxl: headings that stay in sight, number formats, drop-downs and limits; the same sheets give the same bytes."""

import datetime
import io
import re
import zipfile

from frontdesk.reading.columns import CASES, GROUP, KNOWN, NOTES, SHIP, ZONES, folded
from frontdesk.reading.sheets import letters
from frontdesk.reading.units import plain
from frontdesk.reading.workbook import openpyxl_or_words

WRITTEN = datetime.datetime(2000, 1, 1)  # every workbook's date, so that the bytes are the sheets' alone
ROWS = {SHIP: 1, ZONES: 20, CASES: 500}  # that drop-downs and limits are for
FROZEN = {SHIP: "A2", ZONES: "A2", CASES: "E2", NOTES: "A2"}
WIDTHS = {"name": 22, "case": 26, "zones": 9, "zone": 7}
FORMATS = {0: "0", 2: "0.00", 3: "0.000", 4: "0.0000"}
HEAD, LINE, FACE = "1F4E5F", "9DB4BE", "Calibri"
HEADS = {0: "1F4E5F", 1: "346A7C", 2: "3F6E5C"}  # by draught, so that the three are told apart at a glance; white stands out on each
MOST_ACROSS = 260  # characters on a page's width, with which the type stays readable
NOTE_WIDTHS = (9, 32, 24, 100)
A4 = 9


def bound(sheets, notes=(), title=""):
    """A workbook's bytes: the sheets, and a sheet of notes behind them where there are any."""
    book = openpyxl_or_words().Workbook()
    book.remove(book.active)
    book.properties.creator, book.properties.title, book.properties.created = "Pisquruk", title or None, WRITTEN
    for sheet in sheets.values():
        fill(book.create_sheet(sheet.name), sheet)
    if notes:
        fill_notes(book.create_sheet(NOTES), notes)
    written = io.BytesIO()
    book.save(written)
    return repacked(written.getvalue())


def fill(page, sheet):
    """One of the three sheets: its cells, formats by column, and what each column takes."""
    from openpyxl.styles import Alignment, Border, Side
    columns = [KNOWN[sheet.name][folded(heading)] for heading in sheet.headings]
    page.append(sheet.headings)
    for _, cells in sheet.rows:
        page.append([None if cell == "" else cell for cell in cells])
    last, right, ruled = max(ROWS[sheet.name], len(sheet.rows)) + 1, Alignment(horizontal="right"), Border(bottom=Side("hair", color=LINE))
    for at, column in enumerate(columns, 1):
        number = "@" if column.text or column is GROUP else FORMATS.get(column.places, "0") if not column.choices else "General"
        whole = page.column_dimensions[letters(at - 1)]  # its format is that of the rows that are still to come
        whole.width, whole.number_format = WIDTHS.get(column.heading, 13), number
        first = page.cell(2, at)
        first.number_format, first.border = number, ruled
        if not column.text:
            first.alignment = right
        for row in range(3, len(sheet.rows) + 2):
            page.cell(row, at)._style = first._style  # the one that is shared; to set it anew in each cell takes far longer
        limit(page, column, "%s2:%s%d" % (letters(at - 1), letters(at - 1), last))
    head(page, [HEADS.get(column.draught, HEAD) for column in columns])
    lay_out(page, sum(WIDTHS.get(column.heading, 13) for column in columns))
    page.freeze_panes = FROZEN[sheet.name]


def head(page, grounds):
    """The row of headings, each on its ground."""
    from openpyxl.styles import Alignment, Border, Font, PatternFill, Side
    for at, ground in enumerate(grounds, 1):
        cell = page.cell(1, at)
        cell.font, cell.fill = Font(name=FACE, size=11, bold=True, color="FFFFFF"), PatternFill("solid", fgColor=ground)
        cell.alignment, cell.border = Alignment(wrap_text=True, vertical="center", horizontal="center"), Border(right=Side("thin", color=LINE))
    page.row_dimensions[1].height = 48


def lay_out(page, across, high=0):
    """How a sheet of so many characters across is printed: A4 landscape, as few pages wide as can be read and so many high, or as many as it takes; headings
    and the first columns of cases on each."""
    from openpyxl.worksheet.page import PageMargins
    from openpyxl.worksheet.properties import PageSetupProperties
    page.sheet_properties.pageSetUpPr = PageSetupProperties(fitToPage=True)
    page.page_setup.orientation, page.page_setup.paperSize = "landscape", A4
    page.page_setup.fitToWidth, page.page_setup.fitToHeight = -(-across // MOST_ACROSS), high
    page.page_margins = PageMargins(left=0.4, right=0.4, top=0.5, bottom=0.6, header=0.3, footer=0.3)
    page.print_title_rows = "$1:$1"
    if page.title == CASES:
        page.print_title_cols = "$A:$D"
    page.oddFooter.left.text, page.oddFooter.right.text = "&A", "&P of &N"


def limit(page, column, cells):
    """A drop-down where there are choices, limits where there is a number; a column's word may stand there too."""
    from openpyxl.worksheet.datavalidation import DataValidation
    least, most, first = plain(column.least, column.places), plain(column.most, column.places), cells.partition(":")[0]
    if column.text or column is GROUP:
        return
    if column.choices:
        rule = DataValidation("list", '"%s"' % ",".join(column.choices))
    elif column.word:
        within = 'AND(ISNUMBER({0}),{0}>={1},{0}<={2})'.format(first, least, most)
        rule = DataValidation("custom", 'OR(%s,LOWER(%s)="%s")' % (within, first, column.word.lower()))
    else:
        rule = DataValidation("decimal" if column.places else "whole", least, most, operator="between")
    rule.allow_blank, rule.showErrorMessage, rule.errorTitle, rule.error = True, True, column.heading[:32], "Expected is %s." % column.expected
    rule.add(cells)
    page.add_data_validation(rule)


def fill_notes(page, notes):
    from openpyxl.styles import Alignment, Border, Side
    for row in notes:
        page.append(row)
    head(page, [HEAD] * len(notes[0]))
    for at, width in enumerate(NOTE_WIDTHS):
        page.column_dimensions[letters(at)].width = width
    for number, row in enumerate(notes[1:], 2):
        lines = max(-(-len(text) * 10 // (11 * width)) for text, width in zip(row, NOTE_WIDTHS))
        page.row_dimensions[number].height = 15.5 * max(lines, 1)  # not every program finds the height of wrapped text by itself
        for at in range(1, len(row) + 1):
            cell = page.cell(number, at)
            cell.alignment, cell.border = Alignment(wrap_text=True, vertical="top"), Border(bottom=Side("hair", color=LINE))
    lay_out(page, sum(NOTE_WIDTHS), 1)
    page.freeze_panes = FROZEN[NOTES]


def repacked(data):
    """The same archive with one date everywhere."""
    stamp = WRITTEN.strftime("%Y-%m-%dT%H:%M:%SZ").encode("ascii")
    written = io.BytesIO()
    with zipfile.ZipFile(io.BytesIO(data)) as old, zipfile.ZipFile(written, "w", zipfile.ZIP_DEFLATED) as new:
        for part in old.infolist():
            content = old.read(part)
            if part.filename == "docProps/core.xml":
                content = re.sub(rb"(<dcterms:modified[^>]*>)[^<]*", rb"\g<1>" + stamp, content)
            entry = zipfile.ZipInfo(part.filename, (1980, 1, 1, 0, 0, 0))
            entry.compress_type, entry.external_attr = zipfile.ZIP_DEFLATED, 0o600 << 16
            new.writestr(entry, content)
    return written.getvalue()
