"""The three sheets of a workbook, read by openpyxl in bounded room: values alone, no formula is worked out and no macro looked at."""

import io
import re
import warnings

from frontdesk.reading import archive
from frontdesk.reading.columns import NOTES, SHEETS, folded, nearest
from frontdesk.reading.mistakes import Mistake, Mistakes, of_the_file
from frontdesk.reading.sheets import MOST_ROWS, Sheet, letters
from frontdesk.reading.units import Unstored, is_blank

MOST_COLUMNS = 200
EMPTY_TEXT = "str"  # the type that openpyxl leaves to a formula whose value is a text without signs
MISSING = "workbooks need openpyxl, which is not installed (Debian: apt install python3-openpyxl). CSV files and case files are read without it."


def openpyxl_or_words(name=""):
    """The library for workbooks, or words that say how to get it."""
    try:
        import openpyxl
    except ImportError:
        raise of_the_file(name, MISSING) from None
    return openpyxl


def sheets(data, name=""):
    """The sheets of a workbook's bytes. Raises Mistakes."""
    parts = archive.look_over(data, name)
    openpyxl = openpyxl_or_words(name)
    with warnings.catch_warnings():
        warnings.simplefilter("ignore")  # of formats and extensions that have no part in the values
        try:
            return opened(openpyxl, data, parts)
        except Mistakes:
            raise
        except Exception as fault:  # a damaged workbook ends in whatever openpyxl happens to trip over
            raise of_the_file(name, "this workbook cannot be read (%s). Save it again as .xlsx." % (fault or type(fault).__name__)) from None


def opened(openpyxl, data, parts):
    book = openpyxl.load_workbook(io.BytesIO(data), read_only=True, data_only=True, keep_links=False)
    try:
        chosen = choose(book)
        seen = {name: parts.get(sheet._worksheet_path) for name, sheet in chosen.items()}
        wrong = [mistake for name, sheet in chosen.items() for mistake in unfit(name, sheet, seen[name])]
        if wrong:
            raise Mistakes(wrong)
        read = {name: rows_of(name, sheet) for name, sheet in chosen.items()}
        titles = [sheet.title for sheet in book.worksheets]
    finally:
        book.close()
    if any(part.formulas for part in seen.values()):
        mark_unstored(openpyxl, data, {name: sheet.title for name, sheet in chosen.items()}, read)
    return {name: made(name, rows, unseen(name, rows, seen[name], titles)) for name, rows in read.items()}


def choose(book):
    """The sheet for each of the three names, without regard to case; other sheets are passed over, as the one for notes."""
    found = {name: [sheet for sheet in book.worksheets if folded(sheet.title) == name] for name in SHEETS}
    wrong = []
    others = [sheet.title for sheet in book.worksheets if folded(sheet.title) not in (*SHEETS, NOTES)]
    for name, those in found.items():
        if len(those) > 1:
            wrong.append(Mistake(name, 0, "", "found %d sheets of this name; expected one." % len(those)))
        elif not those:
            near = nearest(name, others)
            there = ", ".join('"%s"' % sheet.title for sheet in book.worksheets[:20])
            wrong.append(Mistake(name, 0, "", "there is no sheet of this name; found %s.%s" % (there, ' Did you mean "%s"?' % near if near else "")))
    if wrong:
        raise Mistakes(wrong)
    return {name: those[0] for name, those in found.items()}


def unfit(name, sheet, part):
    """What keeps a sheet from being read as it is seen."""
    if sheet.sheet_state != "visible":
        yield Mistake(name, 0, "", "the sheet is hidden; expected one that can be seen. Show it.")
    if part is not None and part.rows > MOST_ROWS:
        yield Mistake(name, 0, "", "found %d rows; expected at most %d. Delete the empty rows below the table." % (part.rows, MOST_ROWS))
    if part is None or not part.ordered:
        yield Mistake(name, 0, "", "the rows of this sheet are not in order in the file. Open the workbook in a spreadsheet program and save it.")
    for ref in part.merged[:5] if part is not None else ():
        yield Mistake(name, int(re.search("[0-9]+", ref)[0]), "", "the cells %s are merged; expected a value in each cell. Unmerge them." % ref)


def rows_of(name, sheet):
    """The rows by number, as far as they have cells."""
    sheet.reset_dimensions()  # what a file says of its size may be wrong, and rows would be left out in silence
    rows = {}
    for number, cells in enumerate(sheet.iter_rows(max_col=MOST_COLUMNS, values_only=True), 1):
        if number > MOST_ROWS + 1:
            raise Mistakes([Mistake(name, number, "", "found more than %d rows; expected at most 500 cases. Delete the rows below the table." % MOST_ROWS)])
        cells = list(cells)
        while cells and cells[-1] is None:
            cells.pop()
        rows[number] = cells
    return rows


def mark_unstored(openpyxl, data, titles, read):
    """Puts a mark where a formula stands whose value the file does not have; one whose value is an empty text leaves its cell blank."""
    unstored = {(name, number, at) for name, number, at, cell in cells_of(openpyxl, data, titles)
                if isinstance(cell.value, str) and cell.value.startswith("=") and is_blank(value_at(read[name], number, at))}
    if unstored:
        unstored -= {(name, number, at) for name, number, at, cell in cells_of(openpyxl, data, titles, data_only=True) if cell.data_type == EMPTY_TEXT}
    for name, number, at in unstored:
        row = read[name].setdefault(number, [])
        row.extend([None] * (at + 1 - len(row)))
        row[at] = Unstored()


def cells_of(openpyxl, data, titles, **more):
    """Every cell of the three sheets, with its sheet, row and column, the column from 0."""
    book = openpyxl.load_workbook(io.BytesIO(data), read_only=True, keep_links=False, **more)
    try:
        for name, title in titles.items():
            book[title].reset_dimensions()
            for number, cells in enumerate(book[title].iter_rows(max_col=MOST_COLUMNS, max_row=MOST_ROWS + 1), 1):
                yield from ((name, number, at, cell) for at, cell in enumerate(cells))
    finally:
        book.close()


def value_at(rows, number, at):
    cells = rows.get(number, ())
    return cells[at] if at < len(cells) else None


def unseen(name, rows, part, titles):
    """Hidden rows and columns that have something in them, and sheets that may be another state of this one; nothing where there are none."""
    filled = tuple(number for number in part.hidden if number > 1 and not all(is_blank(cell) for cell in rows.get(number, ())))
    width = max((len(cells) for cells in rows.values()), default=0)
    hidden = [at for first, last in part.hidden_columns for at in range(first - 1, min(last, width))]
    columns = tuple(letters(at) for at in hidden if any(not is_blank(value_at(rows, number, at)) for number in rows))
    others = tuple(title for title in titles if folded(title) != name and re.match(r"%s\b" % name, folded(title)))
    return (filled, columns, others) if filled or columns or others else ()


def made(name, rows, unseen=()):
    headings = tuple(rows.get(1, ()))
    if all(is_blank(cell) for cell in headings):
        raise Mistakes([Mistake(name, 1, "", "found nothing; expected the headings in this row.")])
    return Sheet(name, headings, tuple((number, tuple(cells)) for number, cells in sorted(rows.items()) if number > 1), unseen=unseen)
