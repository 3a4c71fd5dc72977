"""A sheet as it was read, its columns found by their headings, and each cell taken as what its column asks for; what is wrong goes into a ledger."""

import re
from dataclasses import dataclass

from frontdesk.reading.columns import KNOWN, OF_SHEET, SHEETS, folded, listed, nearest
from frontdesk.reading.mistakes import Mistake, Mistakes
from frontdesk.reading.units import EXACT, NoNumber, exact, is_blank, shown

LONGEST_NAME = 200
THOUSANDS = re.compile(r"[1-9][0-9]{0,2}(\.[0-9]{3})+")  # of a file with decimal commas
MOST_ROWS = 2_000  # that are read of a sheet


@dataclass(frozen=True)
class Sheet:
    name: str
    headings: tuple
    rows: tuple  # of (number as the spreadsheet counts, cells)
    comma: bool = False  # numbers have a decimal comma
    unseen: tuple = ()  # hidden rows, hidden columns, sheets of like names that are passed over; where there are any


def laid_out(name, columns, rows):
    """A sheet of these columns, from rows that have their cells by column; the first of them is row 2."""
    return Sheet(name, tuple(column.heading for column in columns),
                 tuple((at, tuple(cells.get(column, "") for column in columns)) for at, cells in enumerate(rows, 2)))


class Ledger:
    """What is found wrong while tables are read, and how many numbers were rounded."""

    def __init__(self, against=False):
        self.against, self.rounded, self.items = against, 0, []

    def wrong(self, sheet, row, heading, text):
        self.items.append(Mistake(sheet, row, heading, text))

    def close(self):
        """Raises what is wrong, in the order of sheets and rows."""
        if self.items:
            order = {sheet: at for at, sheet in enumerate(SHEETS)}
            raise Mistakes(sorted(self.items, key=lambda item: (order.get(item.sheet, -1), item.row)))


class Table:
    """A sheet with its columns: what stands in row 1 is held against what is known, and rows that are blank everywhere are passed over."""

    def __init__(self, sheet, ledger):
        self.sheet, self.ledger, self.columns, self.listed = sheet, ledger, {}, False
        known = KNOWN[sheet.name]
        width = max([len(sheet.headings), *(len(cells) for _, cells in sheet.rows)])
        for at, cell in enumerate([*sheet.headings, *[None] * (width - len(sheet.headings))]):
            heading = "" if is_blank(cell) else shown_heading(cell)
            column = known.get(folded(heading))
            if not heading:
                self.no_heading(at)
            elif column is None:
                self.unknown(heading)
            elif column.heading in self.columns:
                ledger.wrong(sheet.name, 1, column.heading, "found twice; expected once.")
            else:
                self.columns[column.heading] = at
        self.lines = [Line(self, number, cells) for number, cells in sheet.rows if not all(is_blank(cell) for cell in cells)]

    def no_heading(self, at):
        for number, cells in self.sheet.rows:
            if at < len(cells) and not is_blank(cells[at]):
                text = "found %s in column %s, which has no heading in row 1; expected a heading, or nothing below it."
                return self.ledger.wrong(self.sheet.name, number, "", text % (shown(cells[at]), letters(at)))
        return None

    def unknown(self, heading):
        near = nearest(heading, [column.heading for column in OF_SHEET[self.sheet.name]])
        quoted = any(folded(column.heading).startswith(folded(heading) + ", ") for column in OF_SHEET[self.sheet.name])
        guess = ' Did you mean "%s"?' % near if near else " In a CSV file a heading with a comma stands in quotation marks." if quoted else ""
        known = "" if self.listed else " Expected are: %s." % listed(self.sheet.name)
        self.listed = True
        self.ledger.wrong(self.sheet.name, 1, heading, "this heading is not known.%s%s" % (guess, known))

    def ask_for(self, columns):
        """Tells each of these headings that is missing."""
        for column in columns:
            if column.heading not in self.columns:
                self.ledger.wrong(self.sheet.name, 1, column.heading, "this heading is missing; expected in row 1.")

    def has(self, column):
        return column.heading in self.columns


class Line:
    """A row of a sheet. What is taken from it is None where the cell is blank or wrong; a wrong one is told, once."""

    def __init__(self, table, number, cells):
        self.table, self.number, self.cells = table, number, cells

    def cell(self, column):
        at = self.table.columns.get(column.heading)
        return self.cells[at] if at is not None and at < len(self.cells) else None

    def blank(self, column):
        return is_blank(self.cell(column))

    def wrong(self, column, text):
        self.table.ledger.wrong(self.table.sheet.name, self.number, column.heading if column else "", text)

    def expected(self, column, expected="", guess=""):
        """Tells what was found where something else is expected."""
        self.wrong(column, "found %s; expected %s.%s" % (shown(self.cell(column)), expected or column.expected, " " + guess if guess else ""))

    def name(self, column):
        """Any text, with its blanks put in order."""
        cell = self.cell(column)
        if is_blank(cell):
            return ""
        text = " ".join(cell.split()) if isinstance(cell, str) else shown(cell)
        if len(text) > LONGEST_NAME or not text.isprintable():
            self.expected(column, "a name of at most %d characters, none of them a control character" % LONGEST_NAME)
            return ""
        return text

    def choice(self, column):
        """One of a column's words."""
        if self.blank(column):
            return self.expected(column)
        cell = self.cell(column)
        text = ("yes" if cell else "no") if isinstance(cell, bool) else cell if isinstance(cell, str) else shown(cell)
        for word in column.choices:
            if folded(text) == word:
                return word
        near = "" if text.strip().isdigit() else nearest(text, column.choices)
        return self.expected(column, guess="Did you mean %s?" % near if near else "")

    def word(self, column):
        """Whether the column's word stands there in place of a number."""
        cell = self.cell(column)
        return bool(column.word) and isinstance(cell, str) and "".join(cell.split()).casefold() == column.word.casefold()

    def whole(self, column):
        """A number in the file's unit, within the column's limits."""
        if self.blank(column):
            return self.expected(column)
        try:
            number = exact(self.cell(column), self.table.sheet.comma)
        except NoNumber as fault:
            thousands = not column.places and THOUSANDS.fullmatch(fault.found)
            guess = "Write thousands without a mark: %s." % fault.found.replace(".", "") if thousands else fault.guess
            return self.wrong(column, "found %s; expected %s.%s" % (fault.found, column.expected, " " + guess if guess else ""))
        ledger, scaled = self.table.ledger, number.times_ten(column.places)
        whole, was_whole = scaled.rounded(column.rounding if ledger.against else EXACT)
        too_low = scaled.below(column.least) if whole is None else whole < column.least
        if too_low or scaled.above(column.most):
            return self.expected(column, guess=column.guess(number))
        if whole is None:
            return self.not_whole(column, scaled)
        ledger.rounded += not was_whole
        return whole

    def not_whole(self, column, scaled):
        converted = ", which is %s %s" % (scaled, column.short_unit) if column.places else ""
        mend = " Or give --against, which rounds it so that survival can only be lower." if column.rounding else ""
        formula = len(str(abs(scaled.digits))) > 15  # more digits than a spreadsheet shows: what a formula's arithmetic leaves
        self.wrong(column, "found %s%s; expected whole %s.%s%s" % (
            shown(self.cell(column)), converted, column.whole_unit, mend, " In a formula, ROUND takes off what its arithmetic leaves." if formula else ""))


def shown_heading(cell):
    """A heading with its blanks put in order, and without signs that steer a terminal."""
    return "".join(sign if sign.isprintable() else "?" for sign in " ".join(cell.split())) if isinstance(cell, str) else shown(cell)


def letters(at):
    """A column as the spreadsheet names it: A, B, .. Z, AA."""
    name, at = "", at + 1
    while at:
        at, rest = divmod(at - 1, 26)
        name = chr(65 + rest) + name
    return name
