"""Small ships as sheets that tests can change cell by cell, and the workbooks made of them."""

import io

import openpyxl

DRAUGHTS = ("deepest", "partial", "light")
SHIP = ["name", "type", "Ls m", "B m", "deepest draught m", "light draught m"]
PERSONS = ["persons in lifeboats", "persons beyond", "rule"]
ZONES = ["zone", "name", "aft m", "forward m"]
PLACE = ["zones", "b m", "H m", "case"]
RESULT = ["lever m", "range deg", "heel deg", "opening m"]
FLOODING = ["displacement t", "heeling moment tm", "intermediate lever m", "intermediate range deg", "intermediate heel deg", "ro-ro"]


def at_each(headings, before=""):
    return ["%s%s, %s" % (before, heading, draught) for draught in DRAUGHTS for heading in headings]


FIRST, SECOND, FLOODED, GIVEN = at_each(RESULT), at_each(RESULT, "second "), at_each(FLOODING), at_each(["given survival"])


class Book:
    """Three sheets as lists of rows, the headings first. A cell is named by its sheet, its row as the spreadsheet counts it and its heading."""

    def __init__(self, ship, zones, cases):
        self.sheets = {"ship": ship, "zones": zones, "cases": cases}

    def at(self, sheet, heading):
        return self.sheets[sheet][0].index(heading)

    def put(self, sheet, row, heading, value):
        rows = self.sheets[sheet]
        while len(rows) < row:
            rows.append([None] * len(rows[0]))
        rows[row - 1][self.at(sheet, heading)] = value
        return self

    def drop(self, sheet, row):
        del self.sheets[sheet][row - 1]
        return self

    def head(self, sheet, heading, other):
        self.sheets[sheet][0][self.at(sheet, heading)] = other
        return self

    def column(self, sheet, heading, values=()):
        """One more column, at the right."""
        for row, value in zip(self.sheets[sheet], [heading, *values, *[None] * len(self.sheets[sheet])]):
            row.append(value)
        return self

    def without(self, sheet, heading):
        at = self.at(sheet, heading)
        for row in self.sheets[sheet]:
            del row[at]
        return self

    def workbook(self):
        book = openpyxl.Workbook()
        book.remove(book.active)
        for name, rows in self.sheets.items():
            page = book.create_sheet(name)
            for row in rows:
                page.append(row)
        return book

    def bytes(self, change=None):
        """The workbook's bytes, after a change to openpyxl's own object where there is one to make."""
        book, written = self.workbook(), io.BytesIO()
        if change:
            change(book)
        book.save(written)
        return written.getvalue()


def cargo():
    """A cargo ship of three zones; its rows have results, two sets of results and given survivals."""
    result = [0.1, 14.5, 3, 0.8]
    empty, twelve = [None] * 12, result * 3
    cases = [
        ["1", "B/2", "top", "aft peak", *twelve, *empty, None, None, None],
        ["1-2", "B/2", "top", "", *twelve, *empty, None, None, None],
        ["2", 2.5, 8, "wing tank", *twelve, *[0.09, 13, 4.25, "none"] * 3, None, None, None],
        ["2", 2.5, "top", "", *twelve, *empty, None, None, None],
        ["2", "B/2", "top", "", *empty, *empty, 0.5, 0.25, 0.875],
        ["3", "B/2", "top", "fore peak", *twelve, *empty, None, None, None]]
    return Book([SHIP + [], ["Hare", "cargo", 90, 16, 7, 4]], [ZONES + [], [1, "aft peak", 0, 20.5], [2, "hold", 20.5, 80], [3, "fore peak", 80, 90]],
                [PLACE + FIRST + SECOND + GIVEN, *cases])


def passenger():
    """A passenger ship of two zones."""
    row = [0.25, 20.5, 2, 1.2] * 3 + [9460, 604, 0.06, 9, 5.5, "no"] * 3
    cases = [[group, depth, "top", "", *row] for group, depth in (("1", "B/2"), ("1-2", "B/2"), ("2", 1.5), ("2", "B/2"))]
    return Book([SHIP + PERSONS, ["Tern", "passenger", 60, 12, 4, 3.5, 300, 50, "2020"]], [ZONES + [], [1, "aft", 0, 30], [2, "forward", 30, 60]],
                [PLACE + FIRST + FLOODED, *cases])
