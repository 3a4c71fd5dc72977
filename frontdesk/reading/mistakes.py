"""What is wrong with a user's tables or case file, told by sheet, row and heading; the desk raises nothing else for it."""

from typing import NamedTuple

MOST_SHOWN = 50


class Mistake(NamedTuple):
    """One thing that is wrong. Its text, str() of it, is the line that users see."""

    sheet: str  # or the file's name; empty where there is none to name
    row: int  # as the spreadsheet counts, or the case file's line; 0 where it is of the whole sheet
    heading: str
    text: str
    counted: str = "row"  # or "line"

    def __str__(self):
        place = [self.sheet] if self.sheet else []
        if self.row:
            place.append("%s %d" % (self.counted, self.row))
        if self.heading:
            place.append('"%s"' % self.heading)
        return ": ".join(part for part in (", ".join(place), self.text) if part)


class Mistakes(Exception):
    """Everything that is wrong with what was read, in the order of sheets and rows."""

    def __init__(self, items):
        self.items = tuple(items)
        super().__init__("\n".join(self.lines()))

    def lines(self):
        """What is shown: the first fifty, and how many more there are."""
        shown = [str(item) for item in self.items[:MOST_SHOWN]]
        more = len(self.items) - MOST_SHOWN
        return shown + ["and %d more" % more] if more > 0 else shown


class Refused(Mistakes):
    """The library's refusal: its number and line, and in words what it found there."""

    def __init__(self, number, line, item):
        self.number, self.line = number, line
        super().__init__([item])


def of_the_file(name, text):
    """The one mistake of a file that cannot be read at all."""
    return Mistakes([Mistake(name, 0, "", text)])
