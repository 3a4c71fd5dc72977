"""What the generator itself expects the program to print, by its own reading or by a broken one."""

from .figures import Figures
from .frames import number
from .judging import Judging, Refused


def refusal_line(refusal, line):
    return ("8f" + number(refusal, 1) + number(line, 2) + "\n").encode("ascii")


def answer_lines(verdict, ends, shares, marks):
    first = "81" + number(verdict, 1) + "".join(number(end, 4) for pair in ends for end in pair)
    rows = ["82" + number(low, 4) + number(high, 4) + bytes(three).hex() for (low, high), three in zip(shares, marks)]
    return ("\n".join([first] + rows) + "\n").encode("ascii")


def expected(data, sheet=None, judging=Judging, figures=Figures):
    """The printed bytes; sheet is the number of places in the sheet, None for as many as are needed."""
    try:
        hull, rows = judging().read(data)
    except Refused as refused:
        return refusal_line(refused.number, refused.line)
    if sheet is not None and judging().short_sheet(sheet, len(rows)):
        return refusal_line(11, 0)
    return answer_lines(*figures(hull, rows).answer())
