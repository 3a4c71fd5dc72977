"""Two refusals in two lines of one file: the earlier line decides, whatever the numbers; 1 comes before every line."""

from ..case import refused
from ..frames import Row, end_line, hull_line, joined, row_line
from ..judging import without
from ..shapes import FOUR
from .pairs import BAD, FULL, HALF, HULL, TOP, row

EARLY = {
    2: ("row", [HULL, row(1, 1) + "0"]),
    3: ("row", [HULL, row(1, 1) + "00"]),
    4: ("hull", [hull_line(FOUR._replace(dl=5001))]),
    5: ("hull", [hull_line(FOUR._replace(bulkheads=(2000, 9000, 5000)))]),
    6: ("row", FULL + [row(2, 2)]),
    7: ("row", [HULL, row(1, 1, figures=BAD)]),
    8: ("row", [HULL, row(2, 1), row(1, 1)]),
    9: ("row", [HULL, row(1, 1, HALF, TOP - 1), row(2, 1)]),
    10: ("row", [HULL, row(1, 1), end_line(1), row(2, 1)]),
}

LATE = {
    2: [("row", lambda rows: ["0g", end_line(rows)])],
    3: [("row", lambda rows: ["04" + row(3, 1)[2:], end_line(rows)])],
    6: [("end", lambda rows: [end_line(rows + 1)])],
    7: [("row", lambda rows: [row(3, 1, 0), end_line(rows + 1)])],
    8: [("row", lambda rows: [row(3, 2), row(3, 1), end_line(rows + 2)])],
    9: [("end", lambda rows: [row(4, 1, HALF, 9000), end_line(rows + 1)])],
    10: [("missing", lambda rows: []), ("after", lambda rows: [end_line(rows), row(4, 1)])],
}

NEVER_LATE = {4: "4 is given for line 1 alone", 5: "5 is given for line 1 alone"}
GOES_ON = (6, 10)


def rows_in(lines):
    return sum(line[:2] in ("02", "03", "05", "07") for line in lines)


def both(early, where, before, late, what, after):
    """The case of two faulty lines; the later one shows as soon as the earlier one is let through."""
    line, data = len(before), joined(before + after)
    beaten = without(early, None if early in GOES_ON and late != early else line).refusal(data)
    assert beaten is not None and beaten[0] == late and beaten[1] > line, "%d is not broken after %d" % (late, early)
    return refused("%d-%s-then-%d-%s" % (early, where, late, what), data, early, line, "%d on line %d, and %d later" % (early, line, late))


def in_two_lines():
    for early, (where, before) in EARLY.items():
        rows = rows_in(before)
        for late, ends in LATE.items():
            for what, after in ends:
                if (early, what) != (10, "missing"):
                    yield both(early, where, before, late, what, after(rows))
    yield both(6, "end", [HULL, row(1, 1), end_line(2)], 10, "after", [row(2, 1)])
    yield both(9, "end", [HULL, row(1, 1, 400), end_line(1)], 10, "after", [end_line(1)])


def after_too_long():
    for late, (where, lines) in EARLY.items():
        data = (joined(lines) + joined([row_line(Row(4, 1, HALF, TOP, (0,) * 24))] * 700))[:65537]
        assert without(1).refusal(data) == (late, len(lines)), "%d is not broken after 1" % late
        yield refused("1-then-%d-%s" % (late, where), data, 1, 0, "65,537 bytes, and %d on a line of them" % late)


def cases():
    assert set(LATE) | set(NEVER_LATE) == set(EARLY)
    for part in (in_two_lines, after_too_long):
        for case in part():
            yield case
