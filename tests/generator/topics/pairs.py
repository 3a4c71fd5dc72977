"""Two refusals in one line: the table's order decides. Every pair of numbers is built, or its reason why not stands here."""

from itertools import combinations

from ..case import refused
from ..frames import Hull, Row, end_line, hull_line, joined, row_line
from ..judging import without
from ..shapes import CERTAIN, FOUR, group

ORDER = (1, 10, 2, 3, 4, 13, 5, 6, 7, 8, 9, 11)

WHOLE = "1 is judged on the whole input before any line"
LAST = "11 is judged on the sheet after every line"
FIRST_LINE = "4, 13 and 5 are given for line 1 alone, which is never a row and never an end"
CANNOT_MEET = {frozenset(pair): reason for reason, pairs in {
    WHOLE: [(1, other) for other in ORDER if other not in (1, 11)],
    LAST: [(other, 11) for other in ORDER if other != 11],
    FIRST_LINE: [(early, late) for early in (4, 13, 5) for late in (6, 7, 8, 9)],
    "line 1 is never after the end frame: an end frame on line 1 is refused itself": [(10, 4), (10, 13), (10, 5)],
    "an end frame is accepted with every group closed, so after it nothing is open": [(10, 9)],
}.items() for pair in pairs}

HALF, TOP = FOUR.half, FOUR.top
HULL = hull_line(FOUR)
UNTAKEN = Hull(12000, 2000, 8000, 5000, (), (1000, 351), 1)  # under the rule of 2020, and R of 1,351 persons is not taken yet


def row(a, n, b=HALF, h=TOP, figures=CERTAIN):
    return row_line(Row(a, n, b, h, figures))


def beginnings(hull, of):
    """What may stand before the line in question, of the rows that are made so: two closed groups; the second one open, or its first layer; the whole file."""
    closed = [hull, of(1, 1), of(2, 1)]
    return closed, [hull, of(1, 1), of(2, 1, 400)], [hull, of(1, 1), of(2, 1, 400, 9000)], closed + [end_line(2)]


BEFORE, OPEN_GROUP, OPEN_LAYER, ENDED = beginnings(HULL, row)
FULL = [HULL] + [row_line(one) for one in group(FOUR, 1, 1, heights=tuple(range(1, 499))) + group(FOUR, 2, 1)]
FULL_OPEN = FULL[:-1] + [row(2, 1, 400)]
BAD = (10000, 10001, 10000)

ALONE = [
    (4, "ls", [], hull_line(FOUR._replace(ls=7999))),
    (4, "breadth", [], hull_line(FOUR._replace(breadth=2001))),
    (4, "ds", [], hull_line(FOUR._replace(ds=30005))),
    (4, "dl", [], hull_line(FOUR._replace(dl=4999))),
    (5, "zones", [], hull_line(Hull(12000, 2000, 8000, 5000, tuple(range(100, 2100, 100))))),
    (5, "length", [], hull_line(FOUR, 3)),
    (5, "bulkheads", [], hull_line(FOUR._replace(bulkheads=(2000, 2000, 9000)))),
    (6, "row-501", FULL, row(2, 2)),
    (6, "count", BEFORE, end_line(3)),
    (7, "a", BEFORE, row(5, 1)),
    (7, "n", BEFORE, row(3, 3)),
    (7, "b", BEFORE, row(3, 1, HALF + 1)),
    (7, "height", BEFORE, row(3, 1, HALF, 60001)),
    (7, "figure", BEFORE, row(3, 1, figures=BAD)),
    (8, "group", BEFORE, row(1, 2)),
    (8, "depth", BEFORE, row(2, 1, HALF - 1)),
    (8, "height", BEFORE[:2] + [row(2, 1, HALF, 9000)], row(2, 1, HALF, 9000)),
    (8, "top", BEFORE, row(2, 1, HALF, TOP + 1)),
    (9, "group", OPEN_GROUP, row(2, 2)),
    (9, "layer", OPEN_LAYER, row(2, 1)),
    (9, "end", OPEN_GROUP, end_line(2)),
    (10, "row", ENDED, row(3, 1)),
    (10, "end", ENDED, end_line(2)),
    (13, "persons", [], hull_line(UNTAKEN)),
]

TOGETHER = [
    (6, 7, "row-501-figure", FULL, row(2, 2, figures=BAD)),
    (6, 7, "row-501-group", FULL, row(0, 1)),
    (6, 8, "row-501-group", FULL, row(1, 2)),
    (6, 8, "row-501-depth", FULL, row(2, 1, 400)),
    (6, 8, "row-501-height", FULL[:-1] + [row(2, 1, HALF, 9000)], row(2, 1, HALF, 9000)),
    (6, 8, "row-501-top", FULL, row(2, 1, HALF, 60000)),
    (6, 9, "row-501-group", FULL_OPEN, row(2, 2)),
    (6, 9, "row-501-layer", FULL_OPEN[:-1] + [row(2, 1, 400, 9000)], row(2, 1)),
    (6, 9, "count-group", OPEN_GROUP, end_line(3)),
    (6, 9, "count-layer", OPEN_LAYER, end_line(0)),
    (7, 8, "a-0-is-earlier", BEFORE, row(0, 1)),
    (7, 8, "n-0-is-earlier", BEFORE, row(2, 0)),
    (7, 8, "b-0-is-smaller", BEFORE, row(2, 1, 0)),
    (7, 8, "h-0-is-lower", OPEN_LAYER, row(2, 1, 400, 0)),
    (7, 8, "h-60001-after-the-top", BEFORE, row(2, 1, HALF, 60001)),
    (7, 8, "figure-earlier-group", BEFORE, row(1, 2, figures=BAD)),
    (7, 8, "zones-past-the-last-earlier-group", BEFORE, row(1, 5)),
    (7, 9, "a-past-the-zones-open-group", OPEN_GROUP, row(5, 1)),
    (7, 9, "n-past-the-zones-open-group", OPEN_GROUP, row(2, 4)),
    (7, 9, "figure-open-group", OPEN_GROUP, row(2, 2, figures=BAD)),
    (7, 9, "b-past-the-half-open-layer", OPEN_LAYER, row(2, 1, HALF + 1)),
    (7, 9, "figure-open-layer", OPEN_LAYER, row(2, 1, figures=BAD)),
    (8, 9, "earlier-group-open-group", OPEN_GROUP, row(1, 2)),
    (8, 9, "earlier-group-open-layer", OPEN_LAYER, row(1, 2)),
    (8, 9, "smaller-b-open-layer", OPEN_LAYER, row(2, 1, 399)),
    (8, 9, "smaller-b-top-open-layer", OPEN_LAYER, row(2, 1, 1, 60000)),
    (10, 6, "row-501", FULL + [end_line(500)], row(2, 2)),
    (10, 6, "count", ENDED, end_line(3)),
    (10, 7, "figure", ENDED, row(3, 1, figures=BAD)),
    (10, 7, "group", ENDED, row(0, 0)),
    (10, 8, "group", ENDED, row(1, 1)),
    (10, 8, "top", ENDED, row(2, 1, HALF, 60000)),
    (10, 8, "depth", ENDED, row(2, 1, 400)),
]

CLOSED, UNCLOSED = "\n", ""
UNCLEAN = [
    ("odd", lambda line: line + "0" + CLOSED),
    ("alien", lambda line: line[:-1] + "g" + CLOSED),
    ("upper", lambda line: line.upper() + CLOSED),
    ("unclosed", lambda line: line + UNCLOSED),
]


def shorter(line):
    """One byte less; a hull is cut before its zone count."""
    return line[:{"01": 18, "06": 28}.get(line[:2], -2)]


def longer(line):
    return shorter(line) if line[:2] in ("01", "06") else line + "00"


def other_kind(line):
    """The same bytes under the other row kind, whose length is another; a hull turns into a row, an end grows."""
    return line + "00" if line[:2] == "0f" else {"01": "02", "02": "03", "03": "02"}[line[:2]] + line[2:]


MISFRAMED = [("short", shorter), ("kind", other_kind), ("long", longer)]


def one_line(first, second, name, before, line):
    """The case of one line that breaks two rules; line has its own closing."""
    number = min(first, second, key=ORDER.index)
    data = joined(before) + line.encode("latin-1")
    if line.endswith("\n") and len(before) < 500 and not any(text[:2] == "0f" for text in before):
        data += joined([end_line(len(before))])
    beaten = second if number == first else first
    assert without(number, len(before) + 1).refusal(data) == (beaten, len(before) + 1), "%s does not break %d" % (name, beaten)
    return refused("%d-%d-%s" % (first, second, name), data, number, len(before) + 1,
                   "%d and %d in one line: %d" % (first, second, number))


def in_one_line():
    for at, (number, clause, before, line) in enumerate(ALONE):
        name, fault = UNCLEAN[at % len(UNCLEAN)]
        yield one_line(2, number, "%s-%s" % (name, clause), before, fault(line))
        name, fault = MISFRAMED[at % len(MISFRAMED)]
        yield one_line(3, number, "%s-%s" % (name, clause), before, fault(line) + CLOSED)
    yield one_line(10, 2, "empty", ENDED, CLOSED)
    for name, before, line in (("hull", [], HULL), ("row", BEFORE, row(3, 1)), ("end", BEFORE, end_line(2))):
        for unclean, first in UNCLEAN:
            for misframed, second in MISFRAMED[:2]:
                yield one_line(2, 3, "%s-%s-%s" % (name, unclean, misframed), before, first(second(line)))
    for name, change in (("ls", dict(ls=19801)), ("breadth", dict(breadth=999)), ("ds", dict(ds=999, dl=999)), ("dl", dict(dl=8005))):
        hull = FOUR._replace(**change)
        yield one_line(4, 5, "%s-zones" % name, [], hull_line(hull, 0 if name < "d" else 21) + CLOSED)
        yield one_line(4, 5, "%s-bulkheads" % name, [], hull_line(hull._replace(bulkheads=(9000, 5000, 2000))) + CLOSED)
        yield one_line(4, 13, name, [], hull_line(UNTAKEN._replace(**change)) + CLOSED)
    for name, line in (("no-zones", hull_line(UNTAKEN, 0)), ("21-zones", hull_line(UNTAKEN._replace(bulkheads=tuple(range(100, 2100, 100))))),
                       ("length", hull_line(UNTAKEN, 2)), ("bulkheads", hull_line(UNTAKEN._replace(bulkheads=(2000, 2000))))):
        yield one_line(13, 5, name, [], line + CLOSED)
    for first, second, name, before, line in TOGETHER:
        yield one_line(first, second, name, before, line + CLOSED)


def cases():
    built = set()
    for case in in_one_line():
        built.add(frozenset(int(number) for number in case.name.split("-")[:2]))
        yield case
    for pair in map(frozenset, combinations(ORDER, 2)):
        assert (pair in built) != (pair in CANNOT_MEET), "the pair %s has no file and no reason" % sorted(pair)
