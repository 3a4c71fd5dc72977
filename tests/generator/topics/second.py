"""The second set: which of two results counts at each draught, whose marks are told, limits, lengths and order of kind 05, rows of three kinds, and sizes."""

from itertools import combinations, product

from ..case import accepted, refused
from ..figures import Figures
from ..found import NEAR_TIES
from ..frames import Hull, Row, case_file, end_line, hull_line, joined, lines_of, row_line
from ..shapes import CERTAIN, FOUR, NONE, SAFE, every_group, group
from .following import both
from .marks import AT_CAPS, WELL_OFF
from .openings import DRAUGHTS, HALF_SHIP, SHIP, stacked, with_byte
from .pairs import BEFORE, CLOSED, ENDED, FULL, HALF, HULL, OPEN_GROUP, OPEN_LAYER, TOP, one_line, row

GOOD, LOST = AT_CAPS + (0,), (0, 0, 9000, 0)
EQUAL = {
    "half": {1: (60, 1600, 2500, 0), 2: (120, 800, 2500, 0)},
    "quarter": {1: (30, 1600, 2500, 0), 2: (120, 400, 2500, 0), 3: (60, 800, 2500, 0), 4: (120, 1600, 2750, 0)},
    "nothing": {1: (0, 1600, 2500, 0), 2: (120, 0, 2500, 0), 4: (120, 1600, 3000, 0), 7: LOST, 8: AT_CAPS + (-1,), 15: (0, 0, 9000, -30000)},
}
WHOLE, MORE, LESS = (120, 100, 2500, 0), (11, 1091, 2500, 0), (13, 923, 2500, 0)  # 5000/5000, 5000/5001 and 4999/5000


def two(first, second):
    """Figures of two sets of three results."""
    return sum(first, ()) + sum(second, ())


def in_threes(pairs, fill):
    """Pairs of results, three a row, the last row filled."""
    pairs = pairs + [fill] * (-len(pairs) % 3)
    return [pairs[at:at + 3] for at in range(0, len(pairs), 3)]


def which_counts():
    """The first set lower, or the second, draught by draught; each has marks of its own."""
    of_first, of_second = ((30, 400, 2500, 0), (90, 1600, 2500, 0)), ((60, 1600, 2500, 0), WHOLE)  # at 1/2 and above it
    for lower in product((0, 1), repeat=3):
        first, second = zip(*((of_first, of_second)[one] for one in lower))
        words = "-".join(("first", "second")[one] for one in lower)
        yield accepted("lower-%s" % words, stacked([two(first, second)]), "at the three draughts the lower set is the %s" % words.replace("-", ", the "),
                       marks=[tuple((3, 2)[one] for one in lower)])


def equal():
    """Two results of one exact s⁴, and of different marks: the first one's are told, whichever comes first."""
    pairs = [((of, one, other), (results[one], results[other])) for of, results in EQUAL.items() for one, other in combinations(results, 2)]
    for three in in_threes(pairs, (("one", 0, 0), (GOOD, WELL_OFF + (30000,)))):
        words, results = zip(*three)
        first, second = zip(*results)
        yield accepted("equal-%s" % "-".join("%s-%d-%d" % one for one in words), stacked([two(first, second), two(second, first)]),
                       "two results of the same survival (%s), with marks of their own: the first one's" % ", ".join(one[0] for one in words),
                       marks=[tuple(one[1] for one in words), tuple(one[2] for one in words)])
    same = tuple(EQUAL["quarter"].values())
    yield accepted("equal-sets", stacked([two(same[:3], same[:3]), two(same[1:], same[1:])]), "the same results twice", marks=[(1, 2, 3), (2, 3, 4)])


def nearly_equal():
    """Two results of the same bottom and top that differ in s⁴: the lower one's marks, whichever comes first."""
    pairs, figures = [(marks, [result + (0,) for result in results]) for marks, results in sorted(NEAR_TIES.items())], Figures(SHIP, [])
    for three in in_threes(pairs, pairs[0]):
        marks = tuple(lower for (lower, _), _ in three)
        first, second = zip(*(results for _, results in three))
        for lower, higher in zip(first, second):
            assert figures.fourth(*lower) < figures.fourth(*higher) and figures.rounded(lower) == figures.rounded(higher)
        yield accepted("nearly-equal-%s" % "-".join("%d-%d" % pair for pair, _ in three), stacked([two(first, second), two(second, first)]),
                       "two results of the same bottom and top, not of the same survival: the lower one's marks", marks=[marks, marks])


def beside_a_whole_root():
    """A survival that is whole in ten-thousandths against one just above and one just below it: bottom and top are each the lower."""
    for name, first, second, marks in (
            ("first", (WHOLE, LESS, WHOLE), (MORE, WHOLE, WHOLE), (2, 3, 2)), ("second", (MORE, WHOLE, LESS), (WHOLE, LESS, MORE), (2, 3, 3)),
            ("mixed", (LESS, MORE, MORE), (MORE, LESS, WHOLE), (3, 3, 2))):
        yield accepted("whole-root-lower-%s" % name, stacked([two(first, second)]), "s just above 1/2, 1/2 and just below it: the lower is in the %s set"
                       % name.replace("mixed", "first or second"), marks=[marks])


def by_one_number():
    """Sets that differ in one number at each draught: lever, range, heel or opening, in the first set or in the second."""
    worse = [((119, 1600, 2500, 0), 1), ((120, 1599, 2500, 0), 2), ((120, 1600, 2501, 0), 4), ((120, 1600, 2500, -1), 8)]
    for turn in range(4):
        three, marks = zip(*(worse[turn:] + worse[:turn])[:3])
        for name, first, second in (("first", three, (GOOD,) * 3), ("second", (WELL_OFF + (30000,),) * 3, three)):
            yield accepted("one-number-in-the-%s-%d-%d-%d" % (name, *marks), stacked([two(first, second)]),
                           "one number keeps the %s set below one at each draught" % name, marks=[marks])


def by_survival():
    """The lower survival, not the lower or the worse number: two results in either order."""
    for name, lower, higher, byte in (
            ("long-lever", (5000, 800, 2500, 0), (100, 1600, 2500, 0), 2), ("long-range", (60, 9000, 2500, 0), (120, 1200, 2500, 0), 1),
            ("great-heel", (120, 1600, 2900, 0), (30, 1600, 2500, 0), 4), ("heel-squared", (120, 1600, 2600, 0), (84, 1600, 2500, 0), 4),
            ("one-mark-of-three", (60, 1600, 2500, 0), (119, 1599, 2501, 0), 1), ("nothing-by-heel", (120, 1600, 3000, 0), (1, 1, 2999, 30000), 4),
            ("dry-and-short", (12, 160, 2500, 0), (24, 320, 2500, 0), 3)):
        yield accepted("lower-by-survival-%s" % name, stacked([two((lower, higher, lower), (higher, lower, higher)), two((higher,) * 3, (lower,) * 3)]),
                       "lever, range and heel %d, %d, %d are lower than %d, %d, %d" % (*lower[:3], *higher[:3]), marks=[(byte,) * 3] * 2)


def immersed():
    """An opening immersed in one set alone, at one draught; in both; and against a result that is lost without it."""
    under = AT_CAPS + (-1,)
    for at, draught in enumerate(DRAUGHTS):
        three = tuple(under if place == at else GOOD for place in range(3))
        for name, first, second in (("first", three, (GOOD,) * 3), ("second", (GOOD,) * 3, three)):
            yield accepted("immersed-in-the-%s-at-%s" % (name, draught), stacked([two(first, second)]),
                           "opening -1 at %s in the %s set alone" % (draught, name), verdict=2, marks=[tuple(8 * (place == at) for place in range(3))])
    short = ((119, 1600, 2500, -1), (120, 1599, 2500, -30000), (30, 400, 2500, 0))
    yield accepted("immersed-in-both", stacked([two(short, (short[1], short[0], under)), two((short[1], short[0], under), short)]),
                   "openings immersed in both sets: the first one's marks; in one: that one's", verdict=2, marks=[(9, 10, 8), (10, 9, 8)])


def limits():
    """Refusal 7 in either set at each draught, the other set as good as can be; limits that are just kept."""
    first = row_line(group(FOUR, 1, 1)[0])
    wrong = (("lever", 0, 5001), ("range", 1, 9001), ("heel", 2, 9001), ("opening", 3, 30001), ("opening", 3, -30001))
    for at, draught in enumerate(DRAUGHTS):
        for name, number, value in wrong:
            three = [GOOD] * 3
            three[at] = GOOD[:number] + (value,) + GOOD[number + 1:]
            for words, figures in (("first", two(three, (GOOD,) * 3)), ("second", two((GOOD,) * 3, three))):
                yield refused("%s-%s-in-the-%s-at-%s" % (name, str(value).replace("-", "less-"), words, draught),
                              joined([hull_line(FOUR), first, row_line(Row(2, 1, HALF, TOP, figures)), end_line(2)]), 7, 3,
                              "%s = %d at %s in the %s of two sets" % (name, value, draught, words))
    most, least = (5000, 9000, 9000, 30000), (0, 0, 0, -30000)
    yield accepted("numbers-at-their-limits", stacked([two((most,) * 3, (least,) * 3), two((least,) * 3, (most,) * 3)]),
                   "every number of one set at its most, of the other at its least", verdict=2, marks=[(4, 4, 4), (11, 11, 11)])
    yield accepted("numbers-at-their-most", stacked([two((most[:2] + (2500, 30000),) * 3, (most[:2] + (0, 30000),) * 3)]),
                   "levers, ranges and openings of both sets at their most", verdict=1, marks=[(0, 0, 0)])


def lengths():
    """Refusal 3: rows of kind 05 in other lengths, the old ones among them; other kinds in its length."""
    lines = lines_of(FOUR, [one._replace(figures=SAFE + SAFE) for one in every_group(FOUR, longest=2)])

    def in_place(name, line, shows, at=2):
        return refused(name, joined(lines[:at - 1] + [line] + lines[at:]), 3, at, shows)

    for length in (1, 7, 13, 31, 43, 49, 54, 56, 79):
        yield in_place("length-%d" % length, (lines[1] + lines[1][14:62])[:2 * length], "a row of kind 05 in %d bytes" % length)
    dry = "".join(lines[1][at:at + 12] for at in range(14, 110, 16))
    yield in_place("length-43-without-openings", lines[1][:14] + dry, "two sets of nine numbers: kind 05 as it would be without openings")
    yield in_place("length-54-at-the-last", lines[-2][:-2], "the last row of kind 05 is a byte short", len(lines) - 1)
    for kind in (2, 3, 4, 6, 15, 37):
        yield in_place("kind-%02x-in-55-bytes" % kind, "%02x" % kind + lines[1][2:], "kind %02x in 55 bytes" % kind)
    yield refused("kind-05-first", joined(lines[1:]), 3, 1, "the hull line is missing, and a row of kind 05 comes first")


def against_others():
    """A second set outside its limits, or a row of kind 05 with one set, and another fault of the same line or of a later one; order and counts."""
    fine, outside, below = SAFE + SAFE, SAFE + SAFE[:1] + (9001,) + SAFE[2:], SAFE + SAFE[:11] + (-30001,)
    for first, second, name, before, line in (
            (2, 7, "odd-second-set-outside", BEFORE, row(3, 1, figures=outside) + "0"),
            (3, 7, "long-second-set-outside", BEFORE, row(3, 1, figures=outside) + "00"),
            (3, 8, "one-set-earlier-group", BEFORE, row(1, 2, figures=fine)[:62]),
            (3, 9, "one-set-open-group", OPEN_GROUP, row(2, 2, figures=fine)[:62]),
            (3, 6, "one-set-row-501", FULL, row(2, 2, figures=fine)[:62]),
            (6, 7, "row-501-second-set-outside", FULL, row(2, 2, figures=outside)),
            (6, 8, "row-501-earlier-group", FULL, row(1, 2, figures=fine)),
            (7, 8, "second-set-outside-earlier-group", BEFORE, row(1, 2, figures=outside)),
            (7, 8, "second-set-below-after-the-top", BEFORE, row(2, 1, HALF, 60000, below)),
            (7, 9, "second-set-outside-open-group", OPEN_GROUP, row(2, 2, figures=outside)),
            (7, 9, "second-set-below-open-layer", OPEN_LAYER, row(2, 1, figures=below)),
            (8, 9, "two-sets-earlier-group-open-group", OPEN_GROUP, row(1, 2, figures=fine)),
            (10, 7, "second-set-outside-after-the-end", ENDED, row(3, 1, figures=outside))):
        yield one_line(first, second, name, before, line + CLOSED)
    yield both(7, "second-set", [HULL, row(1, 1, figures=outside)], 3, "one-set", [row(3, 1, figures=fine)[:62], end_line(2)])
    yield both(3, "one-set", [HULL, row(1, 1, figures=fine)[:62]], 7, "second-set", [row(3, 1, figures=below), end_line(2)])
    yield refused("row-501", joined(FULL + [row(2, 2, figures=fine), end_line(501)]), 6, 502, "row 501 of kind 05")
    yield refused("earlier-group", joined(BEFORE + [row(1, 2, figures=fine), end_line(3)]), 8, 4, "a row of kind 05 of an earlier group")
    yield refused("open-group", joined(OPEN_GROUP + [row(2, 2, figures=fine), end_line(3)]), 9, 4, "a row of kind 05 after a group that is open")
    for count in (1, 5, 6):
        rows = [row(a, 1, figures=figures) for a, figures in ((1, fine), (2, SAFE), (3, fine))]
        yield refused("three-rows-counted-%d" % count, joined([HULL] + rows + [end_line(count)]), 6, 5, "three rows, two of kind 05, counted as %d" % count)


def in_turn():
    """Rows of the three kinds one after another, with results of their own: in one layer, in layers and in groups."""
    for name, hull, rows in (
            ("heights", SHIP, group(SHIP, 1, 1, heights=tuple(range(400, 20000, 400)))),
            ("layers-and-heights", SHIP, group(SHIP, 1, 1, layers=(100, 500), heights=(2000, 9000, 15000))),
            ("groups", FOUR, every_group(FOUR)), ("groups-layers-and-heights", FOUR, every_group(FOUR, layers=(300,), heights=(9000,)))):
        marks, figured = [], []
        for at, one in enumerate(rows):
            three = tuple(1 + (step * at + 3) % 15 for step in (1, 4, 7))
            marked, good = [with_byte(byte) for byte in three], [GOOD] * 3
            way = at % 5
            marks.append((0, 0, 0) if way == 2 else three)
            figured.append(one._replace(figures=(two(good, marked), sum(marked, ()), (1000 * (at % 11), 5000, 10000), two(marked, good),
                                                 two(marked[:1] + good[1:2] + marked[2:], good[:1] + marked[1:2] + good[2:]))[way]))
        yield accepted("in-turn-%s" % name, case_file(hull, figured), "rows of kinds 02, 03 and 05 in %s" % name.replace("-", " "), marks=marks)
    twice = stacked([two((WHOLE,) * 3, (LOST,) * 3), sum((WHOLE,) * 3, ()), (1, 2, 3), sum((GOOD,) * 3, ())])
    yield accepted("no-second-set-after-one", twice, "rows of one set after a row of two have none of its numbers", verdict=1,
                   marks=[(7, 7, 7), (2, 2, 2), (0, 0, 0), (0, 0, 0)])


def turned_verdicts():
    """A ship whose R is 1/2, with one set and with two: the second set fails it, leaves it unsettled, or is of no help."""
    def ship(first, second):
        return case_file(HALF_SHIP, [Row(1, 1, HALF_SHIP.half, HALF_SHIP.top, two((first,) * 3, (second,) * 3))])

    for name, first, second, verdict, shows in (
            ("just-meets", GOOD, WHOLE, 1, "the second set is at R"), ("unsettled", GOOD, LESS, 3, "R lies between the ends of the second set"),
            ("fails", GOOD, (12, 160, 2500, 0), 2, "the second set is below R"), ("no-help", (12, 160, 2500, 0), GOOD, 2, "the first set is below R"),
            ("no-help-unsettled", LESS, GOOD, 3, "R lies between the ends of the first set"), ("meets", MORE, WHOLE, 1, "both sets are at R or above")):
        yield accepted("turned-%s" % name, ship(first, second), "R = 1/2: %s" % shows, verdict=verdict)
    for at, draught in enumerate(DRAUGHTS):
        second = [GOOD] * 3
        second[at] = LOST
        yield accepted("turned-at-%s" % draught, case_file(HALF_SHIP, [Row(1, 1, HALF_SHIP.half, HALF_SHIP.top, two((GOOD,) * 3, second))]),
                       "the second set is lost at %s alone" % draught, verdict=2, marks=[tuple(7 * (place == at) for place in range(3))])


def sizes():
    """Accepted files of 32,768 bytes, which was the limit before there were second sets, and of one more."""
    for size, zones, last in ((32768, 14, [NONE, CERTAIN]), (32769, 12, [SAFE])):
        hull = Hull(12000, 2000, 8000, 5000, tuple(600 * i for i in range(1, zones)))
        heights = list(range(1, 294 + len(last)))
        figures = [two((GOOD,) * at + (LOST,) + (GOOD,) * (2 - at), (WELL_OFF + (0,),) * 3) for at in (0, 1, 2)] * 98 + last
        rows = [Row(1, zones, hull.half, h, one) for h, one in zip(heights + [hull.top], figures)]
        data = case_file(hull, rows)
        assert len(data) == size
        yield accepted("bytes-%d" % size, data, "%d bytes: %d rows, 294 of them of kind 05" % (size, len(rows)))


def cases():
    for part in (which_counts, equal, nearly_equal, beside_a_whole_root, by_one_number, by_survival, immersed, limits, lengths, against_others, in_turn,
                 turned_verdicts, sizes):
        for case in part():
            yield case
