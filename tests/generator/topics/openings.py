"""The critical opening: at the final waterline and beside it, at one draught alone, its limits and bytes, rows without one, and what it does to a verdict."""

from ..case import accepted, refused
from ..frames import Hull, Row, case_file, end_line, hull_line, joined, lines_of, row_line
from ..shapes import CERTAIN, FOUR, NONE, PRINTED, SAFE, every_group, group, with_openings
from .following import both
from .marks import AT_CAPS, SHORT, WELL_OFF
from .pairs import BEFORE, CLOSED, ENDED, FULL, HALF, HULL, OPEN_GROUP, OPEN_LAYER, TOP, one_line, row

SHIP = Hull(12000, 2000, 8005, 5000)
HALF_SHIP = Hull(10400, 2000, 8000, 8000)  # R is 1/2, and the three draughts are one
DRAUGHTS = ("ds", "dp", "dl")
QUARTER = (30, 400, 2500)  # lever and range at a quarter of their caps: survival is 1/2
OTHERS = (("at-caps", AT_CAPS, 0), ("well-off", WELL_OFF, 0), ("quarter", QUARTER, 3), ("marked", SHORT, 7))
OUTSIDE, BELOW = (with_openings(AT_CAPS * 3, three) for three in ((0, 30001, 0), (-30001, 0, 0)))
PRINTED_GIVEN = [row_line(Row(1, 2, 800, 18500, NONE)), row_line(Row(2, 1, 800, 18500, CERTAIN))]  # the printed file's rows of kind 03


def told(numbers):
    """Numbers as a part of a name, where a hyphen stands between them."""
    return "-".join(str(number).replace("-", "less-") for number in numbers)


def stacked(rows):
    """A file of one zone with these figures from the keel up; the last row alone is out of the water, and counts."""
    heights = [*range(1, len(rows)), SHIP.top]
    return case_file(SHIP, [Row(1, 1, SHIP.half, h, figures) for h, figures in zip(heights, rows)])


def with_byte(byte, high=AT_CAPS, low=SHORT, under=-1, above=0):
    """The result whose marks add up to this, the opening's among them."""
    return tuple(low[at] if byte >> at & 1 else high[at] for at in range(3)) + (under if byte & 8 else above,)


def beside_the_waterline():
    """Openings from below the final waterline to above it, at the three draughts in turn, and the other numbers with no mark or with some."""
    for openings in ((-1, 0, 1), (-30000, 0, 30000), (-2, -1, 0), (0, 1, 2), (-256, 255, 256), (-257, -255, -128), (-29999, 29999, -1)):
        for words, others, more in OTHERS:
            for turn in range(3):
                three = openings[turn:] + openings[:turn]
                yield accepted("opening-%s-others-%s" % (told(three), words), stacked([with_openings(others * 3, three)]),
                               "openings %d, %d and %d at the three draughts, the others %s" % (*three, words.replace("-", " ")),
                               marks=[tuple(more + 8 * (opening < 0) for opening in three)])


def at_some_draughts():
    """A ship of one zone that survives but for its openings: immersed at one draught, at two, at all, with the verdict by hand."""
    for opening in (-1, -30000):
        for under in ((0,), (1,), (2,), (0, 1), (0, 2), (1, 2), (0, 1, 2)):
            three = tuple(opening if at in under else 0 for at in range(3))
            where = "-".join(DRAUGHTS[at] for at in under)
            yield accepted("immersed-%d-at-%s" % (-opening, where), stacked([with_openings(AT_CAPS * 3, three)]), "opening %d at %s, 0 elsewhere"
                           % (opening, where.replace("-", " and ")), verdict=2, marks=[tuple(8 * (at in under) for at in range(3))])
    yield accepted("immersed-nowhere", stacked([with_openings(AT_CAPS * 3, (0, 0, 0))]), "openings at the final waterline: not yet immersed",
                   verdict=1, marks=[(0, 0, 0)])


def limits():
    """Refusal 7: both sides of -30,000 and 30,000 at each draught, and the numbers of two bytes that no opening has."""
    first = row_line(group(FOUR, 1, 1)[0])
    for at, draught in enumerate(DRAUGHTS):
        for opening in (-30000, -29999, 29999, 30000, -30001, 30001, -32768, 32767):
            figures = with_openings(AT_CAPS * 3, tuple(opening if place == at else 0 for place in range(3)))
            data = joined([hull_line(FOUR), first, row_line(Row(2, 1, HALF, TOP, figures)), end_line(2)])
            name, shows = "limit-%s-at-%s" % (told([opening]), draught), "opening = %d at %s" % (opening, draught)
            if -30000 <= opening <= 30000:
                yield accepted(name, data, shows, marks=[(0, 0, 0), tuple(8 * (opening < 0 and place == at) for place in range(3))])
            else:
                yield refused(name, data, 7, 3, shows)
    yield accepted("limit-30000-at-all", stacked([with_openings(AT_CAPS * 3, (30000,) * 3)]), "opening = 30000 at each draught", verdict=1,
                   marks=[(0, 0, 0)])


def in_digits():
    """The printed file, an opening of it written by hand: what its four digits are as a number."""
    after = PRINTED_GIVEN + [end_line(3)]
    for digits, opening in (("0001", 1), ("00ff", 255), ("7530", 30000), ("7531", 30001), ("7fff", 32767), ("8000", -32768),
                            ("8acf", -30001), ("8ad0", -30000), ("ff00", -256), ("fffe", -2), ("ffff", -1)):
        for at, draught in enumerate(DRAUGHTS):
            results = "".join("001e01900000" + (digits if place == at else "0000") for place in range(3))
            data = joined([hull_line(PRINTED), "02010103204844" + results] + after)
            name, shows = "digits-%s-at-%s" % (digits, draught), "the digits %s at %s: %d" % (digits, draught, opening)
            if abs(opening) > 30000:
                yield refused(name, data, 7, 2, shows)
            else:
                marks = tuple(3 + 8 * (opening < 0 and place == at) for place in range(3))
                yield accepted(name, data, shows, marks=[marks, (0, 0, 0), (0, 0, 0)])


def without_openings(line):
    """A row of results as it was before it had openings."""
    return line[:14] + "".join(line[at:at + 12] for at in (14, 30, 46))


def lengths():
    """Refusal 3: rows without openings, with too few of them, with more; given survivals with openings."""
    lines = lines_of(FOUR, [one._replace(figures=SAFE) for one in every_group(FOUR, longest=2)])
    without = [without_openings(line) for line in lines[1:-1]]
    yield refused("length-25-in-every-row", joined(lines[:1] + without + lines[-1:]), 3, 2, "a file from before there were openings")
    for at in (2, 4, len(lines) - 1):
        yield refused("length-25-at-line-%d" % at, joined(lines[:at - 1] + [without[at - 2]] + lines[at:]), 3, at, "line %d alone has no openings" % at)
    for length in (7, 13, 15, 23, 24, 25, 26, 27, 28, 29, 30, 32, 33, 37, 43, 55, 62):
        line = (lines[1] + "00" * 31)[:2 * length]
        yield refused("length-%d" % length, joined(lines[:1] + [line] + lines[2:]), 3, 2, "a row of results in %d bytes" % length)
    printed = [hull_line(PRINTED), "02010103204844001e01900000001e01900000001e01900000"] + PRINTED_GIVEN + [end_line(3)]
    yield refused("length-25-of-the-printed-file", joined(printed), 3, 2, "the printed file as document 01 has it, with no openings")
    for openings in (1, 3):
        line = row_line(group(FOUR, 1, 1)[0]) + "0000" * openings
        yield refused("given-with-%d-openings" % openings, joined(lines[:1] + [line] + lines[2:]), 3, 2, "given survivals and %d numbers more" % openings)


def against_others():
    """An opening outside its limits, or none, and another fault of the same line or of a later one: the table's order, and the earlier line."""
    for first, second, name, before, line in (
            (2, 7, "odd-opening-outside", BEFORE, row(3, 1, figures=OUTSIDE) + "0"),
            (3, 7, "long-opening-outside", BEFORE, row(3, 1, figures=OUTSIDE) + "00"),
            (3, 7, "no-openings-a-outside", BEFORE, without_openings(row(5, 1, figures=SAFE))),
            (3, 8, "no-openings-earlier-group", BEFORE, without_openings(row(1, 2, figures=SAFE))),
            (3, 9, "no-openings-open-group", OPEN_GROUP, without_openings(row(2, 2, figures=SAFE))),
            (3, 6, "no-openings-row-501", FULL, without_openings(row(2, 2, figures=SAFE))),
            (6, 7, "row-501-opening-outside", FULL, row(2, 2, figures=OUTSIDE)),
            (7, 8, "opening-outside-earlier-group", BEFORE, row(1, 2, figures=OUTSIDE)),
            (7, 8, "opening-below-earlier-group", BEFORE, row(1, 2, figures=BELOW)),
            (7, 8, "opening-outside-smaller-b", BEFORE, row(2, 1, HALF - 1, figures=OUTSIDE)),
            (7, 8, "opening-outside-after-the-top", BEFORE, row(2, 1, HALF, 60000, BELOW)),
            (7, 9, "opening-outside-open-group", OPEN_GROUP, row(2, 2, figures=OUTSIDE)),
            (7, 9, "opening-below-open-layer", OPEN_LAYER, row(2, 1, figures=BELOW)),
            (10, 7, "opening-outside-after-the-end", ENDED, row(3, 1, figures=OUTSIDE))):
        yield one_line(first, second, name, before, line + CLOSED)
    outside, late = [HULL, row(1, 1, figures=OUTSIDE)], [HULL, row(2, 1), row(1, 1)]
    yield both(7, "opening", outside, 3, "no-openings", [without_openings(row(3, 1, figures=SAFE)), end_line(2)])
    yield both(7, "opening", outside, 8, "row", [row(3, 2), row(3, 1), end_line(3)])
    yield both(8, "row", late, 7, "opening", [row(3, 1, figures=BELOW), end_line(3)])
    yield both(3, "no-openings", [HULL, without_openings(row(1, 1, figures=SAFE))], 7, "opening", [row(3, 1, figures=OUTSIDE), end_line(2)])


def two_rows(lower, upper):
    """A ship whose R is 1/2 with two rows, of v 4/5 and 1/5, that survive but for these openings."""
    heights = (HALF_SHIP.ds + 7800, HALF_SHIP.top)
    rows = [Row(1, 1, HALF_SHIP.half, h, with_openings(AT_CAPS * 3, openings)) for h, openings in zip(heights, (lower, upper))]
    return case_file(HALF_SHIP, rows)


def turned_verdicts():
    """The same ship with one opening dry and immersed: meets and fails, stays unsettled and fails, or meets with both."""
    near = (12, 1257, 0) * 3  # R lies between the ends of A
    for name, opening in (("dry", 0), ("high", 30000), ("immersed", -1)):
        one, others = (opening,) * 3, (0, 0, 0)
        yield accepted("turned-row-%s" % name, two_rows(one, others), "two rows, R = 1/2: opening %d in the lower one" % opening,
                       verdict=1 if opening >= 0 else 2)
        rows = [each._replace(figures=with_openings((60, 800, 0) * 3, one if each[:2] == (3, 1) else others)) for each in every_group(FOUR)]
        yield accepted("turned-group-%s" % name, case_file(FOUR, rows), "every group of four zones, s about 0.7: opening %d in group (3, 1)" % opening,
                       verdict=1 if opening >= 0 else 2)
        yield accepted("turned-unsettled-%s" % name, stacked([with_openings(near, (0, 0, opening))]), "near R at every draught: opening %d at dl" % opening,
                       verdict=3 if opening >= 0 else 2)
    yield accepted("turned-by-no-upper-row", two_rows((0, 0, 0), (-1, -1, -1)), "two rows, R = 1/2: opening -1 in the upper one, which A can do without",
                   verdict=1)


def each_byte():
    """The sixteen bytes at one draught, the other two with no mark or with all; and different bytes at the three."""
    for at, name in enumerate(("deepest", "partial", "light")):
        for words, other in (("no-mark", 0), ("all-marks", 15)):
            marks = [tuple(byte if place == at else other for place in range(3)) for byte in range(16)]
            yield accepted("each-byte-%s-others-%s" % (name, words), stacked([sum(map(with_byte, three), ()) for three in marks]),
                           "each byte at the %s draught, %s at the others" % (name, words.replace("-", " ")), marks=marks)
    for byte in range(8, 16):
        marks = (byte, (byte + 3) % 16, (byte + 6) % 16)
        yield accepted("three-bytes-%d-%d-%d" % marks, stacked([sum(map(with_byte, marks), ())]), "the bytes %d, %d and %d at the three draughts" % marks,
                       marks=[marks])
        far = [with_byte(byte, WELL_OFF, low, under) for low, under in (((1, 1, 2999), -30000), ((0, 0, 9000), -2), ((60, 800, 2750), -256))]
        yield accepted("far-off-%d" % byte, stacked([sum(far, ())]), "the byte %d, of numbers far from their caps" % byte, marks=[(byte,) * 3])


def in_turn():
    """Rows with openings of their own one after another: in one layer, in layers and in groups, and between given survivals."""
    for name, hull, rows in (
            ("500-heights", SHIP, group(SHIP, 1, 1, heights=tuple(range(41, 41 * 500, 41)))),
            ("layers-and-heights", SHIP, group(SHIP, 1, 1, layers=(100, 500), heights=(2000, 9000, 15000))),
            ("groups", FOUR, every_group(FOUR)), ("groups-layers-and-heights", FOUR, every_group(FOUR, layers=(300,), heights=(9000,)))):
        marks = [((5 * at + 8) % 16, (7 * at + 2) % 16, (3 * at + 1) % 16) for at in range(len(rows))]
        rows = [one._replace(figures=sum(map(with_byte, three), ())) for one, three in zip(rows, marks)]
        yield accepted("in-turn-%s" % name, case_file(hull, rows), "rows in %s, each with openings of its own" % name.replace("-", " "), marks=marks)
    heights = tuple(range(1, 500))
    yield accepted("500-rows-immersed", case_file(SHIP, group(SHIP, 1, 1, heights=heights, figures=with_openings(AT_CAPS * 3, (-1, -300, -30000)))),
                   "500 rows of results, every opening immersed", verdict=2, marks=[(8, 8, 8)] * 500)
    rows, marks = [], []
    for byte in range(8, 16):
        rows += [with_byte(byte) * 3, (0, 10000, 5000), with_byte(15 - byte) * 3, (65, 9999, 1)]
        marks += [(byte,) * 3, (0, 0, 0), (15 - byte,) * 3, (0, 0, 0)]
    yield accepted("given-between-results", stacked(rows), "a given survival after each row with results, immersed or not", marks=marks)
    for three in (CERTAIN, NONE, (10000, 0, 5000)):
        rows = [Row(1, 1, SHIP.half, 9000, with_openings(AT_CAPS * 3, (-1, -1, -1))), Row(1, 1, SHIP.half, SHIP.top, three)]
        yield accepted("given-%d-%d-%d-over-an-immersed-row" % three, case_file(SHIP, rows), "given survivals over a row whose openings are immersed",
                       marks=[(8, 8, 8), (0, 0, 0)])


def cases():
    for part in (beside_the_waterline, at_some_draughts, limits, in_digits, lengths, against_others, turned_verdicts, each_byte, in_turn):
        for case in part():
            yield case
