"""Passenger ships: each factor of s at its caps and limits, which of them decides, ro-ro marks, the marks of the final stage, R and 0.9 R, shapes and sizes,
and what is refused of their files."""

from itertools import product

from ..case import Case, accepted, refused
from ..dice import Dice
from ..figures import Figures
from ..found import NEAR_MOMENTS, NEAR_PRODUCTS, PASSENGER_MARKS
from ..frames import Hull, Row, case_file, joined, lines_of
from ..fresh import damaged
from ..judging import Judging
from ..seeded import seeded_case
from ..shapes import ABOARD, AFLOAT, CALM, FERRY, PRINTED, SAFE, every_group, group
from . import passengers_refused
from .openings import DRAUGHTS
from .verdicts import FIGURES, WORDS

SHIP = Hull(9000, 1800, 6005, 4000, (), (400, 600))
QUARTERS = Hull(2500, 1000, 6000, 6000, (), (1900, 0))  # R is 3/4, 0.9 R is 27/40, and the three draughts are one
FINE, LOST = (AFLOAT, CALM), ((0, 0, 9000, -1), (1, 2000000, 0, 0, 9000, 1))
TURNS = ((0, 1, 2), (1, 2, 0), (2, 0, 1))


def stage(displacement=300000, moment=1, lever=50, reach=700, heel=1500, roro=0):
    """What a row has at a draught after its results; what is not asked for leaves survival to the final stage."""
    return displacement, moment, lever, reach, heel, roro


def aboard(*three):
    """The figures of a row from the result and the stage of each draught."""
    results, stages = zip(*three)
    return sum(results, ()) + sum(stages, ())


def stacked(rows, hull=SHIP):
    """A file of one zone with these figures from the keel up; the last row alone is out of the water, and counts."""
    heights = [*range(1, len(rows)), hull.top]
    return case_file(hull, [Row(1, 1, hull.half, h, figures) for h, figures in zip(heights, rows)])


def byte(result, roro=0):
    """The marks of a final stage, by hand."""
    lever, reach, heel, opening = result
    return (lever < (200 if roro else 120)) + 2 * (reach < (2000 if roro else 1600)) + 4 * (heel > 700) + 8 * (opening < 0)


def one_row(name, three, shows, verdict=None):
    """A row with a result and a stage at each draught, and its marks."""
    return accepted(name, stacked([aboard(*three)]), shows, verdict=verdict, marks=[tuple(byte(result, of[5]) for result, of in three)])


def moved(s):
    """A result and a stage whose s is so many ten-thousandths by the heeling moment alone."""
    return (1040, 9000, 0, 0), stage(10 * s, 100000)


def named(numbers):
    return "-".join(str(number).replace("-", "less-") for number in numbers)


def final_stages():
    """Lever, range and heel of the final stage beside their caps and limits, at the three draughts in turn, without a ro-ro mark and with one."""
    for name, at, sets in (("lever", 0, ((119, 120, 121), (199, 200, 201), (41, 160, 5000))), ("range", 1, ((1599, 1600, 1601), (1999, 2000, 2001), (0, 1, 9000))),
                           ("heel", 2, ((699, 700, 701), (1499, 1500, 1501), (0, 1100, 9000), (2500, 2501, 3000)))):
        for numbers, roro in product(sets, (0, 1)):
            for turn in TURNS[:3 if numbers == sets[roro] else 1]:
                three = [numbers[place] for place in turn]
                yield one_row("%s-%s-%s" % (name, named(three), "roro" if roro else "plain"),
                              [(AFLOAT[:at] + (number,) + AFLOAT[at + 1:], stage(roro=roro)) for number in three],
                              "%s %d, %d and %d of the final stage at the three draughts, %s ro-ro mark" % (name, *three, "with a" if roro else "no"))
    for name, result in (("all-at-caps", (120, 1600, 700, 0)), ("all-at-roro-caps", (200, 2000, 700, 0)), ("all-short", (119, 1599, 701, 0)),
                         ("all-short-of-roro", (199, 1999, 701, 0)), ("quarter", (60, 800, 1100, 0))):
        yield one_row(name, [(result, stage(roro=roro)) for roro in (0, 1, 0)], "lever, range and heel %d, %d, %d, a ro-ro mark at dp alone" % result[:3])


def intermediate_stages():
    """Lever, range and heel of the intermediate stage beside their caps and its limit of 15 degrees, at the three draughts in turn."""
    for name, sets in (("lever", ((49, 50, 51), (0, 1, 5000), (119, 120, 200))), ("reach", ((699, 700, 701), (0, 1, 9000), (1599, 1600, 2000))),
                       ("heel", ((1499, 1500, 1501), (0, 700, 701), (1100, 2501, 3000), (3001, 8999, 9000)))):
        for numbers in sets:
            for turn in TURNS[:3 if numbers == sets[0] else 1]:
                three = [numbers[place] for place in turn]
                yield one_row("intermediate-%s-%s" % (name.replace("reach", "range"), named(three)), [(AFLOAT, stage(**{name: number})) for number in three],
                              "%s %d, %d and %d of the intermediate stage at the three draughts" % (name.replace("reach", "range"), *three))
    for three in (((25, 350), (49, 699), (1, 1)), ((10, 140), (40, 560), (5, 437)), ((100, 350), (25, 1400), (51, 701))):
        yield one_row("intermediate-%s" % "-".join(map(named, three)), [(AFLOAT, stage(lever=lever, reach=reach, roro=1)) for lever, reach in three],
                      "lever and range %s, %s and %s of the intermediate stage" % tuple("%d, %d" % one for one in three))


def heeling_moments():
    """s-mom at its ends, beside them and between, from a lever that no cap holds."""
    for name, three, shows in (
            ("lever-39-40-41", [(39, 300000, 1), (40, 300000, 1), (41, 300000, 1)], "0.04 m less than the lever: below nothing, nothing, and enough"),
            ("lever-0-1-40", [(0, 300000, 1), (1, 1, 2000000), (40, 1, 2000000)], "levers up to 0.04 m leave nothing"),
            ("least", [(41, 1, 2000000), (41, 1, 1), (5000, 1, 2000000)], "the least displacement"),
            ("one-at-120", [(120, 1000, 79), (120, 1000, 80), (120, 1000, 81)], "a moment just below, at and above the one that can be borne"),
            ("one-at-1040", [(1040, 199999, 200000), (1040, 200000, 200000), (1040, 200001, 200000)], "a displacement just below, at and above"),
            ("one-at-5000", [(5000, 299999, 1488000), (5000, 300000, 1488000), (5000, 300000, 1488001)], "the most displacement and lever, about one"),
            ("one-by-lever", [(1039, 7, 7), (1040, 7, 7), (1041, 7, 7)], "a lever a millimetre below, at and above what it takes"),
            ("next-to-one", [(5000, 299970, 1488000), (5000, 299969, 1488000), (5000, 299971, 1488000)], "0.9999, and as near to it as a tonne makes"),
            ("not-capped", [(120, 1000, 1000), (200, 1000, 1000), (540, 1000, 1000)], "levers above their caps bear more"),
            ("parts", [(1040, 1, 2), (1040, 1, 3), (1040, 7, 9)], "a half, a third and seven ninths"),
            ("small", [(1040, 20, 2000000), (1040, 199, 2000000), (1040, 201, 2000000)], "a ten-thousandth or less, and a little more"),
            ("low-halves", [(1040, 65536, 131072), (1040, 196608, 262144), (1040, 131073, 262145)], "displacements and moments whose low two bytes say nothing"),
            ("high-bytes", [(1040, 258, 513), (1040, 66051, 131587), (1040, 262143, 1966081)], "displacements and moments with every byte in use"),
            ("most", [(5000, 300000, 2000000), (5000, 300000, 1999999), (4999, 300000, 2000000)], "the most of each")):
        for roro in (0, 1):
            yield one_row("moment-%s-%s" % (name, "roro" if roro else "plain"),
                          [((lever, 9000, 0, 0), stage(displacement, moment, roro=roro)) for lever, displacement, moment in three], "s-mom: %s" % shows)
    for name, found in sorted(NEAR_MOMENTS.items()):
        yield one_row("moment-next-to-whole-%s" % name, [((lever, 9000, 0, 0), stage(displacement, moment)) for lever, displacement, moment in found],
                      "s-mom is as near to a whole ten-thousandth as can be, from %s" % name)


def products_of_two():
    """s-final times s-mom: rounded once, whole, and next to whole."""
    for name, three, shows in (
            ("whole", [((60, 200, 0, 0), stage(100000, 4000)), ((1040, 100, 0, 0), stage(1, 2)), ((1040, 9000, 1492, 0), stage(1, 2))], "a whole s of two parts"),
            ("beside-whole", [((60, 200, 0, 0), stage(99999, 4000)), ((60, 200, 0, 0), stage(100001, 4000)), ((60, 201, 0, 0), stage(100000, 4000))], "just beside it"),
            ("thirds", [((1040, 100, 0, 0), stage(1, 3)), ((1040, 800, 0, 0), stage(7, 9)), ((1040, 1600, 1100, 0), stage(2, 3))], "thirds and ninths"),
            ("roro", [((1040, 125, 0, 0), stage(1, 3, roro=1)), ((60, 2000, 0, 0), stage(50, 2, roro=1)), ((199, 1999, 701, 0), stage(8, 5, roro=1))], "ro-ro caps"),
            ("one-lever-for-both", [((119, 1600, 0, 0), stage(1000, 80)), ((119, 1600, 0, 0), stage(1000, 79)), ((119, 1600, 0, 0), stage(1000, 100))],
             "one lever holds both factors down"),
            ("least", [((41, 1, 1499, 0), stage(1, 2000000)), ((5000, 1, 1499, 0), stage(300000, 1)), ((41, 9000, 0, 0), stage(1, 2000000))], "next to nothing")):
        yield one_row("product-%s" % name, three, "s-final times s-mom: %s" % shows)
    for (name, roro), found in sorted(NEAR_PRODUCTS.items()):
        yield one_row("product-next-to-whole-%s-%s" % (name, "roro" if roro else "plain"),
                      [((*final, 0), stage(displacement, moment, roro=roro)) for *final, displacement, moment in found],
                      "s-final times s-mom is next to a whole ten-thousandth, from %s" % name)


def deciding():
    """Which of the two counts, draught by draught: the intermediate stage, or the final stage with the heeling moment."""
    early, late = ((1040, 1600, 0, 0), stage(9, 10, 25, 350)), ((1040, 100, 1100, 0), stage(9, 10, 49, 699))
    for which in product((0, 1), repeat=3):
        words = "-".join(("intermediate", "final")[one] for one in which)
        yield one_row("decided-by-%s" % words, [(early, late)[one] for one in which], "what decides at the three draughts: %s" % words.replace("-", ", "))
    half = stage(5, 10, 50, 700)
    for name, three, shows in (
            ("equal", [((1040, 9000, 0, 0), stage(4, 5, 32, 448)), ((1040, 100, 0, 0), stage(2, 5, 1, 56)), ((1040, 400, 0, 0), stage(1, 1, 25, 350))],
             "both s are 4/5, 1/5, or the root of one half"),
            ("as-good", [((1040, 100, 0, 0), stage(1, 1, 25, 88)), ((60, 800, 0, 0), stage(lever=25, reach=350)), ((1040, 400, 0, 0), stage(lever=50, reach=175))],
             "s-intermediate is a little above s-final, or is the same"),
            ("by-the-moment", [((1040, 9000, 0, 0), half), ((1040, 9000, 0, 0), half[:2] + (50, 44, 0, 0)), ((1040, 9000, 0, 0), half[:2] + (50, 43, 0, 0))],
             "the moment's half against s-intermediate just above and below it"),
            ("moment-of-nothing", [((40, 9000, 0, 0), stage(lever=1, reach=1)), ((41, 9000, 0, 0), stage(lever=0)), ((1040, 0, 0, 0), stage(heel=1501))],
             "nothing of one and something of the other, and nothing of both"),
            ("never-multiplied", [((1040, 400, 0, 0), stage(7, 10, 30, 400)), ((1040, 800, 900, 0), stage(9, 10, 40, 600)), ((200, 2000, 0, 0), stage(10, 2, 20, 200))],
             "the lesser, and not a product of all three"),
            ("by-a-ten-thousandth", [((1040, 9000, 0, 0), stage(9999, 10000, 50, 699)), ((1040, 9000, 0, 0), stage(99965, 100000, 50, 699)),
                                     ((1040, 1599, 0, 0), stage(1, 1, 50, 699))], "all but equal")):
        yield one_row("decided-%s" % name, three, shows)


def immersed():
    """The final stage's opening at each draught alone, beside stages of every sort."""
    for at, draught in enumerate(DRAUGHTS):
        three = [((AFLOAT[:3] + (-1 if place == at else 0,)), CALM) for place in range(3)]
        yield one_row("immersed-at-%s" % draught, three, "opening -1 at %s, 0 elsewhere" % draught, verdict=2)
    for openings in ((-1, 0, 1), (-30000, 0, 30000), (-256, 255, -255)):
        for words, others, of in (("calm", AFLOAT, CALM), ("rough", (1040, 1600, 0), stage(9, 10, 25, 350)), ("lost", (40, 0, 1500), stage(1, 2000000, 0, 0, 1501, 1))):
            yield one_row("opening-%s-%s" % (named(openings), words), [(others[:3] + (opening,), of) for opening in openings],
                          "openings %d, %d and %d at the three draughts, the others %s" % (*openings, words))


def with_byte(marks, roro):
    """A final stage with these marks, its numbers at their caps or just short of them; s-mom is one."""
    high, low = ((200, 2000, 700, 0), (199, 1999, 701, -1)) if roro else ((120, 1600, 700, 0), (119, 1599, 701, -1))
    return tuple(low[at] if marks >> at & 1 else high[at] for at in range(4))


def each_byte():
    """The sixteen bytes at one draught, beside stages that decide and stages that do not; marks say nothing of an intermediate stage or a moment."""
    for at, name in enumerate(("deepest", "partial", "light")):
        for roro in (0, 1):
            marks = [tuple(one if place == at else 15 * roro for place in range(3)) for one in range(16)]
            rows = [aboard(*((with_byte(one, roro), stage(roro=roro)) for one in three)) for three in marks]
            yield accepted("each-byte-%s-%s" % (name, "roro" if roro else "plain"), stacked(rows), "each byte at the %s draught" % name, marks=marks)
    marks = [(one, (one + 5) % 16, (one + 10) % 16) for one in range(16)]
    for name, of in (("intermediate-lost", stage(heel=1501)), ("intermediate-decides", stage(lever=1, reach=1)), ("moment-decides", stage(1, 2000000)),
                     ("nothing-decides", CALM)):
        yield accepted("each-byte-%s" % name, stacked([aboard(*((with_byte(one, 0), of) for one in three)) for three in marks]),
                       "each byte at each draught, %s" % name.replace("-", " "), marks=marks)
    yield one_row("no-mark-and-not-one", [(AFLOAT, stage(300000, 2000000)), (AFLOAT, stage(lever=49)), (AFLOAT, stage(reach=699))],
                  "survival below one with no mark: the heeling moment, the intermediate stage's lever, its range")


def ro_ro():
    """Ro-ro marks at some draughts, with numbers between the two caps: the caps and the marks change, and nothing else."""
    for three in product((0, 1), repeat=3):
        yield one_row("roro-%d-%d-%d" % three, [((150, 1800, 700, 0), stage(roro=roro)) for roro in three],
                      "ro-ro marks %d, %d and %d at the three draughts, lever and range between the caps" % three)
    for name, result, of in (("intermediate", AFLOAT, dict(lever=25, reach=350)), ("moment", (1040, 9000, 0, 0), dict(displacement=1, moment=2)),
                             ("lever", (150, 9000, 0, 0), {}), ("range", (5000, 1800, 0, 0), {}), ("heel", (5000, 9000, 1100, 0), {})):
        yield one_row("roro-%s" % name, [(result, stage(roro=roro, **of)) for roro in (0, 1, 0)], "a ro-ro mark at dp alone: the %s" % name)


def steps(ls, persons, found, at=None, rule=0):
    """A ship of one draught and three heights whose ends were tuned; at one draught alone, or at all of them."""
    first, second, third = found
    hull = Hull(ls, 2000, 8000, 8000, (), persons, rule)
    rows = []
    for h, s in ((first, third + 2), (second, third + 1), (12500, third)):
        rows.append(Row(1, 1, hull.half, 8000 + h, aboard(*(moved(s) if at in (None, place) else FINE for place in range(3)))))
    return case_file(hull, rows)


def verdicts():
    """A at R and the partials at 0.9 R, on both sides and between, by rows tuned to a billionth and by single survivals."""
    for (ls, persons, tenths, verdict), found in sorted(PASSENGER_MARKS.items()):
        words = "L = %d with %d and %d persons" % (ls, *persons)
        if tenths == 10:
            yield accepted("index-%d-verdict-%d" % (ls, verdict), steps(ls, persons, found), "A %s R at %s" % (WORDS[verdict], words), verdict=verdict)
        else:
            for at, name in enumerate(FIGURES):
                if ls == 19800 and name != "Al":
                    continue  # R is so high that A reaches it with 0.9 R at the light draught alone
                yield accepted("%s-%d-verdict-%d" % (name.lower(), ls, verdict), steps(ls, persons, found, at),
                               "%s %s 0.9 R at %s and nothing else is near its mark" % (name, WORDS[verdict], words), verdict=verdict)
    three_quarters, less = moved(7500), ((1040, 9000, 0, 0), stage(74999, 100000))
    for name, three, verdict in (
            ("at-r", [three_quarters] * 3, 1), ("about-r", [less] * 3, 3), ("below-r", [moved(7499)] * 3, 2), ("above-r", [moved(7501)] * 3, 1),
            ("light-about-r", [three_quarters, three_quarters, less], 3), ("light-below-r", [three_quarters, three_quarters, moved(7499)], 2),
            ("as-at-its-mark", [moved(6750), FINE, FINE], 1), ("as-below-its-mark", [moved(6749), FINE, FINE], 2), ("ap-at-its-mark", [FINE, moved(6750), FINE], 1),
            ("ap-below-its-mark", [FINE, moved(6749), FINE], 2), ("al-at-its-mark", [FINE, FINE, moved(6750)], 1), ("al-below-its-mark", [FINE, FINE, moved(6749)], 2),
            ("al-about-its-mark", [FINE, FINE, ((1040, 9000, 0, 0), stage(67499, 100000))], 3), ("half-of-r", [moved(3750), FINE, FINE], 2),
            ("marks-met-index-short", [moved(6750), moved(6750), FINE], 2), ("light-lost", [FINE, FINE, LOST], 2)):
        yield accepted("quarters-%s" % name, stacked([aboard(*three)], QUARTERS), "R = 3/4: %s" % name.replace("-", " "), verdict=verdict)
    for in_lifeboats, in_excess, verdict in ((1900, 0, 1), (1901, 0, 2), (0, 950, 1), (0, 951, 2), (1898, 1, 1), (1899, 1, 2), (1900, 1, 2), (950, 475, 1), (476, 712, 1),
                                             (0, 0, 1), (10000, 10000, 2)):
        hull = QUARTERS._replace(persons=(in_lifeboats, in_excess))
        yield accepted("persons-%d-%d" % hull.persons, stacked([aboard(*[three_quarters] * 3)], hull), "A = 3/4 with %d and %d persons" % hull.persons, verdict=verdict)
    for ls, verdict in ((2499, 1), (2500, 1), (2501, 2)):
        yield accepted("persons-and-length-%d" % ls, stacked([aboard(*[three_quarters] * 3)], QUARTERS._replace(ls=ls)), "A = 3/4 at L = %d" % ls, verdict=verdict)


def of_its_own(at):
    """Results and stages that no other row has."""
    results = (((7 * at + 13 * j) % 231 + 20, (31 * at + 57 * j) % 2101, (17 * at + 400 * j) % 1601, (11 * at + j) % 40 - 2) for j in range(3))
    stages = ((1 + (997 * at + 313 * j) % 300000, 1 + (89 * at + 7 * j) % 20000, (3 * at + 11 * j) % 61, (41 * at + 5 * j) % 801, (19 * at + 300 * j) % 1511, (at + j) % 2)
              for j in range(3))
    return sum(results, ()) + sum(stages, ())


def in_turn():
    """Rows with results and stages of their own one after another, in heights, layers and groups; the same heads in a cargo ship."""
    for name, hull, rows in (
            ("heights", SHIP, group(SHIP, 1, 1, heights=tuple(range(600, 18000, 600)))),
            ("layers-and-heights", SHIP, group(SHIP, 1, 1, layers=(100, 500), heights=(2000, 9000, 15000))),
            ("groups", FERRY, every_group(FERRY)), ("groups-layers-and-heights", FERRY, every_group(FERRY, layers=(300,), heights=(9000,)))):
        rows = [one._replace(figures=of_its_own(at)) for at, one in enumerate(rows)]
        marks = [tuple(byte(one.figures[4 * j:4 * j + 4], one.figures[17 + 6 * j]) for j in range(3)) for one in rows]
        yield accepted("in-turn-%s" % name, case_file(hull, rows), "rows in %s, each with results and stages of its own" % name.replace("-", " "), marks=marks)
    rows = every_group(FERRY, layers=(11, 300), heights=(9000,))
    for name, hull, figures in (("passengers", FERRY, ABOARD), ("cargo", FERRY._replace(persons=None), SAFE)):
        yield accepted("same-ship-%s" % name, case_file(hull, [one._replace(figures=figures) for one in rows]), "one ship, all surviving, of %s" % name, verdict=1)
    shares = [Figures(hull, rows).answer()[2] for hull in (FERRY, FERRY._replace(persons=None))]
    assert shares[0] == shares[1]


def hulls():
    """Ships of many shapes: the one that document 01 prints, as short and narrow as can be, with thin zones, of twenty zones, with spans at the edges of
    the bands."""
    half = [((120, 100, 0, 0), CALM), ((1040, 1600, 700, 0), stage(100000, 200000)), ((200, 125, 700, 0), stage(roro=1))]
    rows = [Row(*group_of, 800, 18500, aboard(*three)) for group_of, three in (((1, 1), half), ((1, 2), [(AFLOAT, stage(heel=1501))] * 3), ((2, 1), [FINE] * 3))]
    yield accepted("printed-in-the-paper", case_file(PRINTED._replace(persons=(400, 600)), rows), "document 01's printed ship with passengers: the same ends",
                   verdict=1, marks=[(2, 0, 2), (0, 0, 0), (0, 0, 0)])
    short = Hull(2000, 400, 1000, 500, (), (0, 0))
    for name, hull in (("one-zone", short), ("four-zones", FERRY), ("twenty-zones", Hull(19800, 6000, 30000, 500, tuple(990 * i for i in range(1, 20)), (10000, 10000)))):
        yield accepted("%s-no-rows" % name, case_file(hull, []), "no rows: all ends 0, verdict 2", verdict=2)
        yield accepted("%s-every-group" % name, case_file(hull, every_group(hull, figures=ABOARD)), "every group listed, all surviving", verdict=1)
        if hull.zones < 20:
            yield accepted("%s-all-lost" % name, case_file(hull, every_group(hull, figures=aboard(LOST, LOST, LOST))), "every group listed, none surviving", verdict=2)
    for ls, breadth, bulkheads, layers in (
            (2000, 400, (1, 3, 1000, 1999), (1, 199)), (2001, 402, (303, 304, 606, 607, 1303), (67,)), (3300, 998, (500, 1000, 1500, 2500), (11, 97)),
            (3301, 1000, (501, 1001, 1502, 2503), (33, 34)), (4567, 766, (691, 692, 1383, 1384), (5, 120)), (7999, 1002, (1212, 2424, 3636), (100, 250)),
            (7333, 5998, (24, 2222, 2246, 5111), (7, 1500)), (2000, 6000, (13, 14, 700, 1993), (3, 2999))):
        hull = Hull(ls, breadth, 4005, 2500, bulkheads, (ls % 700, breadth % 300))
        yield accepted("short-ship-%d-%d" % (ls, breadth), case_file(hull, every_group(hull, layers=layers, figures=ABOARD)),
                       "every group of a ship of %d by %d cm in %d layers" % (ls, breadth, len(layers) + 1), verdict=1)


def sizes():
    """As many rows as 65,536 bytes hold, and one more; one more zone."""
    for zones, count, size in ((4, 428, 65534), (20, 427, 65445), (5, 428, 65538), (1, 429, 65675)):
        hull = Hull(9000, 1800, 6000, 4500, tuple(400 * i for i in range(1, zones)), (400, 600))
        rows = [one._replace(figures=of_its_own(at)) for at, one in enumerate(group(hull, 1, zones, heights=tuple(range(1, count))))]
        data = case_file(hull, rows)
        assert len(data) == size
        name, shows = "rows-%d-zones-%d" % (count, zones), "%d rows in %d zones: %d bytes" % (count, zones, size)
        yield accepted(name, data, shows) if size <= 65536 else refused(name, data, 1, 0, shows)


def seeded():
    for seed in range(16):
        hull, rows = seeded_case(Dice(4000 + seed), (8, 24, 40)[seed % 3], zones=(None, 2, 3, None, 5, 7)[seed % 6], passengers=True, rule=0)
        yield accepted("seeded-%02d" % seed, case_file(hull, rows), "seeded: %d zones, %d rows" % (hull.zones, len(rows)))
    for seed in range(16):
        dice = Dice(4100 + seed)
        data, words = damaged(dice, joined(lines_of(*seeded_case(dice, 8, passengers=True, rule=0))))
        yield Case("damaged-%02d" % seed, data, "seeded damage: %s" % words, Judging().refusal(data))


def cases():
    for part in (final_stages, intermediate_stages, heeling_moments, products_of_two, deciding, immersed, each_byte, ro_ro, verdicts, in_turn, hulls, sizes,
                 seeded, *passengers_refused.PARTS):
        for case in part():
            yield case
