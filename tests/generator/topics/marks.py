"""What holds a survival down: each number at its cap and beside it, each byte at each draught, given survivals, and rows that differ."""

from ..case import accepted
from ..frames import Hull, Row, case_file
from ..shapes import FOUR, dry, every_group, group

SHIP = Hull(12000, 2000, 8005, 5000)
AT_CAPS = (120, 1600, 2500)
WELL_OFF = (5000, 9000, 0)
SHORT = (119, 1599, 2501)  # each number just so that it is marked


def with_byte(byte, high=AT_CAPS, low=SHORT):
    """The result whose marks add up to this: numbers of `low` where there is a mark, of `high` where there is none."""
    return tuple(low[at] if byte >> at & 1 else high[at] for at in range(3))


def stacked(rows):
    """A file of one zone with these figures from the keel up; of many rows the last alone is out of the water, and counts."""
    heights = [*range(1, len(rows)), SHIP.top]
    return case_file(SHIP, [Row(1, 1, SHIP.half, h, dry(figures)) for h, figures in zip(heights, rows)])


def results(name, three, marks, shows):
    """One row with a result at each draught, and its bytes by hand."""
    return accepted(name, stacked([sum(three, ())]), shows, marks=[tuple(marks)])


def beside_caps():
    """A number from below its cap to above it, at the three draughts in turn; the other two at their caps, well off, and marked too."""
    edges = (("lever", 0, ((119, 120, 121), (0, 1, 5000)), lambda number: number < 120, 1),
             ("range", 1, ((1599, 1600, 1601), (0, 1, 9000)), lambda number: number < 1600, 2),
             ("heel", 2, ((2499, 2500, 2501), (2999, 3000, 3001), (0, 2750, 9000)), lambda number: number > 2500, 4))
    for name, at, sets, held, one in edges:
        for numbers in sets:
            for words, others, more in (("at-caps", AT_CAPS, 0), ("well-off", WELL_OFF, 0), ("marked", SHORT, 7 - one)):
                for turn in range(3):
                    told = numbers[turn:] + numbers[:turn]
                    three = [others[:at] + (number,) + others[at + 1:] for number in told]
                    yield results("%s-%s-others-%s" % (name, "-".join(map(str, told)), words), three, [one * held(number) + more for number in told],
                                  "%s %d, %d and %d at the three draughts, the others %s" % (name, *told, words.replace("-", " ")))


def nothing():
    """A survival of 0 says which number it is, and what else is short."""
    for name, result, byte in (
            ("lever-0", (0, 1600, 2500), 1), ("range-0", (120, 0, 2500), 2), ("lever-and-range-0", (0, 0, 0), 3), ("heel-3000", (120, 1600, 3000), 4),
            ("heel-9000", (5000, 9000, 9000), 4), ("lever-0-heel-3000", (0, 1600, 3000), 5), ("range-0-heel-3000", (120, 0, 3000), 6),
            ("lever-0-range-0-heel-3000", (0, 0, 3000), 7), ("lever-0-range-1599", (0, 1599, 2500), 3), ("lever-119-range-0", (119, 0, 2500), 3),
            ("lever-0-heel-2501", (0, 1600, 2501), 5), ("lever-119-heel-3000", (119, 1600, 3000), 5), ("range-1599-heel-3000", (120, 1599, 3000), 6)):
        yield results("nothing-by-%s" % name, [result, AT_CAPS, result], [byte, 0, byte], "lever, range and heel %d, %d, %d: survival is 0" % result)


def each_byte():
    """The eight bytes at one draught, the other two with no mark or with all; and different bytes at the three."""
    names = ("deepest", "partial", "light")
    for at, name in enumerate(names):
        for words, other in (("no-mark", 0), ("all-marks", 7)):
            marks = [tuple(byte if place == at else other for place in range(3)) for byte in range(8)]
            rows = [sum(map(with_byte, three), ()) for three in marks]
            yield accepted("each-byte-%s-others-%s" % (name, words), stacked(rows), "each byte at the %s draught, %s at the others"
                           % (name, words.replace("-", " ")), marks=marks)
    for byte in range(8):
        marks = (byte, (byte + 3) % 8, (byte + 5) % 8)
        yield results("three-bytes-%d-%d-%d" % marks, [with_byte(one) for one in marks], marks, "the bytes %d, %d and %d at the three draughts" % marks)
        yield results("far-off-%d" % byte, [with_byte(byte, WELL_OFF, low) for low in ((1, 1, 2999), (0, 0, 9000), (60, 800, 2750))], [byte] * 3,
                      "the byte %d, of numbers far from their caps" % byte)


def given():
    """Given survivals have no mark, whatever they would say as lever, range or heel."""
    for three in ((0, 0, 0), (10000, 10000, 10000), (0, 10000, 5000), (119, 1599, 2501), (120, 1600, 2500), (9999, 1, 3000)):
        yield accepted("given-%d-%d-%d" % three, stacked([three]), "given survivals %d, %d and %d" % three, marks=[(0, 0, 0)])
    rows, marks = [], []
    for byte in range(8):
        rows += [with_byte(byte) * 3, (0, 119, 1599), with_byte(7 - byte) * 3, (2501, 9999, 10000)]
        marks += [(byte,) * 3, (0, 0, 0), (7 - byte,) * 3, (0, 0, 0)]
    yield accepted("given-between-results", stacked(rows), "a given survival after each row with results", marks=marks)


def in_turn():
    """Rows with marks of their own one after another: in one layer, in layers and in groups."""
    every = [(deepest, partial, light) for deepest in range(8) for partial in range(8) for light in range(8)]
    for name, marks in (("first-500", every[:500]), ("last-500", every[:11:-1])):
        yield accepted("every-three-bytes-%s" % name, stacked([sum(map(with_byte, three), ()) for three in marks]),
                       "500 of the 512 ways that three bytes can be, a row each", marks=marks)
    for name, hull, rows in (
            ("layers", SHIP, group(SHIP, 1, 1, layers=(100, 200, 300, 400, 500, 600, 700))),
            ("layers-and-heights", SHIP, group(SHIP, 1, 1, layers=(100, 500), heights=(2000, 9000, 15000))),
            ("groups", FOUR, every_group(FOUR)), ("groups-layers-and-heights", FOUR, every_group(FOUR, layers=(300,), heights=(9000,)))):
        marks = [((3 * at + 1) % 8, (5 * at + 2) % 8, (7 * at + 4) % 8) for at in range(len(rows))]
        rows = [row._replace(figures=dry(sum(map(with_byte, three), ()))) for row, three in zip(rows, marks)]
        yield accepted("in-turn-%s" % name, case_file(hull, rows), "rows in %s, each with marks of its own" % name.replace("-", " "), marks=marks)


def cases():
    for part in (beside_caps, nothing, each_byte, given, in_turn):
        for case in part():
            yield case
