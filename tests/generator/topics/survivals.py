"""Height and survival alone: one zone, so that the partials print v and s themselves."""

from ..case import accepted
from ..found import NEAR_ROOTS
from ..frames import Hull, Row, case_file
from ..shapes import CERTAIN, NONE, dry, group

SHIP = Hull(12000, 2000, 8005, 5000)


def result(name, figures, shows):
    return accepted(name, case_file(SHIP, [Row(1, 1, SHIP.half, SHIP.top, dry(figures))]), shows)


def named(one):
    return "-".join(map(str, one))


def levers():
    caps = [
        ((119, 1600, 0), (120, 1600, 0), (121, 1600, 0)), ((120, 1599, 0), (120, 1600, 0), (120, 1601, 0)),
        ((120, 1600, 2499), (120, 1600, 2500), (120, 1600, 2501)), ((120, 1600, 2999), (120, 1600, 3000), (120, 1600, 3001)),
        ((5000, 1, 0), (1, 9000, 0), (5000, 9000, 9000)), ((240, 800, 0), (60, 3200, 0), (240, 3200, 2750)),
        ((0, 1600, 0), (120, 0, 0), (0, 0, 0)), ((1, 1600, 0), (120, 1, 0), (1, 1, 0)), ((1, 1, 2999), (119, 1599, 2999), (1, 1, 2501)),
        ((30, 400, 0), (60, 800, 0), (120, 1600, 2995)), ((121, 1599, 2501), (119, 1601, 2501), (121, 1601, 2999)),
        ((120, 1600, 2502), (120, 1600, 2750), (120, 1600, 2998)), ((119, 1599, 2499), (119, 1599, 2500), (119, 1599, 2501)),
        ((5000, 9000, 0), (5000, 9000, 2500), (5000, 9000, 2501)),
    ]
    for three in caps:
        yield result("results-%s" % "-".join(map(named, three)), sum(three, ()), "lever, range and heel %s, %s, %s" % three)
    for name, found in sorted(NEAR_ROOTS.items()):
        for at in range(0, len(found) - len(found) % 3, 3):
            three = tuple(found[at:at + 3])
            shows = "s is whole at each draught" if name == "whole" else "s is next to whole, from %s, at each draught" % name
            yield result("roots-%s-%s" % (name, "-".join(map(named, three))), sum(three, ()), shows)
    for three in ((0, 1, 10000), (9999, 5000, 1), (10000, 0, 0), (0, 10000, 0), (0, 0, 10000)):
        yield result("given-%s" % named(three), three, "given survivals %s at the deepest, partial and light draught" % (three,))


def heights():
    """v on its own: the lower row survives and the row above it does not, or the other way."""
    draughts = (("ds", 8005), ("dp", 6803), ("dl", 5000))
    for name, draught in draughts:
        for h in (-1, 0, 1, 7799, 7800, 7801, 12499, 12500, 12501):
            height = draught + h
            rows = [Row(1, 1, SHIP.half, height, CERTAIN)] if height >= SHIP.top else [
                Row(1, 1, SHIP.half, height, CERTAIN), Row(1, 1, SHIP.half, SHIP.top, NONE)]
            yield accepted("height-%s-%s" % (name, str(h).replace("-1", "less-1")), case_file(SHIP, rows), "H = %s%+d: the lower row alone survives" % (name, h))
    for low, high in ((8006, 15805), (15806, 20504), (1, 8005), (12905, 12906)):
        rows = [Row(1, 1, SHIP.half, h, CERTAIN if h == high else NONE) for h in (low, high, SHIP.top)]
        yield accepted("height-between-%d-%d" % (low, high), case_file(SHIP, rows), "only the row from H = %d to H = %d survives" % (low, high))
    layered = [row._replace(figures=CERTAIN if row.h == 13000 else NONE) for row in group(SHIP, 1, 1, (200, 500), (9000, 13000))]
    yield accepted("height-in-each-layer", case_file(SHIP, layered), "v starts again in each layer: the middle row of three layers survives")
    first = [row._replace(figures=CERTAIN if row.h == 9000 else NONE) for row in group(SHIP, 1, 1, (200, 500), (9000, 13000))]
    yield accepted("height-first-in-each-layer", case_file(SHIP, first), "the first row of each layer counts from 0")
    for ds, dl in ((1000, 500), (30000, 500), (30000, 30000), (7777, 7772), (10000, 9990)):
        hull = Hull(12000, 2000, ds, dl)
        rows = [Row(1, 1, 1000, 10000, CERTAIN), Row(1, 1, 1000, hull.top, NONE)]
        yield accepted("height-draughts-%d-%d" % (ds, dl), case_file(hull, rows), "H = 10,000 at ds = %d, dl = %d" % (ds, dl))


def cases():
    for part in (levers, heights):
        for case in part():
            yield case
