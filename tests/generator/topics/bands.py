"""Lengths where one centimetre at a band's edge, or < for <= at 15Bx = bL, shows in a printed end; found by search."""

from ..case import accepted
from ..found import BAND_EDGES, DEPTH_EDGES
from ..frames import Hull, case_file
from ..shapes import every_group, group


def by_length():
    for (edge, side, ends), (_, pairs) in sorted(BAND_EDGES.items()):
        for ls, x in pairs:
            where = "last-in" if side == 1 else "first-past"
            touching = "one-end" if ends else "inner"
            hull = Hull(ls, 2000, 8000, 5000, (x, 2 * x) if ends else (500, 500 + x))
            yield accepted("%s-%d-33-%s-%d" % (where, edge, touching, ls), case_file(hull, every_group(hull, longest=2)),
                           "L = %d, x = %d: %s the band 33x <= %dL, %s" % (ls, x, where.replace("-", " "), edge, touching.replace("-", " ")))
    for ls in (8019, 19800):
        for edge in (5, 10):
            x = edge * ls // 33
            for more in (-1, 0, 1):
                hull = Hull(ls, 2000, 8000, 5000, (x + more, 2 * (x + more)))
                yield accepted("edge-%d-33-%d-%s" % (edge, ls, ("less-1", "exact", "more-1")[more + 1]), case_file(hull, every_group(hull)),
                               "L = %d, x = %d: 33x = %dL %s" % (ls, x + more, edge, ("less 33", "exactly", "and 33 more")[more + 1]))


def by_depth():
    for ends, (_, found) in sorted(DEPTH_EDGES.items()):
        for ls, breadth, x, b in found:
            hull = Hull(ls, breadth, 8000, 5000, (x,) if ends else (500, 500 + x))
            rows = group(hull, 1 if ends else 2, 1, layers=sorted({max(b - 1, 1), b, b + 1}))
            yield accepted("depth-edge-%s-%d-%d" % ("one-end" if ends else "inner", ls, b), case_file(hull, rows),
                           "15Bx = bL for L = %d, B = %d, x = %d, b = %d and b one off" % (ls, breadth, x, b))
    for ls, breadth, x in ((9900, 1600, 33), (15000, 3000, 7), (19800, 6000, 660), (8000, 1000, 1)):
        b = 15 * breadth * x // ls
        layers = [one for one in range(b - 1, b + 3) if 1 <= one < breadth // 2]
        hull = Hull(ls, breadth, 8000, 5000, (x, 2 * x, ls - x))
        yield accepted("depth-edge-all-groups-%d-%d" % (ls, x), case_file(hull, every_group(hull, layers=layers)),
                       "zones of %d cm at both ends and inside, b about 15Bx/L" % x)


def cases():
    for part in (by_length, by_depth):
        for case in part():
            yield case
