"""Groups that touch the stern alone, the bow alone, both or neither, and the spans that are taken off them."""

from ..case import accepted
from ..frames import Hull, case_file
from ..shapes import group

HULLS = (Hull(12001, 2202, 8000, 5000, (120, 2500, 6007, 11800)), Hull(9001, 1234, 6001, 4001, (2800, 3300, 3310)))


def words(hull, a, n):
    aft, fore = a == 1, a + n - 1 == hull.zones
    return "both ends" if aft and fore else "the stern alone" if aft else "the bow alone" if fore else "neither end"


def cases():
    for at, hull in enumerate(HULLS):
        last = hull.zones
        for a, n in ((1, 1), (1, 2), (1, 3), (1, last - 1), (1, last), (last, 1), (last - 1, 2), (last - 2, 3), (2, last - 1), (2, 1), (2, 2)):
            if at and n == 3 and last == 4:
                continue
            rows = group(hull, a, n, layers=(hull.half // 40, hull.half // 3))
            yield accepted("hull-%d-group-%d-%d" % (at + 1, a, n), case_file(hull, rows),
                           "group (%d, %d) touches %s" % (a, n, words(hull, a, n)))
    for places in ((4000,), (4000, 8000), (1,), (11999,), (1, 11999)):
        hull = Hull(12000, 2000, 8000, 5000, places)
        rows = group(hull, 1, hull.zones, layers=(7, 333))
        yield accepted("whole-ship-cut-at-%s" % "-".join(map(str, places)), case_file(hull, rows),
                       "the whole ship as a group of %d: every span taken off touches one end" % hull.zones)
    hull = Hull(12000, 2000, 8000, 5000)
    for b in (1, 100, 999):
        yield accepted("whole-ship-one-zone-%d" % b, case_file(hull, group(hull, 1, 1, layers=(b,))), "one zone from end to end, G = G1 at b = %d" % b)
