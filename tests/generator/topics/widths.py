"""Ends that lie far apart, sums above one, and lower ends held at 0."""

from ..case import accepted
from ..found import FULL_SHIPS, WIDE_ROWS
from ..frames import Hull, case_file
from ..shapes import SAFE, every_group, group


def wide():
    known = [(32, 10621, 3966, (1371, 3256, 4258, 4766), 2, 3, 122, 48)]
    for far, ls, breadth, places, a, n, b, before in known + list(WIDE_ROWS):
        hull = Hull(ls, breadth, 8000, 5000, places)
        yield accepted("row-%d-apart-%d" % (far, ls), case_file(hull, group(hull, a, n, layers=(before, b))),
                       "the second row's ends are %d billionths apart" % far)
        if far == 32:
            yield accepted("all-groups-of-%d" % ls, case_file(hull, every_group(hull, layers=(before, b), figures=SAFE)),
                           "all groups of the ship with the row that is %d apart" % far)


def above_one():
    for over, ls, breadth, places, layers in FULL_SHIPS:
        hull = Hull(ls, breadth, 8000, 5000, places)
        yield accepted("as-%d-above-one" % over, case_file(hull, every_group(hull, layers=layers)),
                       "20 zones, all groups, all surviving: the upper end of As is %d above one" % over, verdict=1)
    hull = Hull(8001, 1002, 8000, 5000, tuple(range(401, 8001, 400))[:19])
    heights = (9000,)
    yield accepted("above-one-in-two-heights", case_file(hull, every_group(hull, heights=heights)), "all groups in two rows each, all surviving")


def held():
    """Groups so long that their exact share is 0: the lower end is held, the upper end is not."""
    hull = Hull(12007, 2002, 8000, 5000, (4001, 8001))
    yield accepted("share-of-nothing-long-middle", case_file(hull, group(hull, 1, 3, layers=(11, 97, 401))),
                   "a middle zone longer than the longest damage: the share of all three is 0 and its lower end is held at 0")
    hull = Hull(19801 - 1, 5998, 8000, 5000, (1000, 8000, 15000))
    yield accepted("share-of-nothing-neither-end", case_file(hull, every_group(hull, layers=(3, 57, 1009))),
                   "pairs and threes with a share of 0 among others")
    tiny = Hull(19800, 6000, 8000, 5000, tuple(range(1, 20)))
    yield accepted("share-of-next-to-nothing", case_file(tiny, every_group(tiny, layers=(1,), longest=4)),
                   "zones of one centimetre: shares of no billionth or a few")


def cases():
    for part in (wide, above_one, held):
        for case in part():
            yield case
