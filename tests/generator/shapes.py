"""Hulls and rows of fixed shapes, which are valid: cargo ships and a passenger ship, groups, results that leave survival at one or at nothing."""

from .frames import Hull, Row

PRINTED = Hull(9900, 1600, 6000, 4000, (1500,))
FOUR = Hull(12000, 2000, 8000, 5000, (2000, 5000, 9000))
DRY = (0, 1, 30000)  # an opening for each draught: at the final waterline, just above it, and as high as can be


def with_openings(figures, openings):
    """Lever, range and heel at the three draughts, each with its opening; given survivals as they are."""
    if len(figures) == 3:
        return tuple(figures)
    return sum((tuple(figures[3 * at:3 * at + 3]) + (opening,) for at, opening in enumerate(openings)), ())


def dry(figures):
    """Results with openings that are not immersed."""
    return with_openings(figures, DRY)


SAFE = dry((120, 1600, 0) * 3)
LOST = dry((0, 0, 3000) * 3)
CERTAIN = (10000, 10000, 10000)
NONE = (0, 0, 0)

FERRY = Hull(9000, 1800, 6000, 4500, (2000, 4500, 7000), (400, 600))
CALM = (300000, 1, 50, 700, 1500, 0)  # a displacement, a moment, an intermediate stage and a ro-ro mark that leave survival to the final stage
AFLOAT = (5000, 9000, 700, 0)         # a result of the final stage that leaves survival at one, with or without a ro-ro mark
ABOARD = 3 * AFLOAT + 3 * CALM


def group(hull, a, n, layers=(), heights=(), figures=CERTAIN, top=None):
    """The rows of a closed group: the layers before B/2, the heights under the top, the same figures in each row."""
    return [Row(a, n, b, h, tuple(figures))
            for b in tuple(layers) + (hull.half,)
            for h in tuple(heights) + (hull.top if top is None else top,)]


def groups_of(hull, longest=None):
    """Every group of the hull in order, those of more zones than longest left out."""
    most = hull.zones if longest is None else longest
    return [(a, n) for a in range(1, hull.zones + 1) for n in range(1, min(most, hull.zones + 1 - a) + 1)]


def every_group(hull, layers=(), heights=(), figures=CERTAIN, longest=None):
    return [row for a, n in groups_of(hull, longest) for row in group(hull, a, n, layers, heights, figures)]
