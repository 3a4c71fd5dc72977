"""Hulls, rows and whole cases by dice, which are valid but for passenger ships whose R is not taken: of many shapes, with many numbers at a limit."""

from .figures import Figures
from .frames import Hull, Row
from .shapes import AFLOAT, CALM, every_group, groups_of, with_openings

MOST_PASSENGER_ROWS = 427  # of 20 zones, in 65,536 bytes


def places(dice, hull_length, count):
    """So many different inner bulkheads, some of them close together or near the ends."""
    found = set()
    while len(found) < count:
        way = dice.below(6)
        if way == 0 and found:
            place = dice.pick(sorted(found)) + dice.between(1, hull_length // 30)
        elif way == 1:
            place = dice.pick((1, 2, hull_length - 1, hull_length - 2, hull_length // 2))
        elif way == 2:
            place = dice.pick((5, 10)) * hull_length // 33 + dice.between(-1, 1)
        else:
            place = dice.between(1, hull_length - 1)
        if 0 < place < hull_length:
            found.add(place)
    return tuple(sorted(found))


def seeded_hull(dice, zones=None):
    ls = dice.pick((8000, 9900, 10000, 10001, 19800)) if dice.one_in(5) else dice.between(8000, 19800)
    breadth = dice.pick((1000, 6000)) if dice.one_in(6) else 2 * dice.between(500, 3000)
    return with_zones(dice, Hull(ls, breadth, *seeded_draughts(dice)), zones)


def seeded_draughts(dice):
    ds = dice.pick((1000, 30000)) if dice.one_in(6) else dice.between(1000, 30000)
    return ds, ds if dice.one_in(6) else ds - 5 * dice.between(0, (ds - 500) // 5)


def with_zones(dice, hull, zones):
    """The hull with so many zones, or as many as it may be."""
    count = zones or dice.pick((1, 2, 2, 3, 3, 4, 5, 6, 8, 12, 20))
    return hull._replace(bulkheads=places(dice, hull.ls, count - 1))


def seeded_layers(dice, hull, count):
    """The layers before B/2; now and then one where 15Bx = bL or next to it for some zone."""
    layers = set()
    ends = (0,) + hull.bulkheads + (hull.ls,)
    for _ in range(count):
        at = dice.below(hull.zones)
        edge = 15 * hull.breadth * (ends[at + 1] - ends[at]) // hull.ls + dice.between(-1, 1)
        b = edge if dice.one_in(3) else dice.pick((1, hull.half - 1)) if dice.one_in(6) else dice.between(1, hull.half)
        if 1 <= b < hull.half:
            layers.add(b)
    return sorted(layers)


def seeded_heights(dice, hull, count):
    """The heights under the top, many of them at a step of v."""
    heights = set()
    for _ in range(count):
        draught = dice.pick((hull.ds, hull.dl, hull.dl + 3 * (hull.ds - hull.dl) // 5))
        step = draught + dice.pick((0, 7800, 12500)) + dice.between(-1, 1)
        height = step if dice.one_in(2) else dice.between(1, hull.top)
        if 1 <= height < hull.top:
            heights.add(height)
    return sorted(heights)


def mixed_figures(dice, hull):
    """Lever, range and heel at three draughts, or given survivals, many of them at a cap or a limit."""
    if dice.one_in(3):
        return tuple(dice.pick((0, 1, 9999, 10000)) if dice.one_in(3) else dice.below(10001) for _ in range(3))
    return sum((mixed_result(dice) for _ in range(3)), ())


def mixed_result(dice):
    """Lever, range and heel of one draught, many of them at a cap or a limit."""
    lever = dice.pick((0, 1, 119, 120, 121, 5000)) if dice.one_in(3) else dice.between(0, 130)
    reach = dice.pick((0, 1, 1599, 1600, 1601, 9000)) if dice.one_in(3) else dice.between(0, 1700)
    heel = dice.pick((0, 2499, 2500, 2501, 2999, 3000, 3001, 9000)) if dice.one_in(3) else dice.between(0, 3100)
    return lever, reach, heel


def mild_figures(dice, hull):
    """Levers, ranges and heels, or given survivals, that most ships would be glad of."""
    if dice.one_in(3):
        return tuple(dice.between(5000, 10000) for _ in range(3))
    return tuple(figure for _ in range(3) for figure in (dice.between(60, 150), dice.between(800, 2000), dice.between(0, 2600)))


def marked_figures(dice, hull):
    """A survival next to the required index, given or from lever and range."""
    over, under = Figures(hull, []).required()
    mark = 10000 * over // under
    lever = dice.between(1, 120)
    reach = mark ** 4 * 192000 // (10 ** 16 * lever) + dice.below(2)
    if dice.one_in(2) or not 1 <= reach <= 1600:
        return (mark + dice.between(-1, 2),) * 3
    return (lever, reach, 0) * 3


def seeded_opening(dice, immersed):
    """An opening below the final waterline or not, many of them at it or at a limit."""
    if immersed:
        return dice.pick((-1, -1, -2, -30000)) if dice.one_in(2) else -dice.between(1, 3000)
    return dice.pick((0, 0, 1, 30000)) if dice.one_in(2) else dice.between(0, 3000)


def seeded_openings(dice, rows):
    """The rows with their openings: in half of the ships all of them dry, in the others most."""
    count = dice.pick((0, 0, 6, 20))  # one in so many is immersed
    return [row._replace(figures=with_openings(row.figures, [seeded_opening(dice, count and dice.one_in(count)) for _ in range(3)])) for row in rows]


def beside(dice, lever, reach, heel, opening):
    """A result for the second set beside the first one's: the same, one of the same or nearly the same survival, one number moved, or any."""
    way = dice.below(7)
    if way == 0:
        return lever, reach, heel, opening
    if way == 1:  # lever and range in each other's part of their caps: the survival stays, but for rounding
        return min(reach * 120 // 1600, 5000), min(lever * 1600 // 120, 9000), heel, opening
    if way == 2:
        by = dice.pick((-1, 1))
        moved = dice.pick(((lever + by, reach, heel), (lever, reach + by, heel), (lever, reach, heel + by)))
        return tuple(min(max(number, 0), most) for number, most in zip(moved, (5000, 9000, 9000))) + (opening,)
    if way == 3:
        return lever, reach, heel, seeded_opening(dice, opening >= 0)
    return mixed_result(dice) + (seeded_opening(dice, dice.one_in(6)),)


def seeded_second_sets(dice, rows):
    """The rows with second sets: in half of the ships none, in the others in some rows of results or in all."""
    count = dice.pick((0, 0, 1, 3))  # one in so many has a second set

    def with_second(row):
        first = row.figures
        if len(first) == 3 or not count or not dice.one_in(count):
            return row
        return row._replace(figures=first + sum((tuple(beside(dice, *first[at:at + 4])) for at in (0, 4, 8)), ()))
    return [with_second(row) for row in rows]


def seeded_rows(dice, hull, most):
    """Closed groups in order, at most so many rows, of the hull's ship type."""
    listed = groups_of(hull, dice.pick((1, 2, 3, hull.zones, hull.zones)))
    if dice.one_in(2):
        listed = [one for one in listed if dice.one_in(2)]
    deep, tall = dice.below(4), dice.below(4)
    figures = dice.pick((mixed_figures, mixed_figures, mild_figures, marked_figures) if hull.persons is None else PASSENGER_FIGURES)
    rows = []
    for a, n in listed:
        more = []
        for b in seeded_layers(dice, hull, deep) + [hull.half]:
            top = dice.pick((hull.top, hull.top, hull.top + 1, 60000, dice.between(hull.top, 60000)))
            more += [Row(a, n, b, h, figures(dice, hull)) for h in seeded_heights(dice, hull, tall) + [top]]
        if len(rows) + len(more) > most:
            break
        rows += more
    rows = seeded_openings(dice, rows)
    return seeded_second_sets(dice, rows) if hull.persons is None else seeded_stages(dice, hull, rows)


def seeded_case(dice, most=60, zones=None, passengers=False, rule=None):
    """A cargo ship or a passenger ship, under this rule or either, whose rows are so long that fewer fit into a file. Under either rule one in three has an
    index next to its mark."""
    hull = seeded_ferry(dice, zones, rule) if passengers else seeded_hull(dice, zones)
    if passengers and rule is None and most and dice.one_in(3):
        return about_its_mark(dice, hull, most)
    return hull, seeded_rows(dice, hull, min(most, MOST_PASSENGER_ROWS) if passengers else most)


# passenger ships


def split(dice, total):
    """So many persons in lifeboats and in excess: as many as can be of one sort, or any of both."""
    least, most = max(total - 10000, 0), min(total, 10000)
    in_lifeboats = dice.pick((least, most, dice.between(least, most), dice.between(least, most)))
    return in_lifeboats, total - in_lifeboats


def seeded_persons(dice, rule, taken=True):
    """Persons of either sort, many of them at a limit; under the rule of 2020 as many as one of its forms takes, or as none does."""
    if rule == 0:
        return tuple(dice.pick((0, 1, 9999, 10000)) if dice.one_in(4) else dice.below(10001) for _ in range(2))
    edges, forms = ((0, 399, 400, 1350, 6001, 20000), ((0, 399), (400, 1350), (6001, 20000))) if taken else ((1351, 6000), ((1351, 6000),))
    return split(dice, dice.pick(edges) if dice.one_in(2) else dice.between(*dice.pick(forms)))


def seeded_ferry(dice, zones=None, rule=None):
    """A passenger ship's hull: of any length and breadth, many of them shorter or narrower than a cargo ship can be, and any number of persons. Under a rule
    that is asked for it is one that is taken; otherwise one in twelve under the rule of 2020 is not."""
    ls = dice.pick((2000, 2001, 7999, 8000, 19800)) if dice.one_in(5) else dice.between(2000, dice.pick((8000, 19800)))
    breadth = dice.pick((400, 402, 998, 6000)) if dice.one_in(6) else 2 * dice.between(200, dice.pick((500, 3000)))
    draughts = seeded_draughts(dice)
    under = dice.below(2) if rule is None else rule
    persons = seeded_persons(dice, under, rule is not None or not dice.one_in(12))
    return with_zones(dice, Hull(ls, breadth, *draughts, persons=persons, rule=under), zones)


def final_figures(dice, hull):
    """Lever, range and heel of the final stage at three draughts, many of them at a cap or a limit, with a ro-ro mark or without."""
    return sum((final_result(dice) for _ in range(3)), ())


def final_result(dice):
    lever = dice.pick((0, 1, 39, 40, 41, 119, 120, 121, 199, 200, 201, 5000)) if dice.one_in(3) else dice.between(20, dice.pick((220, 220, 5000)))
    reach = dice.pick((0, 1, 1599, 1600, 1601, 1999, 2000, 2001, 9000)) if dice.one_in(3) else dice.between(0, 2200)
    heel = dice.pick((0, 699, 700, 701, 1499, 1500, 1501, 3000, 9000)) if dice.one_in(3) else dice.between(0, 1600)
    return lever, reach, heel


def upright_figures(dice, hull):
    """Final stages that most passenger ships would be glad of."""
    return tuple(figure for _ in range(3) for figure in (dice.between(100, 1500), dice.between(1400, 2500), dice.between(0, 800)))


def certain_figures(dice, hull):
    """Final stages that leave survival to the heeling moment and the intermediate stage."""
    return tuple(figure for _ in range(3) for figure in (dice.between(200, 5000), dice.between(2000, 9000), dice.between(0, 700)))


PASSENGER_FIGURES = (final_figures, upright_figures, certain_figures, certain_figures)


def seeded_moment(dice, lever, displacement, required, way):
    """A heeling moment that does not count, one at which s-mom is next to the required index, or any: next to one, a part of one, at a limit."""
    full = max(lever - 40, 0) * displacement // 1000  # the most at which s-mom is one
    over, under = required
    moment = {"none": 1, "required": full * under // over + dice.between(-1, 1)}.get(way)
    if moment is None:
        moment = dice.pick((full + dice.between(-1, 2), full * 10000 // dice.between(3000, 9999), dice.pick((1, 1999999, 2000000)), dice.between(1, 2000000)))
    return min(max(moment, 1), 2000000)


def seeded_stage(dice, lever, required, way, rough):
    """What a row has at one draught beside this lever: one in so many intermediate stages is not calm, all where that is 1, none where it is 0."""
    displacement = dice.pick((1, 2, 299999, 300000)) if way == "any" and dice.one_in(4) else dice.between(1 if way == "any" else 100000, 300000)
    between = 50 + dice.below(20), 700 + dice.below(20), dice.pick((0, 700, 1499, 1500))
    if rough and dice.one_in(rough):
        between = (dice.pick((0, 1, 49, 50, 51, 5000)) if dice.one_in(2) else dice.between(0, 60),
                   dice.pick((0, 1, 699, 700, 701, 9000)) if dice.one_in(2) else dice.between(0, 800),
                   dice.pick((0, 701, 1499, 1500, 1501, 3000, 9000)) if dice.one_in(2) else dice.between(0, 1500))
    return (displacement, seeded_moment(dice, lever, displacement, required, way)) + between + (dice.below(2),)


def seeded_stages(dice, hull, rows):
    """The rows with their stages: calm ones in some ships, in others one in so many decides; and with heeling moments of one way or another."""
    rough, way, required = dice.pick((0, 0, 1, 2, 5)), dice.pick(("none", "required", "any")), Figures(hull, []).required()

    def staged(row):
        return row._replace(figures=row.figures + sum((seeded_stage(dice, row.figures[at], required, way, rough) for at in (0, 4, 8)), ()))
    return [staged(row) for row in rows]


def about_its_mark(dice, hull, most):
    """A passenger ship with every group, of one zone where those are too many, whose A is next to R of its rule, or a partial index next to 0.9 R, by the
    heeling moment alone."""
    hull = hull if len(groups_of(hull)) <= most else hull._replace(bulkheads=())
    (over, under), at = Figures(hull, []).required(), dice.below(4)  # the draught whose partial index it is; 3 where it is A
    moment = dice.between(100000, 300000)
    whole = moment * over // under if at == 3 else moment * 9 * over // (10 * under)
    held = whole + dice.pick((-moment // 5000, -moment // 10000, -1, 0, 1, moment // 10000, moment // 5000)), moment, 50, 700, 0, dice.below(2)
    results = tuple((1040, 9000, 0, 0) if at in (3, place) else AFLOAT for place in range(3))
    stages = tuple(held if at in (3, place) else CALM for place in range(3))
    return hull, every_group(hull, figures=sum(results + stages, ()))
