"""Accepted case files to hold the demands against: random ones from a seed, and extreme ones built by hand."""

import random
from fractions import Fraction
from typing import NamedTuple, Optional, Tuple

from independent.letters import R
from independent.writing import given_row, hull_line, lever_row, passenger_hull_line, passenger_row, two_sets_row, whole_file

MOST_ROWS = 500
ABOVE_DEEPEST = 12_500
HIGHEST = 60_000


class Height(NamedTuple):
    """One row of a layer: its H, and three results (lever, range, heel, opening), with a second set of three or without, or three given survivals; in a
    passenger ship three results and three stages (displacement, moment, lever, range, heel, ro-ro mark)."""

    H: int
    results: Optional[Tuple[Tuple[int, int, int, int], ...]] = None
    given: Optional[Tuple[int, int, int]] = None
    second: Optional[Tuple[Tuple[int, int, int, int], ...]] = None
    stages: Optional[Tuple[Tuple[int, int, int, int, int, int], ...]] = None


class Layer(NamedTuple):
    """The rows at one b, from the lowest up."""

    b: int
    heights: Tuple[Height, ...]


class Group(NamedTuple):
    """Zones a to a+n-1 with their layers, from the shell inwards."""

    a: int
    n: int
    layers: Tuple[Layer, ...]


class Ship(NamedTuple):
    """A case as it was drawn, with a name to find it again; a passenger ship has persons in lifeboats and in excess, and is under a rule."""

    name: str
    L: int
    B: int
    ds: int
    dl: int
    bulkheads: Tuple[int, ...]
    groups: Tuple[Group, ...]
    persons: Optional[Tuple[int, int]] = None
    rule: int = 0

    @property
    def places(self):
        return (0, *self.bulkheads, self.L)

    @property
    def rows(self):
        return sum(len(layer.heights) for group in self.groups for layer in group.layers)


def line_of(head, height):
    """The line of a row, of whichever kind it is."""
    if height.given:
        return given_row(*head, height.given)
    if height.stages:
        return passenger_row(*head, height.results, height.stages)
    return two_sets_row(*head, height.results, height.second) if height.second else lever_row(*head, height.results)


def file_of_ship(ship):
    """The case file of a drawn ship."""
    lines = [line_of((group.a, group.n, layer.b, height.H), height) for group in ship.groups for layer in group.layers for height in layer.heights]
    if ship.persons is None:
        return whole_file(hull_line(ship.L, ship.B, ship.ds, ship.dl, ship.bulkheads), lines)
    return whole_file(passenger_hull_line(ship.L, ship.B, ship.ds, ship.dl, ship.persons, ship.bulkheads, rule=ship.rule), lines)


def with_heights(ship, changed):
    """The ship with each row of its layers changed."""
    groups = (group._replace(layers=tuple(layer._replace(heights=tuple(map(changed, layer.heights))) for layer in group.layers)) for group in ship.groups)
    return ship._replace(groups=tuple(groups))


def with_one_set(ship, of):
    """The ship with the first or the second set alone wherever a row has two."""
    return with_heights(ship, lambda height: height._replace(results=(height.results, height.second)[of], second=None) if height.second else height)


# Random ships


def edge_or_any(chooser, edges, low, high):
    """One of the edges, or any number of the range."""
    return chooser.choice(edges) if chooser.randrange(10) < 3 else chooser.randint(low, high)


def random_bulkheads(chooser, L, m):
    """m - 1 bulkheads: spread evenly, thrown anywhere, or crowded into one part of the ship."""
    way = chooser.randrange(3)
    if way == 0:
        return tuple(L * i // m + chooser.randint(-20, 20) for i in range(1, m))
    if way == 1:
        return tuple(sorted(chooser.sample(range(1, L), m - 1)))
    width = min(chooser.choice((40, 400, 4_000)), L // 2)
    start = chooser.choice((1, L - width, chooser.randint(1, L - width)))
    return tuple(sorted(chooser.sample(range(start, start + width), m - 1)))


def has_long_middle(ship_places, a, n):
    """A group of three or more zones whose inner zones are longer than any damage: its share is nothing."""
    L = ship_places[-1]
    return n >= 3 and 33 * (ship_places[a + n - 2] - ship_places[a]) >= 10 * L


def random_groups(chooser, places):
    """The groups to list: all, all that can be damaged, all of these but one, or any."""
    m = len(places) - 1
    every = [(a, n) for a in range(1, m + 1) for n in range(1, m - a + 2)]
    way = chooser.randrange(4)
    if way == 0:
        return every
    exposed = [group for group in every if not has_long_middle(places, *group)]
    if way == 1:
        return exposed
    if way == 2:
        left_out = chooser.choice(exposed)
        return [group for group in every if group != left_out]
    return sorted(chooser.sample(every, chooser.randint(0, len(every))))


def near_result(chooser, L):
    """Lever, range and heel whose survival is close to R, so that verdicts are hard to settle."""
    wanted = R(Fraction(L, 100)) ** 4 * 120 * 1_600
    lever = chooser.randint(int(wanted / 1_600) + 1, 120)
    return (lever, round(wanted / lever), chooser.randint(0, 2_500))


def random_opening(chooser, way):
    """A draught's opening: dry beside a result close to R, else now and then immersed, some just so and some deep."""
    if way != "near" and chooser.randrange(6) == 0:
        return -edge_or_any(chooser, (1, 2, 30_000), 1, 30_000)
    return edge_or_any(chooser, (0, 1, 30_000), 0, 30_000)


def random_curve(chooser, L, way):
    """A draught's lever, range and heel: anything, good ones, those of a survival close to R, or each at an edge."""
    if way == "any":
        return (chooser.randint(0, 5_000), chooser.randint(0, 9_000), chooser.randint(0, 9_000))
    if way == "good":
        return (chooser.randint(90, 130), chooser.randint(1_200, 1_700), chooser.randint(0, 2_700))
    if way == "near":
        return near_result(chooser, L)
    return (
        chooser.choice((0, 1, 30, 60, 119, 120, 121, 5_000)),
        chooser.choice((0, 1, 400, 800, 1_599, 1_600, 1_601, 9_000)),
        chooser.choice((0, 2_499, 2_500, 2_501, 2_750, 2_995, 2_999, 3_000, 3_001, 9_000)),
    )


def random_result(chooser, L, way):
    """A draught's result."""
    return (*random_curve(chooser, L, way), random_opening(chooser, way))


def of_equal_survival(chooser):
    """Two results whose s⁴ is the same: a part of the lever's cap and the same part of the range's, or nothing for different reasons."""
    part, heel = chooser.randint(1, 39), chooser.choice((0, 2_500, 2_501, 2_875))
    nothing = ((0, 1_600, 0, 0), (120, 0, 0, 0), (120, 1_600, 3_000, 0), (120, 1_600, 0, -1), (0, 0, 9_000, -30_000))
    return chooser.sample(chooser.choice((((3 * part, 1_600, heel, 0), (120, 40 * part, heel, 1)), nothing)), 2)


def random_pair(chooser, L, way):
    """Two results for one draught: the same, of the same survival, one number apart, or any two."""
    first = random_result(chooser, L, way)
    kin = chooser.randrange(6)
    if kin == 0 and way != "near":
        return of_equal_survival(chooser)
    if kin == 1:
        return first, first
    if kin == 2:
        place = chooser.randrange(4)
        return first, first[:place] + (first[place] - 1 if first[place] > 0 else 0,) + first[place + 1:]
    return first, random_result(chooser, L, way)


def random_height(chooser, L, H, way, two_sets):
    """A row of a layer, of any kind; one in so many rows of results has two sets, or none."""
    if way == "given" or (way != "near" and chooser.randrange(5) == 0):
        return Height(H, given=tuple(edge_or_any(chooser, (0, 1, 9_999, 10_000), 0, 10_000) for _ in range(3)))
    if two_sets and chooser.randrange(two_sets) == 0:
        first, second = zip(*(random_pair(chooser, L, way) for _ in range(3)))
        return Height(H, results=first, second=second)
    return Height(H, results=tuple(random_result(chooser, L, way) for _ in range(3)))


def random_layer(chooser, ds, b, count, height_at):
    """A layer of so many rows, the last one at the top or above."""
    top = ds + ABOVE_DEEPEST
    below = sorted(chooser.sample(range(1, top), count - 1))
    last = edge_or_any(chooser, (top, top + 1, HIGHEST), top, HIGHEST)
    return Layer(b, tuple(height_at(H) for H in (*below, last)))


def random_draughts(chooser):
    """The deepest and the light draught."""
    ds = edge_or_any(chooser, (1_000, 30_000), 1_000, 30_000)
    return ds, ds - 5 * edge_or_any(chooser, (0, (ds - 500) // 5), 0, (ds - 500) // 5)


def random_zones(chooser, L):
    """The bulkheads, and the groups to list."""
    bulkheads = random_bulkheads(chooser, L, chooser.choice((1, 2, 3, 3, 4, 5, 6, 7, 8, 10, 12, 20)))
    return bulkheads, random_groups(chooser, (0, *bulkheads, L))


def random_ship(seed, number):
    """The random cargo ship of this number under this seed."""
    chooser = random.Random(f"{seed}/{number}")
    L = edge_or_any(chooser, (8_000, 9_900, 10_000, 10_001, 10_400, 19_800), 8_000, 19_800)
    B = 2 * edge_or_any(chooser, (500, 3_000), 500, 3_000)
    ds, dl = random_draughts(chooser)
    bulkheads, chosen = random_zones(chooser, L)
    way = chooser.choice(("any", "good", "good", "near", "edges", "given"))
    two_sets = chooser.choice((0, 0, 1, 3))
    groups = random_rows(chooser, chosen, B, ds, MOST_ROWS, lambda H: random_height(chooser, L, H, way, two_sets))
    return Ship(f"random {seed}/{number}", L, B, ds, dl, bulkheads, groups)


def random_rows(chooser, chosen, B, ds, most_rows, height_at):
    """The chosen groups with their layers and rows, each row as it is drawn for its height."""
    spare = most_rows - len(chosen) if chooser.randrange(7) == 0 else chooser.randint(0, 40)
    most_layers, most_heights = chooser.choice(((1, 1), (2, 1), (3, 2), (2, 4), (8, 8)))
    groups = []
    for a, n in chosen:
        depths = sorted(chooser.sample(range(1, B // 2), min(chooser.randint(1, most_layers) - 1, spare)))
        spare -= len(depths)
        layers = []
        for b in (*depths, B // 2):
            more = min(chooser.randint(1, most_heights) - 1, spare)
            spare -= more
            layers.append(random_layer(chooser, ds, b, more + 1, height_at))
        groups.append(Group(a, n, tuple(layers)))
    return tuple(groups)


# Ships built by hand


def every_group(m, layers):
    """All groups of m zones, each with the same layers."""
    return tuple(Group(a, n, layers) for a in range(1, m + 1) for n in range(1, m - a + 2))


def with_results(result, H=HIGHEST):
    """A row with the same result at each draught."""
    return Height(H, results=(result,) * 3)


def with_given(survival, H=HIGHEST):
    """A row with the same given survival at each draught."""
    return Height(H, given=(survival,) * 3)


def built_ships():
    """Extreme cases: the widest row, the fewest and most rows, the thinnest zones, each verdict at its edge, openings about the waterline, and rows
    of two sets."""
    whole = with_results((120, 1_600, 2_500, 0))
    odd = with_results((67, 179, 0, 0))
    thin = tuple(range(1, 11)) + tuple(range(8_000 - 9, 8_000))
    yield Ship("no rows", 8_000, 1_000, 1_000, 500, (), ())
    yield Ship("meets, one zone", 8_000, 1_000, 1_000, 1_000, (), (Group(1, 1, (Layer(500, (whole,)),)),))
    yield Ship("unsettled, one zone", 10_400, 1_000, 1_000, 500, (), (Group(1, 1, (Layer(500, (odd,)),)),))
    yield Ship("meets at its mark", 10_400, 1_000, 1_000, 500, (), (Group(1, 1, (Layer(500, (with_given(5_000),)),)),))
    yield Ship("fails by one", 10_400, 1_000, 1_000, 500, (), (Group(1, 1, (Layer(500, (with_given(4_999),)),)),))
    yield Ship(
        "widest row", 10_621, 3_966, 6_000, 4_000, (1_371, 3_256, 4_258, 4_766),
        (Group(2, 3, tuple(Layer(b, (odd,)) for b in (48, 122, 1_983))),))
    yield Ship(
        "edges of the bands", 9_901, 1_600, 6_000, 4_000, (1_501, 3_001, 6_002, 7_501),
        every_group(5, (Layer(160, (odd,)), Layer(800, (odd,)))))
    yield Ship("thin zones", 8_000, 6_000, 30_000, 500, thin, every_group(20, (Layer(1, (odd,)), Layer(3_000, (odd,)))))
    yield Ship(
        "five hundred layers", 19_800, 6_000, 30_000, 500, (6_600,),
        (Group(1, 2, tuple(Layer(b, (odd,)) for b in (*range(1, 500), 3_000))),))
    yield Ship(
        "five hundred heights", 19_800, 6_000, 30_000, 500, (6_600,),
        (Group(1, 1, (Layer(3_000, tuple(with_results((67, 179, 0, 0), H) for H in range(42_001, 42_501))),)),))
    yield Ship(
        "all groups, all survive", 19_799, 5_998, 30_000, 500, tuple(987 * i for i in range(1, 20)),
        every_group(20, (Layer(77, (whole,)), Layer(2_999, (with_given(10_000),)))))
    yield Ship(
        "all groups, none quite", 13_331, 2_222, 7_000, 3_000, tuple(666 * i for i in range(1, 20)),
        every_group(20, (Layer(40, (with_results((119, 1_599, 2_501, 0)),)), Layer(1_111, (odd,)))))
    yield from ships_with_openings(whole, odd)
    yield from ships_with_two_sets(whole, odd)


def ships_with_openings(whole, odd):
    """Openings immersed in every row, at one draught of three, in a row of no weight, in every other row and in one layer of two."""
    under = with_results((120, 1_600, 2_500, -1))
    yield Ship("every opening immersed", 8_000, 1_000, 1_000, 500, (), (Group(1, 1, (Layer(500, (under,)),)),))
    for draught in range(3):
        results = tuple((120, 1_600, 2_500, -1 if j == draught else 0) for j in range(3))
        yield Ship(f"opening immersed at draught {draught + 1}", 8_000, 1_000, 1_000, 500, (), (Group(1, 1, (Layer(500, (Height(HIGHEST, results),)),)),))
    yield Ship(
        "unsettled over an immersed row", 10_400, 1_000, 1_000, 500, (),
        (Group(1, 1, (Layer(500, (under._replace(H=500), odd)),)),))
    yield Ship(
        "five hundred rows, every other one immersed", 19_800, 6_000, 30_000, 500, (6_600,),
        (Group(1, 1, (Layer(3_000, tuple((odd, under)[H % 2]._replace(H=H) for H in range(42_001, 42_501))),)),))
    yield Ship(
        "all groups, the inner layer immersed", 19_799, 5_998, 30_000, 500, tuple(987 * i for i in range(1, 20)),
        every_group(20, (Layer(77, (whole,)), Layer(2_999, (under,)))))


def ships_with_two_sets(whole, odd):
    """The lower set first and second, at one draught of three, equal ones, those that only s⁴ tells apart, in 500 rows and in one layer of two."""
    by_lever, by_range = (119, 1_600, 0, 0), (120, 1_587, 0, 0)  # bottom and top are the same of both

    def one_zone(name, first, second, L=8_000):
        return Ship(name, L, 1_000, 1_000, 500, (), (Group(1, 1, (Layer(500, (Height(HIGHEST, first, second=second),)),)),))

    for draught in range(3):
        worse = tuple((0, 0, 3_000, 0) if j == draught else (120, 1_600, 2_500, 0) for j in range(3))
        yield one_zone(f"the first set lost at draught {draught + 1}", worse, whole.results)
        yield one_zone(f"the second set lost at draught {draught + 1}", whole.results, worse)
    yield one_zone("sets of the same survival", ((60, 1_600, 0, 0),) * 3, ((120, 800, 0, 0),) * 3)
    yield one_zone("the first set a little lower", (by_lever,) * 3, (by_range,) * 3)
    yield one_zone("the second set a little lower", (by_range,) * 3, (by_lever,) * 3)
    yield one_zone("unsettled by the second set", whole.results, odd.results, L=10_400)
    yield one_zone("met by the better set alone", ((30, 399, 0, 0),) * 3, whole.results, L=10_400)
    rows = (odd, whole._replace(second=odd.results), odd._replace(second=whole.results), with_given(5_000), whole._replace(second=whole.results))
    yield Ship(
        "five hundred rows of three kinds", 19_800, 6_000, 30_000, 500, (6_600,),
        (Group(1, 1, (Layer(3_000, tuple(rows[H % 5]._replace(H=H) for H in range(42_001, 42_501))),)),))
    yield Ship(
        "all groups, two sets in the inner layer", 19_799, 5_998, 30_000, 500, tuple(987 * i for i in range(1, 20)),
        every_group(20, (Layer(77, (whole,)), Layer(2_999, (whole._replace(second=odd.results),)))))
