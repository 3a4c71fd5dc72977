"""Accepted case files of passenger ships to hold the demands against: random ones from a seed, and extreme ones built by hand."""

import random
from fractions import Fraction

from demands_cases import (
    HIGHEST, Group, Height, Layer, Ship, edge_or_any, every_group, random_draughts, random_opening, random_rows, random_zones, with_heights,
)
from demands_exact import passenger_R

MOST_ROWS = 427  # in 65,536 bytes, with 20 zones
FORMS = {"below 400": (0, 399), "400 to 1,350": (400, 1_350), "above 6,000": (6_001, 20_000)}  # the persons of each form of R of 2020
AFLOAT = (5_000, 9_000, 0, 30_000)
CALM = (300_000, 1, 5_000, 9_000, 0, 0)


def with_best_final(ship):
    """The ship with nothing but its intermediate stages to hold survival down."""
    return with_heights(ship, lambda height: height._replace(results=(AFLOAT,) * 3, stages=tuple((*CALM[:2], *stage[2:]) for stage in height.stages)))


def with_best_intermediate(ship):
    """The ship with nothing but its final stages and heeling moments to hold survival down."""
    return with_heights(ship, lambda height: height._replace(stages=tuple((*stage[:2], *CALM[2:5], stage[5]) for stage in height.stages)))


# Random ships


def random_final(chooser, way):
    """A draught's lever, range and heel in the final stage: anything, good ones, each at an edge, or ones that leave survival to the rest."""
    if way == "any":
        return (chooser.randint(0, 5_000), chooser.randint(0, 9_000), chooser.randint(0, 9_000))
    if way == "good":
        return (chooser.randint(90, 230), chooser.randint(1_300, 2_200), chooser.randint(0, 900))
    if way == "edges":
        return (
            chooser.choice((0, 1, 39, 40, 41, 60, 119, 120, 121, 199, 200, 201, 1_040, 5_000)),
            chooser.choice((0, 1, 400, 800, 1_599, 1_600, 1_601, 1_999, 2_000, 2_001, 9_000)),
            chooser.choice((0, 699, 700, 701, 1_100, 1_492, 1_499, 1_500, 1_501, 3_000, 9_000)),
        )
    return (chooser.randint(200, 5_000), chooser.randint(2_000, 9_000), chooser.randint(0, 700))


def random_between(chooser, way):
    """An intermediate stage's lever, range and heel."""
    if way == "any":
        return (chooser.randint(0, 5_000), chooser.randint(0, 9_000), chooser.randint(0, 9_000))
    if way in ("between", "edges"):
        return (edge_or_any(chooser, (0, 1, 49, 50, 51, 5_000), 10, 55), edge_or_any(chooser, (0, 1, 699, 700, 701, 9_000), 100, 750),
                chooser.choice((0, 0, 700, 701, 1_499, 1_500, 1_501, 9_000)))
    return (chooser.randint(45 if way == "good" else 50, 80), chooser.randint(650 if way == "good" else 700, 900), chooser.randint(0, 1_500))


def random_moment(chooser, lever, displacement, wanted, way):
    """A heeling moment: any, one that can be borne or not quite, a part of one, or one that makes s-mom close to what is wanted."""
    borne = max(lever - 40, 0) * displacement / Fraction(1_000)
    if way == "near":
        moment = borne / wanted
    elif way in ("any", "edges"):
        moment = chooser.choice((borne, borne - 1, borne + 1, 1, 2_000_000, chooser.randint(1, 2_000_000)))
    else:
        moment = borne * Fraction(10_000, chooser.randint(6_000, 12_000))
    return min(max(int(moment), 1), 2_000_000)


def random_height(chooser, R, H, way):
    """A row of a passenger ship."""
    results, stages = [], []
    for _ in range(3):
        final = random_final(chooser, way)
        displacement = edge_or_any(chooser, (1, 2, 299_999, 300_000), 1, 300_000) if way in ("any", "edges") else chooser.randint(50_000, 300_000)
        results.append((*final, random_opening(chooser, "near" if way in ("near", "good") else way)))
        stages.append((displacement, random_moment(chooser, final[0], displacement, R, way), *random_between(chooser, way), chooser.randrange(2)))
    return Height(H, results=tuple(results), stages=tuple(stages))


def form_of(persons):
    """The form of R of 2020 that these persons have, in words."""
    return next(words for words, (low, high) in FORMS.items() if low <= sum(persons) <= high)


def random_persons(chooser, rule):
    """Persons in lifeboats and in excess; under the rule of 2020 as many as one of its forms has."""
    if rule == 0:
        return tuple(edge_or_any(chooser, (0, 1, 10_000), 0, chooser.choice((1_000, 10_000))) for _ in range(2))
    low, high = FORMS[chooser.choice(tuple(FORMS))]
    total = edge_or_any(chooser, (low, high), low, high)
    least, most = max(total - 10_000, 0), min(total, 10_000)
    in_excess = edge_or_any(chooser, (least, most), least, most)
    return total - in_excess, in_excess


def random_ferry(seed, number):
    """The random passenger ship of this number under this seed."""
    chooser = random.Random(f"passengers {seed}/{number}")
    L = edge_or_any(chooser, (2_000, 2_001, 2_500, 7_999, 8_000, 19_800), 2_000, 19_800)
    B = 2 * edge_or_any(chooser, (200, 201, 499, 3_000), 200, 3_000)
    ds, dl = random_draughts(chooser)
    rule = chooser.randrange(2)
    persons = random_persons(chooser, rule)
    bulkheads, chosen = random_zones(chooser, L)
    way, R = chooser.choice(("any", "good", "near", "edges", "edges", "between", "moment")), passenger_R(L, persons, rule)
    groups = random_rows(chooser, chosen, B, ds, MOST_ROWS, lambda H: random_height(chooser, R, H, way))
    return Ship(f"random passengers {seed}/{number}", L, B, ds, dl, bulkheads, groups, persons, rule)


# Ships built by hand


def with_three(result, stage, H=HIGHEST):
    """A row with the same result and stage at each draught."""
    return Height(H, results=(result,) * 3, stages=(stage,) * 3)


def moved(survival):
    """A row whose survival is so many ten-thousandths by the heeling moment alone."""
    return with_three((1_040, 9_000, 0, 0), (10 * survival, 100_000, 50, 700, 0, 0))


def built_ferries():
    """Extreme cases: verdicts at R and at 0.9 R under either rule, the shortest ship, the widest row, thin zones, the most rows, and each factor deciding at
    one draught."""
    whole, odd = with_three(AFLOAT, CALM), with_three((1_040, 179, 0, 0), (7, 9, 50, 700, 0, 0))

    def one_zone(name, *heights, persons=(1_900, 0), rule=0):  # R is 3/4
        return Ship(name, 2_500, 1_000, 1_000, 500, (), (Group(1, 1, (Layer(500, heights),)),), persons, rule)

    yield Ship("passengers, no rows", 2_000, 400, 1_000, 500, (), (), (0, 0))
    for survival in (7_499, 7_500, 7_501):
        yield one_zone(f"passengers, {survival} against R", moved(survival))
    yield one_zone("passengers, unsettled", with_three((1_040, 9_000, 0, 0), (74_999, 100_000, 50, 700, 0, 0)))
    for persons, least, about in (((0, 399), 7_220, 72_199), ((399, 1), 7_221, 72_205), ((700, 650), 8_474, 84_735), ((6_000, 1), 9_014, 90_139),
                                  ((10_000, 10_000), 9_349, 93_489)):  # the least survival that is not below R of 2020, and one that may be or not
        for survival in (least - 1, least):
            yield one_zone(f"passengers of 2020, {sum(persons)}, {survival} against R", moved(survival), persons=persons, rule=1)
        unsettled = with_three((1_040, 9_000, 0, 0), (about, 100_000, 50, 700, 0, 0))
        yield one_zone(f"passengers of 2020, {sum(persons)}, unsettled", unsettled, persons=persons, rule=1)
    for draught in range(3):
        for who, survival, aboard in (("passengers", 6_749, (1_900, 0)), ("passengers", 6_750, (1_900, 0)), ("passengers of 2020", 6_497, (300, 99)),
                                      ("passengers of 2020", 6_498, (300, 99))):
            rows = [moved(survival) if j == draught else whole for j in range(3)]
            results, stages = zip(*((row.results[j], row.stages[j]) for j, row in enumerate(rows)))
            yield one_zone(f"{who}, {survival} against 0.9 R at draught {draught + 1}", Height(HIGHEST, results=results, stages=stages),
                           persons=aboard, rule=int(who != "passengers"))
        for name, result, stage in (("intermediate stage", AFLOAT, (*CALM[:4], 1_501, 0)), ("heeling moment", (40, *AFLOAT[1:]), CALM),
                                    ("opening", (*AFLOAT[:3], -1), CALM)):
            results, stages = [AFLOAT] * 3, [CALM] * 3
            results[draught], stages[draught] = result, stage
            yield one_zone(f"passengers, lost by the {name} at draught {draught + 1}", Height(HIGHEST, results=tuple(results), stages=tuple(stages)))
    yield Ship("passengers, shortest ship", 2_000, 400, 1_000, 500, (300, 1_000, 1_001), every_group(4, (Layer(1, (odd,)), Layer(200, (whole,)))), (0, 0))
    yield Ship("passengers, widest row", 10_621, 3_966, 6_000, 4_000, (1_371, 3_256, 4_258, 4_766),
               (Group(2, 3, tuple(Layer(b, (odd,)) for b in (48, 122, 1_983))),), (400, 600))
    thin = tuple(range(1, 11)) + tuple(range(2_000 - 9, 2_000))
    yield Ship("passengers, thin zones", 2_000, 6_000, 30_000, 500, thin, every_group(20, (Layer(1, (odd,)), Layer(3_000, (odd,)))), (10_000, 10_000))
    heights = tuple((odd, whole, moved(1 + H % 9_999))[H % 3]._replace(H=H) for H in range(42_074, 42_501))
    yield Ship("passengers, as many rows as can be", 19_800, 6_000, 30_000, 500, (6_600,), (Group(1, 1, (Layer(3_000, heights),)),), (10_000, 10_000))
    yield Ship("passengers, all groups, all survive", 7_999, 998, 7_000, 3_000, tuple(399 * i for i in range(1, 20)),
               every_group(20, (Layer(77, (whole,)), Layer(499, (with_three((120, 1_600, 700, 0), (25, 2, 50, 700, 1_500, 0)),)))), (1, 1))
