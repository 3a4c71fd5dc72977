"""Accepted files of every shape: few and many zones, rows, layers and heights, groups left out, kinds of row."""

from ..case import accepted
from ..dice import Dice
from ..frames import Hull, Row, case_file
from ..seeded import seeded_case, seeded_rows
from ..shapes import CERTAIN, FOUR, LOST, NONE, PRINTED, SAFE, dry, every_group, group, groups_of

TWENTY = Hull(19800, 3200, 11000, 6000, tuple(990 * i for i in range(1, 20)))
UNEVEN = Hull(8000, 1000, 1000, 500, (1, 3, 9, 27, 81, 243, 729, 2187, 6561))
FIVE = Hull(15011, 2404, 9005, 6000, (1200, 3707, 7001, 13333))


def plain():
    rows = [Row(1, 1, 800, 18500, (30, 400, 0, 0) * 3), Row(1, 2, 800, 18500, NONE), Row(2, 1, 800, 18500, CERTAIN)]
    yield accepted("printed-in-the-paper", case_file(PRINTED, rows), "the file that document 01 prints in full, with the openings of document 02", verdict=1)
    for name, hull in (("one-zone", Hull(12000, 2000, 8000, 5000)), ("four-zones", FOUR), ("five-zones", FIVE),
                       ("ten-uneven-zones", UNEVEN), ("twenty-zones", TWENTY)):
        yield accepted("%s-no-rows" % name, case_file(hull, []), "no rows: all ends 0, verdict 2", verdict=2)
        yield accepted("%s-every-group" % name, case_file(hull, every_group(hull)), "every group listed, all surviving", verdict=1)
        yield accepted("%s-all-lost" % name, case_file(hull, every_group(hull, figures=LOST)), "every group listed, none surviving", verdict=2)
        yield accepted("%s-single-zones" % name, case_file(hull, every_group(hull, longest=1, figures=SAFE)), "groups of one zone alone")


def parts():
    for longest in (1, 2, 3, 4, 19, 20):
        listed = [one for one in groups_of(TWENTY) if one[1] == longest]
        rows = [row for a, n in listed for row in group(TWENTY, a, n, figures=SAFE)]
        yield accepted("groups-of-%d" % longest, case_file(TWENTY, rows), "only the groups of %d zones in a ship of 20" % longest)


def layers_and_heights():
    for name, layers, heights in (
            ("one-layer-four-heights", (), (3000, 9005, 16805)), ("four-layers-one-height", (60, 240, 801), ()),
            ("three-layers-three-heights", (1, 1201), (9004, 20000)), ("thin-layers", (1, 2, 3, 4), ()),
            ("layers-next-to-the-half", (1199, 1200, 1201), ()), ("ten-layers", tuple(range(100, 1100, 100)), ()),
            ("ten-heights", (), tuple(range(2000, 20000, 2000)))):
        yield accepted(name, case_file(FIVE, every_group(FIVE, layers, heights, dry((60, 800, 0, 120, 1600, 2600, 30, 400, 0)))),
                       "every group of five zones in these layers and heights")
    one = Hull(14400, 2600, 9000, 7000)
    for name, rows in (
            ("one-zone-500-heights", group(one, 1, 1, heights=tuple(range(43, 43 * 500, 43)), figures=dry((70, 900, 0) * 3))),
            ("one-zone-500-layers", group(one, 1, 1, layers=tuple(range(2, 1000, 2)), figures=(7071, 5000, 9999))),
            ("one-zone-20-layers-25-heights", group(one, 1, 1, tuple(range(65, 1300, 65)), tuple(range(800, 19201, 800)), dry((8, 77, 2501) * 3)))):
        assert len(rows) == 500
        yield accepted(name, case_file(one, rows), "500 rows in one zone")
    full = every_group(TWENTY, layers=(150,), figures=dry((90, 1200, 0) * 3))
    for at in range(0, 2 * 80, 2):
        row = full[at + at // 2]
        full.insert(at + at // 2, row._replace(h=9000 + at))
    assert len(full) == 500
    yield accepted("twenty-zones-500-rows", case_file(TWENTY, full), "20 zones, all 210 groups in two layers, 500 rows")
    mixed = []
    for at, (a, n) in enumerate(groups_of(FIVE)):
        kinds = (SAFE, CERTAIN, dry((60, 800, 0) * 3), (1, 2, 3), LOST)
        own = tuple(30 * (at + 1) * (layer + 1) for layer in range(at % 4))
        for place, row in enumerate(group(FIVE, a, n, own, (9000 + at, 17000)[:at % 3])):
            mixed.append(row._replace(figures=kinds[(at + place) % 5]))
    yield accepted("groups-each-in-their-own-layers", case_file(FIVE, mixed), "each group with layers, heights and kinds of its own")


def seeded():
    for seed in range(20):
        dice = Dice(1000 + seed)
        most = (12, 40, 120)[seed % 3]
        hull, rows = seeded_case(dice, most, zones=(None, 2, 3, None, 5, 7)[seed % 6])
        yield accepted("seeded-%02d" % seed, case_file(hull, rows), "seeded: %d zones, %d rows" % (hull.zones, len(rows)))
    for seed in range(4):
        dice = Dice(2000 + seed)
        rows = seeded_rows(dice, TWENTY, 500)
        yield accepted("seeded-twenty-%d" % seed, case_file(TWENTY, rows), "seeded: 20 zones, %d rows" % len(rows))


def cases():
    for part in (plain, parts, layers_and_heights, seeded):
        for case in part():
            yield case
