"""The two rules of passenger ships: R by the persons on board at the edges of each form, A between the R of one rule and of the other, A and the partials at
the marks of 2020, the byte that says the rule, refusal 13 beside the others, and frames without the byte."""

from itertools import product

from ..case import Case, accepted, refused
from ..dice import Dice
from ..figures import Figures
from ..found import RULE_MARKS
from ..frames import Hull, Row, case_file, end_line, hull_line, joined, lines_of, row_line
from ..fresh import damaged
from ..judging import Judging
from ..seeded import seeded_case
from ..shapes import ABOARD, FERRY, SAFE, every_group, group
from .following import both
from .pairs import CLOSED, UNCLEAN, UNTAKEN, one_line
from .passengers import FINE, LOST, aboard, moved, of_its_own, stage, steps
from .passengers_refused import OUTSIDE
from .verdicts import FIGURES, WORDS

EARLIER, LATER = 0, 1
NAMES = ("earlier", "2020")
MEETS, FAILS = 1, 2


def ship(persons, rule=LATER, ls=9000, bulkheads=()):
    return Hull(ls, 1800, 6005, 4000, bulkheads, persons, rule)


def surviving(hull, *three):
    """A file of one row with a result and a stage at each draught."""
    return case_file(hull, [Row(1, 1, hull.half, hull.top, aboard(*three))])


def all_at(hull, s):
    """A file of one row whose survival is so many ten-thousandths at each draught, and A with it."""
    return surviving(hull, *[moved(s)] * 3)


def named(persons, rule):
    return "%d-and-%d-%s" % (*persons, NAMES[rule])


def told(persons, rule):
    return "%d in lifeboats and %d in excess, under the %s" % (*persons, ("earlier rule", "rule of 2020")[rule])


def splits(total):
    """So many persons, at most 10,000 of either sort: all in lifeboats, all in excess, one of them in excess or in lifeboats, and about half of each."""
    ways = [(total, 0), (0, total), (total - 1, 1), (1, total - 1), (total // 2, total - total // 2)]
    return sorted({persons for persons in ways if 0 <= min(persons) and max(persons) <= 10000})


def between():
    """A between the R of one rule and that of the other: persons on both sides of each form, in every split, and a ship of 90 m under either rule."""
    for total, s, earlier, later in (
            (0, 7000, MEETS, FAILS), (1, 7000, MEETS, FAILS), (399, 7150, MEETS, FAILS), (400, 7150, MEETS, FAILS), (401, 7200, MEETS, FAILS), (900, 7800, MEETS, FAILS),
            (1349, 8000, MEETS, FAILS), (1350, 8000, MEETS, FAILS), (1351, 9000, MEETS, None), (1352, 9000, MEETS, None), (3000, 9000, MEETS, None),
            (5999, 9000, MEETS, None), (6000, 9000, MEETS, None), (6001, 9000, MEETS, FAILS), (6002, 9000, MEETS, FAILS), (8112, 9108, MEETS, FAILS)):
        for persons in splits(total):
            for rule, verdict in ((EARLIER, earlier), (LATER, later)):
                name, data = "between-" + named(persons, rule), all_at(ship(persons, rule), s)
                if verdict is None:
                    yield refused(name, data, 13, 1, told(persons, rule) + ": R is not taken")
                else:
                    yield accepted(name, data, "%s, A = %d ten-thousandths" % (told(persons, rule), s), verdict=verdict)
    for persons, s, earlier, later in (
            ((10000, 0), 9000, MEETS, FAILS), ((0, 10000), 9200, FAILS, MEETS), ((10000, 6305), 9304, FAILS, MEETS), ((6305, 10000), 9304, FAILS, MEETS),
            ((10000, 9999), 9400, FAILS, MEETS), ((10000, 10000), 9400, FAILS, MEETS)):
        for rule, verdict in ((EARLIER, earlier), (LATER, later)):
            yield accepted("between-" + named(persons, rule), all_at(ship(persons, rule), s), "%s, A = %d ten-thousandths" % (told(persons, rule), s), verdict=verdict)


def counted_once():
    """A just at R and a ten-thousandth below it: everybody counts once, wherever there are lifeboats, and the length does not count."""
    for persons, s in (((399, 0), 7220), ((398, 1), 7220), ((0, 399), 7220), ((199, 200), 7220), ((0, 0), 7220), ((400, 0), 7221), ((0, 400), 7221), ((399, 1), 7221),
                       ((200, 200), 7221), ((400, 500), 7880), ((900, 0), 7880), ((0, 900), 7880), ((700, 650), 8474), ((0, 1350), 8474), ((1350, 0), 8474),
                       ((6001, 0), 9014), ((0, 6001), 9014), ((3000, 3001), 9014), ((10000, 5000), 9284), ((5000, 10000), 9284), ((10000, 10000), 9349)):
        for attained, verdict in ((s, MEETS), (s - 1, FAILS)):
            yield accepted("once-%d-and-%d-at-%d" % (*persons, attained), all_at(ship(persons), attained),
                           "%s, A = %d ten-thousandths" % (told(persons, LATER), attained), verdict=verdict)
    for ls, persons, s in product((2000, 8000, 19800), ((399, 0), (10000, 10000)), (0, -1)):
        attained = (7220 if persons == (399, 0) else 9349) + s
        yield accepted("length-%d-%d-persons-at-%d" % (ls, sum(persons), attained), all_at(ship(persons, ls=ls), attained),
                       "L = %d, %s, A = %d ten-thousandths" % (ls, told(persons, LATER), attained), verdict=FAILS if s else MEETS)


def at_the_marks():
    """A at R and the partials at 0.9 R of 2020, on both sides and between, by rows tuned to a billionth and by single survivals."""
    for (persons, tenths, verdict), found in sorted(RULE_MARKS.items()):
        words = "%d and %d persons" % persons
        if tenths == 10:
            yield accepted("index-%d-and-%d-verdict-%d" % (*persons, verdict), steps(9000, persons, found, rule=LATER),
                           "A %s R of 2020 with %s" % (WORDS[verdict], words), verdict=verdict)
        else:
            for at, name in enumerate(FIGURES):
                yield accepted("%s-%d-and-%d-verdict-%d" % (name.lower(), *persons, verdict), steps(9000, persons, found, at, LATER),
                               "%s %s 0.9 R of 2020 with %s and nothing else is near its mark" % (name, WORDS[verdict], words), verdict=verdict)
    at, less = moved(7220), ((1040, 9000, 0, 0), stage(72199, 100000))
    for name, three, verdict in (
            ("at-r", [at] * 3, 1), ("about-r", [less] * 3, 3), ("below-r", [moved(7219)] * 3, 2), ("above-r", [moved(7221)] * 3, 1), ("light-about-r", [at, at, less], 3),
            ("light-below-r", [at, at, moved(7219)], 2), ("as-at-its-mark", [moved(6498), FINE, FINE], 1), ("as-below-its-mark", [moved(6497), FINE, FINE], 2),
            ("ap-at-its-mark", [FINE, moved(6498), FINE], 1), ("ap-below-its-mark", [FINE, moved(6497), FINE], 2), ("al-at-its-mark", [FINE, FINE, moved(6498)], 1),
            ("al-below-its-mark", [FINE, FINE, moved(6497)], 2), ("al-about-its-mark", [FINE, FINE, ((1040, 9000, 0, 0), stage(64979, 100000))], 3),
            ("half-of-r", [moved(3610), FINE, FINE], 2), ("marks-met-index-short", [moved(6498), moved(6498), FINE], 2), ("light-lost", [FINE, FINE, LOST], 2),
            ("nine-tenths-of-the-earlier-r", [moved(6400), FINE, FINE], 2)):
        yield accepted("flat-%s" % name, surviving(ship((300, 99)), *three), "R = 0.722: %s" % name.replace("-", " "), verdict=verdict)


def same_ship():
    """Rows with results and stages of their own under either rule: the same shares, marks and ends."""
    for name, hull, rows in (("heights", ship((400, 600)), group(ship((400, 600)), 1, 1, heights=tuple(range(600, 18000, 1200)))),
                             ("groups", FERRY, every_group(FERRY, layers=(300,), heights=(9000,))), ("all-surviving", FERRY, every_group(FERRY))):
        answers = []
        for rule in (EARLIER, LATER):
            listed = [one._replace(figures=ABOARD if name == "all-surviving" else of_its_own(at)) for at, one in enumerate(rows)]
            answers.append(Figures(hull._replace(rule=rule), listed).answer()[1:])
            yield accepted("same-%s-%s" % (name, NAMES[rule]), case_file(hull._replace(rule=rule), listed), "rows in %s, under the rule %s" % (name, NAMES[rule]))
        assert answers[0] == answers[1]
    for zones in (1, 2, 4, 20):
        hull = ship((1, 398), bulkheads=tuple(400 * i for i in range(1, zones)))
        yield accepted("zones-%d" % zones, case_file(hull, group(hull, 1, zones, figures=ABOARD)), "%d zones under the rule of 2020" % zones)


def marks_of_rules():
    """Refusal 4: a rule that is neither, whatever else the hull says."""
    for mark in (2, 3, 4, 15, 16, 20, 127, 128, 254, 255):
        yield refused("mark-%d" % mark, case_file(ship((400, 600), mark), []), 4, 1, "rule %d" % mark)
    for name, hull in (("no-persons", ship((0, 0), 2)), ("1351-persons", ship((1351, 0), 2)), ("6000-persons", ship((3000, 3000), 3)),
                       ("four-zones", ship((400, 600), 2, bulkheads=(2000, 4500, 7000)))):
        yield refused("mark-%d-%s" % (hull.rule, name), case_file(hull, []), 4, 1, "rule %d with %s" % (hull.rule, name.replace("-", " ")))
    for name, line in (("no-zones", hull_line(ship((400, 600), 2), 0)), ("21-zones", hull_line(ship((400, 600), 2), 21)),
                       ("bulkheads", hull_line(ship((0, 0), 255, bulkheads=(2, 1))))):
        yield one_line(4, 5, "unknown-rule-%s" % name, [], line + CLOSED)
    yield one_line(3, 4, "unknown-rule-14-bytes", [], hull_line(ship((400, 600), 2))[:28] + CLOSED)
    for rule in (EARLIER, LATER):
        for name, zones, number in (("no-zones", 0, 5), ("one-zone", 1, None), ("two-zones", 2, 5)):
            data = joined([hull_line(ship((400, 600), rule), zones), end_line(0)])
            words = "rule %d and a zone count of %d, with no bulkhead" % (rule, zones)
            yield accepted("mark-%d-%s" % (rule, name), data, words, verdict=2) if number is None else refused("mark-%d-%s" % (rule, name), data, number, 1, words)


def beside_other_refusals():
    """13 with each other refusal: in one line, where 4 comes before it and 5 after it, and with a later line."""
    crowd, zoned = ship((3000, 3000)), ship((1, 1350), bulkheads=(2000, 4500, 7000))
    for first, second, name, line in (
            (4, 13, "short-ship", hull_line(crowd._replace(ls=1999))), (4, 13, "long-ship", hull_line(zoned._replace(ls=19801))),
            (4, 13, "narrow", hull_line(crowd._replace(breadth=398))), (4, 13, "odd-breadth", hull_line(zoned._replace(breadth=1801))),
            (4, 13, "deep", hull_line(crowd._replace(ds=30005))), (4, 13, "light", hull_line(crowd._replace(dl=4001))),
            (4, 13, "short-ship-bulkheads", hull_line(zoned._replace(ls=1999))), (13, 5, "no-zones", hull_line(crowd, 0)), (13, 5, "21-zones", hull_line(crowd, 21)),
            (13, 5, "255-zones", hull_line(zoned, 255)), (13, 5, "zones-less", hull_line(zoned, 3)), (13, 5, "zones-more", hull_line(zoned, 5)),
            (13, 5, "a-byte-more", hull_line(crowd) + "00"), (13, 5, "half-a-bulkhead", hull_line(zoned)[:-2]),
            (13, 5, "bulkhead-at-0", hull_line(ship((0, 6000), bulkheads=(0,)))),
            (13, 5, "bulkhead-at-ls", hull_line(ship((6000, 0), bulkheads=(9000,)))), (13, 5, "bulkheads-equal", hull_line(ship((1350, 1), bulkheads=(3000, 3000)))),
            (13, 5, "bulkheads-falling", hull_line(ship((675, 676), bulkheads=(7000, 4500, 2000)))), (3, 13, "14-bytes", hull_line(crowd)[:28]),
            (3, 13, "14-bytes-of-four-zones", hull_line(zoned)[:28])):
        yield one_line(first, second, "hull-" + name, [], line + CLOSED)
    for name, unclean in UNCLEAN:
        yield one_line(2, 13, "hull-" + name, [], unclean(hull_line(zoned)))
    for name, persons in (("one-count-past-the-sum", (65535, 2000)), ("both-past-the-sum", (32768, 34768)), ("10001-in-lifeboats", (10001, 0)),
                          ("10001-in-excess", (1351, 10001))):
        yield refused("4-%s" % name, case_file(ship(persons), []), 4, 1, told(persons, LATER) + ": 4, and in two bytes the sum is %d" % (sum(persons) % 65536))
    yield refused("3-13-bytes", joined([hull_line(ship((1351, 0)))[:26], end_line(0)]), 3, 1, "1,351 persons and nothing after them")
    row = row_line(Row(1, 1, zoned.half, zoned.top, ABOARD))
    for late, what, after in (
            (2, "row", [row + "0", end_line(1)]), (3, "cargo-row", [row_line(Row(1, 1, zoned.half, zoned.top, SAFE)), end_line(1)]),
            (3, "hull", [hull_line(zoned), end_line(0)]),
            (6, "end", [row, end_line(2)]), (7, "row", [row_line(Row(1, 1, zoned.half, zoned.top, OUTSIDE)), end_line(1)]), (8, "row", [row, row, end_line(2)]),
            (9, "end", [row_line(Row(1, 1, zoned.half, 9000, ABOARD)), end_line(1)]), (10, "missing", [row]), (10, "after", [row, end_line(1), row])):
        yield both(13, "hull", [hull_line(zoned)], late, what, after)
    too_long = joined([hull_line(UNTAKEN)] + [row] * 430)
    yield refused("1-then-13-hull", too_long, 1, 0, "%d bytes, and 13 on line 1" % len(too_long))


def without_the_byte():
    """Frames as they were before there was a rule: the zone count stands where the rule is now."""
    def old(persons, bulkheads, zones=None):
        line = hull_line(ship(persons, bulkheads=tuple(bulkheads)), zones)
        return line[:26] + line[28:]

    for zones in (1, 2, 3, 4, 19, 20):
        for persons in ((400, 600), (1351, 0)):
            number = 3 if zones == 1 else 4
            yield refused("old-%d-zones-%d-persons" % (zones, sum(persons)), joined([old(persons, range(400, 400 * zones, 400)), end_line(0)]), number, 1,
                          "a hull without the byte of %d zones, with %d persons" % (zones, sum(persons)))
    # frames that were refused before too, with a zone count of 0 or 1: a rule now, and the high byte of a bulkhead is the zone count
    for name, line, number in (
            ("no-zones", old((400, 600), (), 0), 3), ("no-zones-a-bulkhead", old((400, 600), (1500,), 0), 5), ("one-zone-a-bulkhead", old((400, 600), (1500,), 1), 5),
            ("one-zone-a-bulkhead-1351-persons", old((1351, 0), (1500,), 1), 13), ("no-zones-a-bulkhead-1351-persons", old((1351, 0), (1500,), 0), 5),
            ("one-zone-a-low-bulkhead", old((400, 600), (257,), 1), 5), ("one-zone-two-low-bulkheads", old((400, 600), (300, 301), 1), 5)):
        yield refused("old-%s" % name, joined([line, end_line(0)]), number, 1, "a hull without the byte: %s" % name.replace("-", " "))
    rows = [row_line(one) for one in every_group(FERRY, figures=ABOARD)]
    yield refused("old-file", joined([old((400, 600), FERRY.bulkheads)] + rows + [end_line(len(rows))]), 4, 1, "a whole file without the byte")


def seeded():
    for seed in range(12):
        hull, rows = seeded_case(Dice(5000 + seed), (8, 20)[seed % 2], zones=(None, 2, 4)[seed % 3], passengers=True, rule=LATER)
        yield accepted("seeded-%02d" % seed, case_file(hull, rows), "seeded: %d persons, %d zones, %d rows" % (sum(hull.persons), hull.zones, len(rows)))
    for seed in range(12):
        dice = Dice(5100 + seed)
        data, words = damaged(dice, joined(lines_of(*seeded_case(dice, 5, passengers=True, rule=LATER))))
        yield Case("damaged-%02d" % seed, data, "seeded damage: %s" % words, Judging().refusal(data))


def cases():
    for part in (between, counted_once, at_the_marks, same_ship, marks_of_rules, beside_other_refusals, without_the_byte, seeded):
        for case in part():
            yield case
