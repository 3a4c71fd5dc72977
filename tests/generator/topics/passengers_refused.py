"""What is refused of a passenger ship's file: both sides of every limit, lengths, rows of the other ship type, and two refusals in one line or in two."""

from ..case import accepted, refused
from ..frames import Hull, Row, case_file, end_line, hull_line, joined, row_line
from ..shapes import ABOARD, AFLOAT, CALM, CERTAIN, FERRY, FOUR, SAFE, every_group, group
from .following import both
from .openings import DRAUGHTS
from .pairs import BEFORE as CARGO_BEFORE, CLOSED, FULL as CARGO_FULL, HULL as CARGO_HULL, OPEN_GROUP as CARGO_OPEN_GROUP, UNCLEAN, beginnings, one_line

HALF, TOP = FERRY.half, FERRY.top
HULL = hull_line(FERRY)
STAGE = ("displacement", "moment", "lever", "range", "heel", "roro")
CARGO = (("02", SAFE), ("03", CERTAIN), ("05", SAFE + SAFE))


def row(a, n, b=HALF, h=TOP, figures=ABOARD):
    return row_line(Row(a, n, b, h, figures))


BEFORE, OPEN_GROUP, OPEN_LAYER, ENDED = beginnings(HULL, row)


def with_stage(at, name, value):
    """The figures of a row with one number of the stage at this draught, or at all, changed."""
    stages = [list(CALM) for _ in range(3)]
    for place in range(3) if at is None else (at,):
        stages[place][STAGE.index(name)] = value
    return 3 * AFLOAT + sum(map(tuple, stages), ())


OUTSIDE, BELOW, MARKED = with_stage(1, "moment", 2000001), with_stage(0, "displacement", 0), with_stage(2, "roro", 2)


def hull_numbers():
    """Refusal 4: Ls and B with limits of their own, ds and dl, the persons; a cargo ship keeps its own."""
    sides = [
        ("Ls", lambda v: FERRY._replace(ls=v, bulkheads=(1000,)), (2000, 2001, 7999, 8000, 19800), (0, 1999, 19801, 65535)),
        ("B", lambda v: FERRY._replace(breadth=v), (400, 402, 998, 1000, 6000), (398, 399, 401, 999, 6001, 6002)),
        ("ds", lambda v: FERRY._replace(ds=v, dl=500 + v % 5), (1000, 30000), (999, 30001)),
        ("dl", lambda v: FERRY._replace(ds=1000 + v % 5, dl=v), (500, 501, 1000), (499, 1005)),
        ("ds less dl", lambda v: FERRY._replace(ds=6000, dl=6000 - v), (0, 5, 5500), (1, 4, 6)),
        ("persons in lifeboats", lambda v: FERRY._replace(persons=(v, 600)), (0, 1, 10000), (10001, 32768, 65535)),
        ("persons in excess", lambda v: FERRY._replace(persons=(400, v)), (0, 1, 10000), (10001, 32768, 65535)),
        ("persons of both sorts", lambda v: FERRY._replace(persons=(v, v)), (0, 5001, 10000), (10001,)),
    ]
    for words, hull_at, inside, outside in sides:
        name = words.lower().replace(" ", "-")
        for value in inside:
            hull = hull_at(value)
            yield accepted("hull-%s-%d" % (name, value), case_file(hull, group(hull, 1, 1, figures=ABOARD)), "%s = %d is let through" % (words, value))
        for value in outside:
            yield refused("hull-%s-%d" % (name, value), joined([hull_line(hull_at(value)), end_line(0)]), 4, 1, "%s = %d is refused" % (words, value))
    for ls, breadth in ((7999, 1000), (8000, 998), (2000, 400)):
        hull = Hull(ls, breadth, 6000, 4500, (1000,), (0, 0))
        yield accepted("hull-%d-by-%d-passengers" % (ls, breadth), case_file(hull, every_group(hull, figures=ABOARD)), "a passenger ship of %d by %d" % (ls, breadth))
        yield refused("hull-%d-by-%d-cargo" % (ls, breadth), case_file(hull._replace(persons=None), []), 4, 1, "a cargo ship of %d by %d" % (ls, breadth))


def hull_frames():
    """Refusals 3 and 5: a hull too short for one zone, zone counts, lengths and bulkheads; a frame of the other kind."""
    one, cargo = FERRY._replace(bulkheads=()), FERRY._replace(persons=None)
    for length in (1, 2, 8, 9, 10, 12, 13, 14):
        yield refused("hull-%d-bytes" % length, joined([hull_line(one)[:2 * length], end_line(0)]), 3, 1, "a passenger hull of %d bytes" % length)
    yield accepted("hull-15-bytes", joined([hull_line(one), end_line(0)]), "a passenger hull of 15 bytes, the least", verdict=2)
    for length in (16, 17, 19):
        yield refused("hull-%d-bytes" % length, joined([(hull_line(one) + "00" * 4)[:2 * length], end_line(0)]), 5, 1, "one zone in a passenger hull of %d bytes" % length)
    yield refused("hull-of-cargo-as-06", joined(["06" + hull_line(cargo._replace(bulkheads=()))[2:], end_line(0)]), 3, 1, "a cargo hull of one zone under kind 06")
    yield refused("hull-of-four-zones-as-06", joined(["06" + hull_line(cargo)[2:], end_line(0)]), 4, 1,
                  "a cargo hull of four zones under kind 06: bulkheads where the persons are")
    yield refused("hull-as-01", joined(["01" + HULL[2:], end_line(0)]), 5, 1, "a passenger hull under kind 01")
    for count in (1, 2, 19, 20):
        hull = FERRY._replace(bulkheads=tuple(400 * i for i in range(1, count)))
        yield accepted("hull-zones-%d" % count, case_file(hull, group(hull, 1, count, figures=ABOARD)), "%d zones" % count)
    for count, given in ((0, 0), (0, 1), (1, 1), (2, 0), (4, 2), (4, 4), (20, 18), (20, 20), (21, 20), (255, 20)):
        hull = FERRY._replace(bulkheads=tuple(400 * i for i in range(1, given + 1)))
        yield refused("hull-zones-%d-with-%d-bulkheads" % (count, given), joined([hull_line(hull, count), end_line(0)]), 5, 1,
                      "a zone count of %d in a passenger hull with %d bulkheads" % (count, given))
    for name, places, good in (("at-0", (0,), False), ("at-1", (1,), True), ("at-ls", (9000,), False), ("at-ls-less-1", (8999,), True), ("above-ls", (9001,), False),
                               ("equal", (3000, 3000), False), ("falling", (3001, 3000), False), ("equal-at-the-last", (1000, 2000, 3000, 3000), False)):
        hull = FERRY._replace(bulkheads=places)
        name, shows = "hull-bulkheads-%s" % name, "bulkheads at %s in a passenger ship of 9000" % ", ".join(map(str, places))
        yield accepted(name, case_file(hull, group(hull, 1, 2, figures=ABOARD)), shows) if good else refused(name, joined([hull_line(hull), end_line(0)]), 5, 1, shows)


def row_numbers():
    """Refusal 7: the numbers of a stage at each draught, those of a result, and the head's."""
    def last(one):
        return joined([HULL, row(1, 1), row_line(one), end_line(2)])

    for name, inside, outside in (
            ("displacement", (1, 65536, 299999, 300000), (0, 300001, 2 ** 24 + 1, 2 ** 32 - 1)),
            ("moment", (1, 65536, 1999999, 2000000), (0, 2000001, 2 ** 24 + 1, 2 ** 32 - 1)),
            ("lever", (0, 5000), (5001, 65535)), ("range", (0, 9000), (9001,)), ("heel", (0, 9000), (9001,)), ("roro", (0, 1), (2, 255))):
        for value in inside:
            yield accepted("stage-%s-%d" % (name, value), last(Row(2, 1, HALF, TOP, with_stage(None, name, value))), "%s = %d of every stage" % (name, value),
                           marks=[(0,) * 3] * 2)
        for value in outside:
            for at, draught in enumerate(DRAUGHTS):
                yield refused("stage-%s-%d-at-%s" % (name, value, draught), last(Row(2, 1, HALF, TOP, with_stage(at, name, value))), 7, 3,
                              "%s = %d of the stage at %s" % (name, value, draught))
    for at, draught in enumerate(DRAUGHTS):
        for place, name, value in ((0, "lever", 5001), (1, "range", 9001), (2, "heel", 9001), (3, "opening", 30001), (3, "opening", -30001)):
            figures = ABOARD[:4 * at + place] + (value,) + ABOARD[4 * at + place + 1:]
            yield refused("result-%s-%s-at-%s" % (name, str(value).replace("-", "less-"), draught), last(Row(2, 1, HALF, TOP, figures)), 7, 3,
                          "%s = %d of the final stage at %s" % (name, value, draught))
    most, least = (5000, 9000, 9000, 30000, 300000, 2000000, 5000, 9000, 9000, 1), (0, 0, 0, -30000, 1, 1, 0, 0, 0, 0)
    for name, one, byte in (("most", most, 4), ("least", least, 11)):
        yield accepted("numbers-at-their-%s" % name, last(Row(2, 1, HALF, TOP, 3 * one[:4] + 3 * one[4:])), "every number at its %s" % name, marks=[(0,) * 3, (byte,) * 3])
    for a, n, b, h in ((0, 1, HALF, TOP), (2, 0, HALF, TOP), (5, 1, HALF, TOP), (2, 4, HALF, TOP), (255, 2, HALF, TOP), (2, 1, 0, TOP),
                       (2, 1, HALF + 1, TOP), (2, 1, HALF, 0), (2, 1, HALF, 60001)):
        yield refused("head-%d-%d-%d-%d" % (a, n, b, h), last(Row(a, n, b, h, ABOARD)), 7, 3, "a, n, b and H = %d, %d, %d and %d" % (a, n, b, h))
    narrow = Hull(2000, 400, 1000, 500, (1000,), (0, 0))
    yield accepted("head-narrow-ship", case_file(narrow, group(narrow, 1, 1, layers=(1, 199), heights=(1,), figures=ABOARD)), "b = 1, 199 and 200 in a ship 400 wide")
    yield refused("head-narrow-ship-201", joined([hull_line(narrow), row(1, 1, 201)]), 7, 2, "b = 201 in a ship 400 wide")


def lengths_and_kinds():
    """Refusal 3: rows of kind 07 in other lengths, other kinds in its length, and lines of the other ship type."""
    lines = BEFORE + [end_line(2)]

    def in_place(name, line, shows, at=3, of=lines):
        return refused(name, joined(of[:at - 1] + [line] + of[at:]), 3, at, shows)

    line = row(2, 1)
    for length in (1, 7, 13, 31, 46, 55, 61, 69, 70, 75, 77, 91, 100):
        yield in_place("length-%d" % length, (line + line[62:])[:2 * length], "a row of kind 07 in %d bytes" % length)
    yield in_place("length-70-without-openings", line[:26] + line[30:42] + line[46:58] + line[62:], "kind 07 as it would be without openings")
    yield in_place("length-75-first", row(1, 1)[:-2], "the first row is a byte short", 2)
    for kind in (0, 1, 2, 3, 4, 5, 6, 8, 14, 15, 23, 112, 135):
        yield in_place("kind-%02x-in-76-bytes" % kind, "%02x" % kind + line[2:], "kind %02x in 76 bytes" % kind)
    for kind, figures in CARGO:
        for at, (a, n) in ((2, (1, 1)), (3, (2, 1))):
            yield in_place("cargo-%s-at-line-%d" % (kind, at), row(a, n, figures=figures), "a row of kind %s in a passenger file" % kind, at)
        cargo = [CARGO_HULL, row_line(Row(1, 1, FOUR.half, FOUR.top, figures)), row_line(Row(2, 1, FOUR.half, FOUR.top, figures)), end_line(2)]
        yield in_place("passengers-after-%s" % kind, row_line(Row(2, 1, FOUR.half, FOUR.top, ABOARD)), "a row of kind 07 in a cargo file, after kind %s" % kind, 3, cargo)
        yield refused("cargo-%s-alone" % kind, joined([HULL, row(1, 1, figures=figures), end_line(1)]), 3, 2, "a passenger hull with a row of kind %s alone" % kind)
    alone = joined([CARGO_HULL, row_line(Row(1, 1, FOUR.half, FOUR.top, ABOARD)), end_line(1)])
    yield refused("passengers-in-a-cargo-file", alone, 3, 2, "a cargo hull with a row of kind 07")
    yield refused("kind-07-first", joined(lines[1:]), 3, 1, "the hull line is missing, and a row of kind 07 comes first")
    for name, hull in (("passengers", HULL), ("cargo", CARGO_HULL)):
        for other, second in (("passengers", HULL), ("cargo", CARGO_HULL)):
            yield refused("hull-of-%s-after-%s" % (other, name), joined([hull, second, end_line(0)]), 3, 2, "a hull of %s after a hull of %s" % (other, name))


def order():
    """Refusals 6, 8, 9 and 10, each on its own, in a file of passenger rows."""
    for number, name, lines, shows in (
            (6, "count-1-less", BEFORE + [end_line(1)], "two rows counted as one"), (6, "count-1-more", BEFORE + [end_line(3)], "two rows counted as three"),
            (6, "count-76-bytes", BEFORE + [end_line(152)], "two rows counted by their bytes"),
            (8, "earlier-group", BEFORE + [row(1, 2)], "an earlier group"), (8, "row-again", BEFORE + [row(2, 1)], "the same row twice"),
            (8, "smaller-b", BEFORE + [row(2, 1, HALF - 1)], "a smaller b"), (8, "same-h", OPEN_LAYER + [row(2, 1, 400, 9000)], "the same H"),
            (8, "after-the-top", BEFORE + [row(2, 1, h=TOP + 1)], "a higher row after the top"),
            (9, "new-group", OPEN_GROUP + [row(2, 2)], "a new group before the last was closed"),
            (9, "new-group-below-the-top", [HULL, row(1, 1, h=TOP - 1), row(2, 1)], "a new group, the last one below its top"),
            (9, "new-layer", OPEN_LAYER + [row(2, 1)], "a new layer before the last was closed"), (9, "end", OPEN_GROUP + [end_line(2)], "the end with an open group"),
            (10, "row-after-the-end", ENDED + [row(3, 1)], "a row after the end frame")):
        data = joined(lines if lines[-1][:2] == "0f" or number == 10 else lines + [end_line(len(lines) - 1)])
        yield refused("order-%d-%s" % (number, name), data, number, len(lines), shows)
    yield refused("order-10-no-end", joined(OPEN_GROUP), 10, 4, "no end frame, and a group that is open")
    yield refused("order-2-no-line-feed", joined(ENDED)[:-1], 2, 4, "no line feed after the end frame")


def two_refusals():
    """The table's order in one line, and the earlier of two lines."""
    short, crowded, open_end = FERRY._replace(ls=1999), FERRY._replace(persons=(10001, 0)), OPEN_GROUP
    cargo_row = row_line(Row(2, 2, FOUR.half, FOUR.top, ABOARD))
    for first, second, name, before, line in (
            (3, 4, "hull-of-14-bytes-short-ship", [], hull_line(short)[:28]), (3, 4, "hull-of-14-bytes-crowded", [], hull_line(crowded)[:28]),
            (3, 5, "hull-of-14-bytes", [], HULL[:28]), (3, 4, "hull-of-12-bytes-narrow", [], hull_line(FERRY._replace(breadth=398))[:24]),
            (4, 5, "short-ship-no-zones", [], hull_line(short, 0)), (4, 5, "crowded-no-zones", [], hull_line(crowded, 0)),
            (4, 5, "crowded-21-zones", [], hull_line(crowded, 21)), (4, 5, "in-excess-bulkheads", [], hull_line(FERRY._replace(persons=(0, 10001), bulkheads=(2, 1)))),
            (4, 5, "narrow-length", [], hull_line(FERRY._replace(breadth=398), 3)), (4, 5, "cargo-limits-bulkheads", [], hull_line(Hull(7999, 1000, 6000, 4500, (0,)))),
            (2, 3, "odd-hull-of-14-bytes", [], HULL[:28] + "0"), (2, 4, "odd-crowded", [], hull_line(crowded) + "0"), (2, 5, "odd-zones", [], hull_line(FERRY, 3) + "0"),
            (2, 3, "odd-cargo-row", BEFORE, row(3, 1, figures=SAFE) + "0"), (2, 3, "odd-passenger-row-in-a-cargo-file", CARGO_BEFORE, cargo_row + "0"),
            (2, 7, "odd-stage-outside", BEFORE, row(3, 1, figures=OUTSIDE) + "0"), (2, 8, "odd-earlier-group", BEFORE, row(1, 2) + "0"),
            (3, 7, "long-stage-outside", BEFORE, row(3, 1, figures=OUTSIDE) + "00"), (3, 7, "cargo-row-outside", BEFORE, row(5, 1, figures=SAFE)),
            (3, 7, "given-row-outside", BEFORE, row(3, 1, figures=(0, 10001, 0))), (3, 8, "cargo-row-earlier-group", BEFORE, row(1, 2, figures=SAFE)),
            (3, 8, "short-row-earlier-group", BEFORE, row(1, 2)[:-2]), (3, 8, "two-sets-after-the-top", BEFORE, row(2, 1, h=TOP + 1, figures=SAFE + SAFE)),
            (3, 9, "cargo-row-open-group", OPEN_GROUP, row(2, 2, figures=CERTAIN)), (3, 9, "cargo-row-open-layer", OPEN_LAYER, row(2, 1, figures=SAFE)),
            (3, 9, "long-row-open-group", OPEN_GROUP, row(2, 2) + "00"), (3, 6, "long-end-counts-wrong", BEFORE, end_line(3) + "00"),
            (3, 6, "passenger-row-501-in-a-cargo-file", CARGO_FULL, cargo_row), (3, 9, "passenger-row-open-group-in-a-cargo-file", CARGO_OPEN_GROUP, cargo_row),
            (3, 8, "passenger-row-earlier-group-in-a-cargo-file", CARGO_BEFORE, row(1, 2, FOUR.half, FOUR.top)),
            (3, 7, "passenger-row-outside-in-a-cargo-file", CARGO_BEFORE, row(3, 1, FOUR.half, FOUR.top, OUTSIDE)),
            (6, 9, "count-open-group", open_end, end_line(3)), (6, 9, "count-open-layer", OPEN_LAYER, end_line(0)),
            (7, 8, "moment-outside-earlier-group", BEFORE, row(1, 2, figures=OUTSIDE)), (7, 8, "no-displacement-smaller-b", BEFORE, row(2, 1, HALF - 1, figures=BELOW)),
            (7, 8, "roro-2-after-the-top", BEFORE, row(2, 1, h=TOP + 1, figures=MARKED)), (7, 9, "moment-outside-open-group", OPEN_GROUP, row(2, 2, figures=OUTSIDE)),
            (7, 9, "roro-2-open-layer", OPEN_LAYER, row(2, 1, figures=MARKED)), (8, 9, "earlier-group-open-group", OPEN_GROUP, row(1, 2)),
            (8, 9, "smaller-b-open-layer", OPEN_LAYER, row(2, 1, 399)), (10, 3, "cargo-row-after-the-end", ENDED, row(3, 1, figures=SAFE)),
            (10, 6, "count-after-the-end", ENDED, end_line(3)), (10, 7, "stage-outside-after-the-end", ENDED, row(3, 1, figures=OUTSIDE)),
            (10, 8, "earlier-group-after-the-end", ENDED, row(1, 1))):
        yield one_line(first, second, name, before, line + CLOSED)
    for name, unclean in UNCLEAN:
        yield one_line(2, 7, "%s-moment-outside" % name, BEFORE, unclean(row(3, 1, figures=OUTSIDE)))
    for early, where, before, late, what, after in (
            (3, "cargo-row", [HULL, row(1, 1, figures=SAFE)], 7, "stage", [row(3, 1, figures=OUTSIDE), end_line(2)]),
            (7, "stage", [HULL, row(1, 1, figures=OUTSIDE)], 3, "cargo-row", [row(3, 1, figures=SAFE), end_line(2)]),
            (7, "stage", [HULL, row(1, 1, figures=BELOW)], 8, "row", [row(3, 2), row(3, 1), end_line(3)]),
            (8, "row", [HULL, row(2, 1), row(1, 1)], 7, "stage", [row(3, 1, figures=MARKED), end_line(3)]),
            (9, "row", [HULL, row(1, 1, HALF, TOP - 1), row(2, 1)], 3, "cargo-row", [row(3, 1, figures=CERTAIN), end_line(3)]),
            (4, "persons", [hull_line(crowded)], 3, "cargo-row", [row(1, 1, figures=SAFE), end_line(1)]),
            (5, "bulkheads", [hull_line(FERRY._replace(bulkheads=(2000, 7000, 4500)))], 7, "stage", [row(1, 1, figures=OUTSIDE), end_line(1)]),
            (3, "cargo-row", [HULL, row(1, 1, figures=SAFE)], 10, "missing", []), (6, "end", BEFORE + [end_line(3)], 10, "after", [row(3, 1)])):
        yield both(early, where, before, late, what, after)
    too_long = joined([HULL, row(1, 1, figures=SAFE)] + [row(3, 1)] * 430)
    yield refused("1-then-3-cargo-row", too_long, 1, 0, "%d bytes, and 3 on a line of them" % len(too_long))


PARTS = (hull_numbers, hull_frames, row_numbers, lengths_and_kinds, order, two_refusals)
