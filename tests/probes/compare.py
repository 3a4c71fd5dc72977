"""Compares single figures of the proved crates with the independent program, through a host in C: `python3 tests/probes/compare.py`."""

import argparse
import random
import struct
import subprocess
import sys
from itertools import chain, product
from pathlib import Path

HERE = Path(__file__).resolve().parent
ROOT = HERE.parent.parent
sys.path.insert(0, str(HERE.parent))

from generator.dice import Dice  # noqa: E402
from generator.fresh import seeded_file  # noqa: E402
from generator.seeded import seeded_ferry, seeded_hull, seeded_layers  # noqa: E402
from independent import Result, Row, judge, reading  # noqa: E402
from independent.answering import row_survival  # noqa: E402
from independent.casefile import hull_of, row_is_within  # noqa: E402
from independent.printing import mark_byte  # noqa: E402
from independent.regulation import v  # noqa: E402
from independent.rounding import share_ends  # noqa: E402
from linking import linked  # noqa: E402
from passengers import WORDS, at_limits, passenger_expected, seeded  # noqa: E402

PLACES = 21  # of a hull record: 0, the inner bulkheads, Ls, and zeros after it
MOST = 2**64 - 1
LOWEST, HIGHEST = -2**63, 2**63 - 1  # an opening has a sign
LEVERS, RANGES = (0, 1, 60, 118, 119, 120, 121, 5000), (0, 1, 800, 1598, 1599, 1600, 1601, 9000)
HEELS = (0, 1, 2499, 2500, 2501, 2750, 2999, 3000, 3001, 9000)
OPENINGS, FAR = (-30000, -1, 0, 1, 30000), (LOWEST, LOWEST + 1, -2**32, -65536, -30001, 30001, 65535, 2**32, HIGHEST)


def near(dice, edges, most):
    """A number at an edge or a little off it, or any up to the most."""
    return dice.randint(0, most) if dice.random() < 0.5 else max(dice.choice(edges) + dice.randint(-2, 2), 0)


def near_opening(dice):
    """An opening about the final waterline, at a limit, anywhere within its limits, or far outside of them; most of them dry."""
    way = dice.randrange(10)
    if way < 6:
        return dice.choice((0, 1, 30000, dice.randint(0, 30000)))
    return dice.choice(FAR) if way == 6 else dice.choice((-1, -2, dice.randint(-300, 300), dice.randint(-30000, 30000)))


def survivals(dice, count):
    """Results at every cap and limit, near them and over their whole limits, and given survivals with whatever stands beside them."""
    for lever, reach, heel, opening in product(LEVERS, RANGES, HEELS, OPENINGS + FAR):
        yield 2, lever, reach, heel, opening, 0
    for _ in range(count):
        yield (2, near(dice, LEVERS, dice.choice((130, 5000))), near(dice, RANGES, dice.choice((1700, 9000))),
               near(dice, HEELS, dice.choice((3100, 9000))), near_opening(dice), dice.choice((0, 10000)))
    for kind in (0, 1, 2, 4, 5, MOST):  # whatever is not kind 3 has lever, range, heel and opening, as large as numbers are
        for three in ((MOST, 1600, 2500), (120, MOST, 2500), (120, 1600, MOST), (MOST, MOST, MOST), (119, 1600, 2500), (0, 0, 2501)):
            for opening in OPENINGS + FAR:
                yield kind, *three, opening, 10000
    for given in [0, 1, 119, 1599, 2501, 9999, 10000] + [dice.randint(0, 10000) for _ in range(count // 10)]:
        yield 3, 0, 0, 0, 0, given
        yield 3, dice.choice(LEVERS), dice.choice(RANGES), dice.choice(HEELS), dice.choice(OPENINGS + FAR), given


def heights(dice, count):
    for draught in (500, 6000, 30000):
        for step in (0, 1, 7799, 7800, 7801, 12499, 12500, 12501):
            yield 0, draught + step, draught
            yield draught + step, draught + step + 4000, draught
    for _ in range(count):
        below, above = sorted(dice.sample(range(0, 60001), 2))
        yield below, above, dice.randint(500, 30000)


def files(dice, count):
    """Every file of the corpus, and fresh random and damaged ones."""
    for path in sorted((ROOT / "tests" / "cases").glob("*/*.case")):
        yield path.read_bytes()
    first = dice.randint(0, 10**9)
    for number in range(count):
        yield seeded_file(Dice(first + number))[0]


def layer(dice, hull):
    """The penetrations before a row and at it: a group's first layer, its last, the whole depth, or two layers of the group."""
    inner = seeded_layers(dice, hull, 2) or [hull.half]
    way = dice.below(4)
    if way == 0:
        return 0, hull.half
    if way == 1:
        return 0, inner[0]
    if way == 2:
        return (inner[-1] if inner[-1] < hull.half else 0), hull.half
    return inner[0] - dice.below(inner[0] + 1), inner[-1]


def group(dice, zones):
    """A group's first zone and zone count: at the stern, at the bow, both, or anywhere."""
    count = min(dice.pick((1, 2, 3, zones, dice.between(1, zones))), zones)
    return dice.pick((1, zones + 1 - count, dice.between(1, zones + 1 - count))), count


def rows(dice, count):
    """Rows in hulls of many shapes and of both ship types; now and then one that the hull does not have, or a hull that is none."""
    for _ in range(count):
        kind = dice.pick((1, 6))
        hull = (seeded_ferry if kind == 6 else seeded_hull)(dice, 20 if dice.one_in(4) else None)
        (a, n), (before, b) = group(dice, hull.zones), layer(dice, hull)
        places = (0,) + hull.bulkheads + (hull.ls,)
        numbers = [kind, hull.ls, hull.breadth, hull.ds, hull.dl, hull.zones, *places] + [0] * (PLACES - len(places))
        asked = [a, n, before, b]
        if dice.one_in(20):
            asked[dice.below(4)] = dice.pick((0, hull.zones + 1, hull.half + 1, 2**63, 2**64 - 1, 2**64 - hull.zones))
        if dice.one_in(50):
            numbers[dice.below(6 + len(places))] = dice.pick((0, 1, 398, 400, 998, 1999, 7999, 19801, 6001, 2**64 - 1))
        if dice.one_in(10):
            numbers[0] = dice.pick((0, 1, 5, 6, 7, 262, 2**64 - 1))
        yield tuple(numbers), tuple(asked)


def hull_read(kind, ls, breadth, ds, dl, zones, *places):
    """The hull that the independent program reads from a frame of these numbers, or None where it refuses it or no frame has them. A passenger ship has
    nobody aboard and is under the earlier rule, and whatever is not kind 6 is a cargo ship."""
    if max(ls, breadth, ds, dl, *places) > 65_535 or not 1 <= zones <= 20 or places[0] != 0 or places[zones] != ls:
        return None
    sizes, inner = (b"".join(number.to_bytes(2, "big") for number in part) for part in ((ls, breadth, ds, dl), places[1:zones]))
    read = hull_of((b"\x06" + sizes + bytes(5) if kind == 6 else b"\x01" + sizes) + bytes([zones]) + inner)
    return None if isinstance(read, int) else read


def share_expected(numbers, asked):
    hull = hull_read(*numbers)
    if hull is None:
        return 0, 0, 0
    a, n, before, b = asked
    row = Row(a, n, b, 1, None, (0, 0, 0), before)
    return 1, *(share_ends(hull, row) if row_is_within(row, hull) and before <= b else (0, 0))


def survival_expected(kind, lever, reach, heel, opening, given):
    row = Row(1, 1, 1, 1, None, (given,) * 3) if kind == 3 else Row(1, 1, 1, 1, (Result(lever, reach, heel, opening),) * 3, None)
    ends, marks = row_survival(row, 0)
    return *ends, mark_byte(marks)


def height_expected(below, above, draught):
    return (v(above - draught) - v(below - draught),)


def judgement_expected(data):
    number, line = judge(data)
    return number, line, 0 if number else len(reading(data).rows)


def numbers(values):
    """Numbers of eight bytes, those below zero in two's complement."""
    return struct.pack("<%dQ" % len(values), *(value % 2**64 for value in values))


def questions(dice, wanted):
    """Each question in words, as the host reads it, and the numbers that it must answer."""
    for asked in survivals(dice, wanted.survivals):
        yield "survival of kind %d, lever %d, range %d, heel %d, opening %d, given %d" % asked, b"s" + numbers(asked), survival_expected(*asked)
    for asked in chain(at_limits(OPENINGS + FAR), seeded(Dice(wanted.seed), wanted.passengers, OPENINGS + FAR)):
        yield "survival of " + WORDS % asked, b"p" + numbers(asked), passenger_expected(*asked)
    for asked in heights(dice, wanted.heights):
        yield "v of a row from %d to %d at draught %d" % asked, b"v" + numbers(asked), height_expected(*asked)
    for hull, row in rows(Dice(wanted.seed), wanted.rows):
        yield "share of %s in the hull %s" % (row, hull), b"q" + numbers(hull + row), share_expected(hull, row)
    for data in files(dice, wanted.files):
        yield "judgement of %r" % data[:60], b"j" + numbers([len(data)]) + data, judgement_expected(data)


def main():
    parser = argparse.ArgumentParser(description=__doc__)
    parser.add_argument("--seed", type=int, default=1)
    parser.add_argument("--survivals", type=int, default=10_000)
    parser.add_argument("--passengers", type=int, default=20_000)
    parser.add_argument("--heights", type=int, default=10_000)
    parser.add_argument("--rows", type=int, default=10_000)
    parser.add_argument("--files", type=int, default=20_000)
    wanted = parser.parse_args()
    asked = list(questions(random.Random(wanted.seed), wanted))
    told = subprocess.run(linked(HERE / "host.c", "probes"), input=b"".join(question for _, question, _ in asked), stdout=subprocess.PIPE, check=True).stdout
    passed = failed = at = 0
    for words, _, expected in asked:
        answer = struct.unpack_from("<%dQ" % len(expected), told, at)
        at += 8 * len(expected)
        if answer == expected:
            passed += 1
            continue
        failed += 1
        if failed <= 5:
            print("%s: %s, and the independent program says %s" % (words, answer, expected))
    print("%d passed, %d failed" % (passed, failed))
    return 0 if passed and not failed and at == len(told) else 1


if __name__ == "__main__":
    sys.exit(main())
