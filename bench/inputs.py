"""Writes the inputs of the benchmark into a folder: valid files of many sizes, rows as numbers, and bad files as long as a file may be."""

import struct
import sys
from pathlib import Path

sys.path.insert(0, str(Path(__file__).resolve().parent.parent / "tests"))

from generator.dice import Dice  # noqa: E402
from generator.frames import Hull, Row, case_file, joined, lines_of  # noqa: E402
from generator.shapes import groups_of  # noqa: E402

LONGEST = 65_536
ROWS = (50, 100, 200, 300, 400, 500)
ZONES = (2, 3, 5, 8, 12, 16, 20)


def ship(zones):
    """A ship of 150 m with zones of nearly one length."""
    places = [15_000 * k // zones + (k * 37) % 90 for k in range(1, zones)]
    return Hull(15_000, 2_400, 9_000, 6_000, tuple(places))


def results(dice, sets):
    """So many sets of three results: levers, ranges and heels of which most are below the caps, openings of which one in twenty is immersed."""
    return tuple(n for _ in range(3 * sets) for n in (dice.between(0, 150), dice.between(0, 2_000), dice.between(0, 3_100), dice.between(-150, 2_849)))


def passengers(dice, bears):
    """What a passenger ship's row has at the three draughts: final stages of which most are below the caps; and moments that are borne in full, or of
    which some part is not, with an intermediate stage that is below its caps in one of four, and a ro-ro space in one of three."""
    finals, besides = [], []
    for _ in range(3):
        lever = dice.between(45, 250)
        finals += [lever, dice.between(200, 2_400), dice.between(0, 1_450), dice.between(-150, 2_849)]
        weight = dice.between(8_000, 12_000)
        full = (lever - 40) * weight // 1_000
        moment = dice.between(1, full) if bears else dice.between(full + 1, 4 * full + 1_000)
        stage = (dice.between(5, 49), dice.between(100, 699)) if dice.one_in(4) else (dice.between(50, 300), dice.between(700, 2_000))
        besides += [weight, moment, *stage, dice.between(0, 1_500), int(dice.one_in(3))]
    return tuple(finals + besides)


def rows(dice, hull, count, heights, longest, sets=1):
    """So many rows: of each group of up to so many zones as many layers as it takes, each of so many heights. With two sets of results they are of
    kind 05, with one of kind 02; a passenger ship's are of kind 07, and in every other one no moment is borne in full."""
    groups = groups_of(hull, longest)
    layers = -(-count // heights)
    found = []
    for number, (a, n) in enumerate(groups):
        mine = layers // len(groups) + (number < layers % len(groups))
        depths = [hull.half * (k + 1) // mine for k in range(mine)]
        for b in depths:
            tall = min(heights, count - len(found))
            found += [Row(a, n, b, h, passengers(dice, k % 2) if hull.persons else results(dice, sets)) for k, h in enumerate(
                 [hull.ds + 900 * (k + 1) for k in range(tall - 1)] + [hull.top], len(found))]
    return found


def valid_files():
    """Each name and its bytes: the file that the ratio is of, the same ship with rows of kind 05, others of 500 rows and 20 zones, two series that
    grow, and a passenger ship of 4 zones with as many rows as its file may have."""
    for name, count, zones, heights, longest, sets in (
            [("typical", 500, 20, 2, 5, 1), ("second-sets", 500, 20, 2, 5, 2)]
            + [("layers", 500, 20, 1, 20, 1), ("layers-of-few", 500, 20, 1, 2, 1), ("heights", 500, 20, 5, 5, 1)]
            + [("rows-%03d" % count, count, 20, 2, 5, 1) for count in ROWS]
            + [("zones-%02d" % zones, 500, zones, 2, 5, 1) for zones in ZONES]):
        hull = ship(zones)
        yield name, case_file(hull, rows(Dice(len(name) + count + zones), hull, count, heights, longest, sets))
    ferry = ship(4)._replace(persons=(900, 300))
    yield "passengers", case_file(ferry, rows(Dice(428), ferry, 428, 2, 4))


def slow_files():
    """Bad inputs as long as a file may be, or nearly so, of every kind that might keep a reader busy; good rows in them are of kind 05."""
    hull = ship(20)
    all_rows = rows(Dice(7), hull, 500, 1, 20, 2)
    lines = lines_of(hull, all_rows)
    first, row = lines[0], lines[1]
    full = joined(lines)

    def filled(start, more):
        return (start + more * LONGEST)[:LONGEST]

    yield "line-feeds", b"\n" * LONGEST
    yield "one-long-line", b"0" * LONGEST
    yield "one-long-line-closed", b"0" * (LONGEST - 1) + b"\n"
    yield "one-long-hull", filled(joined([first])[:-1], b"00")[:-2] + b"\n\n"
    yield "hull-then-long-line", filled(joined([first]), b"02")
    yield "hull-then-long-line-closed", filled(joined([first]), b"02")[:-1] + b"\n"
    yield "hull-then-line-feeds", filled(joined([first]), b"\n")
    yield "one-row-again", filled(joined([first]), joined([row]))
    yield "no-end", joined(lines[:-1])
    yield "bad-last-line", joined(lines[:-1]) + filled(b"", b"0f")[:LONGEST - len(full)] + b"\n"
    yield "bad-digit-at-last", full[:-2] + b"g\n"
    yield "wrong-count", full[:-2] + b"5\n" if full[-2:-1] != b"5" else full[:-2] + b"6\n"
    yield "last-group-open", case_file(hull, all_rows[:-1])
    yield "bytes-after-the-end", filled(full, b"0")
    yield "long-line-after-the-end", filled(full, b"0")[:-1] + b"\n"
    yield "upper-case", full.upper()
    yield "upper-case-at-last", full[:-5] + b"F" + full[-4:]
    yield "too-long", full + b"0" * (LONGEST + 1 - len(full))
    yield "zero-bytes", b"\0" * LONGEST
    yield "empty", b""


def row_numbers(zones=20, count=500):
    """A hull's 27 numbers and four for each row: groups of up to five zones, first layers and deeper ones."""
    dice, hull = Dice(11), ship(zones)
    places = (0,) + hull.bulkheads + (hull.ls,)
    numbers = [1, hull.ls, hull.breadth, hull.ds, hull.dl, zones, *places] + [0] * (21 - len(places))
    groups = groups_of(hull, 5)
    for _ in range(count):
        a, n = dice.pick(groups)
        before = 0 if dice.one_in(3) else dice.between(1, hull.half - 1)
        numbers += [a, n, before, hull.half if dice.one_in(3) else dice.between(before + 1, hull.half)]
    return struct.pack("<%dQ" % len(numbers), *numbers)


def main(folder):
    folder = Path(folder)
    for kind, files in (("valid", valid_files()), ("slow", slow_files())):
        (folder / kind).mkdir(parents=True, exist_ok=True)
        for name, data in files:
            (folder / kind / name).write_bytes(data)
    (folder / "rows").write_bytes(row_numbers())


if __name__ == "__main__":
    main(sys.argv[1])
