"""No refusal comes as a surprise: whatever tables are let through, the file that is made of them keeps the case file's rules, whose limits are the tables'."""

import sys
from dataclasses import replace
from pathlib import Path

ROOT = Path(__file__).resolve().parent.parent.parent
sys.path[:0] = [str(ROOT), str(ROOT / "tests"), str(ROOT / "tests" / "desk")]

from generator.dice import Dice  # noqa: E402
from generator.frames import case_file  # noqa: E402
from generator.seeded import seeded_case  # noqa: E402
from independent.casefile import Refusal, reading  # noqa: E402
from tally import Tally  # noqa: E402

from frontdesk.reading import casefile, tables, units  # noqa: E402
from frontdesk.reading.columns import CARGO_BREADTH, CARGO_LENGTH, KNOWN, OF_SHEET, folded  # noqa: E402
from frontdesk.reading.mistakes import Mistakes  # noqa: E402
from frontdesk.reading.sheets import Sheet  # noqa: E402

CHANGES = 3_000
WORDS = ("", "B/2", "top", "none", "yes", "no", "earlier", "2020", "cargo", "passenger", "1", "1-2", "2-20", "0", "-1", "1e2")


def read(sheets):
    """The ship, or what is told."""
    try:
        return tables.ship_of(sheets), []
    except Mistakes as found:
        return None, found.lines()


def changed(dice, sheets):
    """The sheets with one to three cells changed: to a limit or next to it, to a word, to a cell of another row, or with a row gone or twice."""
    sheets = dict(sheets)
    for _ in range(dice.pick((1, 1, 2, 3))):
        name = dice.pick(("ship", "zones", "cases", "cases", "cases"))
        sheet, rows = sheets[name], [list(cells) for _, cells in sheets[name].rows]
        way = dice.below(10)
        if not rows:
            continue
        row, at = dice.below(len(rows)), dice.below(len(sheet.headings))
        if way == 0:
            del rows[row]
        elif way == 1:
            rows.append(list(rows[row]))
        elif way == 2:
            rows[row][at] = rows[dice.below(len(rows))][at]
        elif way == 3:
            rows[row][at] = dice.pick(WORDS)
        else:
            rows[row][at] = near_a_limit(dice, KNOWN[name][folded(sheet.headings[at])], rows[row][at])
        sheets[name] = Sheet(name, sheet.headings, tuple(enumerate(map(tuple, rows), 2)))
    return sheets


def near_a_limit(dice, column, cell):
    if column.choices or column.text or not column.most:
        return cell
    off = dice.pick((-1, 0, 0, 1))
    return units.plain(dice.pick((column.least, column.most, dice.between(column.least, column.most))) + off, column.places)


def nothing_unforeseen(tally):
    """Changed sheets either are told, or make a file that is accepted; both happen often."""
    dice, through = Dice(11), 0
    for number in range(CHANGES // 10):
        ship = casefile.parse(case_file(*seeded_case(dice, most=dice.pick((3, 12)), passengers=number % 2 == 1)))
        if ship is None or isinstance(reading(casefile.write(ship)), Refusal):
            continue
        sheets = tables.sheets_of(ship)
        for _ in range(10):
            other, lines = read(changed(dice, sheets))
            through += other is not None
            if other is None:
                tally.that(all(line.startswith(("ship, row ", "zones, row ", "cases, row ")) for line in lines), lines)
            else:
                tally.that(not isinstance(reading(casefile.write(other)), Refusal), number, "was let through, and is refused", reading(casefile.write(other)))
    tally.that(CHANGES // 5 < through < CHANGES * 4 // 5, "so many changes were let through:", through)


def limits(tally):
    """At each limit of each column a number is taken, and one unit beyond it told at that column."""
    for name in ("paper-carrier", "printed", "day-boat"):
        ship = casefile.parse((ROOT / "examples" / (name + ".case")).read_bytes())
        sheets = tables.sheets_of(ship)
        for at, heading in enumerate(sheets["cases"].headings):
            column = KNOWN["cases"][folded(heading)]
            filled = [row for row, (_, cells) in enumerate(sheets["cases"].rows) if cells[at] != ""]
            if not column.part or column.choices or not filled:
                continue
            for whole, taken in ((column.least, True), (column.most, True), (column.least - 1, False), (column.most + 1, False)):
                _, lines = read(with_cell(sheets, "cases", filled[0], at, units.plain(whole, column.places)))
                place = 'cases, row %d, "%s": ' % (filled[0] + 2, heading)
                tally.that(not lines if taken else [line.partition("found")[0] for line in lines] == [place], name, heading, whole, lines)


def hull_limits(tally):
    """Length, breadth and draughts of both types; a hull of one zone without rows, so that nothing else goes by them."""
    for type, columns in (("cargo", (CARGO_LENGTH, CARGO_BREADTH)), ("passenger", OF_SHEET["ship"][2:4])):
        length, breadth = columns
        for change, taken in (
                ({"length": length.least}, True), ({"length": length.most}, True), ({"length": length.least - 1}, False), ({"length": length.most + 1}, False),
                ({"breadth": breadth.least}, True), ({"breadth": breadth.most}, True), ({"breadth": breadth.least - 2}, False),
                ({"breadth": breadth.most + 2}, False),
                ({"deepest": 1_000, "light": 500}, True), ({"deepest": 999, "light": 504}, False), ({"deepest": 30_000}, True), ({"deepest": 30_005}, False),
                ({"light": 495}, False), ({"light": 6_000}, True), ({"light": 6_005}, False), ({"light": 5_996}, False), ({"breadth": 1_999}, False)):
            ship = replace(hull(type), **change)
            other, _ = read(tables.sheets_of(ship))
            judged = not isinstance(reading(casefile.write(ship)), Refusal)
            tally.same((other is not None, judged), (taken, taken), "%s %s" % (type, change))


def edges(tally):
    """Persons, bulkheads, groups and places on both sides of what the file takes: tables and file are let through, or not, alike."""
    ferry, coaster = hull("passenger"), casefile.parse((ROOT / "examples" / "coaster.case").read_bytes())
    last, places = coaster.rows[-1], coaster.bulkheads
    ships = [replace(ferry, lifeboats=persons // 2, excess=persons - persons // 2, rule=rule)
             for persons in (0, 1_350, 1_351, 6_000, 6_001, 20_000, 20_001) for rule in (0, 1)]
    ships += [replace(coaster, bulkheads=moved) for moved in (
        places[:1] + places[:-1], places[::-1], (0,) + places[1:], places[:-1] + (coaster.length,), places[:-1] + (1,))]
    ships += [replace(coaster, rows=coaster.rows[:-1] + (replace(last, **change),)) for change in (
        {"count": 2}, {"first": coaster.zones + 1}, {"first": 0}, {"depth": 0}, {"depth": last.depth + 1}, {"depth": last.depth - 1},
        {"height": coaster.top - 1}, {"height": 60_000}, {"height": 60_001}, {"height": 0})]
    for number, ship in enumerate(ships):
        other, lines = read(tables.sheets_of(ship))
        tally.same(other is not None, not isinstance(reading(casefile.write(ship)), Refusal), "edge %d: %s" % (number, lines))


def hull(type):
    ship = casefile.parse(case_file(*seeded_case(Dice(1), most=0, zones=1, passengers=type == "passenger", rule=0)))
    return replace(ship, length=9_000, breadth=2_000, deepest=6_000, light=4_000)


def too_many_rows(tally):
    """A 501st row of a cargo ship, and as many of a passenger ship as no longer fit into the file."""
    for name, most in (("printed", 500), ("day-boat", None)):
        ship = casefile.parse((ROOT / "examples" / (name + ".case")).read_bytes())
        most = most or (casefile.LONGEST - 34 - 4 * ship.zones) // 153
        pattern = next(row for row in ship.rows if row.height >= ship.top)
        for count in (most, most + 1):
            rows = tuple(replace(pattern, first=1, count=1, depth=ship.half_breadth, height=at) for at in range(1, count)) + (
                replace(pattern, first=1, count=1, depth=ship.half_breadth, height=ship.top),)
            other, lines = read(tables.sheets_of(replace(ship, rows=rows)))
            if count == most:
                tally.that(other is not None and not isinstance(reading(casefile.write(other)), Refusal), name, count, lines)
            else:
                tally.same(lines[0].partition(";")[0], "cases, row %d: this is row %d of the cases" % (count + 1, count), name)


def with_cell(sheets, name, row, at, cell):
    rows = [(number, cells[:at] + (cell,) + cells[at + 1:] if number == row + 2 else cells) for number, cells in sheets[name].rows]
    return {**sheets, name: Sheet(name, sheets[name].headings, tuple(rows))}


if __name__ == "__main__":
    tally = Tally()
    for test in (nothing_unforeseen, limits, hull_limits, edges, too_many_rows):
        test(tally)
    sys.exit(tally.close())
