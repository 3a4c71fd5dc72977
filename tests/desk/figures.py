"""Holds the desk's figures against the library and the second program: every row, group, sum and check, for the examples and random ships of each type."""

import csv
import io
import sys
from dataclasses import replace
from fractions import Fraction
from pathlib import Path

sys.path.insert(0, str(Path(__file__).resolve().parent))

import seeds  # noqa: E402
from frontdesk.figures import decimals, engine, exports, findings, reasons  # noqa: E402
from frontdesk.page import report  # noqa: E402
from frontdesk.reading import casefile  # noqa: E402
from frontdesk.ship import Flooding, Result, Row, Source  # noqa: E402
from independent import answer, reading  # noqa: E402
from markupsafe import escape  # noqa: E402
from independent.regulation import draughts, group_share, marks, row_share, row_v  # noqa: E402
from independent.rounding import Ends, added_ends  # noqa: E402
from tally import Tally  # noqa: E402

RANDOM = 200  # ships of each type
BILLION = 10**9
tally = Tally()
library = engine.load()


def found_of(name, data):
    ship = casefile.parse(data, name + ".case")
    return findings.find(library, ship)


def against_the_second_program(name, data, found):
    """Every figure that the library gives, and what the desk makes of it, against fractions."""
    case, told = reading(data), answer(data)
    wrong = []
    if (found.verdict, tuple(index.ends for index in found.indices)) != (told.verdict, told.ends):
        wrong.append("verdict or indices")
    if [index.mark for index in found.indices] != list(marks(case.hull.L, case.hull.persons, case.hull.rule)):
        wrong.append("R or mark")
    levels = draughts(case.hull.ds, case.hull.dl)
    for row, mine, share, survivals in zip(case.rows, found.cases, told.shares, told.survivals):
        exact = row_share(case.hull, row)
        if mine.share != share or not share.lower <= exact * BILLION <= share.upper:
            wrong.append("share of row %d" % mine.number)
        for at, level, survival in zip(mine.at, levels, survivals):
            byte = sum(bit for bit, mark in zip((1, 2, 4, 8), survival.marks) if mark)
            if (at.v, (at.bottom, at.top), at.marks) != (row_v(row, level), survival.ends, byte):
                wrong.append("v, survival or marks of row %d" % mine.number)
            if (at.worth.adds, at.worth.chance) != (added_ends(share, row, level, survival.ends), added_ends(share, row, level, Ends(10_000, 10_000))):
                wrong.append("adds or chance of row %d" % mine.number)
            most, least = (exact * at.v / decimals.HEIGHTS * (10_000 - end) / 10_000 * BILLION for end in (at.bottom, at.top))
            loss = at.worth.loss
            if not (0 <= loss.lower <= least and (loss.upper >= most)) or (at.bottom == 10_000) != (not at.reasons):
                wrong.append("loss or reasons of row %d" % mine.number)
    for group in found.groups:
        if not group.share.lower <= group_share(case.hull, group.first, group.count) * BILLION <= group.share.upper:
            wrong.append("share of group " + group.name)
    return tally.same(wrong, [], name + ": against the second program")


def sums(name, found):
    """The desk's sums: all checks agree, and each way of adding up comes to the same."""
    tally.same([check.what for check in found.checks if not check.agrees], [], name + ": checks")
    tally.that(len(found.checks) == 11 and found.agrees, name + ": eleven checks")
    whole = found.total.whole
    for what, parts in (("groups", found.groups), ("numbers of zones", found.counts)):
        for part in range(3):
            together = tuple(sum(one.whole[part][end] for one in parts) for end in (0, 1))
            tally.same(together, whole[part], "%s: %s add up" % (name, what))
    lost = tuple(sum(cause.loss[end] for cause in found.causes) for end in (0, 1))
    tally.same(lost, whole.loss, name + ": reasons add up to what is lost")
    least, most = whole.chance.lower - whole.adds.upper, whole.chance.upper - whole.adds.lower
    tally.that(least <= whole.loss.upper and whole.loss.lower <= most, name + ": loss")
    listed = {(case.row.first, case.row.count) for case in found.cases}
    tally.same({(group.first, group.count) for group in found.groups if group.listed}, listed, name + ": listed groups")
    tally.same(len(found.groups), found.ship.zones * (found.ship.zones + 1) // 2, name + ": every group")
    tally.that(all(part.chance.lower <= BILLION for part in found.total.at), name + ": chances are at most one")
    tally.that(all(one.whole.kept is None or 0 <= one.whole.kept <= 100 for one in (*found.groups, *found.counts)), name + ": kept is a per cent")
    room = 10_000 * (len(found.cases) + len(found.groups))  # of rows' and groups' ends, in tenths of billionths times a hundred
    tally.that(all((one.kept or 0) * 10 * one.share.lower <= 100 * one.whole.adds.upper + room for one in found.counts), name + ": no more is kept than added")
    tally.same(sum(group.share.upper for group in found.groups if not group.listed), found.missing_most, name + ": missing groups")
    losses = [case.whole.loss.lower for case in found.worst]
    tally.same(losses, sorted(losses, reverse=True), name + ": the worst first")


def tables(name, found):
    """The case table as CSV: as many cells as headings, and each number as it was found."""
    lines = list(csv.reader(io.StringIO(exports.commas(found).decode("utf-8"), newline="")))
    head = lines[0]
    right = len(lines) == len(found.cases) + 1 and len(set(head)) == len(head) and all(len(line) == len(head) for line in lines)
    for line, case in zip(lines[1:], found.cases):
        of = dict(zip(head, line))
        right = right and Fraction(of["b m"]) * 100 == case.row.depth and Fraction(of["H m"]) * 1000 == case.row.height
        right = right and Fraction(of["share at most"]) * BILLION == case.share.upper
        right = right and (int(of["first zone"]), int(of["last zone"])) == (case.row.first, case.row.first + case.row.count - 1)
        for draught, at in zip(("deepest", "partial", "light"), case.at):
            right = right and Fraction(of["survival at least, " + draught]) * 10_000 == at.bottom and int(of["v in 916,500ths, " + draught]) == at.v
            right = right and Fraction(of["adds at least, " + draught]) * BILLION == at.worth.adds.lower
            right = right and Fraction(of["loss at most, " + draught]) * BILLION == at.worth.loss.upper
        right = right and Fraction(of["adds to A at most"]) * 10 * BILLION == case.whole.adds.upper and len(of["adds to A at most"]) == 12
    tally.that(right, name + ": the table of cases as CSV")


def workbook():
    """The same as a workbook: text that looks like a formula stays text, and numbers are those of the CSV."""
    import openpyxl

    ship = casefile.parse((seeds.ROOT / "examples/ferry.case").read_bytes())
    ship = replace(ship, rows=(replace(ship.rows[0], name="=1+1"), replace(ship.rows[1], name="tank \x07 ä"), *ship.rows[2:]))
    found = findings.find(library, ship)
    book = openpyxl.load_workbook(io.BytesIO(exports.workbook(found)))
    tally.same(book.sheetnames, ["cases", "indices"], "the workbook's sheets")
    lines = list(csv.reader(io.StringIO(exports.commas(found).decode("utf-8"), newline="")))
    cells = list(book["cases"].iter_rows())
    tally.same((cells[1][4].value, cells[1][4].data_type, lines[1][4]), ("=1+1", "s", "'=1+1"), "a name like a formula")
    tally.same(cells[2][4].value, "tank \ufffd ä", "a name with a character that no workbook takes")
    differ = [
        cell.coordinate for line, row in zip(lines, cells) for text, cell in zip(line, row)
        if cell.column != 5 and (Fraction(repr(cell.value)) != Fraction(text) if isinstance(cell.value, (int, float)) else (cell.value or "") != text)
    ]
    tally.same((differ, len(lines)), ([], len(cells)), "the workbook's cells against the CSV")
    tally.same(exports.workbook(found), exports.workbook(found), "the same findings give the same workbook")
    tally.same([book["indices"].cell(2, at).value for at in (1, 4, 5)], ["A", *found.required], "the workbook's indices")


class Altered:
    """The library with one figure of a ship changed, which the desk must notice."""

    version = library.version

    def __init__(self, data, entry, change):
        self.data, self.entry, self.change = data, entry, change

    def __getattr__(self, name):
        told = getattr(library, name)
        return (lambda data: self.change(told(data)) if data == self.data else told(data)) if name == self.entry else told


def bumped(values, at):
    values = list(values)
    values[at] += 1
    return tuple(values)


def differences():
    """A figure that is one off is told: DIFFERS, and a status of 2."""
    data = (seeds.ROOT / "examples/coaster.case").read_bytes()
    ship = casefile.parse(data)
    good = findings.find(library, ship)
    tally.same((good.agrees, good.status), (True, 0), "the coaster agrees")
    for at in range(4, 12):
        found = findings.find(Altered(data, "figures", lambda told: bumped(told, at)), ship)
        tally.same((found.agrees, found.status), (False, 2), "figure %d one off" % at)
    for at in (0, 1, 2, 6, 7, 8, 12, 13, 14, 18, 19):
        found = findings.find(Altered(data, "rows", lambda rows: [bumped(rows[0], at), *rows[1:]]), ship)
        tally.that(not found.agrees, "number %d of a row one off" % at)
    tally.that(not findings.find(Altered(data, "figures", lambda told: (*told[:2], 2, *told[3:])), ship).agrees, "another verdict")
    tally.that(not findings.find(Altered(data, "required", lambda told: (told[0] * 2, *told[1:])), ship).agrees, "another R")
    further = Altered(data, "groups", lambda told: [(told[0][0] + 99, told[0][1] + 99), *told[1:]])
    tally.that(not findings.find(further, ship).agrees, "another share of a group")


def refusals():
    ship = casefile.parse((seeds.ROOT / "examples/coaster.case").read_bytes())
    for wrong, number, line, row in ((replace(ship, length=100), 4, 1, None), (replace(ship, rows=ship.rows[:1] * 2), 8, 3, ship.rows[0])):
        try:
            findings.find(library, wrong)
            tally.that(False, "a refused ship is refused")
        except findings.Refused as refused:
            tally.same((refused.number, refused.line, refused.row), (number, line, row), "where a ship is refused")
    empty = findings.find(library, replace(ship, rows=()))
    tally.same((empty.verdict, empty.agrees, len(empty.missing)), (2, True, 28 - sum(group.share.upper == 0 for group in empty.groups)), "a ship without rows")
    tally.same((empty.total.whole.kept, empty.worst, empty.causes), (None, [], ()), "a ship without rows has no loss")


def words():
    """Reasons in words, and cut decimals."""
    cargo, given = Row(1, 1, 10, 10, results=(Result(0, 0, 0, 0),) * 3), Row(1, 1, 10, 10, given=(1, 2, 3))
    ferry = Row(1, 1, 10, 10, results=(Result(0, 0, 0, 0),) * 3, floodings=tuple(Flooding(1, 1, 0, 0, 0, ro_ro) for ro_ro in (True, False, False)))
    every = "lever below 0.12 m, range below 16 degrees, heel above 25 degrees and opening immersed"
    tally.same(reasons.told(reasons.of(cargo, 15, 0), cargo, 0), every, "all marks")
    tally.same(reasons.told(reasons.of(ferry, 7, 0), ferry, 0), "lever below 0.20 m, range below 20 degrees and heel above 7 degrees", "a ro-ro space")
    tally.same(reasons.told(reasons.of(ferry, 3, 0), ferry, 1), "lever below 0.12 m and range below 16 degrees", "no ro-ro space at that draught")
    tally.same(reasons.told(reasons.of(ferry, 0, 9999), ferry, 0), "intermediate stage or heeling moment", "no mark")
    tally.same(reasons.told(reasons.of(given, 0, 5), given, 0), "survival given below one", "given")
    tally.same([reasons.of(row, 0, 10_000) for row in (cargo, given, ferry)], [(), (), ()], "a survival of one")
    third = Fraction(1, 3)
    tally.same([decimals.cut(third, 3), decimals.cut(-third, 3), decimals.cut(726_658_435, 4, BILLION)], ["0.333", "-0.334", "0.7266"], "rounded down")
    tally.same([decimals.lifted(third, 3), decimals.lifted(-third, 3), decimals.lifted(5, 0, 2)], ["0.334", "-0.333", "3"], "rounded up")
    tally.same([decimals.nearer(third, 2), decimals.nearer(-third, 2)], ["0.33", "-0.33"], "towards zero")
    tally.same([decimals.exact(1610, 2, 100), decimals.exact(-5, 3, 1000)], ["16.10", "-0.005"], "exact")
    tally.same([decimals.per_cent(1, 3), decimals.per_cent(1, 0)], [33, None], "per cent")
    try:
        decimals.exact(1, 1, 3)
        tally.that(False, "a third is not exact")
    except ValueError:
        tally.that(True, "a third is not exact")


def commands():
    """The commands that do it again, for names that a shell or a command would take for something else; and a listed group that no damage reaches."""
    printed = casefile.parse(dict(seeds.examples())["printed"])
    for file, form, wanted in (
        ("-x.case", "case file", ("sha256sum ./-x.case", "./damindex < ./-x.case")),
        ("a < b.case", "case file", ("sha256sum 'a < b.case'", "./damindex < 'a < b.case'")),
        ("CSV files", "CSV files", ("./desk case FOLDER -o ship.case", "sha256sum ship.case", "./damindex < ship.case")),
        ("-x.xlsx", "workbook", ("./desk case ./-x.xlsx -o ship.case", "sha256sum ship.case", "./damindex < ship.case")),
    ):  # fmt: skip
        found = findings.find(library, replace(printed, source=Source(file=file, form=form)))
        tally.same(found.reproduce, wanted, "the commands for %s" % file)
        told = "--exact %s<" % escape(found.case_name)
        tally.that(told in report.page(found), "the second program's command for %s" % file)
    far = replace(printed, bulkheads=tuple(range(500, printed.length - 500, 500))[:19])
    row = replace(printed.rows[0], first=1, count=far.zones, depth=far.half_breadth, height=far.top)
    found = findings.find(library, replace(far, rows=(row,)))
    shown = sum(group.surely for group in found.groups)
    told = "Groups of zones that are listed: 1; that have a share of the damage and are not: %d." % shown
    tally.that(found.groups[far.zones - 1].share.lower == 0 and told in report.page(found), "a listed group that no damage reaches is not said to have a share")


def main():
    ships = seeds.examples() + [file for passengers in (False, True) for file in seeds.random_files(RANDOM, passengers)]
    for name, data in ships:
        found = found_of(name, data)
        against_the_second_program(name, data, found)
        sums(name, found)
        tables(name, found)
    workbook()
    differences()
    refusals()
    words()
    commands()
    tally.that(len(seeds.examples()) >= 14, "the examples are there")
    return tally.close()


if __name__ == "__main__":
    sys.exit(main())
