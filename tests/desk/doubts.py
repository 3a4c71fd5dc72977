"""Each doubt with a ship that has it and its nearest neighbour that has not; and which doubts the examples have."""

import io
import re
import sys
from dataclasses import replace
from pathlib import Path

sys.path.insert(0, str(Path(__file__).resolve().parent))

import seeds  # noqa: E402
from frontdesk import doubts  # noqa: E402
from frontdesk.figures import engine, findings  # noqa: E402
from frontdesk.reading import casefile, commas, tables  # noqa: E402
from frontdesk.ship import NO_OPENING, Result, Row  # noqa: E402
from tally import Tally  # noqa: E402

tally = Tally()
library = engine.load()
BY_NAME = dict(seeds.examples())


def ship_of(name):
    """An example as a workbook gives it: rows from 2 on."""
    return tables.ship_of(tables.sheets_of(casefile.parse(BY_NAME[name])), name + ".xlsx")


def doubted(ship):
    return doubts.of(ship, findings.find(library, ship))


def warns(what, ship, part, where, neighbour):
    """The ship has one doubt with these words at this place; its neighbour has none with them, whatever the numbers in them are."""
    found = [doubt for doubt in doubted(ship) if part in doubt.text]
    tally.same([doubt.where for doubt in found], [where], "%s: it warns" % what)
    kind = re.compile(re.sub(r"\d+", r"\\d+", re.escape(part)))
    tally.same([doubt.text for doubt in doubted(neighbour) if kind.search(doubt.text)], [], "%s: its neighbour does not" % what)


def changed(ship, change):
    """The ship with every result changed; given survivals stay."""
    return replace(ship, rows=tuple(replace(row, results=tuple(map(change, row.results))) for row in ship.rows))


def with_row(ship, at, **fields):
    return replace(ship, rows=(*ship.rows[:at], replace(ship.rows[at], **fields), *ship.rows[at + 1:]))


def hulls(coaster, ferry):
    place = "ship, row 2"
    warns("Ls above 12 B", small(length=12_002, breadth=1_000), "Ls is 12.00 times B", place, small(length=12_000, breadth=1_000))
    warns("Ls below 2.5 B", small(length=9_999, breadth=4_000, deepest=8_000), "Ls is 2.49 times B", place, small(length=10_000, breadth=4_000, deepest=8_000))
    warns("B above 8 ds", small(breadth=2_002, deepest=2_500), "B is 8.00 times", place, small(breadth=2_000, deepest=2_500))
    warns("B below 1.5 ds", small(breadth=1_498, deepest=10_000), "B is 1.49 times", place, small(breadth=1_500, deepest=10_000))
    warns("one draught", small(light=6_000), "The light draught is the deepest one", place, small(light=5_995))
    none = replace(ferry, lifeboats=0, excess=0)
    warns("no persons", none, "no persons at all", place, replace(ferry, lifeboats=0, excess=1))
    tally.same([doubt.text for doubt in doubted(coaster) if "persons" in doubt.text], [], "a cargo ship has no persons")


def small(length=10_000, breadth=2_000, deepest=6_000, light=None, bulkheads=(2_000, 4_000, 6_000, 8_000), rows=()):
    """A ship of five zones without a row, or with these."""
    light = light if light is not None else deepest - 1_000
    return replace(ship_of("coaster"), length=length, breadth=breadth, deepest=deepest, light=light, bulkheads=bulkheads, rows=tuple(rows),
                   zone_places=tuple(range(2, len(bulkheads) + 3)))


def zones():
    warns("a short zone", small(bulkheads=(99, 3_000, 6_000, 8_000)), "Zone 1 is 0.99 m long, 0.9 per cent", "zones, row 2",
          small(bulkheads=(100, 3_000, 6_000, 8_000)))
    warns("a long zone", small(bulkheads=(3_000, 5_000, 6_499)), "Zone 4 is 35.01 m long, 35.0 per cent", "zones, row 5",
          small(bulkheads=(3_000, 5_000, 6_500)))
    tally.same([doubt for doubt in doubted(small(bulkheads=(5_000, 6_000))) if doubt.sheet == "zones"], [], "of three zones one is long for that reason alone")
    rows = b"zone,aft m,forward m\n5,80,100\n\n4,60,80\n3,30,60\n2,0.99,30\n1,0,0.99\n"  # from forward aft, and one that is empty
    files = commas.written(tables.sheets_of(small(rows=[given(1, 1, 1_000, 18_500, 2)], light=6_000)))
    folder = tables.read({**files, "zones.csv": rows, "ship.csv": files["ship.csv"].replace(b"\n", b"\n,,,\n", 1)})
    for ship, wanted in ((folder, ["ship, row 3", "zones, row 7"]), (casefile.parse(casefile.write(folder)), ["line 1", "line 1"])):
        found = [doubt.where for doubt in doubted(ship) if doubt.text.startswith(("Zone", "The light draught"))]
        tally.same(found, wanted, "a %s: ship and zones by row" % ship.source.form)


def given(first, count, depth, height, place):
    return Row(first, count, depth, height, given=(10_000, 9_000, 8_000 + place), place=place)


def layers():
    def strip(depth, inner):
        return small(rows=[given(1, 1, inner, 18_500, 2), given(1, 1, depth, 18_500, 3), given(1, 1, 1_000, 18_500, 4)])

    warns("a thin strip", strip(319, 300), "This layer is 0.19 m wide", "cases, row 3", strip(320, 300))
    warns("a thin wing tank", strip(300, 19), "This layer is 0.19 m wide", "cases, row 2", strip(300, 20))
    several = small(rows=[given(1, 1, 10, 18_500, 2), given(1, 1, 1_000, 18_500, 3), given(2, 1, 10, 18_500, 4), given(2, 1, 1_000, 18_500, 5)])
    tally.that("The same in 1 more row." in [doubt.text for doubt in doubted(several) if "layer" in doubt.text][0], "two thin tanks are one doubt")

    def deck(step):
        return small(rows=[given(1, 1, 1_000, 5_000, 2), given(1, 1, 1_000, 5_000 + step, 3), given(1, 1, 1_000, 18_500, 4)])

    warns("decks near to each other", deck(199), "H is 0.199 m above", "cases, row 3", deck(200))


def entries(coaster, bulk):
    def narrower(result):
        return result._replace(range=min(result.range, 99))

    first = next(row for row in coaster.rows if row.results and any(result.range >= 99 for result in row.results))
    one = replace(first, results=tuple(result._replace(range=100 if result.range else 0) for result in first.results))
    degrees = changed(coaster, narrower)
    warns("ranges below one degree", degrees, "All ranges are below one degree, the widest is 0.99", "cases, row %d" % first.place,
          replace(degrees, rows=tuple(one if row.place == first.place else row for row in degrees.rows)))  # fmt: skip
    lost = changed(coaster, lambda result: Result(0, 0, 0, 0))
    tally.same([doubt.text for doubt in doubted(lost) if "degree" in doubt.text], [], "where every case is lost there is no range to doubt")
    at = first.place - 2
    far = with_row(coaster, at, results=(first.results[0]._replace(lever=2_001), *first.results[1:]))
    warns("a lever far above all others", far, "A lever of 2.001 m", "cases, row %d" % first.place,
            with_row(coaster, at, results=(first.results[0]._replace(lever=2_000), *first.results[1:])))
    ferry = ship_of("night-ferry")
    stage = ferry.rows[3].floodings
    warns("a lever of an intermediate stage", with_row(ferry, 3, floodings=(stage[0], stage[1]._replace(lever=5_000), stage[2])),
            "A lever of 5.000 m", "cases, row 5", ferry)
    same = small(rows=[replace(given(zone, 1, 1_000, 18_500, zone + 1), given=(), results=(Result(100, 1_500, 0, 500),) * 3) for zone in range(1, 5)])
    warns("equal results", same, "All 4 rows have the same results", "cases, row 2", with_row(same, 3, results=(Result(100, 1_500, 0, 501),) * 3))
    tally.same([doubt.text for doubt in doubted(replace(same, rows=same.rows[:3])) if "All" in doubt.text], [], "three rows may be equal")
    none = changed(coaster, lambda result: result._replace(opening=NO_OPENING))
    afloat = next(row for row in coaster.rows if any(result.lever for result in row.results))
    some = with_row(none, afloat.place - 2, results=tuple(result._replace(opening=29_999 if result.lever else NO_OPENING)
            for result in none.rows[afloat.place - 2].results))
    warns("no opening", none, "No row has an opening", "cases, row %d" % afloat.place, some)
    upright = changed(bulk, lambda result: result._replace(heel=0))
    wing = next(row for row in bulk.rows if row.depth < bulk.half_breadth and any(result.lever for result in row.results))
    warns("no heel", upright, "The heel is 0 in every row", "cases, row %d" % wing.place,
          with_row(upright, wing.place - 2, results=tuple(result._replace(heel=1) for result in upright.rows[wing.place - 2].results)))  # fmt: skip


    radians = changed(bulk, lambda result: result._replace(heel=min(result.heel, 99)))
    steep = with_row(radians, wing.place - 2, results=tuple(result._replace(heel=100) for result in radians.rows[wing.place - 2].results))
    warns("heels below one degree", radians, "The heel is below one degree in every row, 0.99 at most", "cases, row %d" % wing.place, steep)


def openings(coaster):
    """Half of the results with a lever immersed raise no doubt, one more does."""
    def sunk(count):
        left, rows = [count], []
        for row in coaster.rows:
            results = []
            for result in row.results:
                left[0] -= bool(result.lever)
                results.append(result._replace(opening=-1 if result.lever and left[0] >= 0 else result.opening))
            rows.append(replace(row, results=tuple(results)))
        return replace(coaster, rows=tuple(rows))

    levers = sum(bool(result.lever) for row in coaster.rows for result in row.results)
    first = next(row for row in coaster.rows if any(result.lever for result in row.results))
    warns("openings turned", sunk(levers // 2 + 1), "In %d of the %d results with a righting lever the opening" % (levers // 2 + 1, levers),
          "cases, row %d" % first.place, sunk(levers // 2))  # fmt: skip


def floodings(ferry):
    def flooded(at=3, **fields):
        return with_row(ferry, at, floodings=tuple(each._replace(**fields) for each in ferry.rows[at].floodings))

    three = ferry.rows[3].floodings
    warns("displacements turned", with_row(ferry, 3, floodings=three[::-1]), "The displacement is less at the deepest draught", "cases, row 5", ferry)
    box = 41 * ferry.length * ferry.breadth * ferry.light // (40 * 10**7)
    warns("more than a box", flooded(displacement=box + 1), "A displacement of %d t" % (box + 1), "cases, row 5", flooded(displacement=box))
    warns("a displacement in thousands", flooded(displacement=9), "A displacement of 9 t", "cases, row 5", ferry)
    crowd = 75 * 45 * (ferry.lifeboats + ferry.excess) * ferry.breadth / 10**7
    low = int(crowd / 2)
    warns("a moment in thousands", flooded(moment=low), "A heeling moment of %d tm" % low, "cases, row 5", flooded(moment=low + 1))


def unseen():
    """Hidden rows and columns, and a copy of a sheet, through a workbook; empty ones that are hidden are nothing."""
    import openpyxl

    def read(change):
        book = openpyxl.load_workbook(seeds.ROOT / "examples/coaster.xlsx")
        change(book)
        written = io.BytesIO()
        book.save(written)
        return tables.read(written.getvalue(), "coaster.xlsx")

    def rows(book, *numbers):
        for number in numbers:
            book["cases"].row_dimensions[number].hidden = True

    def column(book, letter):
        book["cases"].column_dimensions[letter].hidden = True

    plain = read(lambda book: (rows(book, 700), column(book, "AZ")))
    tally.same(plain.source.unseen, (), "what is hidden and empty is nothing")
    warns("hidden rows", read(lambda book: rows(book, 5, 6, 9)), "This row is hidden in the workbook", "cases, row 5", plain)
    tally.that("So are 2 more rows." in doubted(read(lambda book: rows(book, 5, 6, 9)))[0].text, "how many more rows are hidden")
    warns("a hidden column", read(lambda book: column(book, "E")), "Column E is hidden in the workbook", "cases", plain)
    warns("a copy of a sheet", read(lambda book: book.create_sheet("Cases (2)")), 'The sheet "Cases (2)" is passed over', "cases", plain)


def survivals(coaster):
    for what, order in (("partial", (1, 0, 2)), ("light", (0, 2, 1))):
        two = replace(coaster, rows=tuple(replace(row, results=tuple(row.results[at] for at in order if row.results)) for row in coaster.rows))
        found = [doubt.text for doubt in doubted(two) if "the survival falls" in doubt.text]
        tally.that(len(found) == 1 and "draught to the %s:" % what in found[0], "two columns turned, the %s one lower" % what, found)
    turned = replace(coaster, rows=tuple(replace(row, results=row.results[::-1]) for row in coaster.rows))
    first = next(row for row in turned.rows if row.results and row.results[0].lever > row.results[2].lever)
    warns("columns turned", turned, "the survival falls from the deepest draught to the light", "cases, row %d" % first.place, coaster)
    rows = [replace(given(zone, 1, 1_000, 18_500, zone + 1), given=(5_000, 5_000, 4_999 if zone < 3 else 5_001)) for zone in range(1, 5)]
    tie = small(rows=rows)
    warns("more fall than rise", with_row(tie, 2, given=(5_000, 5_000, 4_999)), "In 3 of the 4 rows", "cases, row 2", tie)


def chances(coaster):
    gone = next(row for row in coaster.rows if (row.first, row.count) == (6, 2))
    less = replace(coaster, rows=tuple(row for row in coaster.rows if row != gone))
    warns("a group that is missing", less, "no row has the zones 6-7.", "cases", coaster)
    found = [doubt for doubt in doubted(less) if "zones 6-7" in doubt.text]
    tally.that("could add 0.033297 at most" in found[0].text, "what it could add", found)


def examples():
    """The container ship's file leaves out groups of more than five zones, so that its doubt is true; no other example has any."""
    for name, data in BY_NAME.items():
        ship = casefile.parse(data, name)
        found = doubted(ship)
        tally.same(["less than one" in doubt.text and "and 31 more" in doubt.text for doubt in found],
                [True] if name == "container-ship" else [], "%s: its doubts" % name)
    plain = replace(casefile.parse(BY_NAME["coaster"]), light=5_400)
    tally.same([str(doubt)[:30] for doubt in doubted(plain)], ["line 1: The light draught is t"], "a case file has lines and no sheets")


def main():
    coaster, bulk, ferry = ship_of("coaster"), ship_of("bulk-carrier"), ship_of("night-ferry")
    before = (coaster, findings.find(library, coaster).indices)
    hulls(coaster, ferry)
    zones()
    layers()
    entries(coaster, bulk)
    openings(coaster)
    floodings(ferry)
    unseen()
    survivals(coaster)
    chances(coaster)
    examples()
    tally.same((coaster, findings.find(library, coaster).indices), before, "no figure was changed")
    return tally.close()


sys.exit(main())
