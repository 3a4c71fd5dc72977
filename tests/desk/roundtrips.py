"""A thousand random ships of all kinds, file to table to file and table to file to table: in memory, as CSV files and as workbooks, and no difference."""

import sys
from dataclasses import replace
from pathlib import Path

ROOT = Path(__file__).resolve().parent.parent.parent
sys.path[:0] = [str(ROOT), str(ROOT / "tests"), str(ROOT / "tests" / "desk")]

from generator.dice import Dice  # noqa: E402
from generator.frames import case_file  # noqa: E402
from generator.seeded import seeded_case  # noqa: E402
from independent.casefile import Refusal, reading  # noqa: E402
from tally import Tally  # noqa: E402

from frontdesk.reading import binding, casefile, commas, tables  # noqa: E402

SHIPS = 1_000
WORKBOOKS = 25  # one ship in so many goes through a workbook too


def seeded_files():
    """Case files that keep every rule, by dice: cargo and passenger ships in turn, two in fifty with very many rows, one in forty with none."""
    dice, made = Dice(20_21), 0
    while made < SHIPS:
        many = made % 50 in (7, 8)
        most = 0 if made % 40 == 3 else 427 if many else dice.pick((4, 12, 40))
        data = case_file(*seeded_case(dice, most=most, zones=20 if many else None, passengers=made % 2 == 1))
        if not isinstance(reading(data), Refusal):
            made += 1
            yield data


WAYS = (("commas", ",", False), ("semicolons", ";", False), ("decimal commas", ";", True))  # of CSV files, which the ships take in turn


def there_and_back(tally, number, data):
    what = "ship %d" % number
    ship = casefile.parse(data)
    if not tally.that(ship is not None and casefile.write(ship) == data, what, "file to ship to file"):
        return
    sheets = tables.sheets_of(ship)
    again = tables.ship_of(sheets)
    tally.same(casefile.write(again), data, what + ": file to table to file")
    tally.same(tables.sheets_of(casefile.parse(casefile.write(again))), sheets, what + ": table to file to table")
    form, separator, comma = WAYS[number % 3]
    tally.that(casefile.write(tables.read(commas.written(sheets, separator, comma))) == data, what, "through CSV files with", form)
    if number % WORKBOOKS == 0:
        other = tables.read(binding.bound(sheets))
        tally.that(casefile.write(other) == data and other.source.form == "workbook", what, "through a workbook")


def all_kinds_were_there(tally, files):
    ships = [casefile.parse(data) for data in files]
    kinds = {row.kind for ship in ships for row in ship.rows}
    tally.same(kinds, {2, 3, 5, 7}, "kinds of rows")
    for what, some in (("no row", any(not ship.rows for ship in ships)), ("one zone", any(ship.zones == 1 for ship in ships)),
                       ("twenty zones", any(ship.zones == 20 for ship in ships)), ("four hundred rows", any(len(ship.rows) >= 400 for ship in ships)),
                       ("a height above the top", any(row.height > ship.top for ship in ships for row in ship.rows)),
                       ("mixed kinds", any(len({row.kind for row in ship.rows}) == 3 for ship in ships)), ("rule of 2020", any(ship.rule for ship in ships))):
        tally.that(some, "among the ships none has", what)


def examples(tally):
    """Every example ship through a workbook, which is the same bytes when it is written twice."""
    for path in sorted((ROOT / "examples").glob("*.case")):
        data = path.read_bytes()
        sheets = tables.sheets_of(casefile.parse(data))
        book = binding.bound(sheets)
        tally.that(casefile.write(tables.read(book)) == data, path.name, "through a workbook")
        if path.name.startswith("p"):
            tally.that(binding.bound(sheets) == book, path.name, "written twice")


def names_and_order(tally):
    """Names come through tables, and rows that stand in another order are put into the file's."""
    ship = casefile.parse((ROOT / "examples" / "coaster.case").read_bytes())
    named = replace(ship, name="Plover \u2116 7; \"second\", of two", zone_names=tuple("zone, %d" % at for at in range(ship.zones)),
                    rows=tuple(replace(row, name="case;%d" % at) for at, row in enumerate(ship.rows)))
    for form, sheets in (("in order", tables.sheets_of(named)), ("turned", tables.sheets_of(replace(named, rows=named.rows[::-1])))):
        for way, written in (("CSV", commas.written(sheets)), ("semicolons", commas.written(sheets, ";", True)), ("workbook", binding.bound(sheets))):
            other = tables.read(written)
            same = (other.name, other.zone_names, [row.name for row in other.rows]) == (named.name, named.zone_names, [row.name for row in named.rows])
            tally.that(same and casefile.write(other) == casefile.write(ship), "names", form, way)
            tally.same(other.source.reordered, form == "turned", "order " + form)
    places = [row.place for row in other.rows]
    tally.same(places, list(range(len(places) + 1, 1, -1)), "the rows keep the place that they had in the sheet")


if __name__ == "__main__":
    tally, files = Tally(), list(seeded_files())
    for number, data in enumerate(files):
        there_and_back(tally, number, data)
    all_kinds_were_there(tally, files)
    examples(tally)
    names_and_order(tally)
    sys.exit(tally.close())
