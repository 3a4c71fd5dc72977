"""The three sheets to a Ship, and a Ship to the three sheets; neither loses or makes a number."""

from pathlib import Path

from frontdesk.reading import commas, workbook
from frontdesk.reading.casesheet import read_cases
from frontdesk.reading.columns import (AFT, BEYOND, BREADTH, CASE, CASES, DEEPEST, DEPTH, FIRST, FLOODING, FORWARD, GIVEN, GROUP, HEIGHT, LENGTH, LIFEBOATS,
                                       LIGHT, NAME, OF_PART, OF_SHEET, RULE, SECOND, SHIP, TYPE, ZONE, ZONE_NAME, ZONES)
from frontdesk.reading.hullsheets import read_ship, read_zones
from frontdesk.reading.layers import zones
from frontdesk.reading.sheets import Ledger, Table, laid_out
from frontdesk.reading.units import decimal
from frontdesk.ship import NO_OPENING, PASSENGER, RULES, Ship, Source


def read(source, name="", against=False):
    """The ship of a workbook's bytes, or of a folder of CSV files or what it holds by name. Raises Mistakes."""
    if isinstance(source, (bytes, bytearray)):
        return ship_of(workbook.sheets(bytes(source), name), name, "workbook", against)
    if isinstance(source, dict) or Path(source).is_dir():
        return ship_of(commas.sheets(source, name), name, "CSV files", against)
    return ship_of(workbook.sheets(Path(source).read_bytes(), name), name, "workbook", against)


def ship_of(sheets, name="", form="workbook", against=False):
    """The ship of three sheets by name. Raises Mistakes with everything that is wrong in them."""
    ledger = Ledger(against)
    ship, places, cases = (Table(sheets[each], ledger) for each in (SHIP, ZONES, CASES))
    hull = read_ship(ship)
    read_zones(places, hull)
    rows, reordered = read_cases(cases, hull)
    ledger.close()
    unseen = tuple((sheet.name, *sheet.unseen) for sheet in sheets.values() if sheet.unseen)
    source = Source(file=name, form=form, reordered=reordered, rounded=ledger.rounded, unseen=unseen)
    return Ship(hull.type, hull.length, hull.breadth, hull.deepest, hull.light, hull.places[1:-1], rows, hull.lifeboats, hull.excess, hull.rule, hull.name,
                hull.zone_names, hull.zone_places, hull.ship_place, source)


def sheets_of(ship, every=False):
    """The three sheets of a ship, each with the columns that it needs, or with all of its type's."""
    return {SHIP: ship_sheet(ship), ZONES: zone_sheet(ship), CASES: case_sheet(ship, every)}


def ship_sheet(ship):
    cells = {NAME: ship.name, TYPE: ship.type, LENGTH: decimal(ship.length, 2), BREADTH: decimal(ship.breadth, 2), DEEPEST: decimal(ship.deepest, 3),
             LIGHT: decimal(ship.light, 3)}
    if ship.type == PASSENGER:
        cells.update({LIFEBOATS: ship.lifeboats, BEYOND: ship.excess, RULE: RULES[ship.rule]})
    return laid_out(SHIP, cells, [cells])


def zone_sheet(ship):
    names = ship.zone_names or ("",) * ship.zones
    return laid_out(ZONES, OF_SHEET[ZONES], [
        {ZONE: at + 1, ZONE_NAME: names[at], AFT: decimal(ship.places[at], 2), FORWARD: decimal(ship.places[at + 1], 2)} for at in range(ship.zones)])


def case_sheet(ship, every):
    """The rows, with the columns of a part where a row has it; results are always there, but where every row has given survivals."""
    rows = [case_cells(ship, row) for row in ship.rows]
    parts = {column.part for cells in rows for column in cells} | ({FLOODING} if ship.type == PASSENGER else set())
    if every and ship.type != PASSENGER:
        parts |= {SECOND, GIVEN}
    if not parts & {FIRST, GIVEN}:
        parts.add(FIRST)
    columns = [GROUP, DEPTH, HEIGHT, CASE, *(column for part in OF_PART if part in parts for column in OF_PART[part])]
    return laid_out(CASES, columns, rows)


def case_cells(ship, row):
    """A row's cells by column; B/2, top and none where it is just that."""
    cells = {GROUP: zones(row), DEPTH: "B/2" if row.depth == ship.half_breadth else decimal(row.depth, 2),
             HEIGHT: "top" if row.height == ship.top else decimal(row.height, 3), CASE: row.name}
    numbers = {FIRST: sum(row.results[:3], ()), SECOND: sum(row.results[3:], ()), FLOODING: sum(row.floodings, ()), GIVEN: row.given}
    for part, columns in OF_PART.items():
        cells.update((column, case_cell(column, number)) for column, number in zip(columns, numbers[part]))
    return cells


def case_cell(column, number):
    if column.choices:
        return "yes" if number else "no"
    return column.word if column.word and number == NO_OPENING else decimal(number, column.places)
