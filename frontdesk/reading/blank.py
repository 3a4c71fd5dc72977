"""An empty workbook for a ship that is still to be entered: headings, units, notes, drop-downs, and the groups of up to three zones in the file's order."""

from frontdesk.reading.binding import bound
from frontdesk.reading.columns import (AFT, BEYOND, BREADTH, CASE, CASES, DEEPEST, DEPTH, FIRST, FLOODING, FORWARD, GIVEN, GROUP, HEIGHT, LENGTH, LIFEBOATS,
                                       LIGHT, NAME, OF_PART, OF_SHEET, PARTS, RULE, SECOND, SHIP, TYPE, ZONE, ZONE_NAME, ZONES)
from frontdesk.reading.hullsheets import MOST_ZONES
from frontdesk.reading.mistakes import of_the_file
from frontdesk.reading.sheets import laid_out
from frontdesk.reading.units import plain
from frontdesk.ship import CARGO, PASSENGER

MOST_IN_A_GROUP = 3

WHAT = {
    NAME: "The ship's name, for the report. May be left empty.",
    TYPE: "Which rules the ship is under.",
    LENGTH: "Subdivision length. Of a cargo ship from 80 m on.",
    BREADTH: "Greatest moulded breadth at the deepest draught or below, in steps of 0.02 m. Of a cargo ship from 10 m on.",
    DEEPEST: "Deepest subdivision draught.",
    LIGHT: "Light service draught: at most the deepest, and a multiple of 5 mm below it. The partial draught follows from the two.",
    LIFEBOATS: "Passenger ships: persons for whom there are lifeboats.",
    BEYOND: "Passenger ships: persons, crew too, whom the ship may carry beyond those.",
    RULE: "Passenger ships: the earlier rule of MSC.216(82), or that of 2020, MSC.421(98). Under that of 2020 a ship of 1351 to 6000 persons is not judged.",
    ZONE: "Zones count from aft, from 1.",
    ZONE_NAME: "For the report. May be left empty.",
    AFT: "From the aft end of Ls, not from the aft perpendicular. A zone begins where the one before ends, the first at 0.",
    FORWARD: "The last zone ends at Ls.",
    GROUP: "The damaged zones: 3, or 3-5. The column is text, so that 3-5 does not become a date.",
    DEPTH: 'How far in from the shell the damage reaches. The last layer of a group is at "B/2".',
    HEIGHT: 'How far up from the keel the damage reaches. The last row of a layer is at "top", 12.5 m above the deepest draught.',
    CASE: "A name for the report. May be left empty.",
}
OF_NUMBER = {
    "lever m": "Greatest righting lever of the final stage.",
    "range deg": "Range of positive righting levers.",
    "heel deg": "Equilibrium angle of heel.",
    "opening m": 'Height of the critical opening above the final waterline; below zero it is immersed; "none" where no opening counts.',
    "displacement t": "Displacement of the intact ship at the draught.",
    "heeling moment tm": "The greatest of the moments of passengers, wind and survival craft.",
    "ro-ro": "Whether the damage involves a ro-ro space.",
    "given survival": "A survival from 0 to 1 where there is no curve; then the row has no results.",
}
OF_PARTS = {
    FIRST: "Results, at each of the draughts deepest, partial and light:",
    SECOND: "Cargo ships, results of smaller damage that does worse, within the same place; all twelve cells of a row, or none:",
    FLOODING: "Passenger ships; the intermediate stage is the one on the way that is survived worst:",
    GIVEN: "Cargo ships:",
}


def book(zones, type=""):
    """The workbook's bytes, for a ship of so many zones and of this type, or of either where it is not said."""
    if not 1 <= zones <= MOST_ZONES:
        raise of_the_file("", "found %d zones; expected 1 to %d." % (zones, MOST_ZONES))
    if type not in ("", CARGO, PASSENGER):
        raise of_the_file("", "found the type %s; expected cargo or passenger." % type)
    return bound(blank_sheets(zones, type), notes(type))


def blank_sheets(zones, type=""):
    ship = [column for column in OF_SHEET[SHIP] if not type or type in column.types]
    cases = [GROUP, DEPTH, HEIGHT, CASE, *(column for part in PARTS if not type or type in PARTS[part] for column in OF_PART[part])]
    return {SHIP: laid_out(SHIP, ship, [{TYPE: type}]),
            ZONES: laid_out(ZONES, OF_SHEET[ZONES], [{ZONE: at, AFT: 0 if at == 1 else ""} for at in range(1, zones + 1)]),
            CASES: laid_out(CASES, cases, [{GROUP: group, DEPTH: DEPTH.word, HEIGHT: HEIGHT.word} for group in groups(zones)])}


def groups(zones):
    """Every group of one, two and three zones, as the file orders them."""
    for first in range(1, zones + 1):
        for last in range(first, min(first + MOST_IN_A_GROUP, zones + 1)):
            yield str(first) if first == last else "%d-%d" % (first, last)


def notes(type=""):
    """The sheet of notes: what each column takes. It is not read."""
    rows = [("sheet", "heading", "takes", "what it is")]
    for sheet, columns in OF_SHEET.items():
        rows += [(sheet, column.heading, takes(column), WHAT[column]) for column in columns if column in WHAT and (not type or type in column.types)]
    for part, columns in OF_PART.items():
        if not type or type in PARTS[part]:
            rows.append((CASES, "", "", OF_PARTS[part]))
            rows += [(CASES, column.heading.rpartition(", ")[0] + ", ..", takes(column), described(column)) for column in columns if column.draught == 0]
    return rows + [("", "", "", line) for line in (
        "Rows may stand in any order; empty ones are passed over, hidden ones count.",
        "Delete the groups that you do not enter: what is left out counts as not survived.",
        "Add a row for each longitudinal bulkhead (b) and each watertight deck (H) that holds the water; it stands for what lies beyond the row before.",
        "Lengths, b and zones go to whole centimetres, draughts, H, levers and openings to millimetres, angles to hundredths of a degree, weights to tonnes.",
        "What is finer is an error; with --against results are rounded so that survival can only be lower.")]


def takes(column):
    if column.text or column is GROUP:
        return "text"
    if column.choices or column is DEPTH:
        return " or ".join(column.choices) or "%s m to B/2" % plain(column.least, column.places)
    return column.expected


def described(column):
    heading = column.heading.rpartition(", ")[0]
    for before, of in (("second ", "the smaller damage"), ("intermediate ", "the intermediate stage")):
        if heading.startswith(before):
            return "As %s, of %s." % (heading[len(before):], of)
    return OF_NUMBER[heading]
