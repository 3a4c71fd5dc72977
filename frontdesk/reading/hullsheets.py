"""The sheets ship and zones: the hull of a ship in whole units, every rule that they can break told by row and heading."""

from dataclasses import dataclass, replace
from typing import Optional

from frontdesk.reading.columns import (AFT, BEYOND, BREADTH, CARGO_BREADTH, CARGO_LENGTH, DEEPEST, FORWARD, LENGTH, LIFEBOATS, LIGHT, NAME, OF_SHEET, RULE,
                                       SHIP, TYPE, ZONE, ZONE_NAME, ZONES)
from frontdesk.reading.units import plain
from frontdesk.ship import CARGO, PASSENGER, RULES

MOST_ZONES = 20
NOT_JUDGED = range(1_351, 6_001)  # persons under the rule of 2020 whose R has a logarithm


@dataclass
class Hull:
    """What could be read; None where it could not, and was told."""

    type: Optional[str] = None
    length: Optional[int] = None
    breadth: Optional[int] = None
    deepest: Optional[int] = None
    light: Optional[int] = None
    lifeboats: int = 0
    excess: int = 0
    rule: int = 0
    name: str = ""
    places: Optional[tuple] = None  # aft end, inner bulkheads, forward end
    zone_names: tuple = ()
    zone_places: tuple = ()
    ship_place: int = 0


def read_ship(table):
    """The one row of the sheet ship."""
    hull = Hull()
    table.ask_for(column for column in OF_SHEET[SHIP] if column.needed and PASSENGER in column.types and len(column.types) > 1)
    if not table.lines:
        table.ledger.wrong(SHIP, 2, "", "found nothing; expected the ship's data in this row.")
        return hull
    line = table.lines[0]
    for more in table.lines[1:]:
        more.wrong(None, "found another row; expected one ship, which is in row %d." % line.number)
    hull.name, hull.ship_place = line.name(NAME), line.number
    hull.type = line.choice(TYPE) if table.has(TYPE) else None
    own = (CARGO_LENGTH, CARGO_BREADTH) if hull.type == CARGO else (LENGTH, BREADTH)
    hull.length, hull.breadth, hull.deepest, hull.light = (line.whole(column) if table.has(column) else None for column in (*own, DEEPEST, LIGHT))
    hull.breadth = even(line, hull.breadth)
    check_draughts(line, hull)
    (read_persons if hull.type == PASSENGER else refuse_persons)(line, hull)
    return hull


def even(line, breadth):
    """The breadth, which is asked for in steps of two centimetres, so that B/2 is whole."""
    if breadth is not None and breadth % 2:
        return line.expected(BREADTH, "an even number of centimetres, so that B/2 is whole: %s or %s" % (plain(breadth - 1, 2), plain(breadth + 1, 2)))
    return breadth


def check_draughts(line, hull):
    if hull.deepest is None or hull.light is None:
        return
    if hull.light > hull.deepest:
        line.expected(LIGHT, "at most the deepest draught, %s m" % plain(hull.deepest, 3), "Are the two turned?")
    elif (hull.deepest - hull.light) % 5:
        less = hull.light - (5 - (hull.deepest - hull.light) % 5)
        line.expected(LIGHT, "a light draught that is a multiple of 5 mm below the deepest, %s m: %s or %s" % (
            plain(hull.deepest, 3), plain(less, 3), plain(less + 5, 3)))
    else:
        return
    hull.light = None


def read_persons(line, hull):
    """Persons and rule of a passenger ship."""
    line.table.ask_for((LIFEBOATS, BEYOND, RULE))
    lifeboats, excess = (line.whole(column) if line.table.has(column) else None for column in (LIFEBOATS, BEYOND))
    rule = line.choice(RULE) if line.table.has(RULE) else None
    if None in (lifeboats, excess, rule):
        return
    hull.lifeboats, hull.excess, hull.rule = lifeboats, excess, RULES.index(rule)
    if hull.rule and lifeboats + excess in NOT_JUDGED:
        line.wrong(RULE, "found 2020 with %d persons; expected at most 1350 or at least 6001 persons: between them R has a logarithm, and no verdict is given."
                   % (lifeboats + excess))


def refuse_persons(line, hull):
    """A cargo ship has neither persons nor a rule."""
    for column in (LIFEBOATS, BEYOND, RULE):
        if hull.type == CARGO and not line.blank(column):
            line.expected(column, "nothing: it is asked of passenger ships alone", "Is the type wrong?")


def read_zones(table, hull):
    """The zones from aft forward, which abut from 0 to Ls."""
    table.ask_for(column for column in OF_SHEET[ZONES] if column.needed)
    if any(not table.has(column) for column in (ZONE, AFT, FORWARD)):
        return
    if not table.lines:
        return table.ledger.wrong(ZONES, 2, "", "found no zone; expected 1 to %d, the first in this row." % MOST_ZONES)
    most = {} if hull.length is None else {"most": hull.length}
    aft, forward = replace(AFT, **most), replace(FORWARD, **most)
    found = [(line, line.whole(ZONE), line.whole(aft), line.whole(forward)) for line in table.lines]
    names = [line.name(ZONE_NAME) for line in table.lines]
    if any(None in zone for zone in found) or not numbered(found):
        return
    order = sorted(range(len(found)), key=lambda at: found[at][1])
    zones = [found[at] for at in order]
    if abut(zones, hull):
        hull.places = (0, *(zone[3] for zone in zones))
        hull.zone_names = tuple(names[at] for at in order) if any(names) else ()
        hull.zone_places = tuple(line.number for line, *_ in zones)


def numbered(found):
    """Whether the zones are numbered from 1 without a gap, each once."""
    seen = {}
    for line, number, *_ in found:
        if number in seen:
            line.expected(ZONE, "each zone once: row %d has it already" % seen[number])
        elif number > len(found):
            line.expected(ZONE, "1 to %d, as many zones as there are rows" % len(found))
        seen.setdefault(number, line.number)
    return sorted(seen) == list(range(1, len(found) + 1))


def abut(zones, hull):
    """Whether each zone is longer than nothing and begins where the one before ends, the first at 0 and the last ending at Ls."""
    good, before = True, None
    for line, number, aft, forward in zones:
        if before is None and aft:
            good = line.expected(AFT, "0, the aft end of Ls, for zone 1")
        elif before is not None and aft != before[2]:
            what = "a gap" if aft > before[2] else "an overlap"
            good = line.expected(AFT, "%s m, where zone %d in row %d ends: zones abut, and here is %s of %s m" % (
                plain(before[2], 2), before[1], before[0].number, what, plain(abs(aft - before[2]), 2)))
        if forward <= aft:
            good = line.expected(FORWARD, "more than %s m, where the zone begins" % plain(aft, 2))
        before = line, number, forward
    if hull.length is not None and before[2] != hull.length:
        good = before[0].expected(FORWARD, "%s m, the forward end of Ls, for the last zone" % plain(hull.length, 2))
    return bool(good)
