"""Whether a sheet's rows can stand in a case file together: no place twice, each layer closed at the top, each group at B/2, and no more rows than fit."""

from itertools import groupby

from frontdesk.reading.casefile import LONGEST, MOST_ROWS
from frontdesk.reading.columns import CASES, DEPTH, GROUP, HEIGHT
from frontdesk.reading.mistakes import Mistake
from frontdesk.reading.units import plain
from frontdesk.ship import PASSENGER, TOP_ABOVE_DEEPEST

PASSENGER_LINE = 153  # bytes of a passenger ship's row in the file


def check_layers(table, hull, rows):
    """Tells what keeps the rows from standing in a file together; draughts and breadth that are not known are not asked about."""
    ledger = table.ledger
    check_number(ledger, hull, rows)
    ordered = sorted(rows, key=lambda row: (row.order, row.place))
    for before, row in zip(ordered, ordered[1:]):
        if before.order == row.order:
            told(ledger, row, GROUP, "row %d has the same zones, b and H; expected one row for a place." % before.place)
    if hull.deepest is not None and hull.breadth is not None:
        for _, group in groupby(ordered, key=lambda row: row.order[:2]):
            check_group(ledger, hull, list(group))


def check_number(ledger, hull, rows):
    if len(rows) > MOST_ROWS:
        told(ledger, rows[MOST_ROWS], None, "this is row %d of the cases; expected at most %d. The groups of smallest chance can be left out."
             % (MOST_ROWS + 1, MOST_ROWS))
    elif hull.type == PASSENGER and hull.places:
        fitting = (LONGEST - (27 + 4 * (len(hull.places) - 1)) - 7) // PASSENGER_LINE
        if len(rows) > fitting:
            told(ledger, rows[fitting], None, "this is row %d of the cases; expected at most %d, as many as a passenger ship's file of %d bytes has room for."
                 % (fitting + 1, fitting, LONGEST))


def check_group(ledger, hull, rows):
    """A group's layers go in to B/2, and each goes up to the top once."""
    top = hull.deepest + TOP_ABOVE_DEEPEST
    for _, layer in groupby(rows, key=lambda row: row.depth):
        layer = list(layer)
        closing = next((row for row in layer if row.height >= top), None)
        if closing is None:
            last = layer[-1]
            told(ledger, last, HEIGHT, "this is the last row of %s at b %s m, and ends at %s m; expected one more at the top, %s m or higher."
                 % (named(last), plain(last.depth, 2), plain(last.height, 3), plain(top, 3)))
        elif closing is not layer[-1] and layer[-1].height != closing.height:
            told(ledger, layer[-1], HEIGHT, "row %d has closed this layer at %s m; expected one row at or above the top, %s m." % (
                closing.place, plain(closing.height, 3), plain(top, 3)))
    half, last = hull.breadth // 2, rows[-1]
    if last.depth != half:
        told(ledger, last, DEPTH, "this is the last row of %s, and ends at b %s m; expected one more layer at B/2, %s m." % (
            named(last), plain(last.depth, 2), plain(half, 2)))


def zones(row):
    return str(row.first) if row.count == 1 else "%d-%d" % (row.first, row.first + row.count - 1)


def named(row):
    return ("zone " if row.count == 1 else "zones ") + zones(row)


def told(ledger, row, column, text):
    ledger.items.append(Mistake(CASES, row.place, column.heading if column else "", text))
