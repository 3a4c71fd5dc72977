"""What may be a slip of the hand, each with its reason and, where there is one, its row. A doubt changes no figure."""

from fractions import Fraction
from typing import NamedTuple

from frontdesk.figures.decimals import cut, lifted
from frontdesk.ship import DRAUGHTS, NO_OPENING, PASSENGER

ONE_DEGREE = 100  # hundredths
LARGEST_LEVER = 2_000  # mm: about twice the largest of all examples, 1,034 mm in an intermediate stage of the ferry
FEWEST = 4  # rows before "all" of them says something
SHORTEST_ZONE, LONGEST_ZONE = Fraction(1, 100), Fraction(35, 100)  # of Ls; the examples of four zones and more have 3.2 to 22.7 per cent
ZONES_FOR_LENGTH = 4  # with fewer a zone is long for that reason alone
THINNEST = 20  # cm: a wing tank or a strip between two longitudinal bulkheads that a man can get into is wider
LOWEST_STEP = 200  # mm between two decks; the bulk carrier has that
LENGTH_TO_BREADTH = (Fraction(5, 2), 12)  # the examples have 3.8 to 6.6
BREADTH_TO_DRAUGHT = (Fraction(3, 2), 8)  # the examples have 2.5 to 4.6
BOX = (Fraction(3, 10), 1)  # of Ls times B times the draught in sea water that a ship displaces; the examples have 0.51 to 0.60
SEA_WATER = Fraction(41, 40)  # t a cubic metre
CROWDED = Fraction(75, 1_000) * Fraction(45, 100)  # tm a passenger and metre of B, where all are on one side
MOST_NAMED = 8  # groups that a doubt names before it counts the others


class Doubt(NamedTuple):
    text: str
    row: int = 0  # as the user counts it, in the sheet or the case file; 0 where it is of no row alone
    sheet: str = ""  # none where a case file was read

    @property
    def where(self):
        """The place in words, nothing where there is none."""
        place = [self.sheet] if self.sheet else []
        return ", ".join(place + ["%s %d" % ("row" if self.sheet else "line", self.row)] if self.row else place)

    def __str__(self):
        return ": ".join(part for part in (self.where, self.text) if part)


def of(ship, findings):
    """Every doubt about a ship, in the order of the sheets."""
    found = [*unseen(ship), *hull(ship), *zones(ship), *layers(ship), *entries(ship), *floodings(ship), *survivals(findings), *chances(findings)]
    return [placed(doubt, ship) for doubt in found]


def placed(doubt, ship):
    """A case file has lines and no sheets: its hull and bulkheads are line 1."""
    if ship.source.form != "case file":
        return doubt
    return Doubt(doubt.text, doubt.row or int(doubt.sheet in ("ship", "zones")))


def gathered(text, rows):
    """One doubt for all rows that have it: the first, and in how many more it is so."""
    more = "" if len(rows) < 2 else " The same in %d more row%s." % (len(rows) - 1, "s" if len(rows) > 2 else "")
    return Doubt(text + more, rows[0].place, "cases")


def unseen(ship):
    """What a workbook has and does not show, or shows and is not read."""
    for sheet, rows, columns, others in ship.source.unseen:
        if rows:
            more = " So are %d more rows." % (len(rows) - 1) if len(rows) > 2 else " So is row %d." % rows[1] if len(rows) == 2 else ""
            yield Doubt("This row is hidden in the workbook, and counts as the others do: was it filtered out?" + more, rows[0], sheet)
        if columns:
            yield Doubt("Column %s is hidden in the workbook, and counts as the others do." % " and ".join(columns), 0, sheet)
        for title in others:
            yield Doubt('The sheet "%s" is passed over: this one alone is read.' % title, 0, sheet)


def hull(ship):
    built, place = "ships are built with %s to %s times: is one of the two mistyped?", ship.ship_place
    yield from ratio(ship.length, ship.breadth, LENGTH_TO_BREADTH, "Ls is %s times B, and " + built, place)
    yield from ratio(10 * ship.breadth, ship.deepest, BREADTH_TO_DRAUGHT, "B is %s times the deepest draught, and " + built, place)
    if ship.deepest == ship.light:
        yield Doubt("The light draught is the deepest one, so that all three are the same: was the light service draught left out?", place, "ship")
    if ship.type == PASSENGER and not ship.lifeboats + ship.excess:
        yield Doubt("This is a passenger ship with no persons at all, and R rises with them: were they left out?", place, "ship")


def ratio(part, whole, bounds, text, place):
    least, most = bounds
    if not least * whole <= part <= most * whole:
        yield Doubt(text % (cut(part, 2, whole), cut(least, 1), most), place, "ship")


def zones(ship):
    places, rows = ship.places, ship.zone_places or (0,) * ship.zones
    for number, (aft, forward, row) in enumerate(zip(places, places[1:], rows), 1):
        length = forward - aft
        about = "Zone %d is %s m long, %s per cent of Ls, and hardly any zone is " % (number, cut(length, 2, 100), cut(100 * length, 1, ship.length))
        if length < SHORTEST_ZONE * ship.length:
            yield Doubt(about + "below 1 per cent: are its ends right?", row, "zones")
        if length > LONGEST_ZONE * ship.length and ship.zones >= ZONES_FOR_LENGTH:
            yield Doubt(about + "above 35 per cent: is a bulkhead missing?", row, "zones")


def layers(ship):
    """Strips and decks that are nearer to the ones before than anybody builds them."""
    thin, low, depth, before = [], [], 0, None
    for row in ship.rows:
        if before is None or (row.first, row.count) != (before.first, before.count):
            depth, before = 0, None
        elif row.depth != before.depth:
            depth, before = before.depth, None
        if before is None and row.depth - depth < THINNEST:
            thin.append((row, row.depth - depth))
        if before is not None and row.height - before.height < LOWEST_STEP:
            low.append((row, row.height - before.height))
        before = row
    if thin:
        text = "This layer is %s m wide, and nothing below 0.20 m is built: is b in metres from the shell?" % cut(thin[0][1], 2, 100)
        yield gathered(text, [row for row, _ in thin])
    if low:
        text = "H is %s m above the height before, and no two decks are nearer than 0.20 m: is H in metres above the keel?" % cut(low[0][1], 3, 1000)
        yield gathered(text, [row for row, _ in low])


def entries(ship):
    """What all rows have alike, or one has far beyond the others."""
    entered = [row for row in ship.rows if row.results]
    yield from ranges(entered)
    yield from levers(entered)
    if len(ship.rows) >= FEWEST and len({(row.results, row.given, row.floodings) for row in ship.rows}) == 1:
        yield Doubt("All %d rows have the same results: was the first copied down?" % len(ship.rows), ship.rows[0].place, "cases")
        return
    afloat = [row for row in entered if any(result.lever for result in row.results)]
    if len(afloat) >= FEWEST and all(result.opening == NO_OPENING for row in afloat for result in row.results if result.lever):
        yield Doubt("No row has an opening, and there is no ship without air pipes or ventilators: were they left out?", afloat[0].place, "cases")
    yield from openings(afloat)
    wings = [row for row in afloat if row.depth < ship.half_breadth]
    steepest = max((result.heel for row in entered for result in row.results), default=0)
    if len(wings) >= FEWEST and not steepest:
        yield Doubt("The heel is 0 in every row, also in those that flood one side alone (b below B/2): was it left out?", wings[0].place, "cases")
    elif len(wings) >= FEWEST and steepest < ONE_DEGREE:
        text = "The heel is below one degree in every row, %s at most, also in those that flood one side alone (b below B/2): is it in degrees?"
        yield Doubt(text % cut(steepest, 2, 100), wings[0].place, "cases")


def openings(afloat):
    """Where most ships that are afloat have their opening under water, the sign may be turned."""
    told = [(result.opening < 0, row) for row in afloat for result in row.results if result.lever]
    immersed = [row for under, row in told if under]
    if len(immersed) >= FEWEST and 2 * len(immersed) > len(told):
        text = "In %d of the %d results with a righting lever the opening is below zero, immersed: is its height above the water entered, and not its depth?"
        yield Doubt(text % (len(immersed), len(told)), immersed[0].place, "cases")


def floodings(ship):
    """Displacements and heeling moments of a passenger ship that cannot be the hull's and the persons'."""
    turned, unlike, low = [], [], []
    persons = ship.lifeboats + ship.excess
    for row in (row for row in ship.rows if row.floodings):
        if row.floodings[0].displacement < row.floodings[2].displacement:
            turned.append(row)
        boxes = [SEA_WATER * ship.length * ship.breadth * draught / 10**7 for draught in ship.draughts]
        odd = [each.displacement for each, box in zip(row.floodings, boxes) if not BOX[0] * box <= each.displacement <= BOX[1] * box]
        unlike += [(row, odd[0])] if odd else []
        least = min(each.moment for each in row.floodings)
        low += [(row, least)] if 2 * least < CROWDED * persons * ship.breadth / 100 else []
    if turned:
        yield gathered("The displacement is less at the deepest draught than at the light: are the columns of the draughts turned?", turned)
    if unlike:
        text = "A displacement of %d t, and a ship of this Ls and B has 0.3 to 1 times their product with the draught in sea water: is it in tonnes?"
        yield gathered(text % unlike[0][1], [row for row, _ in unlike])
    if low:
        text = "A heeling moment of %d tm, and %d persons on one side alone have about %s tm: is it in tonne-metres, and the greatest of the three?"
        yield gathered(text % (low[0][1], persons, cut(CROWDED * persons * ship.breadth / 100, 0)), [row for row, _ in low])


def ranges(entered):
    told = [(result.range, row) for row in entered for result in row.results if result.range]
    widest = max(told, key=lambda pair: pair[0], default=(ONE_DEGREE, None))
    if widest[0] < ONE_DEGREE:
        text = "All ranges are below one degree, the widest is %s: was a number of degrees taken for hundredths, or divided by a hundred twice?"
        yield Doubt(text % cut(widest[0], 2, 100), widest[1].place, "cases")


def levers(entered):
    """Of final and intermediate stages."""
    far = []
    for row in entered:
        longest = max(stage.lever for stage in (*row.results, *row.floodings))
        if longest > LARGEST_LEVER:
            far.append((row, longest))
    if far:
        text = "A lever of %s m: the largest of all examples is 1.03 m, and no more than 0.12 m counts (0.20 m with a ro-ro space). Is it in metres?"
        yield gathered(text % cut(far[0][1], 3, 1000), [row for row, _ in far])


def survivals(findings):
    """With less draught there is more freeboard: where most rows are survived worse at a lesser draught, the columns may be turned."""
    for deep, less in ((0, 2), (0, 1), (1, 2)):
        falls = [case for case in findings.cases if case.at[deep].bottom > case.at[less].top]
        rises = [case for case in findings.cases if case.at[deep].top < case.at[less].bottom]
        if len(falls) + len(rises) >= FEWEST and len(falls) > len(rises):
            text = "In %d of the %d rows where they differ the survival falls from the %s draught to the %s: are the columns of the draughts turned?"
            yield Doubt(text % (len(falls), len(falls) + len(rises), DRAUGHTS[deep], DRAUGHTS[less]), falls[0].row.place, "cases")
            return


def chances(findings):
    """Groups that have a share for certain and no row."""
    missing = [group for group in findings.missing if group.surely]
    if not missing:
        return
    names = ", ".join(group.name for group in missing[:MOST_NAMED])
    if len(missing) > MOST_NAMED:
        names += " and %d more" % (len(missing) - MOST_NAMED)
    text = "The chances listed come to less than one: no row has the zones %s. They count as not survived, and could add %s at most."
    yield Doubt(text % (names, lifted(sum(group.share.upper for group in missing), 6, 10**9)), 0, "cases")
