"""The columns of the three sheets: heading, unit, limits in the case file's units, how a number is rounded against survival, and whose ship they belong to."""

import difflib
import re
from dataclasses import dataclass, replace

from frontdesk.reading.units import DOWN, EXACT, UP, plain
from frontdesk.ship import CARGO, DRAUGHTS, PASSENGER

SHIP, ZONES, CASES, NOTES = "ship", "zones", "cases", "notes"
SHEETS = (SHIP, ZONES, CASES)
BOTH = (CARGO, PASSENGER)
FIRST, SECOND, FLOODING, GIVEN = "results", "second results", "flooding", "given survivals"  # the parts of a case's row
PARTS = {FIRST: BOTH, SECOND: (CARGO,), FLOODING: (PASSENGER,), GIVEN: (CARGO,)}

MILLIMETRES, CENTIMETRES = (3, "millimetres"), (2, "centimetres")
HUNDREDTHS = (2, "hundredths of a degree")
FAR = 3  # times the limit; what is nearer is likelier to be a wrong number than a wrong unit


@dataclass(frozen=True)
class Column:
    sheet: str
    heading: str
    unit: str = ""  # in words, as an error names it
    places: int = 0  # the file's unit is ten to so many places less than the heading's
    least: int = 0  # in the file's unit, as the next one
    most: int = 0
    rounding: str = EXACT  # which way --against rounds
    types: tuple = BOTH
    part: str = ""  # of a case's row; empty for its place
    draught: int = -1
    word: str = ""  # that may stand in place of a number
    scales: tuple = ()  # other units that are entered by mistake, the likelier first
    choices: tuple = ()  # where it is no number
    text: bool = False  # anything may stand there
    needed: bool = True

    @property
    def expected(self):
        if self.choices:
            return " or ".join(self.choices)
        unit = " " + self.unit if self.unit else ""
        word = ", or %s" % self.word if self.word else ""
        return "%s to %s%s%s" % (plain(self.least, self.places), plain(self.most, self.places), unit, word)

    @property
    def whole_unit(self):
        """The file's unit in words."""
        return {("m", 3): "millimetres", ("m", 2): "centimetres", ("degrees", 2): "hundredths of a degree", ("t", 0): "tonnes",
                ("tm", 0): "tonne-metres", ("", 4): "ten-thousandths"}.get((self.unit, self.places), "numbers")

    @property
    def short_unit(self):
        return {"millimetres": "mm", "centimetres": "cm"}.get(self.whole_unit, self.whole_unit)

    def guess(self, number):
        """The unit in which a number that is far out of limits would be within them."""
        if not number.times_ten(self.places).above(FAR * self.most):
            return ""
        for places, words in self.scales:
            scaled = number.times_ten(self.places - places)
            if not scaled.above(self.most) and not scaled.below(self.least):
                return "Did you enter %s?" % words
        return ""


def lever(part, heading, draught, **more):
    return Column(CASES, heading, "m", 3, 0, 5_000, DOWN, part=part, draught=draught, scales=(MILLIMETRES, CENTIMETRES), **more)


def degrees(part, heading, draught, rounding, **more):
    return Column(CASES, heading, "degrees", 2, 0, 9_000, rounding, part=part, draught=draught, scales=(HUNDREDTHS,), **more)


def opening(part, heading, draught, **more):
    return Column(CASES, heading, "m", 3, -30_000, 30_000, DOWN, part=part, draught=draught, word="none", scales=(MILLIMETRES,), **more)


def results(part, before, draught):
    """Lever, range, heel and opening of one set at one draught."""
    at, types = ", " + DRAUGHTS[draught], {"types": PARTS[part]}
    return (lever(part, before + "lever m" + at, draught, **types), degrees(part, before + "range deg" + at, draught, DOWN, **types),
            degrees(part, before + "heel deg" + at, draught, UP, **types), opening(part, before + "opening m" + at, draught, **types))


def flooding(draught):
    """What a passenger ship's row tells besides at one draught."""
    at, own = ", " + DRAUGHTS[draught], {"types": PARTS[FLOODING]}
    kilograms = (3, "kilograms")
    return (Column(CASES, "displacement t" + at, "t", 0, 1, 300_000, DOWN, part=FLOODING, draught=draught, scales=(kilograms,), **own),
            Column(CASES, "heeling moment tm" + at, "tm", 0, 1, 2_000_000, UP, part=FLOODING, draught=draught, **own),
            lever(FLOODING, "intermediate lever m" + at, draught, **own), degrees(FLOODING, "intermediate range deg" + at, draught, DOWN, **own),
            degrees(FLOODING, "intermediate heel deg" + at, draught, UP, **own),
            Column(CASES, "ro-ro" + at, part=FLOODING, draught=draught, choices=("yes", "no"), **own))


def given(draught):
    scales = ((2, "per cent"), (4, "ten-thousandths"))
    return Column(CASES, "given survival, " + DRAUGHTS[draught], "", 4, 0, 10_000, DOWN, (CARGO,), GIVEN, draught, scales=scales)


NAME = Column(SHIP, "name", text=True, needed=False)
TYPE = Column(SHIP, "type", choices=BOTH)
LENGTH = Column(SHIP, "Ls m", "m", 2, 2_000, 19_800, scales=(CENTIMETRES, MILLIMETRES))
BREADTH = Column(SHIP, "B m", "m", 2, 400, 6_000, scales=(CENTIMETRES, MILLIMETRES))
DEEPEST = Column(SHIP, "deepest draught m", "m", 3, 1_000, 30_000, scales=(MILLIMETRES, CENTIMETRES))
LIGHT = Column(SHIP, "light draught m", "m", 3, 500, 30_000, scales=(MILLIMETRES, CENTIMETRES))
LIFEBOATS = Column(SHIP, "persons in lifeboats", "persons", 0, 0, 10_000, types=(PASSENGER,))
BEYOND = Column(SHIP, "persons beyond", "persons", 0, 0, 10_000, types=(PASSENGER,))
RULE = Column(SHIP, "rule", types=(PASSENGER,), choices=("earlier", "2020"))
CARGO_LENGTH, CARGO_BREADTH = replace(LENGTH, least=8_000), replace(BREADTH, least=1_000)

ZONE = Column(ZONES, "zone", "", 0, 1, 20)
ZONE_NAME = Column(ZONES, "name", text=True, needed=False)
AFT = Column(ZONES, "aft m", "m", 2, 0, 19_800, scales=(CENTIMETRES, MILLIMETRES))
FORWARD = Column(ZONES, "forward m", "m", 2, 0, 19_800, scales=(CENTIMETRES, MILLIMETRES))

GROUP = Column(CASES, "zones")
DEPTH = Column(CASES, "b m", "m", 2, 1, 3_000, word="B/2", scales=(CENTIMETRES, MILLIMETRES))
HEIGHT = Column(CASES, "H m", "m", 3, 1, 60_000, word="top", scales=(MILLIMETRES, CENTIMETRES))
CASE = Column(CASES, "case", text=True, needed=False)

OF_PART = {FIRST: sum((results(FIRST, "", at) for at in range(3)), ()), SECOND: sum((results(SECOND, "second ", at) for at in range(3)), ()),
           FLOODING: sum((flooding(at) for at in range(3)), ()), GIVEN: tuple(given(at) for at in range(3))}
OF_SHEET = {SHIP: (NAME, TYPE, LENGTH, BREADTH, DEEPEST, LIGHT, LIFEBOATS, BEYOND, RULE), ZONES: (ZONE, ZONE_NAME, AFT, FORWARD),
            CASES: (GROUP, DEPTH, HEIGHT, CASE, *(column for part in PARTS for column in OF_PART[part]))}


def folded(text):
    """A heading or a sheet's name as it is compared: without regard to case, blanks around commas and blanks that are doubled."""
    return re.sub(r"\s*,\s*", ", ", " ".join(text.split())).casefold()


KNOWN = {sheet: {folded(column.heading): column for column in columns} for sheet, columns in OF_SHEET.items()}


def nearest(text, known):
    """The known name that is likely to be meant, or nothing."""
    found = difflib.get_close_matches(folded(text), [folded(one) for one in known], 1, 0.75)
    return next((one for one in known if found and folded(one) == found[0]), "")


def listed(sheet):
    """The headings that a sheet may have, as an error lists them: those of the three draughts once."""
    shown = []
    for column in OF_SHEET[sheet]:
        heading = column.heading if column.draught < 0 else column.heading.rpartition(", ")[0] + ", DRAUGHT"
        if heading not in shown:
            shown.append(heading)
    draughts = " (DRAUGHT is %s)" % " or ".join((", ".join(DRAUGHTS[:2]), DRAUGHTS[2])) if sheet == CASES else ""
    return "; ".join(shown) + draughts
