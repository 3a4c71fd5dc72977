"""A ship as the case file has it, in whole units: what the desk reads from a table or a file, and hands to the library."""

from dataclasses import dataclass, field
from fractions import Fraction
from typing import NamedTuple

DRAUGHTS = ("deepest", "partial", "light")
CARGO, PASSENGER = "cargo", "passenger"
RULES = ("earlier", "2020")  # by the byte of the hull
TOP_ABOVE_DEEPEST = 12_500  # mm: a layer ends with the first row at or above the deepest draught and so much
NO_OPENING = 30_000  # mm: what is entered where no opening counts


class Result(NamedTuple):
    """What the office's own program found at one draught."""

    lever: int  # mm
    range: int  # hundredths of a degree
    heel: int  # hundredths of a degree
    opening: int  # mm above the final waterline; below zero it is immersed


class Flooding(NamedTuple):
    """What a passenger ship's row tells besides at one draught."""

    displacement: int  # t
    moment: int  # tm
    lever: int  # mm, of the intermediate stage, as the next two
    range: int  # hundredths of a degree
    heel: int  # hundredths of a degree
    ro_ro: bool


@dataclass(frozen=True)
class Row:
    """A damage case. It has three results, six where smaller damage is entered too, or three given survivals; a passenger ship's has three floodings."""

    first: int  # zone, counted from aft, from 1
    count: int  # zones in the group
    depth: int  # b, cm from the shell
    height: int  # H, mm above the keel
    results: tuple = ()
    given: tuple = ()  # ten-thousandths
    floodings: tuple = ()
    name: str = ""
    place: int = 0  # its row in the sheet, or its line in the case file, as the user counts them

    @property
    def kind(self):
        if self.floodings:
            return 7
        if self.given:
            return 3
        return 5 if len(self.results) == 6 else 2

    @property
    def order(self):
        """What the file's rows are ordered by."""
        return self.first, self.count, self.depth, self.height


@dataclass(frozen=True)
class Source:
    """Where a ship was read from, and what was done to it on the way."""

    file: str = ""  # as the user names it, without its folder
    form: str = "case file"  # or "workbook", "CSV files"
    reordered: bool = False  # the table's rows were not in the file's order
    rounded: int = 0  # numbers that --against rounded
    unseen: tuple = ()  # (sheet, hidden rows, hidden columns, sheets of like names that are passed over), where a workbook has such


@dataclass(frozen=True)
class Ship:
    type: str
    length: int  # cm
    breadth: int  # cm
    deepest: int  # mm
    light: int  # mm
    bulkheads: tuple  # inner, cm from the aft end of Ls
    rows: tuple
    lifeboats: int = 0
    excess: int = 0
    rule: int = 0
    name: str = ""
    zone_names: tuple = ()  # one a zone, or none at all
    zone_places: tuple = ()  # the row of each zone in the sheet zones; none of a case file
    ship_place: int = 0  # its own row in the sheet ship; 0 of a case file
    source: Source = field(default_factory=Source)

    @property
    def zones(self):
        return len(self.bulkheads) + 1

    @property
    def places(self):
        """Aft end, inner bulkheads, forward end, cm."""
        return (0, *self.bulkheads, self.length)

    @property
    def top(self):
        """The height at which a layer ends, mm."""
        return self.deepest + TOP_ABOVE_DEEPEST

    @property
    def half_breadth(self):
        """Where a group's last layer ends, cm."""
        return self.breadth // 2

    @property
    def draughts(self):
        """Deepest, partial, light, mm; the partial one may have fifths."""
        return self.deepest, self.light + Fraction(3 * (self.deepest - self.light), 5), self.light
