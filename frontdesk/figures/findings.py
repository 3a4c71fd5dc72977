"""Every figure of the report in whole numbers: the proved library's, and sums of these, lower ends with lower and upper with upper."""

import hashlib
import shlex
from dataclasses import dataclass
from fractions import Fraction
from functools import cached_property
from itertools import groupby
from typing import NamedTuple

from frontdesk.figures.decimals import BILLION, SURVIVALS, nearer
from frontdesk.figures.engine import FAILS, MEETS, UNSETTLED
from frontdesk.figures.twin import twin, without_final, without_stages
from frontdesk.figures.worth import Ends, Grouped, Summed, added, cased, caused, counted, grouped, summed
from frontdesk.reading import casefile
from frontdesk.ship import DRAUGHTS, PASSENGER, Ship

INDICES = ("A", "As", "Ap", "Al")
STATUSES = {MEETS: 0, FAILS: 1, UNSETTLED: 3}
WRONG = 2


class Refused(Exception):
    """The library refuses the ship's case file: its number, its line, and the row that stands there."""

    def __init__(self, number, line, row=None):
        super().__init__("refusal %d at line %d" % (number, line))
        self.number, self.line, self.row = number, line, row


@dataclass(frozen=True)
class Index:
    name: str
    draught: str  # none of A
    ends: Ends  # billionths
    mark: Fraction  # R, or what a partial index must reach

    @property
    def verdict(self):
        if self.ends.lower >= self.mark * BILLION:
            return MEETS
        return FAILS if self.ends.upper < self.mark * BILLION else UNSETTLED

    @property
    def margin(self):
        """Lower end less mark where it meets, upper end less mark where it fails; none where the mark lies between the ends."""
        end = {MEETS: self.ends.lower, FAILS: self.ends.upper}.get(self.verdict)
        return None if end is None else Fraction(end, BILLION) - self.mark

    def margin_text(self, places=6):
        """So much above the mark at least, or with a minus so much below it at least."""
        return None if self.margin is None else nearer(self.margin, places)


class Check(NamedTuple):
    """Something that the desk added up, held against what is proved."""

    what: str
    summed: object  # text
    proved: object
    agrees: bool


@dataclass(frozen=True)
class Findings(Grouped):
    ship: Ship
    data: bytes  # the case file
    version: str  # the library's
    verdict: int
    required: tuple  # R's numerator and denominator, as the library has them
    mark: tuple  # those of a partial index's mark
    indices: tuple
    cases: tuple
    groups: tuple
    total: Summed
    checks: tuple

    @property
    def agrees(self):
        return all(check.agrees for check in self.checks)

    @property
    def status(self):
        """What a command ends with."""
        return STATUSES[self.verdict] if self.agrees else WRONG

    @cached_property
    def sha256(self):
        return hashlib.sha256(self.data).hexdigest()

    @cached_property
    def worst(self):
        """The cases at which something is lost, the greatest loss first."""
        lossy = (case for case in self.cases if case.whole.loss.upper)
        return sorted(lossy, key=lambda case: (-case.whole.loss.lower, -case.whole.loss.upper, case.number))

    @cached_property
    def counts(self):
        """Sums by number of zones."""
        return tuple(counted(zones, [group for group in self.groups if group.count == zones]) for zones in range(1, self.ship.zones + 1))

    @cached_property
    def causes(self):
        """By what holds the survival down, each loss under one heading: reasons that come together are a heading of their own. The greatest first."""
        return caused(self.cases, lambda found: [found])

    @cached_property
    def causes_apart(self):
        """By each reason alone. A loss that has several is counted under each, so that these do not add up to what is lost."""
        return caused(self.cases, lambda found: [(reason,) for reason in found])

    @property
    def input_name(self):
        """What was read, as a command names it: no option, whatever it begins with. CSV files that a browser sent have no folder's name."""
        file = self.ship.source.file or "FILE"
        if file == self.ship.source.form == "CSV files":
            return "FOLDER"
        return shlex.quote("./" + file if file.startswith("-") else file)

    @property
    def case_name(self):
        """The case file, the same way."""
        return self.input_name if self.ship.source.form == "case file" else "ship.case"

    @property
    def reproduce(self):
        """The commands that make the case file and ask the proved program."""
        asking = ("sha256sum %s" % self.case_name, "./damindex < %s" % self.case_name)
        if self.ship.source.form == "case file":
            return asking
        against = " --against" if self.ship.source.rounded else ""
        return ("./desk case %s%s -o ship.case" % (self.input_name, against), *asking)


def find(engine, ship):
    """What the library finds of a ship, or Refused."""
    data = casefile.write(ship)
    told = engine.figures(data)
    if told[0]:
        at = told[1] - 2
        raise Refused(told[0], told[1], ship.rows[at] if 0 <= at < len(ship.rows) else None)
    most = casefile.write(twin(ship))
    rows, could, most_told = engine.rows(data), engine.rows(most), engine.figures(most)
    if not len(rows) == len(could) == len(ship.rows) == told[3]:
        raise RuntimeError("the library has %d rows of the ship's %d, and %d where all are survived" % (len(rows), len(ship.rows), len(could)))
    relieved = [engine.rows(casefile.write(other(ship))) for other in (without_final, without_stages)] if ship.type == PASSENGER else []
    cases = tuple(cased(number, *numbers) for number, numbers in enumerate(zip(ship.rows, rows, could, *relieved, strict=True), 1))
    groups, total = grouped(ship, engine.groups(data), cases), summed(cases)
    numbers = engine.required(data)
    required, mark = numbers[:2], numbers[2:]
    marks = (Fraction(*required), *(Fraction(*mark),) * 3)
    indices = tuple(Index(*four) for four in zip(INDICES, ("", *DRAUGHTS), proved_ends(told), marks))
    checks = (
        *summed_checks(total, told), verdict_check(indices, told[2]), *twin_checks(total, cases, could, most_told), *share_checks(groups),
    )
    return Findings(ship, data, engine.version, told[2], required, mark, indices, cases, groups, total, checks)


def proved_ends(told):
    """The ends of A, As, Ap and Al among twelve figures."""
    return [Ends(*told[at:at + 2]) for at in range(4, 12, 2)]


def held(what, found, proved):
    return Check(what, found, proved, found == proved)


def index_of(tenths):
    """A's ends in billionths from those in tenths, rounded as the regulation's ends are."""
    return Ends(tenths.lower // 10, -(-tenths.upper // 10))


def summed_checks(total, told):
    """What the rows add, summed, against the proved indices."""
    proved = proved_ends(told)
    yield held("what all rows add to A", index_of(total.whole.adds), proved[0])
    for draught in range(3):
        yield held("what all rows add at the %s draught" % DRAUGHTS[draught], total.at[draught].adds, proved[draught + 1])


def verdict_check(indices, proved):
    """The verdict of the four ends against their marks, in fractions."""
    each = {index.verdict for index in indices}
    return held("the ends against R and the marks", FAILS if FAILS in each else UNSETTLED if UNSETTLED in each else MEETS, proved)


def twin_checks(total, cases, could, told):
    """The ship with every case survived: the same shares and v, survivals of one, and its own proved sums."""
    same = sum(
        case.share == row[:2] and all((at.v, SURVIVALS, SURVIVALS) == row[k:k + 3] for at, k in zip(case.at, (2, 8, 14))) for case, row in zip(cases, could)
    )
    yield held("rows that have the same share and v where every case is survived", same, len(cases))
    for draught, proved in zip(range(3), proved_ends(told)[1:]):
        yield held("the chance listed at the %s draught" % DRAUGHTS[draught], total.at[draught].chance, proved)


def share_checks(groups):
    """Two ways to a group's share, by the hull and by its rows' layers, must have figures in common; and all groups together are one."""
    listed = [group for group in groups if group.listed]
    common = 0
    for group in listed:
        layers = added(next(rows).share for _, rows in groupby(group.cases, key=lambda case: case.row.depth))
        common += layers.lower <= group.share.upper and group.share.lower <= layers.upper
    yield held("groups whose layers' shares come to the group's share", common, len(listed))
    together = added(group.share for group in groups)
    yield Check("the shares of all zone groups of the hull enclose one", together, BILLION, together.lower <= BILLION <= together.upper)
