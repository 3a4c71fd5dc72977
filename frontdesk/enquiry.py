"""One ship from what the user has to what the report shows: the same way for the command line and for the browser."""

import os
from dataclasses import dataclass
from typing import Any

from frontdesk import doubts
from frontdesk.figures import findings
from frontdesk.reading import casefile, intake
from frontdesk.reading.mistakes import Mistake, Mistakes


@dataclass(frozen=True)
class Answer:
    """What was found of a ship, what is doubtful about it, and what the licensed slip would have made of it where that was asked for."""

    findings: Any
    doubts: tuple
    slip: Any = None

    @property
    def ship(self):
        return self.findings.ship

    @property
    def page(self):
        """The report as HTML."""
        from frontdesk.page import report

        return report.page(self.findings, self.doubts, self.slip)


def read(engine, name, source, against=False):
    """The ship of a path, or of the bytes of an upload, whose case file the library accepts; Mistakes where there is none."""
    ship = intake.read(name, source, against, refusal=engine.figures)
    number, line = engine.figures(casefile.write(ship))[:2]
    if number:
        raise unforeseen(ship, number, line)
    return ship


def asked(engine, name, source, against=False, licensed_slip=False):
    """The answer for a path, or for the bytes of an upload; Mistakes where there is none."""
    ship = read(engine, name, source, against)
    found = findings.find(engine, ship)
    slipped = None
    if licensed_slip:
        from frontdesk.figures import slip

        slipped = slip.slip(found)
    return Answer(found, tuple(doubts.of(ship, found)), slipped)


def unforeseen(ship, number, line):
    """A refusal that the tables' own rules should have told: a defect of the desk, and said to be one."""
    row = ship.rows[line - 2].place if 2 <= line <= len(ship.rows) + 1 else 0
    sheet = "" if ship.source.form == "case file" else "cases" if row else "ship"
    text = "the library refuses what was read here (refusal %d, line %d of the case file), and the desk did not foresee it: a defect of the desk."
    return Mistakes([Mistake(sheet, row, "", text % (number, line))])


def named(path):
    """A file's name as the report shows it, without its folder."""
    return os.path.basename(os.path.normpath(path)) or path
