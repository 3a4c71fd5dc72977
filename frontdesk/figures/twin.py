"""The same ship with every case survived, whose rows add what the ship's own could add at most; and a passenger ship with one of its stages relieved."""

from dataclasses import replace

from frontdesk.ship import NO_OPENING, Flooding, Result

SURVIVED = (10_000,) * 3  # given survivals of one
UPRIGHT = (Result(lever=5_000, range=9_000, heel=0, opening=NO_OPENING),) * 3  # above every cap, whatever the displacement
UNMOVED = (Flooding(displacement=300_000, moment=1, lever=5_000, range=9_000, heel=0, ro_ro=False),) * 3


def survived(row):
    if row.floodings:
        return replace(row, results=UPRIGHT, floodings=UNMOVED)
    return replace(row, results=(), given=SURVIVED)


def without_final(ship):
    """A passenger ship whose final stages hold nothing down: where a survival is as before, the intermediate stage or the moment holds it."""
    return replace(ship, rows=tuple(replace(row, results=UPRIGHT) for row in ship.rows))


def without_stages(ship):
    """A passenger ship whose intermediate stages and moments hold nothing down; a ro-ro space stays, since the final stage's caps go by it."""
    return replace(ship, rows=tuple(replace(row, floodings=tuple(replaced(each) for each in row.floodings)) for row in ship.rows))


def replaced(flooding):
    return UNMOVED[0]._replace(ro_ro=flooding.ro_ro)


def twin(ship):
    """Its file is accepted wherever the ship's is: the hull, the order and the number of rows are the same, and no line is longer."""
    return replace(ship, rows=tuple(survived(row) for row in ship.rows))
