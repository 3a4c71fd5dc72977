"""What holds a survival down, in words, from the byte of its marks and the kind of its row."""

from frontdesk.ship import PASSENGER

LEVER, RANGE, HEEL, OPENING, STAGE, GIVEN = "lever", "range", "heel", "opening", "stage", "given"
REASONS = (LEVER, RANGE, HEEL, OPENING, STAGE, GIVEN)
MARKED = ((1, LEVER), (2, RANGE), (4, HEEL), (8, OPENING))
WHOLE = 10_000  # a survival of one


def of(row, marks, bottom, final=True, stage=False):
    """The reasons of a survival below one, none of a survival of one. Of a passenger ship the marks are those of the final stage, which hold the survival
    down where final says so; stage says the same of the intermediate stage or the heeling moment, and which of the two the library does not tell."""
    if bottom == WHOLE:
        return ()
    if row.given:
        return (GIVEN,)
    marked = tuple(reason for mark, reason in MARKED if marks & mark) if final else ()
    return marked + (STAGE,) if stage or not marked else marked


def words(reason, row, draught):
    """A reason in words, with the cap of that row at that draught."""
    ro_ro = bool(row.floodings) and row.floodings[draught].ro_ro
    return {
        LEVER: "lever below %s m" % ("0.20" if ro_ro else "0.12"),
        RANGE: "range below %s degrees" % ("20" if ro_ro else "16"),
        HEEL: "heel above %s degrees" % ("7" if row.floodings else "25"),
    }.get(reason) or OTHERS[reason]


OTHERS = {OPENING: "opening immersed", STAGE: "intermediate stage or heeling moment", GIVEN: "survival given below one"}


def in_general(reason, ship):
    """A reason in words for all rows of a ship."""
    passenger = ship.type == PASSENGER
    return {
        LEVER: "lever below 0.12 m" + (" (0.20 m with a ro-ro space)" if passenger else ""),
        RANGE: "range below 16 degrees" + (" (20 with a ro-ro space)" if passenger else ""),
        HEEL: "heel above %s degrees" % ("7" if passenger else "25"),
    }.get(reason) or OTHERS[reason]


def told(codes, row, draught):
    """All reasons of a survival in one phrase."""
    *others, last = [words(code, row, draught) for code in codes] or [""]
    return "%s and %s" % (", ".join(others), last) if others else last
