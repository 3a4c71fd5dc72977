"""The answer to a case file: refusal or verdict, the ends of A, As, Ap and Al, and each row's share, heights, survivals and what it adds."""

from typing import NamedTuple, Tuple

from .casefile import Refusal, reading
from .regulation import EARLIER_RULE, NO_MARKS, Marks, draughts, marks, passenger_marks, passenger_s_fourth, row_v, s_fourth, survival_marks
from .rounding import BILLION, Ends, added_ends, attained_ends, share_ends, sum_ends, survival_ends

MEETS, FAILS, UNSETTLED = 1, 2, 3
NO_ENDS = (Ends(0, 0),) * 4


class Survival(NamedTuple):
    """A row's survival at one draught: bottom and top in ten-thousandths, and its marks."""

    ends: Ends
    marks: Marks


class Answer(NamedTuple):
    """Number and line of a refusal, verdict, the ends of A, As, Ap, Al, the rows' shares, and by draught their survivals, their v and what they add;
    zeros and no rows at a refusal."""

    number: int
    line: int
    verdict: int
    ends: Tuple[Ends, ...]
    shares: Tuple[Ends, ...]
    survivals: Tuple[Tuple[Survival, ...], ...]
    heights: Tuple[Tuple[int, ...], ...] = ()
    added: Tuple[Tuple[Ends, ...], ...] = ()

    @property
    def rows(self):
        return len(self.shares)


def result_survival(result):
    """Height and survival: the survival of one result."""
    return Survival(survival_ends(s_fourth(*result)), survival_marks(*result))


def lower_survival(first, second):
    """Smaller damage, worse result: of two results the lower bottom and the lower top; the marks of the lower exact s⁴, the first one's when equal."""
    one, other = result_survival(first), result_survival(second)
    ends = Ends(min(one.ends.lower, other.ends.lower), min(one.ends.upper, other.ends.upper))
    return Survival(ends, one.marks if s_fourth(*first) <= s_fourth(*second) else other.marks)


def passenger_survival(result, stage):
    """Passenger ships: the survival of one draught's result and stage; its marks are those of the final stage."""
    return Survival(survival_ends(passenger_s_fourth(result, stage)), passenger_marks(result, stage.roro))


def row_survival(row, draught):
    """Height and survival: a row's survival at one draught; a given one has bottom = top, and no mark."""
    if row.given is not None:
        return Survival(Ends(row.given[draught], row.given[draught]), NO_MARKS)
    if row.stages is not None:
        return passenger_survival(row.results[draught], row.stages[draught])
    if row.second is None:
        return result_survival(row.results[draught])
    return lower_survival(row.results[draught], row.second[draught])


def row_added(row, share, survivals, depths):
    """Height and survival: what a row adds at each of the three draughts."""
    return tuple(added_ends(share, row, d, survival.ends) for d, survival in zip(depths, survivals))


def verdict_of(ends, L, persons=None, rule=EARLIER_RULE):
    """Height and survival: 1 meets, 2 fails, 3 unsettled, all compared exactly; Passenger ships: by the marks of a ship with these persons under its rule."""
    if all(end.lower >= mark * BILLION for end, mark in zip(ends, marks(L, persons, rule))):
        return MEETS
    if any(end.upper < mark * BILLION for end, mark in zip(ends, marks(L, persons, rule))):
        return FAILS
    return UNSETTLED


def answer_to_case(case):
    """Height and survival: the answer of an accepted file."""
    shares = tuple(share_ends(case.hull, row) for row in case.rows)
    survivals = tuple(tuple(row_survival(row, draught) for draught in range(3)) for row in case.rows)
    depths = draughts(case.hull.ds, case.hull.dl)
    heights = tuple(tuple(row_v(row, d) for d in depths) for row in case.rows)
    added = tuple(row_added(row, share, three, depths) for row, share, three in zip(case.rows, shares, survivals))
    partials = tuple(sum_ends([three[draught] for three in added]) for draught in range(3))
    ends = (attained_ends(*partials),) + partials
    return Answer(0, 0, verdict_of(ends, case.hull.L, case.hull.persons, case.hull.rule), ends, shares, survivals, heights, added)


def answer(data, sheet=None):
    """The case file: the answer to the bytes, with a sheet of that many numbers, or one as long as needed."""
    read = reading(data)
    if not isinstance(read, Refusal) and sheet is not None and sheet < 2 * len(read.rows):
        read = Refusal(11, 0)
    if isinstance(read, Refusal):
        return Answer(read.number, read.line, 0, NO_ENDS, (), ())
    return answer_to_case(read)
