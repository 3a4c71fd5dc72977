"""Settles a ship that the answer leaves unsettled: A against R and each partial index against its part of R, with the roots to more places."""

from fractions import Fraction
from math import ceil, floor, isqrt
from typing import Callable, NamedTuple, Optional, Tuple

from .answering import MEETS, UNSETTLED, answer_to_case
from .casefile import Refusal
from .printing import cut, decimal
from .regulation import WHOLE_SURVIVAL, WHOLE_V, draughts, marks, row_s_fourth, row_share, row_v
from .rounding import BILLION

FIRST_PLACES, MOST_PLACES = 4, 200  # decimal places of the roots: the service's own, and where the search stops
SHOWN = 6                           # decimal places of a printed figure, at the least
OF_A = (Fraction(2, 5), Fraction(2, 5), Fraction(1, 5))


class Figure(NamedTuple):
    """A figure by its name, the name and value of its mark, and its bounds with the roots to so many places."""

    name: str
    mark_name: str
    mark: Fraction
    bounds: Callable[[int], Tuple[Fraction, Fraction]]


class Found(NamedTuple):
    """Whether a figure reaches its mark, None where that stays open; the places that it took; its bounds with so many."""

    reaches: Optional[bool]
    places: int
    lower: Fraction
    upper: Fraction

    @property
    def exact(self):
        return self.lower == self.upper


# Roots and sums


def whole_root(number):
    """The fourth root of a whole number, rounded down."""
    return isqrt(isqrt(number))


def root_bounds(fourth, places):
    """The fourth root of a fraction: itself where it is a fraction, else to so many places down and up."""
    top, bottom = whole_root(fourth.numerator), whole_root(fourth.denominator)
    if (top**4, bottom**4) == (fourth.numerator, fourth.denominator):
        return Fraction(top, bottom), Fraction(top, bottom)
    scale = 10**places
    down = whole_root(fourth.numerator * scale**4 // fourth.denominator)
    return Fraction(down, scale), Fraction(down + 1, scale)


def sum_bounds(parts, places):
    """A sum of roots, each by its weight and fourth power; one of no weight adds nothing, whatever its root."""
    lower = upper = Fraction(0)
    for weight, fourth in parts:
        down, up = root_bounds(fourth, places)
        lower += weight * down
        upper += weight * up
    return lower, upper


# The figures of a case


def fourth_power(row, draught):
    """s⁴ of a row at one draught; a given survival counts as itself."""
    if row.given is not None:
        return Fraction(row.given[draught], WHOLE_SURVIVAL) ** 4
    return row_s_fourth(row, draught)


def partial_parts(case, shares, draught):
    """A partial index: each row's survival with its exact share times v for its weight."""
    d = draughts(case.hull.ds, case.hull.dl)[draught]
    return [(share * row_v(row, d) / WHOLE_V, fourth_power(row, draught)) for row, share in zip(case.rows, shares)]


def figures_of(case):
    """A, As, Ap and Al with their marks."""
    shares = [row_share(case.hull, row) for row in case.rows]
    partials = [partial_parts(case, shares, draught) for draught in range(3)]
    whole = [(part * weight, fourth) for part, parts in zip(OF_A, partials) for weight, fourth in parts]
    hull = case.hull
    of_R = "R/2" if hull.persons is None else "0.9 R"
    named = zip(("A", "As", "Ap", "Al"), ("R", of_R, of_R, of_R), marks(hull.L, hull.persons, hull.rule), [whole, *partials])
    return [Figure(name, mark_name, mark, lambda places, parts=parts: sum_bounds(parts, places))
            for name, mark_name, mark, parts in named]


# Above or below


def settled(figure):
    """Takes the roots to twice as many places until the figure is above or below its mark, and gives up at the most."""
    places = FIRST_PLACES
    while True:
        lower, upper = figure.bounds(places)
        if lower >= figure.mark:
            return Found(True, places, lower, upper)
        if upper < figure.mark:
            return Found(False, places, lower, upper)
        if places == MOST_PLACES:
            return Found(None, places, lower, upper)
        places = min(2 * places, MOST_PLACES)


def verdict_in_words(found):
    """The ship's verdict from what was found of its four figures."""
    if any(one.reaches is False for one in found):
        return "the ship fails"
    if all(one.reaches for one in found):
        return "the ship meets"
    return "the ship stays unsettled"


# In words


def places_to_tell(found, mark):
    """The fewest places, from six on, at which the printed bounds lie on one side of the printed mark."""
    for places in range(SHOWN, MOST_PLACES):
        at = floor(mark * 10**places)
        if floor(found.lower * 10**places) > at or ceil(found.upper * 10**places) < at:
            return places
    return MOST_PLACES


def in_words(figure, found):
    """What was found of a figure, in a line."""
    name, mark_name, mark = figure.name, figure.mark_name, figure.mark
    if found.reaches is None:
        return f"{name} stays open: with the roots to {found.places} places {mark_name} lies between its bounds"
    said = f"{name} reaches {mark_name}" if found.reaches else f"{name} falls short of {mark_name}"
    said += ", exactly" if found.exact else f", with the roots to {found.places} places"
    if found.lower == mark:
        return f"{said}: both are {mark}" if found.exact else f"{said}: it is above {mark}"
    places = places_to_tell(found, mark)
    if found.exact:
        return f"{said}: it is {cut(found.lower, places)}, and {mark_name} is {cut(mark, places)}"
    lower, upper = decimal(floor(found.lower * 10**places), places), decimal(ceil(found.upper * 10**places), places)
    return f"{said}: it lies between {lower} and {upper}, and {mark_name} is {cut(mark, places)}"


def answered(figure, ends):
    """What the answer's own ends say of a figure, in a line."""
    between = f"between {decimal(ends.lower, 9)} and {decimal(ends.upper, 9)}"
    if ends.lower >= figure.mark * BILLION:
        said = f"reaches {figure.mark_name}"
    elif ends.upper < figure.mark * BILLION:
        said = f"falls short of {figure.mark_name}"
    else:
        said = f"may reach {figure.mark_name} or not"
    return f"{figure.name} {said}: it lies {between}, and {figure.mark_name} is {cut(figure.mark, 9)}"


def settled_text(read):
    """The settled figures of a reading and its verdict, one a line."""
    if isinstance(read, Refusal):
        return f"refused {read.number} at line {read.line}\n"
    told, figures = answer_to_case(read), figures_of(read)
    if told.verdict == UNSETTLED:
        found = [settled(figure) for figure in figures]
        lines = [in_words(figure, one) for figure, one in zip(figures, found)] + [verdict_in_words(found)]
    else:
        lines = ["the answer's figures settle it"]
        lines += [answered(figure, ends) for figure, ends in zip(figures, told.ends)]
        lines.append("the ship meets" if told.verdict == MEETS else "the ship fails")
    return "".join(line + "\n" for line in lines)
