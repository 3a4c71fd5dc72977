"""A case of the corpus: its bytes, what it shows, and what the generator itself says of its answer."""

from typing import NamedTuple, Optional, Tuple


class Case(NamedTuple):
    name: str
    data: bytes
    shows: str
    refusal: Optional[Tuple[int, int]]
    sheet: Optional[int] = None
    verdict: Optional[int] = None
    marks: Optional[Tuple[Tuple[int, int, int], ...]] = None


def refused(name, data, number, line, shows, sheet=None):
    """A file that must be refused with this number at this line."""
    return Case(name, data, shows, (number, line), sheet)


def accepted(name, data, shows, sheet=None, verdict=None, marks=None):
    """A file that must be accepted, with this verdict and these bytes of marks, three a row, where they are stated."""
    return Case(name, data, shows, None, sheet, verdict, marks)
