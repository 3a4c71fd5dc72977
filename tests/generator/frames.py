"""Case files written from numbers: hull, rows and end as lines of hexadecimal."""

from typing import NamedTuple, Optional, Tuple


class Hull(NamedTuple):
    """A hull: lengths in centimetres, draughts in millimetres, the inner bulkheads from aft; persons in lifeboats and in excess make it kind 06, which
    says its rule too: 0 the earlier one, 1 that of 2020."""

    ls: int
    breadth: int
    ds: int
    dl: int
    bulkheads: Tuple[int, ...] = ()
    persons: Optional[Tuple[int, int]] = None
    rule: int = 0

    @property
    def zones(self):
        return len(self.bulkheads) + 1

    @property
    def half(self):
        return self.breadth // 2

    @property
    def top(self):
        """The height from which a row closes its layer."""
        return self.ds + 12500


class Row(NamedTuple):
    """A row: twelve figures, lever, range, heel and opening at each draught, make it kind 02, twelve more for a second set kind 05, three given
    survivals kind 03. Kind 07 has eighteen more than kind 02: displacement, moment, an intermediate stage's lever, range and heel, and a ro-ro mark
    at each draught."""

    a: int
    n: int
    b: int
    h: int
    figures: Tuple[int, ...]


def number(value, size):
    """A number as hexadecimal of so many bytes, the high byte first; below zero in two's complement."""
    return value.to_bytes(size, "big", signed=value < 0).hex()


def pairs(values):
    """Numbers of two bytes each."""
    return "".join(number(value, 2) for value in values)


def hull_line(hull, zones=None):
    """The hull's line; another zone count than the bulkheads' own may be asked for."""
    count = hull.zones if zones is None else zones
    kind, aboard = ("01", "") if hull.persons is None else ("06", pairs(hull.persons) + number(hull.rule, 1))
    return kind + pairs(hull[:4]) + aboard + number(count, 1) + pairs(hull.bulkheads)


SIZES = (4, 4, 2, 2, 2, 1)  # in bytes, of what a passenger row has at each draught after its results


def row_line(row):
    kind = {12: "02", 3: "03", 24: "05", 30: "07"}[len(row.figures)]
    head = kind + number(row.a, 1) + number(row.n, 1) + pairs((row.b, row.h))
    if kind != "07":
        return head + pairs(row.figures)
    return head + pairs(row.figures[:12]) + "".join(number(figure, size) for figure, size in zip(row.figures[12:], 3 * SIZES))


def end_line(count):
    return "0f" + number(count, 2)


def lines_of(hull, rows, count=None):
    """The lines of a whole file; another count than that of the rows may be asked for."""
    end = end_line(len(rows) if count is None else count)
    return [hull_line(hull)] + [row_line(row) for row in rows] + [end]


def joined(lines):
    """Lines as bytes, each closed by a line feed; a line may be text or bytes."""
    return b"".join((line if isinstance(line, bytes) else line.encode("latin-1")) + b"\n" for line in lines)


def case_file(hull, rows, count=None):
    return joined(lines_of(hull, rows, count))
