"""Exact conversion between what stands in a cell and whole numbers of the case file's units: no number passes through a float's arithmetic."""

import datetime
import re
from decimal import Decimal
from functools import lru_cache
from typing import NamedTuple

NUMBER = re.compile(r"([+-]?)(?=\.?[0-9])([0-9]*)\.?([0-9]*)(?:[eE]([+-]?[0-9]{1,4}))?")
BLANKS = " \t\r\n\u00a0\u2007\u2009\u202f\ufeff"
GROUPED = re.compile(r"([+-]?[0-9]{1,3})((?:[ \u00a0\u2007\u2009\u202f'\u2019,][0-9]{3})+)(\.[0-9]+)?")
WITH_COMMA = re.compile(r"[+-]?[0-9]*,[0-9]+")
WITH_UNIT = re.compile(r"([+-]?[0-9.,]+)\s*(mm|cm|m|deg|°|degrees|t|tm|%)")
LONGEST_TEXT = 60  # characters of a number; a float's shortest text has 24 at most
LEAST_POWER, GREATEST_POWER = -400, 40  # of ten, that are worked with: every float small enough has one between
COMMA_FOR_POINT = str.maketrans(",.", ".,")
EXACT, DOWN, UP = "", "down", "up"


class Unstored:
    """A cell with a formula whose value the file does not have."""


class NoNumber(Exception):
    """A cell that has no number: how it is shown, and a guess at what was meant, or nothing."""

    def __init__(self, found, guess=""):
        super().__init__(found)
        self.found, self.guess = found, guess


class Exact(NamedTuple):
    """digits times ten to the power of exponent."""

    digits: int
    exponent: int

    def times_ten(self, places):
        return Exact(self.digits, self.exponent + places)

    def rounded(self, rounding):
        """The whole number at or next below or above it, and whether it was whole itself; without a rounding None where it was not."""
        if self.exponent >= 0:
            return self.digits * 10 ** self.exponent, True
        whole, rest = divmod(self.digits, 10 ** -self.exponent)
        if not rest:
            return whole, True
        return {EXACT: None, DOWN: whole, UP: whole + 1}[rounding], False

    def above(self, limit):
        return self.rounded(UP)[0] > limit

    def below(self, limit):
        return self.rounded(DOWN)[0] < limit

    def __str__(self):
        return str(Decimal(self.digits).scaleb(self.exponent)) if abs(self.exponent) > 30 else plain(self.digits, -self.exponent)


def exact(cell, comma=False):
    """The number of a cell, taken by its shortest decimal text; a decimal comma where the file writes numbers so. Raises NoNumber."""
    if isinstance(cell, bool):
        raise NoNumber("TRUE" if cell else "FALSE")
    if isinstance(cell, (int, Decimal)):
        return of_text(str(cell))
    if isinstance(cell, float):
        return of_text(repr(cell))
    if not isinstance(cell, str):
        raise NoNumber(*in_words(cell))
    return of_text(cell.strip(BLANKS).replace("\u2212", "-"), comma)


@lru_cache(maxsize=20_000)
def of_text(text, comma=False):
    """The number that a text writes with digits, a point, a sign and an exponent, or, where the comma is the point, with that."""
    written = text.translate(COMMA_FOR_POINT) if comma else text
    match = NUMBER.fullmatch(written) if len(written) <= LONGEST_TEXT else None
    if not match:
        raise NoNumber(shown(text), meant(text, comma))
    sign, before, behind, power = match.groups()
    number = Exact(int(sign + before + behind), int(power or 0) - len(behind))
    if not number.digits:
        return Exact(0, 0)
    if not LEAST_POWER <= number.exponent <= GREATEST_POWER:
        raise NoNumber(shown(text))
    return number


def meant(text, comma):
    """A guess at the number behind a text that writes none."""
    grouped = GROUPED.fullmatch(text)
    if text.startswith("#"):
        return "A formula of the spreadsheet ended in an error."
    if comma and NUMBER.fullmatch(text):
        return "This file has decimal commas: write %s." % text.replace(".", ",")
    if grouped and "," in text and not grouped[3] and not grouped[1].lstrip("+-").startswith("0"):
        return "Write %s or %s." % (text.replace(",", ".", 1), re.sub("[^0-9+-]", "", text))
    if WITH_COMMA.fullmatch(text):
        return "Write the decimal comma as a point: %s." % text.replace(",", ".")
    if grouped:
        return "Write it without separators: %s." % (grouped[1] + re.sub("[^0-9]", "", grouped[2]) + (grouped[3] or ""))
    if WITH_UNIT.fullmatch(text):
        return "Leave the unit out: the heading has it."
    return ""


def in_words(cell):
    """How a cell that is neither text nor number is shown, and a guess at how it came to be."""
    if isinstance(cell, (datetime.datetime, datetime.date)):
        return "the date %s" % cell.isoformat()[:10], "The spreadsheet took what was typed for a date."
    if isinstance(cell, (datetime.time, datetime.timedelta)):
        return "the time %s" % cell, "The spreadsheet took what was typed for a time."
    if isinstance(cell, Unstored):
        return "a formula without a stored value", "Open the workbook in a spreadsheet program and save it."
    return "a cell of another kind", ""


def shown(cell):
    """What stands in a cell, for an error's text: numbers as they are, texts in quotation marks and not too long."""
    if cell is None or cell == "":
        return "nothing"
    if isinstance(cell, bool):
        return "TRUE" if cell else "FALSE"
    if isinstance(cell, float):
        return repr(int(cell)) if cell.is_integer() and abs(cell) < 1e15 else repr(cell)
    if isinstance(cell, (int, Decimal)):
        return str(cell)
    if not isinstance(cell, str):
        return in_words(cell)[0]
    text = "".join(letter if letter.isprintable() else " " for letter in cell.strip(BLANKS))
    if NUMBER.fullmatch(text) and len(text) <= LONGEST_TEXT:
        return text
    return '"%s"' % (text if len(text) <= 40 else text[:37] + "..")


def is_blank(cell):
    return cell is None or (isinstance(cell, str) and not cell.strip(BLANKS))


def plain(whole, places):
    """A whole number of units as the shortest decimal text of a unit that is ten to so many places times greater: 120 with 3 is 0.12."""
    if places <= 0:
        return str(whole * 10 ** -places)
    sign, digits = "-" if whole < 0 else "", str(abs(whole)).rjust(places + 1, "0")
    before, behind = digits[:-places], digits[-places:].rstrip("0")
    return sign + before + ("." + behind if behind else "")


def decimal(whole, places):
    """The same as a number that a spreadsheet's cell takes."""
    return Decimal(plain(whole, places))
