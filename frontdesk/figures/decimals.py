"""Whole numbers and fractions as decimal text, cut to the side that does no harm."""

from fractions import Fraction

BILLION = 10**9  # ends of shares and indices
TENTHS = 10**10  # what a row adds to A, exact in tenths of billionths
SURVIVALS = 10**4  # bottom and top
HEIGHTS = 916_500  # v


def text_of(count, places):
    """So many of the last of some places, as text."""
    if not places:
        return str(count)
    whole, rest = divmod(abs(count), 10**places)
    return "%s%d.%0*d" % ("-" if count < 0 else "", whole, places, rest)


def cut(value, places, per=1):
    """A whole number or a fraction of so many to one, rounded down: what is at least there."""
    return text_of(10**places * value // per, places)


def lifted(value, places, per=1):
    """The same rounded up: what is at most there."""
    return text_of(-(-(10**places) * value // per), places)


def nearer(value, places, per=1):
    """The same towards zero: of a margin no more than there is, of a shortfall no more either."""
    return cut(value, places, per) if value >= 0 else lifted(value, places, per)


def exact(value, places, per):
    """The same where it is whole in so many places; an error where it is not."""
    scaled = Fraction(10**places * value, per)
    if scaled.denominator != 1:
        raise ValueError("%s/%s is not whole in %d places" % (value, per, places))
    return text_of(scaled.numerator, places)


def per_cent(part, whole):
    """A part of a whole in whole per cent, cut off; nothing where there is no whole."""
    return 100 * part // whole if whole else None
