"""Displacement and heeling moment of a passenger ship at each draught (document 002, 2.7.4 and 2.7.5): the greatest of three moments counts."""

from fractions import Fraction
from math import ceil, floor

from flooding import exact

SEA_WATER = Fraction(1025, 1000)  # tonnes in a cubic metre
PERSON = Fraction(75, 1000)       # tonnes
TO_ONE_SIDE = Fraction(45, 100)   # of the breadth
PRESSURE = 120                    # newtons on a square metre
TONNE = 9806                      # newtons


def moment_of_passengers(ship, at):
    """All passengers on one side."""
    return PERSON * ship.people.passengers * TO_ONE_SIDE * exact(ship.breadth)


def moment_of_wind(ship, at):
    """The wind on the side above the waterline, with the arm from the middle of that side to the middle of the draught."""
    draught, side = ship.draughts[at], exact(ship.people.side)
    return PRESSURE * exact(ship.length) * (side - draught) * ((side + draught) / 2 - draught / 2) / TONNE


def moment_of_boats(ship, at):
    """All davit-launched survival craft of one side, swung out with everybody in them."""
    return ship.people.boats * exact(ship.people.boat) * exact(ship.people.davit)


MOMENTS = {"passengers": moment_of_passengers, "wind": moment_of_wind, "boats": moment_of_boats}


def greatest(ship, at):
    """The name of the moment that counts at one draught."""
    return max(MOMENTS, key=lambda name: MOMENTS[name](ship, at))


def moment(ship, at):
    """The heeling moment at one draught in whole tonne-metres, rounded up."""
    return ceil(MOMENTS[greatest(ship, at)](ship, at))


def displacement(ship, at):
    """The intact displacement at one draught in whole tonnes, rounded down."""
    return floor(exact(ship.length) * exact(ship.breadth) * ship.draughts[at] * exact(ship.block) * SEA_WATER)
