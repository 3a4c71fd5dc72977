"""Lever, range, heel and opening of a flooded ship by rule of thumb, at the end and on the way: a stand-in for the results of your own stability program."""

from fractions import Fraction
from math import ceil, floor
from typing import NamedTuple

DEGREES = Fraction(573, 10)  # in a radian
HIGHEST = 30000              # millimetres above or below the waterline, the most that a file may say of an opening
ON_THE_WAY = Fraction(1, 2)  # of the water is in at the intermediate stage
VEHICLES = Fraction(9, 10)   # permeability of the ro-ro space above the bulkhead deck


class Space(NamedTuple):
    """A flooded space: its ends along the ship, its breadth, how far its middle lies from the centre line, the heights of its top, of the inner bottom under
    it and of its own floor, and whether inner walls that are not watertight hold the water on the damaged side for a while."""

    aft: Fraction
    forward: Fraction
    breadth: Fraction
    across: Fraction
    height: Fraction
    bottom: Fraction
    permeability: Fraction
    floor: Fraction = Fraction(0)
    walled: bool = False

    @property
    def area(self):
        return (self.forward - self.aft) * self.breadth * self.permeability


class Water(NamedTuple):
    """What the water in a space takes: buoyancy, waterplane and reserve above it, its moments along and across the ship, and what an inner bottom left
    whole lifts."""

    volume: Fraction
    plane: Fraction
    reserve: Fraction
    trimming: Fraction
    heeling: Fraction
    lifting: Fraction = Fraction(0)


class Afloat(NamedTuple):
    """How a flooded ship floats: lever and opening in metres, range and heel in degrees."""

    lever: Fraction
    reach: Fraction
    heel: Fraction
    opening: Fraction


def exact(figure):
    """A figure as it is written, so that every machine makes the same file."""
    return Fraction(str(figure))


def fullness(ship):
    """The waterplane's part of length times breadth."""
    return min(exact(ship.block) + Fraction(1, 10), Fraction(19, 20))


def is_opened(zone, b):
    """Whether damage of that depth passes every side tank of a damaged zone."""
    return all(exact(tank) < b for tank in zone.tanks)


def opens_garage(ship, a, n, h):
    """Whether damage of that height opens the ro-ro space above the bulkhead deck, which no bulkhead divides."""
    return any(zone.garage and exact(zone.garage) < h for zone in ship.zones[a - 1:a - 1 + n])


def involves_ro_ro(ship, a, n, b, h):
    """Whether damage involves a ro-ro space, that above the bulkhead deck or a hold for vehicles."""
    return opens_garage(ship, a, n, h) or any(zone.vehicles and is_opened(zone, b) for zone in ship.zones[a - 1:a - 1 + n])


def spaces(ship, a, n, b, h):
    """What damage to group (a, n) floods, b deep and h high; an opened hold floods along all its zones, and so does the ro-ro space above the bulkhead deck."""
    ends = [Fraction(0), *(exact(zone.forward) for zone in ship.zones)]
    damaged = range(a - 1, a - 1 + n)
    opened = {ship.zones[place].hold or place for place in damaged if is_opened(ship.zones[place], b)}
    for place, zone in enumerate(ship.zones):
        tanks = [exact(tank) for tank in zone.tanks]
        tank = tanks[-1] if tanks else Fraction(0)
        top = exact(zone.garage or ship.depth)
        height = min([exact(deck) for deck in zone.decks if exact(deck) >= h] or [top])
        permeability = exact(zone.permeability)
        if zone.garage and opens_garage(ship, a, n, h):
            breadth = exact(ship.breadth) * fullness(ship)
            yield Space(ends[place], ends[place + 1], breadth, Fraction(0), exact(ship.depth), Fraction(0), VEHICLES, floor=top)
        if (zone.hold or place) in opened:
            breadth = exact(ship.breadth) - tank * (1 if place in damaged else 2)
        elif place in damaged:
            breadth = min(tank for tank in tanks if tank >= b)
        else:
            continue
        across = (exact(ship.breadth) - breadth) / 2 if place in damaged else Fraction(0)
        walled = zone.walled and (zone.hold or place) in opened
        yield Space(ends[place], ends[place + 1], breadth, across, height, exact(zone.bottom), permeability, walled=walled)


def has_lesser_extent(ship, a, n, b, h):
    """Whether damage floods a space over an inner bottom, which smaller damage leaves whole."""
    return any(space.bottom for space in spaces(ship, a, n, b, h))


def water_at_the_end(ship, space, draught, whole=Fraction(0)):
    """The water in a space when no more comes in, above an inner bottom that is left whole up to that height."""
    length, block = exact(ship.length), exact(ship.block)
    volume = space.area * max(min(draught, space.height) - max(whole, space.floor), 0) * block
    return Water(
        volume,
        space.area * (space.floor < draught < space.height),
        space.area * max(space.height - max(draught, space.floor), 0),
        volume * ((space.aft + space.forward) / 2 - length / 2),
        volume * space.across,
        space.area * whole * block * (draught - whole / 2),
    )


def water_above_the_bottom(ship, space, draught):
    """The water in a space when no more comes in, of the lesser extent: none below the inner bottom."""
    return water_at_the_end(ship, space, draught, space.bottom)


def water_on_the_way(ship, space, draught):
    """The water in a space at the intermediate stage: half of it, and where inner walls hold it up, all of that on the damaged half of the space."""
    final = water_at_the_end(ship, space, draught)
    share = ON_THE_WAY if space.walled else 1
    volume = final.volume * ON_THE_WAY
    return Water(
        volume,
        final.plane * share,
        final.reserve * share,
        final.trimming * ON_THE_WAY,
        volume * (space.across + space.breadth * (1 - share) / 2),
    )


def afloat(ship, flooded, water, at):
    """How the ship floats at one draught with water in the flooded spaces; nothing where it is lost, as it is where water stands on an opened ro-ro deck.
    The opening is taken to stand at the damaged side and at the end that goes down."""
    length, breadth, block = exact(ship.length), exact(ship.breadth), exact(ship.block)
    draught = ship.draughts[at]
    freeboard = exact(ship.depth) - draught
    plane = length * breadth * fullness(ship)
    displacement = length * breadth * draught * block
    lost, lost_plane, lost_reserve, trimming, heeling, lifting = map(sum, zip(*(water(ship, space, draught) for space in flooded)))
    left = plane - lost_plane
    gm = exact(ship.gm[at]) * left / plane - lifting / displacement
    if left <= 0 or gm <= 0:
        return None
    heel = heeling / (displacement * gm)
    trim = abs(trimming) / (left * length / 7)
    sinkage = lost / left + trim / 2
    dry = freeboard - sinkage - heel * breadth / 4
    waterline = draught + sinkage + heel * breadth / 2  # at the damaged side
    spare = dry / freeboard * (1 - lost_reserve / (plane * freeboard))
    lever = gm * spare * spare * Fraction(3, 10) - gm * heel / 4
    reach = 50 * spare - DEGREES * heel
    if dry <= 0 or lever <= 0 or reach <= 0 or any(space.floor and space.floor < waterline for space in flooded):
        return None
    return Afloat(lever, reach, DEGREES * heel, exact(ship.vents) - waterline)


def rounded(lever, reach, heel, opening):
    """The numbers of a result as they are entered, each to its safe side: the heel up, the others down."""
    held = max(-HIGHEST, min(HIGHEST, floor(opening * 1000)))
    return floor(lever * 1000), floor(reach * 100), ceil(heel * 100), held


def results(ship, a, n, b, h, at, is_lesser=False):
    """Lever in millimetres, range and heel in hundredths of a degree, the opening's height above the final waterline in millimetres, at one draught;
    nothing where the ship is lost. Of the lesser extent every inner bottom is left whole: less water comes in, so that she floats higher, but the water at
    the very bottom was ballast, and GM is less without it."""
    found = afloat(ship, list(spaces(ship, a, n, b, h)), water_above_the_bottom if is_lesser else water_at_the_end, at)
    return found and rounded(*found)


def intermediate(ship, a, n, b, h, at):
    """Lever, range and heel of the intermediate stage at one draught, in the same units; nothing where the ship is lost on the way."""
    found = afloat(ship, list(spaces(ship, a, n, b, h)), water_on_the_way, at)
    return found and rounded(*found)[:3]
