"""A ship in metres, and the lines of its case file: hull, zones, side tanks, decks, persons, and a row for each damage."""

from fractions import Fraction
from typing import NamedTuple, Optional, Tuple

from flooding import exact, has_lesser_extent, intermediate, involves_ro_ro, results
from heeling import displacement, moment

LONGEST_DAMAGE = Fraction(10, 33)  # of the ship's length
ABOVE_THE_WATER = 12.5             # metres above the deepest draught that close a layer
DRAUGHTS = range(3)                # deepest, partial, light


class Zone(NamedTuple):
    """A zone from the bulkhead aft of it to its own forward one, and what divides it inside."""

    name: str
    forward: float                   # its forward end, in metres from the aft end of the ship
    tanks: Tuple[float, ...] = ()    # inner sides of its side tanks, in metres from the shell, outermost first
    decks: Tuple[float, ...] = ()    # its watertight decks, in metres above the keel, lowest first
    permeability: float = 0.95
    hold: Optional[str] = None       # zones along one and the same hold name it alike
    bottom: float = 0                # its inner bottom, in metres above the keel; 0 where it has none
    garage: float = 0                # the bulkhead deck under the ro-ro space above it, in metres above the keel; 0 where there is none
    vehicles: bool = False           # whether its hold is a ro-ro space
    walled: bool = False             # whether walls that are not watertight hold the water on the damaged side for a while


class People(NamedTuple):
    """Whom a passenger ship carries, and what heels it after the damage but the water."""

    in_lifeboats: int                # persons for whom there are lifeboats
    in_excess: int                   # persons beyond these
    passengers: int                  # of all persons
    side: float                      # the wind's: height above the keel of a rectangle of the ship's length with the same area
    boats: int                       # survival craft that are launched by davits on one side
    boat: float                      # what one of them weighs with everybody in it, in tonnes
    davit: float                     # how far from the centre line it hangs
    rule: int = 0                    # the rule that the ship is under: 0 the earlier one, 1 that of 2020


class Ship(NamedTuple):
    """A ship: sizes and draughts in metres, its GM at the deepest, the partial and the light draught."""

    name: str
    what: str                        # the ship in a few words
    shows: str                       # what its file shows
    verdict: str                     # what the answer must be
    length: float
    breadth: float
    depth: float                     # to the deck that the bulkheads reach
    deepest: float
    light: float
    block: float
    gm: Tuple[float, float, float]
    vents: float                     # the lower edge of its lowest opening, air pipe or ventilator, above the keel
    zones: Tuple[Zone, ...]
    adjacent: int = 20               # groups of more zones than that are left out
    raised: Optional[float] = None   # where it fails for its vents: how much higher they must be, in tenths of a metre
    alone: Optional[str] = None      # where it has a second set of results: the verdict by either set alone
    people: Optional[People] = None  # of a passenger ship
    heeled: Optional[str] = None     # of a passenger ship: whose heeling moment is the greatest, that of the passengers, the wind or the boats
    turned: Tuple[str, ...] = ()     # of a passenger ship: what turns its verdict where it is left out

    @property
    def draughts(self):
        """The deepest, partial and light draught."""
        ds, dl = exact(self.deepest), exact(self.light)
        return ds, dl + (ds - dl) * Fraction(3, 5), dl


def whole(figure, parts):
    """A length in whole parts of a metre, centimetres or millimetres."""
    count = exact(figure) * parts
    if count.denominator != 1:
        raise ValueError(f"{figure} m is not whole in parts of 1/{parts}")
    return int(count)


def digits(count, size=2):
    """A number as hexadecimal digits of so many bytes, the high byte first; one below zero in two's complement."""
    return count.to_bytes(size, "big", signed=count < 0).hex()


def groups(ship):
    """The groups (a, n) that damage can reach just so: their inner zones are shorter than the longest damage."""
    ends = [Fraction(0), *(exact(zone.forward) for zone in ship.zones)]
    for a in range(1, len(ends)):
        for n in range(1, min(ship.adjacent, len(ends) - a) + 1):
            if n < 3 or ends[a + n - 2] - ends[a] < LONGEST_DAMAGE * exact(ship.length):
                yield a, n


def layers(ship, zones):
    """How far in damage may reach: to each inner side of a tank, and to the centre line."""
    return sorted({exact(tank) for zone in zones for tank in zone.tanks}) + [exact(ship.breadth) / 2]


def heights(ship, zones):
    """How high damage may reach: to each deck, and over everything."""
    return sorted({exact(deck) for zone in zones for deck in zone.decks}) + [exact(ship.deepest) + exact(ABOVE_THE_WATER)]


def row_line(head, *sets):
    """A row of one set of three results, or of two, with zeros where the ship is lost; where all of them are lost, a row of given survivals 0."""
    if not any(map(any, sets)):
        return "03" + head + 3 * digits(0)
    numbers = [number for found in sets for result in found for number in (result or (0, 0, 0, 0))]
    return {1: "02", 2: "05"}[len(sets)] + head + "".join(map(digits, numbers))


def passenger_line(ship, head, found, on_the_way, is_ro_ro):
    """A passenger ship's row: three results, and at each draught displacement, heeling moment, the intermediate stage and the ro-ro mark; zeros where the
    ship is lost."""
    numbers = [number for result in found for number in (result or (0, 0, 0, 0))]
    stages = [digits(displacement(ship, at), 4) + digits(moment(ship, at), 4) + "".join(map(digits, stage or (0, 0, 0))) + digits(is_ro_ro, 1)
              for at, stage in zip(DRAUGHTS, on_the_way)]
    return "07" + head + "".join(map(digits, numbers)) + "".join(stages)


def damage_line(ship, a, n, b, h):
    """The row of damage to group (a, n), b deep and h high."""
    head = digits(a, 1) + digits(n, 1) + digits(whole(b, 100)) + digits(whole(h, 1000))
    found = [results(ship, a, n, b, h, at) for at in DRAUGHTS]
    if ship.people:
        return passenger_line(ship, head, found, [intermediate(ship, a, n, b, h, at) for at in DRAUGHTS], involves_ro_ro(ship, a, n, b, h))
    if has_lesser_extent(ship, a, n, b, h):
        return row_line(head, found, [results(ship, a, n, b, h, at, is_lesser=True) for at in DRAUGHTS])
    return row_line(head, found)


def group_rows(ship, a, n):
    """The rows of one group: layer by layer inwards, in each layer height by height upwards."""
    zones = ship.zones[a - 1:a - 1 + n]
    return [damage_line(ship, a, n, b, h) for b in layers(ship, zones) for h in heights(ship, zones)]


def people_digits(people):
    """The persons of a passenger ship, in lifeboats and in excess, and its rule."""
    return digits(people.in_lifeboats) + digits(people.in_excess) + digits(people.rule, 1)


def hull_line(ship):
    sizes = whole(ship.length, 100), whole(ship.breadth, 100), whole(ship.deepest, 1000), whole(ship.light, 1000)
    bulkheads = [whole(zone.forward, 100) for zone in ship.zones[:-1]]
    kind, people = ("06", people_digits(ship.people)) if ship.people else ("01", "")
    return kind + "".join(map(digits, sizes)) + people + digits(len(ship.zones), 1) + "".join(map(digits, bulkheads))


def case_file(ship):
    """The bytes of the ship's case file."""
    rows = [row for a, n in groups(ship) for row in group_rows(ship, a, n)]
    lines = [hull_line(ship), *rows, "0f" + digits(len(rows))]
    return "".join(line + "\n" for line in lines).encode("ascii")
