"""The case file: from its bytes to a Ship and back, digit by digit, judging nothing but whether its lines can be read."""

import struct

from frontdesk.ship import CARGO, PASSENGER, RULES, Flooding, Result, Row, Ship, Source

LONGEST = 65_536  # bytes
MOST_ROWS = 500
RESULTS, GIVEN, TWO_SETS, PASSENGERS = 2, 3, 5, 7
CARGO_HULL, PASSENGER_HULL, END = 1, 6, 15
LENGTHS = {RESULTS: 31, GIVEN: 13, TWO_SETS: 55, PASSENGERS: 76, END: 3}  # bytes of a line

PLACE = struct.Struct(">xBBHH")  # first zone, zones, b, H after the kind
RESULT = struct.Struct(">HHHh")
SURVIVALS = struct.Struct(">HHH")
FLOODING = struct.Struct(">IIHHHB")
CARGO_HEAD = struct.Struct(">xHHHHB")  # Ls, B, ds, dl, zones
PASSENGER_HEAD = struct.Struct(">xHHHHHHBB")  # Ls, B, ds, dl, persons in lifeboats and in excess, rule, zones
DIGITS = frozenset(b"0123456789abcdef")


def parse(data, name=""):
    """The ship of a case file, or None where a line is no frame of the format. What the library accepts has a ship; limits and order are its to judge."""
    if len(data) > LONGEST or not data.endswith(b"\n"):
        return None
    frames = [frame_of(line) for line in data[:-1].split(b"\n")]
    if len(frames) < 2 or None in frames or not ends(frames):
        return None
    hull = hull_of(frames[0])
    if hull is None:
        return None
    rows = tuple(row_of(frame, line) for line, frame in enumerate(frames[1:-1], 2))
    own = (PASSENGERS,) if hull["type"] == PASSENGER else (RESULTS, GIVEN, TWO_SETS)
    if any(row is None or row.kind not in own for row in rows):
        return None
    return Ship(rows=rows, source=Source(file=name, form="case file"), **hull)


def frame_of(line):
    """A line's bytes, or None where it is no pairs of small hexadecimal digits."""
    if not line or len(line) % 2 or not DIGITS.issuperset(line):
        return None
    return bytes.fromhex(line.decode("ascii"))


def ends(frames):
    last = frames[-1]
    return last[0] == END and len(last) == LENGTHS[END] and int.from_bytes(last[1:], "big") == len(frames) - 2


def hull_of(frame):
    """A hull's fields, or None where it is none, has another length than its zones ask for, or names no rule."""
    head = {CARGO_HULL: CARGO_HEAD, PASSENGER_HULL: PASSENGER_HEAD}.get(frame[0])
    if head is None or len(frame) < head.size:
        return None
    numbers = head.unpack_from(frame)
    zones, places = numbers[-1], frame[head.size:]
    if zones < 1 or len(places) != 2 * (zones - 1):
        return None
    hull = dict(zip(("length", "breadth", "deepest", "light"), numbers))
    hull["bulkheads"] = struct.unpack(">%dH" % (zones - 1), places)
    if frame[0] == CARGO_HULL:
        return dict(hull, type=CARGO)
    lifeboats, excess, rule = numbers[4:7]
    return dict(hull, type=PASSENGER, lifeboats=lifeboats, excess=excess, rule=rule) if rule < len(RULES) else None


def row_of(frame, line):
    """A row of whatever kind, or None where it is none or has another length."""
    kind = frame[0]
    if kind == END or len(frame) != LENGTHS.get(kind):
        return None
    place = PLACE.unpack_from(frame)
    if kind == GIVEN:
        return Row(*place, given=SURVIVALS.unpack_from(frame, PLACE.size), place=line)
    count = 6 if kind == TWO_SETS else 3
    results = tuple(Result(*RESULT.unpack_from(frame, PLACE.size + at * RESULT.size)) for at in range(count))
    if kind != PASSENGERS:
        return Row(*place, results=results, place=line)
    floodings = tuple(flooding_of(frame, at) for at in range(3))
    return None if None in floodings else Row(*place, results=results, floodings=floodings, place=line)


def flooding_of(frame, at):
    *numbers, ro_ro = FLOODING.unpack_from(frame, PLACE.size + 3 * RESULT.size + at * FLOODING.size)
    return Flooding(*numbers, ro_ro=bool(ro_ro)) if ro_ro in (0, 1) else None


def write(ship):
    """The case file of a ship, as it stands: numbers that do not fit their bytes raise struct.error."""
    lines = [hull_frame(ship), *(row_frame(row) for row in ship.rows), struct.pack(">BH", END, len(ship.rows))]
    return b"".join(line.hex().encode("ascii") + b"\n" for line in lines)


def hull_frame(ship):
    numbers = (ship.length, ship.breadth, ship.deepest, ship.light)
    places = struct.pack(">%dH" % len(ship.bulkheads), *ship.bulkheads)
    if ship.type == CARGO:
        return bytes([CARGO_HULL]) + CARGO_HEAD.pack(*numbers, ship.zones)[1:] + places
    return bytes([PASSENGER_HULL]) + PASSENGER_HEAD.pack(*numbers, ship.lifeboats, ship.excess, ship.rule, ship.zones)[1:] + places


def row_frame(row):
    parts = [bytes([row.kind]), PLACE.pack(row.first, row.count, row.depth, row.height)[1:]]
    parts += [RESULT.pack(*result) for result in row.results]
    if row.given:
        parts.append(SURVIVALS.pack(*row.given))
    parts += [FLOODING.pack(*flooding) for flooding in row.floodings]
    return b"".join(parts)
