"""The library's refusals in words: what stands in the line that was refused, and what is expected there."""

from frontdesk.reading import casefile
from frontdesk.reading.casefile import CARGO_HULL, END, GIVEN, LENGTHS, PASSENGER_HULL, PASSENGERS, RESULTS, TWO_SETS
from frontdesk.reading.columns import (BEYOND, BREADTH, CARGO_BREADTH, CARGO_LENGTH, CASES, DEEPEST, DEPTH, FIRST, FLOODING, HEIGHT, LENGTH, LIFEBOATS, LIGHT,
                                       OF_PART, RULE, SECOND)
from frontdesk.reading.columns import GIVEN as GIVEN_PART
from frontdesk.reading.mistakes import Mistake, Refused
from frontdesk.reading.units import plain
from frontdesk.ship import TOP_ABOVE_DEEPEST

KINDS = {RESULTS: "results", GIVEN: "given survivals", TWO_SETS: "two sets of results", PASSENGERS: "a passenger ship's results", END: "the end"}
TOO_LONG, NOT_HEXADECIMAL, WRONG_FRAME, HULL_LIMITS, ZONES, ROW_COUNT, ROW_LIMITS, ROW_ORDER, NOT_CLOSED, END_FRAME, BAND = 1, 2, 3, 4, 5, 6, 7, 8, 9, 10, 13
SHORT = {
    TOO_LONG: "the file is too long", NOT_HEXADECIMAL: "the line is not hexadecimal", WRONG_FRAME: "the line is of another kind or length than belongs there",
    HULL_LIMITS: "the hull is outside its limits", ZONES: "the zones are wrong", ROW_COUNT: "the rows do not count up",
    ROW_LIMITS: "a number of the row is outside its limits", ROW_ORDER: "the row is out of order", NOT_CLOSED: "a layer or a group was left open",
    END_FRAME: "the end is missing, or not the last line", BAND: "under the rule of 2020 a ship of 1351 to 6000 persons is not judged",
}


def told(number, line, data, ship=None, name=""):
    """The refusal of these bytes, as an error to raise: of a case file by its line, of a ship from tables by its row."""
    if ship is not None and ship.source.form != "case file":
        return Refused(number, line, of_table(number, line, ship))
    heading, words = in_words(number, line, data)
    return Refused(number, line, Mistake(name or "case file", line, heading, "%s (refusal %d)" % (words, number), "line"))


def of_table(number, line, ship):
    """A refusal that the tables' own checks should have come before."""
    rows = [row.place for row in ship.rows[max(line - 2, 0):line - 1]] if line > 1 else []
    text = "the library refused this ship: %s (refusal %d at line %d of the case file). The desk should have found this itself; please report it."
    return Mistake(CASES if rows else "ship", rows[0] if rows else 0, "", text % (SHORT.get(number, "a reason that is not known here"), number, line))


def in_words(number, line, data):
    """Heading, where there is one, and words."""
    lines = data.split(b"\n")
    text = lines[line - 1] if 0 < line <= len(lines) else b""
    frame = casefile.frame_of(text)
    if number == TOO_LONG:
        return "", "found more than %d bytes; expected a case file of at most so many" % casefile.LONGEST
    if number == NOT_HEXADECIMAL:
        return "", digits(text, line == len(lines))
    if number == WRONG_FRAME and frame:
        return "", frame_in_words(frame, line, casefile.frame_of(lines[0]))
    if number in (HULL_LIMITS, BAND) and frame:
        return hull_in_words(frame, number)
    if number == ZONES and frame:
        return "", zones_in_words(frame)
    if number == ROW_LIMITS and frame:
        return row_in_words(frame, casefile.frame_of(lines[0]))
    if number in (ROW_ORDER, NOT_CLOSED, ROW_COUNT, END_FRAME):
        return "", order_in_words(number, line, lines, frame)
    return "", SHORT.get(number, "the file is refused for a reason that is not known here")


def digits(text, unclosed):
    """Why a line is not hexadecimal."""
    if text[:3] == b"\xef\xbb\xbf":
        return "found a byte order mark in front; expected the digits alone"
    if text[:2] in (b"\xff\xfe", b"\xfe\xff") or b"\0" in text:
        return "found a zero byte, as UTF-16 has them; expected plain digits, a byte each"
    other = next((bytes([byte]).decode("latin-1") for byte in text if byte not in casefile.DIGITS), "")
    if other == "\r":
        return "found a carriage return; expected lines that are closed by a line feed alone"
    if other:
        small = "; the digits above 9 are small letters" if other in "ABCDEF" else ""
        return "found %s; expected the digits 0 to 9 and a to f%s" % ('"%s"' % other if other.isprintable() else "a control character", small)
    if not text:
        return "found an empty line; expected pairs of digits"
    if len(text) % 2:
        return "found %d digits; expected an even number, two a byte" % len(text)
    return "found no line feed at the end; expected one after each line" if unclosed else SHORT[NOT_HEXADECIMAL]


def frame_in_words(frame, line, hull):
    kind, size = frame[0], len(frame)
    if line == 1:
        shortest = {CARGO_HULL: 10, PASSENGER_HULL: 15}.get(kind)
        if shortest:
            return "found a hull of %d bytes; expected at least %d%s" % (size, shortest, ", with the byte of the rule" if kind == PASSENGER_HULL else "")
        return "found a line of kind %02x; expected a hull, kind 01 of a cargo ship or 06 of a passenger ship" % kind
    own = (PASSENGERS, END) if hull and hull[0] == PASSENGER_HULL else (RESULTS, GIVEN, TWO_SETS, END)
    expected = ", ".join("%02x of %d bytes (%s)" % (one, LENGTHS[one], KINDS[one]) for one in own)
    old = ". Rows of 25 bytes are from before the openings" if kind == RESULTS and size == 25 else ""
    return "found a line of kind %02x with %d bytes; expected kind %s%s" % (kind, size, expected, old)


def limits(column, number):
    """Whether a number is outside a column's limits."""
    return not column.least <= number <= column.most


def found(column, number):
    return "found %s; expected %s" % (plain(number, column.places), column.expected)


def hull_in_words(frame, number):
    """Which field of a hull is outside its limits."""
    passengers = frame[0] == PASSENGER_HULL
    numbers = (casefile.PASSENGER_HEAD if passengers else casefile.CARGO_HEAD).unpack_from(frame)
    columns = (LENGTH, BREADTH) if passengers else (CARGO_LENGTH, CARGO_BREADTH)
    for column, value in zip((*columns, DEEPEST, LIGHT) + ((LIFEBOATS, BEYOND) if passengers else ()), numbers):
        if limits(column, value):
            return column.heading, found(column, value)
    _, breadth, deepest, light = numbers[:4]
    if breadth % 2:
        return BREADTH.heading, "found %s; expected an even number of centimetres" % plain(breadth, 2)
    if light > deepest or (deepest - light) % 5:
        return LIGHT.heading, "found %s; expected at most the deepest draught, %s m, and a multiple of 5 mm below it" % (plain(light, 3), plain(deepest, 3))
    if passengers and number == BAND:
        return RULE.heading, "found 2020 with %d persons; expected at most 1350 or at least 6001 persons: between them no verdict is given" % sum(numbers[4:6])
    if passengers and numbers[6] > 1:
        return RULE.heading, "found %d; expected 0 for the earlier rule or 1 for that of 2020. A hull from before the rule of 2020 lacks this byte" % numbers[6]
    return "", SHORT[number]


def zones_in_words(frame):
    head = casefile.PASSENGER_HEAD if frame[0] == PASSENGER_HULL else casefile.CARGO_HEAD
    count, room = head.unpack_from(frame)[-1], len(frame) - head.size
    if not 1 <= count <= 20:
        return "found %d zones; expected 1 to 20" % count
    if room != 2 * (count - 1):
        return "found %d bytes after the zone count; expected %d, two for each inner bulkhead, as the zone count is %d" % (room, 2 * (count - 1), count)
    length, places = head.unpack_from(frame)[0], [0] + [int.from_bytes(frame[at:at + 2], "big") for at in range(head.size, len(frame), 2)]
    for before, place in zip(places, places[1:] + [length]):
        if place <= before:
            return "found a bulkhead at %s m after one at %s m; expected each forward of the one before, between 0 and Ls" % (plain(place, 2), plain(before, 2))
    return SHORT[ZONES]


def row_in_words(frame, hull):
    """Which number of a row is outside its limits."""
    head = (casefile.PASSENGER_HEAD if hull[0] == PASSENGER_HULL else casefile.CARGO_HEAD).unpack_from(hull)
    first, count, depth, height = casefile.PLACE.unpack_from(frame)
    if not (1 <= first and 1 <= count and first + count - 1 <= head[-1]):
        return "zones", "found %d zones from zone %d on; expected zones of 1 to %d" % (count, first, head[-1])
    if not 1 <= depth <= head[1] // 2:
        return DEPTH.heading, "found %s; expected 0.01 m to B/2, %s m" % (plain(depth, 2), plain(head[1] // 2, 2))
    if limits(HEIGHT, height):
        return HEIGHT.heading, found(HEIGHT, height)
    for column, number in zip(columns_of(frame[0]), numbers_of(frame)):
        if column.choices and number > 1:
            return column.heading, "found %d; expected 0 or 1" % number
        if not column.choices and limits(column, number):
            return column.heading, found(column, number)
    return "", SHORT[ROW_LIMITS]


def columns_of(kind):
    parts = {RESULTS: (FIRST,), GIVEN: (GIVEN_PART,), TWO_SETS: (FIRST, SECOND), PASSENGERS: (FIRST, FLOODING)}[kind]
    return [column for part in parts for column in OF_PART[part]]


def numbers_of(frame):
    """A row's numbers after its place, as the sheet's columns have them."""
    if frame[0] == GIVEN:
        return casefile.SURVIVALS.unpack_from(frame, casefile.PLACE.size)
    rest = frame[casefile.PLACE.size:]
    whole = 24 if frame[0] == PASSENGERS else len(rest)
    numbers = [number for result in casefile.RESULT.iter_unpack(rest[:whole]) for number in result]
    return numbers + [number for flooding in casefile.FLOODING.iter_unpack(rest[whole:]) for number in flooding]


def order_in_words(number, line, lines, frame):
    """What is wrong between a line and those before it."""
    before = casefile.frame_of(lines[line - 2]) if 2 < line <= len(lines) + 1 else None
    if number == ROW_COUNT:
        if frame and frame[0] == END:
            return "found an end that counts %d rows; expected %d" % (int.from_bytes(frame[1:3], "big"), line - 2)
        return "found row %d; expected at most %d" % (line - 1, casefile.MOST_ROWS)
    if number == END_FRAME:
        return "found a line after the end; expected none" if line <= len(lines) and lines[line - 1:] != [b""] else "found no end; expected a line of kind 0f"
    place = place_of(frame)
    if number == ROW_ORDER:
        return "found %s after %s; expected groups that rise, in a group b that rises, in a layer H that rises and ends at the top" % (place, place_of(before))
    hull = casefile.frame_of(lines[0])
    deepest, half = int.from_bytes(hull[5:7], "big"), int.from_bytes(hull[3:5], "big") // 2
    return "found %s after %s; expected first that its layer is closed by a row at the top, %s m or higher, and its group by a layer at B/2, %s m" % (
        place, place_of(before), plain(deepest + TOP_ABOVE_DEEPEST, 3), plain(half, 2))


def place_of(frame):
    if not frame or frame[0] == END or len(frame) < casefile.PLACE.size:
        return "the end"
    first, count, depth, height = casefile.PLACE.unpack_from(frame)
    zones = "zone %d" % first if count == 1 else "zones %d-%d" % (first, first + count - 1)
    return "%s to b %s m and H %s m" % (zones, plain(depth, 2), plain(height, 3))
