"""Seeded damage to case files: bytes, lines, counts, and fields set to a limit or next to it."""

from .frames import case_file, end_line, joined, lines_of
from .seeded import seeded_case, seeded_persons

LIMITS = (0, 1, 2, 3, 5, 20, 21, 255, 256, 499, 500, 501, 999, 1000, 1001, 1002, 5000, 5001, 5998, 6000, 6002, 7999, 8000, 9000, 9001,
          10000, 10001, 12499, 12500, 19800, 19801, 30000, 30001, 32767, 32768, 35535, 35536, 60000, 60001, 65534, 65535)
PASSENGER_LIMITS = LIMITS + (39, 40, 41, 49, 50, 51, 120, 200, 398, 399, 400, 402, 699, 700, 701, 1350, 1351, 1499, 1501, 1600, 1999, 2000, 2001, 6001, 65536,
                             299999, 300000, 300001, 1999999, 2000000, 2000001, 2 ** 31, 2 ** 32 - 1)
ALIEN = b"\x00\r \tABCDEFGg/:`@-\x7f\x80\xff\n"


def flip(dice, data):
    at = dice.below(len(data))
    return data[:at] + bytes([data[at] ^ (1 << dice.below(8))]) + data[at + 1:]


def another_digit(dice, data):
    at = dice.below(len(data))
    return data[:at] + bytes([dice.pick(b"0123456789abcdef")]) + data[at + 1:]


def alien_byte(dice, data):
    at = dice.below(len(data))
    return data[:at] + bytes([dice.pick(ALIEN)]) + data[at + dice.below(2):]


def cut(dice, data):
    at = dice.below(len(data) + 1)
    return data[:at] if dice.one_in(2) else data[:at] + data[at + dice.between(1, 8):]


def twice(dice, data):
    at = dice.below(len(data))
    end = at + dice.between(1, 60)
    return data[:end] + data[at:]


def line_doubled(dice, data):
    lines = data.split(b"\n")
    at = dice.below(len(lines))
    return b"\n".join(lines[:at + 1] + lines[at:])


def line_dropped(dice, data):
    lines = data.split(b"\n")
    at = dice.below(len(lines))
    return b"\n".join(lines[:at] + lines[at + 1:])


def lines_swapped(dice, data):
    lines = data.split(b"\n")
    at = dice.below(len(lines))
    to = at + 1 if dice.one_in(2) and at + 1 < len(lines) else dice.below(len(lines))
    lines[at], lines[to] = lines[to], lines[at]
    return b"\n".join(lines)


def carriage_returns(dice, data):
    return data.replace(b"\n", b"\r\n", -1 if dice.one_in(2) else 1)


def upper_case(dice, data):
    return data.upper() if dice.one_in(2) else data.replace(b"a", b"A", 1)


def wrong_count(dice, data):
    lines = data.split(b"\n")[:-2]
    count = dice.pick((0, len(lines) - 2, len(lines), 500, 501, 65535, (len(lines) - 1) ^ 256, dice.below(65536)))
    return joined(lines + [end_line(max(count, 0))])


def fields_of(line, is_first):
    """Where the fields of a line begin, and how many digits each has."""
    if is_first:
        aboard = [(18, 4), (22, 4), (26, 2)] if line[:2] == "06" else []
        zones = 28 if aboard else 18
        return [(2, 4), (6, 4), (10, 4), (14, 4)] + aboard + [(zones, 2)] + [(place, 4) for place in range(zones + 2, len(line), 4)]
    if line[:2] == "0f":
        return [(2, 4)]
    head = [(2, 2), (4, 2)]
    if line[:2] != "07":
        return head + [(place, 4) for place in range(6, len(line), 4)]
    stage = ((0, 8), (8, 8), (16, 4), (20, 4), (24, 4), (28, 2))
    return head + [(place, 4) for place in range(6, 62, 4)] + [(at + place, size) for at in (62, 92, 122) for place, size in stage]


def field_changed(dice, data):
    """A whole field of one line set to a limit, or to what it was give or take a little."""
    lines = data.split(b"\n")
    at = 0 if dice.one_in(3) else dice.below(max(len(lines) - 1, 1))
    line = lines[at].decode("latin-1")
    places, limits = fields_of(line, at == 0), PASSENGER_LIMITS if is_passengers(data) else LIMITS
    start, size = dice.pick(places + [(0, 2)])
    most = 16 ** size
    try:
        was = int(line[start:start + size] or "0", 16)
    except ValueError:
        was = 0
    value = dice.pick((dice.pick(limits), was + 1, was - 1, was + 5, was - 5, was + dice.between(-300, 300), dice.below(most)))
    lines[at] = (line[:start] + "%0*x" % (size, value % most) + line[start + size:]).encode("latin-1")
    return b"\n".join(lines)


def set_changed(dice, data):
    """A row of another kind or length: its second set gone, or its openings, or one set more, or the kind alone."""
    lines = data.split(b"\n")
    at = dice.below(len(lines))
    line = lines[at]
    lines[at] = dice.pick((b"05" + line[2:], b"02" + line[2:], line[:62], line[:86], line[:110], line + line[14:62], b"05" + line[2:] + line[14:62],
                           b"02" + line[2:62], line[:14] + line[62:110] + line[14:62]))
    return b"\n".join(lines)


def is_passengers(data):
    return data[:2] == b"06"


def type_changed(dice, data):
    """A line of a passenger file made one of a cargo file, or of another length: its stages gone, or one of them, or its openings; stages swapped."""
    lines = data.split(b"\n")
    at = dice.below(len(lines))
    line = lines[at]
    cargo = b"01" + line[2:18] + line[28:] if at == 0 else b"02" + line[2:62]
    lines[at] = dice.pick((cargo, cargo, b"03" + line[2:26], b"05" + line[2:62] + line[14:62], b"05" + line[2:], line[:62], line[:92], line[:122], line[:150],
                           line + b"00", line[:26] + line[30:42] + line[46:58] + line[62:], line[:62] + line[92:122] + line[62:92] + line[122:]))
    return b"\n".join(lines)


def rule_changed(dice, data):
    """A passenger hull under the other rule, under one that is unknown or without the byte that says it; half of them with persons about the rule of 2020."""
    hull, feed, rest = data.partition(b"\n")
    persons = "%04x%04x" % seeded_persons(dice, 1, dice.one_in(2)) if dice.one_in(2) else hull[18:26].decode("latin-1")
    rule = dice.pick((b"00", b"01", b"01", b"01", b"02", b"ff", b""))
    return hull[:18] + persons.encode("latin-1") + rule + hull[28:] + feed + rest


SIMPLE_WAYS = (flip, another_digit, another_digit, alien_byte, cut, twice, line_doubled, line_dropped, lines_swapped,
               carriage_returns, upper_case, wrong_count)
WAYS = SIMPLE_WAYS + 2 * (set_changed,) + 8 * (field_changed,)
PASSENGER_WAYS = SIMPLE_WAYS + 3 * (type_changed, rule_changed) + 10 * (field_changed,)


def damaged(dice, data):
    """One to three damages; the words say which."""
    names, ways = [], PASSENGER_WAYS if is_passengers(data) else WAYS
    for _ in range(dice.pick((1, 1, 1, 2, 2, 3))):
        if not data:
            break
        way = dice.pick(ways)
        data = way(dice, data)
        names.append(way.__name__.replace("_", " "))
    return data, ", ".join(names)


def short_tops(dice, hull, rows):
    """Rows in which one height, b or group is moved by a little, so that order and closing are at stake."""
    rows = list(rows)
    if rows:
        at = dice.below(len(rows))
        row = rows[at]
        rows[at] = dice.pick((
            row._replace(h=max(hull.top - 1, 1)), row._replace(h=hull.top), row._replace(h=max(row.h + dice.between(-2, 2), 0)),
            row._replace(b=max(row.b + dice.between(-2, 2), 0)), row._replace(b=hull.half), row._replace(a=max(row.a - 1, 0)),
            row._replace(a=row.a + 1), row._replace(n=row.n + 1), row._replace(n=max(row.n - 1, 0))))
    return rows


def seeded_file(dice):
    """A file of any sort with a word on how it was made: about half of them undamaged, a third of a passenger ship."""
    most, passengers = dice.pick((0, 1, 5, 20, 20, 60)) if not dice.one_in(40) else 500, dice.one_in(3)
    hull, rows = seeded_case(dice, most, passengers=passengers)
    way = dice.below(8)
    if way < 4:
        return case_file(hull, rows), "valid, %s, %d zones, %d rows" % ("passengers" if passengers else "cargo", hull.zones, len(rows))
    if way == 4:
        return case_file(hull, short_tops(dice, hull, rows)), "a row moved"
    if way == 5:
        lines = lines_of(hull, rows)
        others = lines_of(*seeded_case(dice, 3, passengers=not passengers)) if dice.one_in(3) else lines
        at = dice.below(len(lines))
        return joined(lines[:at] + [dice.pick(others)] + lines[at:]), "a line put in"
    if way == 6 and dice.one_in(8):
        data = case_file(hull, rows)
        size = dice.pick((32768, 32769, 65535, 65536, 65537, 80000))
        return (data * (size // len(data) + 1))[:size], "repeated to %d bytes" % size
    return damaged(dice, case_file(hull, rows))
