"""The case file of documents 01 and 02: from bytes to a case, or to a refusal's number and line."""

from typing import NamedTuple, Optional, Tuple

from .regulation import EARLIER_RULE, RULE_OF_2020, Span

LONGEST_INPUT = 65_536
MOST_ROWS = 500
MOST_ZONES = 20
ABOVE_DEEPEST = 12_500  # a layer's top lies this far above ds

MOST_PERSONS = 10_000
NOT_TAKEN_YET = range(1_351, 6_001)  # the persons of a ship under the rule of 2020 whose R has a logarithm

HULL, LEVER_ROW, GIVEN_ROW, TWO_SETS_ROW, PASSENGER_HULL, PASSENGER_ROW, END = 0x01, 0x02, 0x03, 0x05, 0x06, 0x07, 0x0F
LENGTHS = {LEVER_ROW: 31, GIVEN_ROW: 13, TWO_SETS_ROW: 55, END: 3}  # of the lines after a cargo ship's hull
PASSENGER_LENGTHS = {PASSENGER_ROW: 76, END: 3}                     # and after a passenger ship's


class Refusal(NamedTuple):
    """A refusal's number and line."""

    number: int
    line: int


class Hull(NamedTuple):
    """The hull: length and breadth, deepest and light draught, and each zone by its places; of a passenger ship also the persons for whom there are
    lifeboats and those in excess, and the rule that it is under."""

    L: int
    B: int
    ds: int
    dl: int
    zones: Tuple[Span, ...]
    persons: Optional[Tuple[int, int]] = None
    rule: int = EARLIER_RULE

    @property
    def top(self):
        return self.ds + ABOVE_DEEPEST


class Result(NamedTuple):
    """One draught's lever, range and heel, and the height of its critical opening above the final waterline."""

    lever: int
    reach: int
    heel: int
    opening: int


class Stage(NamedTuple):
    """What a passenger ship's row has at one draught beside its result: displacement and heeling moment, the intermediate stage's lever, range and heel,
    and the ro-ro mark."""

    displacement: int
    moment: int
    lever: int
    reach: int
    heel: int
    roro: int


class Row(NamedTuple):
    """A row with results or given survivals by draught, the b of the layer before it and the H of the row below it, and a second set of results or a
    passenger ship's stages or neither."""

    a: int
    n: int
    b: int
    H: int
    results: Optional[Tuple[Result, ...]]
    given: Optional[Tuple[int, ...]]
    b_before: int = 0
    H_below: Optional[int] = None
    second: Optional[Tuple[Result, ...]] = None
    stages: Optional[Tuple[Stage, ...]] = None

    @property
    def sets(self):
        return tuple(results for results in (self.results, self.second) if results is not None)

    @property
    def group(self):
        return (self.a, self.n)

    @property
    def layer(self):
        return (self.a, self.n, self.b)


class Case(NamedTuple):
    """An accepted file: its hull and its rows in order."""

    hull: Hull
    rows: Tuple[Row, ...]


# Lines and numbers


def lines_of(data):
    """The case file: each line's bytes, and whether a line feed closes it; bytes after the last one are a line too."""
    pieces = data.split(b"\n")
    lines = [(piece, True) for piece in pieces[:-1]]
    if pieces[-1]:
        lines.append((pieces[-1], False))
    return lines


def is_written_well(text, closed):
    """Refusal 2: what a line must have before its frame is looked at."""
    others = text.translate(None, b"0123456789abcdef")
    return closed and len(text) > 0 and len(text) % 2 == 0 and len(others) == 0


def two_bytes(frame, at):
    """The case file: a number of two bytes, the high byte first."""
    return 256 * frame[at] + frame[at + 1]


def four_bytes(frame, at):
    """Passenger ships: a number of four bytes, the high byte first."""
    return 65_536 * two_bytes(frame, at) + two_bytes(frame, at + 2)


def two_bytes_signed(frame, at):
    """Openings: a number of two bytes in two's complement, the high byte first."""
    number = two_bytes(frame, at)
    return number - 65_536 if number >= 32_768 else number


# The hull


def hull_of(frame):
    """The case file: the hull frame's number of refusal, or its hull; Passenger ships: the persons after dl, and limits of their own; The 2020 passenger
    rule: a byte after the persons says the rule, and 13 comes right after 4."""
    if frame[0] not in (HULL, PASSENGER_HULL):
        return 3
    passengers = frame[0] == PASSENGER_HULL
    count_at = 14 if passengers else 9
    if len(frame) <= count_at:
        return 3
    L, B, ds, dl = (two_bytes(frame, at) for at in (1, 3, 5, 7))
    persons = (two_bytes(frame, 9), two_bytes(frame, 11)) if passengers else None
    rule = frame[13] if passengers else EARLIER_RULE
    shortest, narrowest = (2_000, 400) if passengers else (8_000, 1_000)
    within = (
        shortest <= L <= 19_800
        and B % 2 == 0 and narrowest <= B <= 6_000
        and 1_000 <= ds <= 30_000
        and 500 <= dl <= ds and (ds - dl) % 5 == 0
        and all(count <= MOST_PERSONS for count in persons or ())
        and rule in (EARLIER_RULE, RULE_OF_2020)
    )
    if not within:
        return 4
    if rule == RULE_OF_2020 and sum(persons) in NOT_TAKEN_YET:
        return 13
    m = frame[count_at]
    if not 1 <= m <= MOST_ZONES or len(frame) != count_at - 1 + 2 * m:
        return 5
    places = [0] + [two_bytes(frame, count_at + 1 + 2 * i) for i in range(m - 1)] + [L]
    if not all(here < there for here, there in zip(places, places[1:])):
        return 5
    return Hull(L, B, ds, dl, tuple(Span(here, there) for here, there in zip(places, places[1:])), persons, rule)


# Rows and end


def result_of(frame, at):
    """Openings: one draught's result, the opening after the heel."""
    lever, reach, heel = (two_bytes(frame, at + field) for field in (0, 2, 4))
    return Result(lever, reach, heel, two_bytes_signed(frame, at + 6))


def stage_of(frame, at):
    """Passenger ships: what a row has at one draught beside its result."""
    return Stage(four_bytes(frame, at), four_bytes(frame, at + 4), *(two_bytes(frame, at + field) for field in (8, 10, 12)), frame[at + 14])


def row_of(frame):
    """The case file: the fields of a row frame of any kind; Smaller damage, worse result: a second set of results after the first; Passenger ships: the
    stages after the results."""
    a, n, b, H = frame[1], frame[2], two_bytes(frame, 3), two_bytes(frame, 5)
    if frame[0] == GIVEN_ROW:
        return Row(a, n, b, H, None, tuple(two_bytes(frame, 7 + 2 * j) for j in range(3)))
    first = tuple(result_of(frame, 7 + 8 * j) for j in range(3))
    if frame[0] == LEVER_ROW:
        return Row(a, n, b, H, first, None)
    if frame[0] == PASSENGER_ROW:
        return Row(a, n, b, H, first, None, stages=tuple(stage_of(frame, 31 + 15 * j) for j in range(3)))
    return Row(a, n, b, H, first, None, second=tuple(result_of(frame, 31 + 8 * j) for j in range(3)))


def result_is_within(result):
    """Refusal 7: the limits of a result's numbers."""
    return result.lever <= 5_000 and result.reach <= 9_000 and result.heel <= 9_000 and -30_000 <= result.opening <= 30_000


def stage_is_within(stage):
    """Refusal 7: the limits of a stage's numbers."""
    return (
        1 <= stage.displacement <= 300_000
        and 1 <= stage.moment <= 2_000_000
        and stage.lever <= 5_000 and stage.reach <= 9_000 and stage.heel <= 9_000
        and stage.roro <= 1
    )


def row_is_within(row, hull):
    """Refusal 7: the limits of a row's numbers."""
    return (
        row.a >= 1
        and row.n >= 1
        and row.a + row.n - 1 <= len(hull.zones)
        and 1 <= row.b <= hull.B // 2
        and 1 <= row.H <= 60_000
        and all(result_is_within(result) for results in row.sets for result in results)
        and all(survival <= 10_000 for survival in row.given or ())
        and all(stage_is_within(stage) for stage in row.stages or ())
    )


def is_out_of_order(row, before, hull):
    """Refusal 8: an earlier group; same group and smaller b; same layer and H not higher, or the row before at the top."""
    if row.group != before.group:
        return row.group < before.group
    if row.b != before.b:
        return row.b < before.b
    return row.H <= before.H or layer_is_closed(before, hull)


def layer_is_closed(row, hull):
    """Order: a layer ends with the first row at or above the top."""
    return row.H >= hull.top


def group_is_closed(row, hull):
    """Order: a group's last layer is at B/2, and closed."""
    return row.b == hull.B // 2 and layer_is_closed(row, hull)


def leaves_open(row, before, hull):
    """Refusal 9: a new group with the last not closed, or a new layer with the last not closed."""
    if row.group != before.group:
        return not group_is_closed(before, hull)
    return row.b != before.b and not layer_is_closed(before, hull)


def row_refusal(row, hull, rows):
    """Refusals 6 to 9 for a row after the rows read so far, by the table's order; 0 where none holds."""
    if len(rows) == MOST_ROWS:
        return 6
    if not row_is_within(row, hull):
        return 7
    if rows and is_out_of_order(row, rows[-1], hull):
        return 8
    if rows and leaves_open(row, rows[-1], hull):
        return 9
    return 0


def end_refusal(frame, hull, rows):
    """Refusals 6 and 9 for the end frame; 0 where none holds."""
    if two_bytes(frame, 1) != len(rows):
        return 6
    if rows and not group_is_closed(rows[-1], hull):
        return 9
    return 0


def placed(row, rows):
    """A row with the b of the layer before it in its group and the H of the row below it in its layer."""
    if not rows or rows[-1].group != row.group:
        return row
    before = rows[-1]
    if before.layer == row.layer:
        return row._replace(b_before=before.b_before, H_below=before.H)
    return row._replace(b_before=before.b)


# The whole file


def reading(data):
    """The case file: a case, or the refusal that comes first; lines are judged in turn, each by the table's order."""
    if len(data) > LONGEST_INPUT:
        return Refusal(1, 0)
    lines = lines_of(data)
    hull, rows, ended = None, [], False
    for number, (text, closed) in enumerate(lines, 1):
        if ended:
            return Refusal(10, number)
        if not is_written_well(text, closed):
            return Refusal(2, number)
        frame = bytes.fromhex(text.decode("ascii"))
        if number == 1:
            hull = hull_of(frame)
            if not isinstance(hull, Hull):
                return Refusal(hull, 1)
            continue
        kind = frame[0]
        lengths = LENGTHS if hull.persons is None else PASSENGER_LENGTHS
        if kind not in lengths or len(frame) != lengths[kind]:
            return Refusal(3, number)
        if kind == END:
            refused = end_refusal(frame, hull, rows)
        else:
            row = row_of(frame)
            refused = row_refusal(row, hull, rows)
        if refused:
            return Refusal(refused, number)
        if kind == END:
            ended = True
        else:
            rows.append(placed(row, rows))
    if not ended:
        return Refusal(10, len(lines) + 1)
    return Case(hull, tuple(rows))
