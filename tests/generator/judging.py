"""The generator's own reading of the refusals: which line, which number, each rule a method that can be broken."""

from .frames import SIZES, Hull, Row

DIGITS = b"0123456789abcdef"


class Refused(Exception):
    def __init__(self, number, line):
        super().__init__(number, line)
        self.number, self.line = number, line


class Line:
    """A line with all that was read before it; an alien byte counts as a zero here, as rule 2 comes first."""

    def __init__(self, number, text, closed, hull, rows, ended):
        self.number, self.text, self.closed = number, text, closed
        self.hull, self.rows, self.ended = hull, rows, ended
        self.before = rows[-1] if rows else None
        digits = [max(DIGITS.find(byte), 0) for byte in text.lower()]
        self.frame = bytes(16 * high + low for high, low in zip(digits[::2], digits[1::2]))
        self.is_row = number > 1 and self.frame[:1] in (b"\x02", b"\x03", b"\x05", b"\x07")
        self.is_end = number > 1 and self.frame[:1] == b"\x0f"

    def field(self, at):
        return int.from_bytes(self.frame[at:at + 2], "big")

    def opening(self, at):
        """A field in two's complement."""
        return int.from_bytes(self.frame[at:at + 2], "big", signed=True)

    def persons(self):
        """The persons of a passenger hull, in lifeboats and in excess; a cargo hull has none."""
        return (self.field(9), self.field(11)) if self.frame[0] == 6 else None

    def rule(self):
        """The rule that a passenger hull says it is under: the byte after the persons."""
        return self.frame[13] if self.frame[0] == 6 else 0

    def zones_at(self):
        """Where a hull has its zone count: after dl, or after the persons and the rule."""
        return 14 if self.frame[0] == 6 else 9

    def bulkheads(self):
        return tuple(self.field(at) for at in range(self.zones_at() + 1, len(self.frame), 2))

    def stages(self):
        """What a passenger row has at each draught after its results, in turn."""
        found, at = [], 31
        for size in 3 * SIZES:
            found.append(int.from_bytes(self.frame[at:at + size], "big"))
            at += size
        return tuple(found)

    def figures(self):
        """The numbers after H; each result, of one set of three or of two, has an opening as its fourth."""
        if self.frame[0] == 7:
            return tuple(self.opening(at) if at % 8 == 5 else self.field(at) for at in range(7, 31, 2)) + self.stages()
        places = range(7, len(self.frame), 2)
        if len(places) not in (12, 24):
            return tuple(self.field(at) for at in places)
        return tuple(self.opening(at) if at % 8 == 5 else self.field(at) for at in places)

    def row(self):
        """The row that the line holds."""
        return Row(self.frame[1], self.frame[2], self.field(3), self.field(5), self.figures())


class Judging:
    """The refusals of documents 01 and 02; a slip is a subclass that breaks one method, the order or the reading of a line."""

    reads = Line
    longest = 65536
    most_rows = 500
    order = (10, 2, 3, 4, 13, 5, 6, 7, 8, 9)
    lengths = {2: 31, 3: 13, 5: 55, 15: 3}
    passenger_lengths = {7: 76, 15: 3}
    shortest_hulls = {1: 10, 6: 15}
    least = {False: (8000, 1000), True: (2000, 400)}  # length and breadth, of a cargo ship and of a passenger ship
    most_persons = (10000, 10000)
    rules = (0, 1)
    not_taken = (1351, 6000)  # from so many persons to so many under the rule of 2020
    rise = 12500
    row_limits = ((5000, 9000, 9000, 30000), (10000,))
    lowest = -30000  # of an opening, the one figure that can be below zero
    stage_limits = ((1, 300000), (1, 2000000), (0, 5000), (0, 9000), (0, 9000), (0, 1))

    def refusal(self, data):
        """The number and line of a refused file, nothing for an accepted one."""
        try:
            self.read(data)
        except Refused as refused:
            return refused.number, refused.line
        return None

    def read(self, data):
        """The hull and the rows of an accepted file; raises Refused otherwise."""
        if len(data) > self.longest:
            raise Refused(1, 0)
        lines = self.lines(data)
        hull, rows, ended = None, [], False
        for number, (text, closed) in enumerate(lines, 1):
            line = self.reads(number, text, closed, hull, rows, ended)
            for refusal in self.order:
                if self.holds(refusal, line):
                    raise Refused(refusal, self.line_of(refusal, number))
            if number == 1:
                hull = self.hull(line)
            elif line.is_row:
                rows.append(line.row())
            else:
                ended = True
        if not ended:
            raise Refused(*self.without_end(hull, rows, len(lines)))
        return hull, rows

    def short_sheet(self, sheet, rows):
        """Refusal 11, which is judged after every line."""
        return sheet < 2 * rows

    def lines(self, data):
        parts = data.split(b"\n")
        tail = [(parts[-1], False)] if parts[-1] else []
        return [(part, True) for part in parts[:-1]] + tail

    def line_of(self, refusal, number):
        return number

    def without_end(self, hull, rows, count):
        return 10, count + 1

    def holds(self, refusal, line):
        """Whether the rule holds at this line; a rule that cannot be asked of the line does not."""
        try:
            return bool(getattr(self, "rule_%d" % refusal)(line))
        except (AttributeError, IndexError, KeyError, TypeError):
            return False

    def hull(self, line):
        return Hull(line.field(1), line.field(3), line.field(5), line.field(7), line.bulkheads(), line.persons(), line.rule())

    def rule_10(self, line):
        return line.ended

    def rule_2(self, line):
        return (not line.text or len(line.text) % 2 == 1 or any(byte not in DIGITS for byte in line.text)
                or not line.closed)

    def rule_3(self, line):
        kind = line.frame[0]
        if line.number == 1:
            return kind not in self.shortest_hulls or len(line.frame) < self.shortest_hulls[kind]
        lengths = self.lengths_after(line.hull)
        return kind not in lengths or len(line.frame) != lengths[kind]

    def lengths_after(self, hull):
        """The length of each kind of line that may come after a hull: rows of its ship type, and the end."""
        return self.lengths if hull.persons is None else self.passenger_lengths

    def rule_4(self, line):
        if line.number > 1:
            return False
        ls, breadth, ds, dl = (line.field(at) for at in (1, 3, 5, 7))
        length, width = self.least[line.frame[0] == 6]
        return (not length <= ls <= 19800 or not width <= breadth <= 6000 or breadth % 2 == 1
                or not 1000 <= ds <= 30000 or not 500 <= dl <= ds or (ds - dl) % 5 != 0 or self.crowded(line) or line.rule() not in self.rules)

    def crowded(self, line):
        """Whether a passenger ship has too many persons of a sort."""
        return line.frame[0] == 6 and any(count > most for count, most in zip(line.persons(), self.most_persons))

    def rule_13(self, line):
        """A ship under the rule of 2020 whose persons, all counted once, are between the two forms of R that are taken."""
        if line.number > 1 or line.frame[0] != 6:
            return False
        low, high = self.not_taken
        return line.rule() == 1 and low <= self.on_board(line.persons()) <= high

    def on_board(self, persons):
        return sum(persons)

    def rule_5(self, line):
        if line.number > 1:
            return False
        at = line.zones_at()
        zones = line.frame[at] if len(line.frame) > at else 0
        if not 1 <= zones <= 20 or len(line.frame) != at - 1 + 2 * zones:
            return True
        hull = self.hull(line)
        places = (0,) + hull.bulkheads + (hull.ls,)
        return any(not aft < fore for aft, fore in zip(places, places[1:]))

    def rule_6(self, line):
        if line.is_end:
            return line.field(1) != len(line.rows)
        return line.is_row and len(line.rows) >= self.most_rows

    def rule_7(self, line):
        if not line.is_row:
            return False
        row, hull = line.row(), line.hull
        limits = self.row_limits[0 if len(row.figures) in (12, 24, 30) else 1]
        results, stages = (row.figures[:12], row.figures[12:]) if len(row.figures) == 30 else (row.figures, ())
        return (self.group_outside(row, hull) or not 1 <= row.b <= hull.half or not 1 <= row.h <= 60000
                or any(not self.lowest <= figure <= limits[at % len(limits)] for at, figure in enumerate(results))
                or any(not low <= figure <= high for figure, (low, high) in zip(stages, 3 * self.stage_limits)))

    def group_outside(self, row, hull):
        return row.a < 1 or row.n < 1 or row.a + row.n - 1 > hull.zones

    def at_top(self, hull, row):
        return row.h >= hull.ds + self.rise

    def layer_open(self, hull, row):
        return not self.at_top(hull, row)

    def group_open(self, hull, row):
        return row.b != hull.half or self.layer_open(hull, row)

    def rule_8(self, line):
        if not line.is_row or line.before is None:
            return False
        row, before = line.row(), line.before
        if (row.a, row.n) != (before.a, before.n):
            return (row.a, row.n) < (before.a, before.n)
        if row.b != before.b:
            return row.b < before.b
        return row.h <= before.h or self.at_top(line.hull, before)

    def rule_9(self, line):
        before = line.before
        if before is None or not (line.is_row or line.is_end):
            return False
        if line.is_end:
            return self.group_open(line.hull, before)
        row = line.row()
        if (row.a, row.n) != (before.a, before.n):
            return self.group_open(line.hull, before)
        return row.b != before.b and self.layer_open(line.hull, before)


def without(number, at=None):
    """The judging that never gives this refusal, or not at this line: it shows what else a file would be refused for."""
    def rule(self, line):
        return at is not None and line.number != at and getattr(Judging, "rule_%d" % number)(self, line)
    return type("Without", (Judging,), {"longest": 10 ** 9} if number == 1 else {"rule_%d" % number: rule})()
