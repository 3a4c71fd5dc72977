"""The refusals with one rule broken at a time: clauses left out, limits moved by one, the order turned."""

from ..judging import DIGITS, Judging, Refused
from .slip import Slips

slip = Slips()


def constant(words, **values):
    slip(words)(type("Broken", (Judging,), values))


constant("65,537 bytes are let through", longest=65537)
constant("65,535 bytes are the most", longest=65535)
constant("32,768 bytes are the most, as before there were second sets", longest=32768)
constant("501 rows are let through", most_rows=501)
constant("499 rows are the most", most_rows=499)
constant("the top is ds + 12,499", rise=12499)
constant("the top is ds + 12,501", rise=12501)
constant("lever to 5,001", row_limits=((5001, 9000, 9000, 30000), (10000,)))
constant("range to 9,001", row_limits=((5000, 9001, 9000, 30000), (10000,)))
constant("heel to 9,001", row_limits=((5000, 9000, 9001, 30000), (10000,)))
constant("survival to 10,001", row_limits=((5000, 9000, 9000, 30000), (10001,)))
constant("lever to 4,999", row_limits=((4999, 9000, 9000, 30000), (10000,)))
constant("range to 8,999", row_limits=((5000, 8999, 9000, 30000), (10000,)))
constant("heel to 8,999", row_limits=((5000, 9000, 8999, 30000), (10000,)))
constant("survival to 9,999", row_limits=((5000, 9000, 9000, 30000), (9999,)))
constant("kind 02 in 32 bytes", lengths={**Judging.lengths, 2: 32})
constant("kind 03 in 12 bytes", lengths={**Judging.lengths, 3: 12})
constant("the end frame in two bytes", lengths={**Judging.lengths, 15: 2})
constant("kind 04 is let through", lengths={**Judging.lengths, 4: 13})


def turned(first, second):
    """The order of two refusals turned round."""
    at = {first: second, second: first}
    constant("%d is judged before %d" % (second, first), order=tuple(at.get(number, number) for number in Judging.order))


for pair in ((10, 2), (10, 3), (10, 6), (10, 7), (10, 8), (2, 3), (2, 4), (2, 5), (2, 6), (2, 7), (2, 8), (2, 9), (3, 4), (3, 5), (3, 6), (3, 7),
             (3, 8), (3, 9), (4, 5), (6, 7), (6, 8), (6, 9), (7, 8), (7, 9), (8, 9)):
    turned(*pair)


def broken_rule(number, words, holds):
    """A rule that holds where this says so, given what the right one says."""
    def rule(self, line):
        return holds(line, getattr(Judging, "rule_%d" % number)(self, line))
    slip(words)(type("Broken", (Judging,), {"rule_%d" % number: rule}))


def let_through(number, words, where):
    """Lines that the rule should have refused."""
    broken_rule(number, words, lambda line, right: right and not where(line))


def turned_away(number, words, where):
    """Lines that the rule should have passed."""
    broken_rule(number, words, lambda line, right: right or where(line))


def unclean(line, digits=DIGITS):
    return any(byte not in digits for byte in line.text)


def same_group(line):
    return line.is_row and line.row()[:2] == line.before[:2]


def same_layer(line):
    return line.is_row and line.row()[:3] == line.before[:3]


def new_layer(line):
    return same_group(line) and not same_layer(line)


def at_top(line):
    return line.before.h >= line.hull.top


def by_zones_first(line):
    return line.row()[1::-1] < line.before[1::-1]


let_through(10, "lines after the end frame are passed over", lambda line: True)

let_through(2, "an empty line is passed over", lambda line: line.text == b"")
let_through(2, "an odd digit is passed over", lambda line: len(line.text) % 2 and line.closed and not unclean(line))
let_through(2, "an unclosed line is passed over", lambda line: line.text and len(line.text) % 2 == 0 and not unclean(line))
let_through(2, "capital digits are let through", lambda line: line.text and len(line.text) % 2 == 0 and line.closed and not unclean(line, DIGITS + b"ABCDEF"))
let_through(2, "g counts as a digit", lambda line: line.text and len(line.text) % 2 == 0 and line.closed and not unclean(line, DIGITS + b"g"))

let_through(3, "a hull of nine bytes is not 3", lambda line: line.number == 1 and line.frame[0] == 1)
let_through(3, "a second hull is let through", lambda line: line.frame[0] == 1)

LS, BREADTH, DS, DL = 1, 3, 5, 7
for field, name, low, high, step in ((LS, "Ls", 8000, 19800, 1), (BREADTH, "B", 1000, 6000, 2), (DS, "ds", 1000, 30000, 1), (DL, "dl", 500, None, 1)):
    for value, words in ((low, "from"), (high, "to")):
        if value is not None:
            beyond = value + (step if words == "to" else -step)
            let_through(4, "%s %s %d" % (name, words, beyond), lambda line, field=field, beyond=beyond: line.field(field) == beyond)
            turned_away(4, "%s = %d is refused" % (name, value),
                        lambda line, field=field, value=value: line.number == 1 and line.field(field) == value)
let_through(4, "odd B is let through", lambda line: line.field(BREADTH) % 2 == 1)
turned_away(4, "dl must be below ds", lambda line: line.number == 1 and line.field(DS) == line.field(DL))
let_through(4, "dl may be above ds", lambda line: line.field(DS) < line.field(DL) <= 30005)
let_through(4, "ds - dl need not be a multiple of five", lambda line: (line.field(DS) - line.field(DL)) % 5 != 0)

let_through(5, "21 zones are let through", lambda line: line.frame[9] == 21)
turned_away(5, "20 zones are refused", lambda line: line.number == 1 and line.frame[9] == 20)
let_through(5, "no zones are let through", lambda line: line.frame[9] == 0)
let_through(5, "the hull's length is not judged", lambda line: len(line.frame) != 8 + 2 * line.frame[9])
let_through(5, "equal bulkheads are let through", lambda line: len(set(line.bulkheads())) < len(line.bulkheads()))
let_through(5, "a bulkhead at 0 is let through", lambda line: line.bulkheads()[:1] == (0,))
let_through(5, "a bulkhead at Ls is let through", lambda line: line.bulkheads()[-1:] == (line.field(LS),))
let_through(5, "falling bulkheads are let through", lambda line: sorted(line.bulkheads()) != list(line.bulkheads()))

let_through(6, "the end count is not judged", lambda line: line.is_end)
let_through(6, "the end count's high byte is not read", lambda line: line.is_end and line.frame[2] == len(line.rows) % 256)

let_through(7, "a + n - 1 wraps round in a byte", lambda line: line.row().n > 200 and 0 < (line.row().a + line.row().n - 1) % 256 <= line.hull.zones)
let_through(7, "a + n - 1 may be one past the zones", lambda line: line.row().a + line.row().n - 1 == line.hull.zones + 1)
let_through(7, "a = 0 is let through", lambda line: line.row().a == 0)
let_through(7, "n = 0 is let through", lambda line: line.row().n == 0)
let_through(7, "b from 0", lambda line: line.row().b == 0)
turned_away(7, "b = 1 is refused", lambda line: line.is_row and line.row().b == 1)
let_through(7, "b to B/2 + 1", lambda line: line.row().b == line.hull.half + 1)
let_through(7, "H from 0", lambda line: line.row().h == 0)
turned_away(7, "H = 1 is refused", lambda line: line.is_row and line.row().h == 1)
let_through(7, "H to 60,001", lambda line: line.row().h == 60001)
turned_away(7, "H = 60,000 is refused", lambda line: line.is_row and line.row().h == 60000)
for at in range(12):
    let_through(7, "figure %d of kind 02 is not judged" % (at + 1),
                lambda line, at=at: len(line.row().figures) == 12 and not -30000 <= line.row().figures[at] <= (30000 if at % 4 == 3 else 5000))
for at in range(3):
    let_through(7, "survival %d of kind 03 is not judged" % (at + 1), lambda line, at=at: len(line.row().figures) == 3 and line.row().figures[at] > 10000)

let_through(8, "the order of groups is not judged", lambda line: not same_group(line))
let_through(8, "groups are ordered by a alone", lambda line: line.row().a == line.before.a and not same_group(line))
broken_rule(8, "groups are ordered by n first", lambda line, right: right if not line.is_row or not line.before or same_group(line) else by_zones_first(line))
let_through(8, "a smaller b is let through", new_layer)
let_through(8, "the same H is let through", lambda line: line.row()[:4] == line.before[:4] and not at_top(line))
let_through(8, "a lower H is let through", lambda line: same_layer(line) and line.row().h < line.before.h and not at_top(line))
let_through(8, "rows go on after the top", lambda line: same_layer(line) and line.row().h > line.before.h)
turned_away(8, "H must rise from layer to layer too", lambda line: line.before is not None and new_layer(line) and line.row().h <= line.before.h)

let_through(9, "a new layer may leave the last one open", new_layer)
let_through(9, "a new group may leave the last one open", lambda line: line.is_row and not same_group(line))
let_through(9, "the end may leave a group open", lambda line: line.is_end)
let_through(9, "a group is closed without B/2", lambda line: not same_group(line) and at_top(line))
let_through(9, "a group is closed without its top", lambda line: not same_group(line) and line.before.b == line.hull.half)


@slip("no end frame is given for the last line")
class LastLine(Judging):
    def without_end(self, hull, rows, count):
        return 10, max(count, 1)


@slip("no end frame comes before the lines' own faults")
class EndFirst(Judging):
    def read(self, data):
        lines = self.lines(data)
        if len(data) <= self.longest and not any(text[:2] == b"0f" for text, _ in lines):
            raise Refused(10, len(lines) + 1)
        return super().read(data)


@slip("an open group with no end frame is 9")
class OpenWithoutEnd(Judging):
    def without_end(self, hull, rows, count):
        return (9 if rows and self.group_open(hull, rows[-1]) else 10), count + 1


@slip("an unclosed last line is dropped")
class TailDropped(Judging):
    def lines(self, data):
        return [line for line in super().lines(data) if line[1]]


@slip("one line feed more at the end is passed over")
class FeedPassed(Judging):
    def lines(self, data):
        lines = super().lines(data)
        return lines[:-1] if lines[1:] and lines[-1] == (b"", True) else lines


@slip("lines are counted from 0")
class FromZero(Judging):
    def line_of(self, refusal, number):
        return number - 1


@slip("the line goes into one byte")
class OneByte(Judging):
    def line_of(self, refusal, number):
        return number % 256


@slip("carriage returns are passed over")
class ReturnsPassed(Judging):
    def lines(self, data):
        return super().lines(data.replace(b"\r", b""))


@slip("a sheet of one number a row is enough")
class HalfSheet(Judging):
    def short_sheet(self, sheet, rows):
        return sheet < rows


@slip("a sheet must have one number to spare")
class SpareSheet(Judging):
    def short_sheet(self, sheet, rows):
        return sheet <= 2 * rows


@slip("a sheet one number short is enough")
class ShortByOne(Judging):
    def short_sheet(self, sheet, rows):
        return sheet < 2 * rows - 1


@slip("the sheet is never judged")
class AnySheet(Judging):
    def short_sheet(self, sheet, rows):
        return False
