"""The second set with one rule broken at a time: kind 05, its lengths and places, its limits and order, which of two results counts, and whose marks."""

from ..figures import Figures
from ..judging import Judging, Line
from .slip import Slips

read = Slips()
slip = Slips()


def constant(words, **values):
    read(words)(type("Broken", (Judging,), values))


# kinds and lengths

constant("kind 05 is refused", lengths={kind: length for kind, length in Judging.lengths.items() if kind != 5})
constant("kind 04 in 55 bytes", lengths={**Judging.lengths, 4: 55})
constant("kind 06 in 55 bytes", lengths={**Judging.lengths, 6: 55})


class Filled(Line):
    """A row of kind 05 with too few numbers has its first set for the second, openings of 0 where it has none, and zeros for what is missing."""

    def figures(self):
        right = super().figures()
        if self.frame[:1] != b"\x05" or len(right) == 24:
            return right
        if len(right) == 18:
            return sum((right[at:at + 3] + (0,) for at in range(0, 18, 3)), ())
        return 2 * right if len(right) == 12 else (right + (0,) * 24)[:24]


def also(kind, length):
    """A length more for a kind."""
    def rule(self, line):
        return Judging.rule_3(self, line) and not (line.frame[0] == kind and len(line.frame) == length)
    constant("kind %02x in %d bytes too" % (kind, length), reads=Filled, rule_3=rule)


for kind, length in ((2, 55), (3, 55), (5, 13), (5, 31), (5, 43), (5, 54), (5, 56)):
    also(kind, length)
constant("kind 05 in 43 bytes", reads=Filled, lengths={**Judging.lengths, 5: 43})

# places


def changed_figures(words, figures):
    """Other numbers for a row of two sets, from the right ones."""
    class Broken(Line):
        def figures(self):
            right = super().figures()
            return figures(right) if len(right) == 24 else right
    constant(words, reads=Broken)


def results_of(figures):
    """The six results of a row."""
    return [figures[at:at + 4] for at in range(0, 24, 4)]


def in_order(order):
    """The six results in another order."""
    return lambda right: sum((results_of(right)[at] for at in order), ())


changed_figures("the second set stands before the first", in_order((3, 4, 5, 0, 1, 2)))
changed_figures("the two sets stand draught by draught", in_order((0, 2, 4, 1, 3, 5)))
changed_figures("the second set comes light first", in_order((0, 1, 2, 5, 4, 3)))
changed_figures("the second set is the first again", in_order((0, 1, 2, 0, 1, 2)))
changed_figures("the first set is the second", in_order((3, 4, 5, 3, 4, 5)))
changed_figures("the second set's deepest result stands for all", in_order((0, 1, 2, 3, 3, 3)))
changed_figures("the second set has the first one's openings",
                lambda right: right[:12] + sum((right[at:at + 3] + (right[at - 9],) for at in (12, 16, 20)), ()))
changed_figures("the second set's openings have no sign",
                lambda right: right[:12] + sum((right[at:at + 3] + (right[at + 3] % 65536,) for at in (12, 16, 20)), ()))
changed_figures("the second set's openings lose their sign",
                lambda right: right[:12] + sum((right[at:at + 3] + (abs(right[at + 3]),) for at in (12, 16, 20)), ()))

# limits and order


def let_through(number, words, where):
    """Rows of two sets that the rule should have refused."""
    def rule(self, line):
        return getattr(Judging, "rule_%d" % number)(self, line) and not (line.is_row and len(line.row().figures) == 24 and where(self, line))
    constant(words, **{"rule_%d" % number: rule})


def without_faults(self, line, places):
    """Whether the row keeps rule 7 but for the figures at these places."""
    class Kept(Line):
        def figures(self):
            return tuple(0 if at in places else figure for at, figure in enumerate(super().figures()))
    return not Judging.rule_7(self, Kept(line.number, line.text, line.closed, line.hull, line.rows, line.ended))


for at in range(24):
    let_through(7, "figure %d of kind 05 is not judged" % (at + 1), lambda self, line, at=at: without_faults(self, line, (at,)))
let_through(7, "the second set is not judged", lambda self, line: without_faults(self, line, range(12, 24)))
let_through(7, "the first of two sets is not judged", lambda self, line: without_faults(self, line, range(12)))
let_through(6, "row 501 of kind 05 is let through", lambda self, line: len(line.rows) == 500)
let_through(8, "a row of two sets is held to no order", lambda self, line: True)
let_through(9, "a row of two sets may leave the last one open", lambda self, line: True)


@read("a row of two sets counts twice")
class CountsTwice(Judging):
    def rule_6(self, line):
        return line.field(1) != sum(1 + (len(row.figures) == 24) for row in line.rows) if line.is_end else super().rule_6(line)


# which of two counts

BOTH = 24


def changed_counting(words, counting):
    """Another result that counts at a draught, from the two and the row."""
    class Broken(Figures):
        def counting(self, row, draught):
            if len(row.figures) != BOTH:
                return super().counting(row, draught)
            return counting(self, self.result(row, draught), self.result(row, draught, 1), row)
    slip(words)(Broken)


def of_set(figures, row, key):
    """The set of a row that is the least by a key of its three survivals' fourth powers, the first when equal."""
    sets = [[figures.result(row, draught, of) for draught in range(3)] for of in (0, 1)]
    return min(sets, key=lambda three: key([figures.fourth(*result) for result in three]))


changed_counting("the higher of two counts", lambda self, first, second, row: max(first, second, key=lambda one: self.fourth(*one)))
changed_counting("the first of two sets alone counts", lambda self, first, second, row: first)
changed_counting("the second of two sets alone counts", lambda self, first, second, row: second)
changed_counting("the second one's when equal", lambda self, first, second, row: first if self.fourth(*first) < self.fourth(*second) else second)
changed_counting("the lower bottom decides", lambda self, first, second, row: min(first, second, key=lambda one: self.rounded(one)[0]))
changed_counting("the lower top decides", lambda self, first, second, row: min(first, second, key=lambda one: self.rounded(one)[1]))
changed_counting("the lower bottom and top decide", lambda self, first, second, row: min(first, second, key=self.rounded))
changed_counting("billionths of s to the fourth decide", lambda self, first, second, row: min(first, second, key=lambda one: self.fourth(*one) // 48))
changed_counting("the lever decides", lambda self, first, second, row: min(first, second, key=lambda one: one[0]))
changed_counting("the number of marks decides", lambda self, first, second, row: max(first, second, key=lambda one: sum(self.marked(*one))))
changed_counting("an uncapped lever decides", lambda self, first, second, row: min(first, second, key=lambda one: one[0] * self.fourth(120, *one[1:])))
changed_counting("an uncapped range decides",
                 lambda self, first, second, row: min(first, second, key=lambda one: one[1] * self.fourth(one[0], 1600, *one[2:])))
changed_counting("the heel does not decide", lambda self, first, second, row: min(first, second, key=lambda one: self.fourth(*one[:2], 0, one[3])))
changed_counting("the opening does not decide", lambda self, first, second, row: min(first, second, key=lambda one: self.fourth(*one[:3], 0)))
changed_counting("the worse of each number counts",
                 lambda self, first, second, row: (min(first[0], second[0]), min(first[1], second[1]), max(first[2], second[2]), min(first[3], second[3])))
changed_counting("an opening immersed in one set is so in both",
                 lambda self, first, second, row: min(first, second, key=lambda one: self.fourth(*one))[:3] + (min(first[3], second[3]),))
changed_counting("an immersed opening of the second set does not count",
                 lambda self, first, second, row: min(first, second[:3] + (max(second[3], 0),), key=lambda one: self.fourth(*one)))


def changed_set(words, key):
    """The set that counts is chosen once for the row."""
    class Broken(Figures):
        def counting(self, row, draught):
            return of_set(self, row, key)[draught] if len(row.figures) == BOTH else super().counting(row, draught)
    slip(words)(Broken)


changed_set("the set that is lower at the deepest draught counts at all", lambda three: three[0])
changed_set("the set that is lower at the partial draught counts at all", lambda three: three[1])
changed_set("the set that is lower at the light draught counts at all", lambda three: three[2])
changed_set("the set that is lower by the sum counts at all", sum)
changed_set("the set that has the lowest counts at all", min)

# bottom and top of one, marks of another


def changed_ends(words, ends):
    """Another bottom and top from those of the two, with the right marks."""
    class Broken(Figures):
        def survival(self, row, draught):
            if len(row.figures) != BOTH:
                return super().survival(row, draught)
            return ends(*(self.rounded(self.result(row, draught, of)) for of in (0, 1)))
    slip(words)(Broken)


changed_ends("the first one's bottom and the second one's top", lambda first, second: (first[0], second[1]))
changed_ends("the second one's bottom and the first one's top", lambda first, second: (second[0], first[1]))
changed_ends("the lower bottom and the higher top", lambda first, second: (min(first[0], second[0]), max(first[1], second[1])))
changed_ends("the higher bottom and the lower top", lambda first, second: (max(first[0], second[0]), min(first[1], second[1])))
changed_ends("the higher of two, with the lower one's marks", max)
changed_ends("the mean of the two", lambda first, second: ((first[0] + second[0]) // 2, (first[1] + second[1] + 1) // 2))


def changed_marks(words, marks):
    """Another byte of marks from those of the two and from the right one, with the right bottom and top."""
    class Broken(Figures):
        def marks_at(self, row, draught):
            right = super().marks_at(row, draught)
            if len(row.figures) != BOTH:
                return right
            return marks(*(self.added_up(*self.marked(*self.result(row, draught, of))) for of in (0, 1)), right)
    slip(words)(Broken)


changed_marks("the first one's marks are told", lambda first, second, right: first)
changed_marks("the second one's marks are told", lambda first, second, right: second)
changed_marks("the marks of both are told", lambda first, second, right: first | second)
changed_marks("the marks that both have are told", lambda first, second, right: first & second)
changed_marks("the other one's marks are told", lambda first, second, right: first + second - right)
changed_marks("two sets have no mark", lambda first, second, right: 0)


@slip("the marks of both when equal")
class BothWhenEqual(Figures):
    def marks_at(self, row, draught):
        right = super().marks_at(row, draught)
        if len(row.figures) != BOTH:
            return right
        first, second = (self.result(row, draught, of) for of in (0, 1))
        return right | self.added_up(*self.marked(*second)) if self.fourth(*first) == self.fourth(*second) else right


@slip("the second set goes on into the next row of results")
class GoesOn(Figures):
    def __init__(self, hull, rows):
        rows, second = list(rows), ()
        for at, row in enumerate(rows):
            rows[at] = row._replace(figures=row.figures + second) if len(row.figures) == 12 else row
            second = rows[at].figures[12:] or second
        super().__init__(hull, rows)
