"""The marks with one rule broken at a time: caps moved by one, what a given survival has, bytes, draughts and rows taken for each other."""

from typing import NamedTuple

from ..figures import Figures
from .slip import Slips

slip = Slips()


class Four(NamedTuple):
    """Lever, range, heel and opening: the numbers of a result, or its marks."""

    lever: int
    reach: int
    heel: int
    opening: int


def changed_marks(words, **rules):
    """Another yes or no for some of lever, range, heel and opening, from the numbers and from the right marks."""
    class Broken(Figures):
        def marked(self, *numbers):
            right = Four(*super().marked(*numbers))
            return right._replace(**{name: rule(Four(*numbers), right) for name, rule in rules.items()})
    slip(words)(Broken)


def lost(of):
    """Whether a result's survival is 0."""
    return of.lever == 0 or of.reach == 0 or of.heel >= 3000 or of.opening < 0


changed_marks("a lever at its cap is marked", lever=lambda of, right: of.lever <= 120)
changed_marks("a lever of 119 is not marked", lever=lambda of, right: of.lever < 119)
changed_marks("a lever of 0 is not marked", lever=lambda of, right: 0 < of.lever < 120)
changed_marks("a range at its cap is marked", reach=lambda of, right: of.reach <= 1600)
changed_marks("a range of 1,599 is not marked", reach=lambda of, right: of.reach < 1599)
changed_marks("a range of 0 is not marked", reach=lambda of, right: 0 < of.reach < 1600)
changed_marks("a heel of 2,500 is marked", heel=lambda of, right: of.heel >= 2500)
changed_marks("a heel of 2,501 is not marked", heel=lambda of, right: of.heel > 2501)
changed_marks("a heel is marked from 3,000 alone", heel=lambda of, right: of.heel >= 3000)
changed_marks("a heel of 3,000 is not marked", heel=lambda of, right: 2500 < of.heel < 3000)
changed_marks("a heel past 3,000 is not marked", heel=lambda of, right: 2500 < of.heel <= 3000)
changed_marks("lever and range have each other's cap", lever=lambda of, right: of.lever < 1600, reach=lambda of, right: of.reach < 120)
changed_marks("lever and range are told for each other", lever=lambda of, right: right.reach, reach=lambda of, right: right.lever)
changed_marks("range and heel are told for each other", reach=lambda of, right: right.heel, heel=lambda of, right: right.reach)
changed_marks("lever and heel are told for each other", lever=lambda of, right: right.heel, heel=lambda of, right: right.lever)
changed_marks("the lever's mark hides the range's", reach=lambda of, right: right.reach and not right.lever)
changed_marks("the lever's mark hides the heel's", heel=lambda of, right: right.heel and not right.lever)
changed_marks("the range's mark hides the heel's", heel=lambda of, right: right.heel and not right.reach)
changed_marks("the range's mark hides the lever's", lever=lambda of, right: right.lever and not right.reach)
changed_marks("the heel's mark hides the lever's", lever=lambda of, right: right.lever and not right.heel)
changed_marks("the heel's mark hides the range's", reach=lambda of, right: right.reach and not right.heel)
changed_marks("a heel of 3,000 hides the lever's mark", lever=lambda of, right: right.lever and of.heel < 3000)
changed_marks("a heel of 3,000 hides the range's mark", reach=lambda of, right: right.reach and of.heel < 3000)
changed_marks("a lever of 0 hides the range's mark", reach=lambda of, right: right.reach and of.lever > 0)
changed_marks("a lever of 0 hides the heel's mark", heel=lambda of, right: right.heel and of.lever > 0)
changed_marks("a range of 0 hides the lever's mark", lever=lambda of, right: right.lever and of.reach > 0)
changed_marks("a range of 0 hides the heel's mark", heel=lambda of, right: right.heel and of.reach > 0)
changed_marks("a survival of 0 has the lever's mark", lever=lambda of, right: right.lever or lost(of))
changed_marks("a survival of 0 has the range's mark", reach=lambda of, right: right.reach or lost(of))
changed_marks("a survival of 0 has the heel's mark", heel=lambda of, right: right.heel or lost(of))


changed_marks("an opening at 0 is marked", opening=lambda of, right: of.opening <= 0)
changed_marks("an opening of -1 is not marked", opening=lambda of, right: of.opening < -1)
changed_marks("an opening of -30,000 is not marked", opening=lambda of, right: -30000 < of.opening < 0)
changed_marks("a dry opening is marked", opening=lambda of, right: of.opening > 0)
changed_marks("an opening is never marked", opening=lambda of, right: False)
changed_marks("heel and opening are told for each other", heel=lambda of, right: right.opening, opening=lambda of, right: right.heel)
changed_marks("lever and opening are told for each other", lever=lambda of, right: right.opening, opening=lambda of, right: right.lever)
for name in ("lever", "reach", "heel"):
    changed_marks("the opening's mark hides the %s's" % name.replace("reach", "range"),
                  **{name: lambda of, right, name=name: getattr(right, name) and not right.opening})
    changed_marks("the %s's mark hides the opening's" % name.replace("reach", "range"),
                  opening=lambda of, right, name=name: right.opening and not getattr(right, name))
changed_marks("a survival of 0 has the opening's mark", opening=lambda of, right: right.opening or lost(of))
changed_marks("an opening is marked where survival is not 0 anyway", opening=lambda of, right: right.opening and not lost(of._replace(opening=0)))


def changed_byte(words, added_up):
    class Broken(Figures):
        def added_up(self, lever, reach, heel, opening):
            return added_up(lever, reach, heel, opening)
    slip(words)(Broken)


changed_byte("range is 4 and heel 2", lambda lever, reach, heel, opening: lever + 4 * reach + 2 * heel + 8 * opening)
changed_byte("lever is 2 and range 1", lambda lever, reach, heel, opening: 2 * lever + reach + 4 * heel + 8 * opening)
changed_byte("lever is 4 and heel 1", lambda lever, reach, heel, opening: 4 * lever + 2 * reach + heel + 8 * opening)
changed_byte("heel is 3", lambda lever, reach, heel, opening: lever + 2 * reach + 3 * heel + 8 * opening)
changed_byte("heel is 8 and the opening 4", lambda lever, reach, heel, opening: lever + 2 * reach + 8 * heel + 4 * opening)
changed_byte("the opening is 16", lambda lever, reach, heel, opening: lever + 2 * reach + 4 * heel + 16 * opening)
changed_byte("the opening is 7", lambda lever, reach, heel, opening: lever + 2 * reach + 4 * heel + 7 * opening)
changed_byte("the marks are counted", lambda lever, reach, heel, opening: lever + reach + heel + opening)
changed_byte("the greatest mark alone is told", lambda lever, reach, heel, opening: max(lever, 2 * reach, 4 * heel, 8 * opening))


def changed_given(words, byte):
    """Marks for given survivals."""
    class Broken(Figures):
        def marks_at(self, row, draught):
            return byte(self, row.figures, draught) if len(row.figures) == 3 else super().marks_at(row, draught)
    slip(words)(Broken)


changed_given("a given survival has every mark", lambda self, given, draught: 7)
changed_given("a given survival below one has every mark", lambda self, given, draught: 7 * (given[draught] < 10000))
changed_given("a given survival of 0 has every mark", lambda self, given, draught: 7 * (given[draught] == 0))
changed_given("a given survival is read as a lever", lambda self, given, draught: given[draught] < 120)
changed_given("given survivals are read as lever, range and heel", lambda self, given, draught: self.added_up(*self.marked(*given, 0)))
changed_given("a given survival of 0 has the opening's mark", lambda self, given, draught: 8 * (given[draught] == 0))


def changed_rows(words, marks):
    """Other marks for the rows, from the right ones and the rows themselves."""
    class Broken(Figures):
        def row_marks(self):
            right = super().row_marks()
            return [marks(right, self.rows, at) for at in range(len(right))]
    slip(words)(Broken)


def first_where(rows, at, key):
    """The place of the first row that is the same as this one by a key."""
    return next(place for place, row in enumerate(rows) if key(row) == key(rows[at]))


changed_rows("the marks come light, partial, deepest", lambda right, rows, at: right[at][::-1])
changed_rows("the marks of the deepest draught stand for all", lambda right, rows, at: right[at][:1] * 3)
changed_rows("the marks of the light draught stand for the partial", lambda right, rows, at: (right[at][0], right[at][2], right[at][2]))
changed_rows("partial and light are told for each other", lambda right, rows, at: (right[at][0], right[at][2], right[at][1]))
changed_rows("deepest and partial are told for each other", lambda right, rows, at: (right[at][1], right[at][0], right[at][2]))
changed_rows("the marks of the three draughts are put together",
             lambda right, rows, at: (right[at][0] | right[at][1] | right[at][2],) * 3)
changed_rows("the first row's marks are repeated", lambda right, rows, at: right[0])
changed_rows("the last row's marks stand for all", lambda right, rows, at: right[-1])
changed_rows("the marks are those of the row before", lambda right, rows, at: right[max(at - 1, 0)])
changed_rows("the rows' marks come the other way round", lambda right, rows, at: right[-1 - at])
changed_rows("the marks of a layer's first row stand for the layer", lambda right, rows, at: right[first_where(rows, at, lambda row: row[:3])])
changed_rows("the marks of a group's first row stand for the group", lambda right, rows, at: right[first_where(rows, at, lambda row: row[:2])])
changed_rows("a given survival has the marks of the row before",
             lambda right, rows, at: right[at - 1] if at and len(rows[at].figures) == 3 else right[at])
changed_rows("marks stay from row to row", lambda right, rows, at: tuple(max(right[place][k] | right[at][k] for place in range(at + 1)) for k in range(3)))
