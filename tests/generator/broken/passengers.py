"""A passenger ship's figures with one rule broken at a time: each factor of s, which of them counts, draughts and rows, the marks, R and its parts."""

from ..figures import Figures
from .slip import Slips

slip = Slips()

# the factors of s


def changed(words, **methods):
    slip(words)(type("Broken", (Figures,), methods))


def changed_intermediate(words, intermediate):
    changed(words, intermediate=lambda self, lever, reach, heel: intermediate(lever, reach, heel))


def early(lever, reach, heel):
    return Figures.intermediate(None, lever, reach, heel)


changed_intermediate("an intermediate heel of 1,500 loses the ship", lambda lever, reach, heel: early(lever, reach, heel if heel < 1500 else 9000))
changed_intermediate("an intermediate heel of 1,501 loses no ship", lambda lever, reach, heel: early(lever, reach, heel if heel > 1501 else 0))
changed_intermediate("an intermediate heel loses no ship", lambda lever, reach, heel: early(lever, reach, 0))
changed_intermediate("an intermediate heel of more than 700 loses the ship", lambda lever, reach, heel: early(lever, reach, heel if heel <= 700 else 9000))
changed_intermediate("an intermediate heel is held to 3,000", lambda lever, reach, heel: early(lever, reach, heel if heel > 3000 else 0))
changed_intermediate("an intermediate heel counts as a final one",
                     lambda lever, reach, heel: (early(lever, reach, 0)[0] * (800 if heel <= 700 else max(1500 - heel, 0)) ** 2, 35000 * 640000))
changed_intermediate("the intermediate lever is not capped", lambda lever, reach, heel: (early(50, reach, heel)[0] * lever, 35000 * 50))
changed_intermediate("the intermediate range is not capped", lambda lever, reach, heel: (early(lever, 700, heel)[0] * reach, 35000 * 700))
for lever_cap, range_cap in ((51, 700), (49, 700), (50, 701), (50, 699), (120, 700), (50, 1600), (120, 1600)):
    changed_intermediate("the intermediate caps are %d and %d" % (lever_cap, range_cap), lambda lever, reach, heel, caps=(lever_cap, range_cap): (
        0 if heel > 1500 else min(lever, caps[0]) * min(reach, caps[1]), caps[0] * caps[1]))

for words, caps in (("the ro-ro mark does not count", ((120, 1600), (120, 1600))), ("every final stage is of a ro-ro space", ((200, 2000), (200, 2000))),
                    ("the ro-ro mark is turned round", ((200, 2000), (120, 1600))), ("the ro-ro mark changes the lever's cap alone", ((120, 1600), (200, 1600))),
                    ("the ro-ro mark changes the range's cap alone", ((120, 1600), (120, 2000))), ("the final lever's cap is 121", ((121, 1600), (200, 2000))),
                    ("the final lever's cap is 119", ((119, 1600), (200, 2000))), ("the final range's cap is 1,601", ((120, 1601), (200, 2000))),
                    ("the final range's cap is 1,599", ((120, 1599), (200, 2000))), ("the ro-ro lever's cap is 201", ((120, 1600), (201, 2000))),
                    ("the ro-ro lever's cap is 199", ((120, 1600), (199, 2000))), ("the ro-ro range's cap is 2,001", ((120, 1600), (200, 2001))),
                    ("the ro-ro range's cap is 1,999", ((120, 1600), (200, 1999)))):
    changed(words, caps=lambda self, roro, caps=caps: caps[roro])
    changed(words + ", in survival alone", caps=lambda self, roro, caps=caps: caps[roro],
            passenger_marked=lambda self, *numbers: Figures.passenger_marked(Figures(self.hull, []), *numbers))
    changed(words + ", in the marks alone", passenger_marked=lambda self, lever, reach, heel, opening, roro, caps=caps: (
        lever < caps[roro][0], reach < caps[roro][1], heel > 700, opening < 0))

for words, heeled in (("k is 1 to 701", lambda heel: 640000 if heel <= 701 else 0 if heel >= 1500 else (1500 - heel) ** 2),
                      ("k is 1 to 699", lambda heel: 640000 if heel <= 699 else 0 if heel >= 1500 else (1499 - heel) ** 2),
                      ("k is 0 from 1,499", lambda heel: 640000 if heel <= 700 else 0 if heel >= 1499 else (1500 - heel) ** 2),
                      ("k goes on past 1,500", lambda heel: 640000 if heel <= 700 else min((1500 - heel) ** 2, 640000)),
                      ("k is not squared", lambda heel: 640000 if heel <= 700 else 800 * max(1500 - heel, 0)),
                      ("k is a cargo ship's", lambda heel: 640000 if heel <= 2500 else 0 if heel >= 3000 else (3000 - heel) ** 2 * 64 // 25),
                      ("k is always 1", lambda heel: 640000)):
    changed("a passenger ship's " + words, passenger_heeled=lambda self, heel, heeled=heeled: heeled(heel))


def changed_moved(words, moved):
    changed(words, moved=lambda self, lever, displacement, moment: moved(lever, displacement, moment))


def borne(lever, displacement, moment):
    return Figures.moved(None, lever, displacement, moment)


changed_moved("0.04 m are not taken off", lambda lever, displacement, moment: borne(lever + 40, displacement, moment))
changed_moved("41 mm are taken off", lambda lever, displacement, moment: borne(lever - 1, displacement, moment))
changed_moved("39 mm are taken off", lambda lever, displacement, moment: borne(lever + 1, displacement, moment))
changed_moved("s-mom has a lever capped at 120", lambda lever, displacement, moment: borne(min(lever, 120), displacement, moment))
changed_moved("s-mom has a lever capped at 200", lambda lever, displacement, moment: borne(min(lever, 200), displacement, moment))
changed_moved("s-mom is not held at 0", lambda lever, displacement, moment: borne(abs(lever - 40) + 40, displacement, moment))
changed_moved("s-mom is not held at 1", lambda lever, displacement, moment: (max(lever - 40, 0) * displacement, 1000 * moment))
changed_moved("s-mom has its lever in centimetres", lambda lever, displacement, moment: borne(lever, 10 * displacement, moment))
changed_moved("s-mom has displacement and moment changed", lambda lever, displacement, moment: borne(lever, moment, displacement))
changed_moved("s-mom is always 1", lambda lever, displacement, moment: (1, 1))
changed_moved("s-mom is 1 where the lever is below 0.04 m", lambda lever, displacement, moment: (1, 1) if lever < 40 else borne(lever, displacement, moment))
changed_moved("s-mom is rounded down to ten-thousandths",
              lambda lever, displacement, moment: (borne(lever, displacement, moment)[0] * 10000 // borne(lever, displacement, moment)[1], 10000))
changed_moved("s-mom is above nothing from 0.05 m on", lambda lever, displacement, moment: (0, 1) if lever < 50 else borne(lever, displacement, moment))


def of_upright(words, combined):
    """Another s-final times s-mom to the fourth, from s-final to the fourth and s-mom."""
    class Broken(Figures):
        def upright(self, row, draught):
            lever, reach, heel, _ = self.result(row, draught)
            displacement, moment, *_, roro = self.stage(row, draught)
            return combined(self.final(lever, reach, heel, roro), self.moved(lever, displacement, moment))
    slip(words)(Broken)


of_upright("s-mom stands under the root", lambda final, mom: (final[0] * mom[0], final[1] * mom[1]))
of_upright("s-mom stands under the square root", lambda final, mom: (final[0] * mom[0] ** 2, final[1] * mom[1] ** 2))
of_upright("s-final does not count", lambda final, mom: (mom[0] ** 4, mom[1] ** 4))
of_upright("the lesser of s-final and s-mom counts",
           lambda final, mom: final if final[0] * mom[1] ** 4 <= mom[0] ** 4 * final[1] else (mom[0] ** 4, mom[1] ** 4))


@slip("the lever of s-mom is the intermediate stage's")
class EarlyLever(Figures):
    def upright(self, row, draught):
        lever, reach, heel, _ = self.result(row, draught)
        displacement, moment, between, *_, roro = self.stage(row, draught)
        (over, under), (turned, whole) = self.final(lever, reach, heel, roro), self.moved(between, displacement, moment)
        return over * turned ** 4, under * whole ** 4


def of_both(words, combined):
    """Another s to the fourth from s-intermediate to the fourth and from s-final times s-mom to the fourth."""
    changed(words, lesser=lambda self, one, other: combined(one, other))


of_both("the greater of the two counts", lambda one, other: one if one[0] * other[1] > other[0] * one[1] else other)
of_both("s-intermediate does not count", lambda one, other: other)
of_both("s-intermediate alone counts", lambda one, other: one)
of_both("the product of all three counts", lambda one, other: (one[0] * other[0], one[1] * other[1]))
of_both("the mean of the two counts", lambda one, other: (one[0] * other[1] + other[0] * one[1], 2 * one[1] * other[1]))


@slip("s-mom counts for the intermediate stage too")
class MomentOfBoth(Figures):
    def passenger_fourth(self, row, draught):
        if self.immersed(self.result(row, draught)[3]):
            return 0, 1
        lever, reach, heel, _ = self.result(row, draught)
        displacement, moment, *between, roro = self.stage(row, draught)
        over, under = self.lesser(self.intermediate(*between), self.final(lever, reach, heel, roro))
        turned, whole = self.moved(lever, displacement, moment)
        return over * turned ** 4, under * whole ** 4


@slip("bottom and top are products of rounded factors")
class RoundedFactors(Figures):
    def passenger_survival(self, row, draught):
        lever, reach, heel, opening = self.result(row, draught)
        if self.immersed(opening):
            return 0, 0
        displacement, moment, *between, roro = self.stage(row, draught)
        (early_bottom, early_top), (bottom, top) = (self.root(10 ** 16 * over, under) for over, under in (
            self.intermediate(*between), self.final(lever, reach, heel, roro)))
        turned, whole = self.moved(lever, displacement, moment)
        return min(early_bottom, bottom * turned // whole), min(early_top, -(-top * turned // whole))


@slip("a passenger ship's s is a cargo ship's")
class AsCargo(Figures):
    def passenger_survival(self, row, draught):
        return self.rounded(self.result(row, draught))


@slip("a passenger ship's immersed opening does not count")
class NoOpening(Figures):
    def passenger_fourth(self, row, draught):
        return self.lesser(self.intermediate(*self.stage(row, draught)[2:5]), self.upright(row, draught))


@slip("a passenger ship's immersed opening leaves the intermediate stage")
class EarlyWhereImmersed(Figures):
    def passenger_fourth(self, row, draught):
        return self.intermediate(*self.stage(row, draught)[2:5]) if self.immersed(self.result(row, draught)[3]) else super().passenger_fourth(row, draught)


# draughts and rows


def changed_stage(words, of):
    """Another row or draught for the stage, from the rows, the row and the draught."""
    changed(words, stage=lambda self, row, draught: Figures.stage(self, *of(self.rows, row, draught)))


changed_stage("every stage is that of the deepest draught", lambda rows, row, draught: (row, 0))
changed_stage("every stage is that of the light draught", lambda rows, row, draught: (row, 2))
changed_stage("the stages' draughts are turned round", lambda rows, row, draught: (row, 2 - draught))
changed_stage("the first row's stages stand for all", lambda rows, row, draught: (rows[0], draught))
changed_stage("the stages are those of the row before", lambda rows, row, draught: (rows[max(rows.index(row) - 1, 0)], draught))


# marks


def changed_marks(words, marked):
    """Another yes or no to the four, from the numbers, the ro-ro mark and the right ones."""
    changed(words, passenger_marked=lambda self, *numbers: marked(numbers, Figures.passenger_marked(self, *numbers)))


changed_marks("a passenger ship has a cargo ship's marks", lambda of, right: Figures.marked(None, *of[:4]))
changed_marks("a passenger ship's lever at its cap is marked", lambda of, right: (of[0] <= (200 if of[4] else 120),) + right[1:])
changed_marks("a passenger ship's range at its cap is marked", lambda of, right: right[:1] + (of[1] <= (2000 if of[4] else 1600),) + right[2:])
changed_marks("a heel of 700 is marked", lambda of, right: right[:2] + (of[2] >= 700,) + right[3:])
changed_marks("a heel of 701 is not marked", lambda of, right: right[:2] + (of[2] > 701,) + right[3:])
changed_marks("a passenger ship's heel is marked from 2,500", lambda of, right: right[:2] + (of[2] > 2500,) + right[3:])
changed_marks("a passenger ship's heel is marked from 1,500", lambda of, right: right[:2] + (of[2] >= 1500,) + right[3:])
changed_marks("a passenger ship's opening is not marked", lambda of, right: right[:3] + (False,))
changed_marks("a passenger ship has no marks", lambda of, right: (False,) * 4)
changed_marks("a lever up to 0.04 m is not marked", lambda of, right: (right[0] and of[0] > 40,) + right[1:])


def changed_byte(words, byte):
    """Another byte of a passenger row's marks, from its figures and the right one."""
    class Broken(Figures):
        def marks_at(self, row, draught):
            right = super().marks_at(row, draught)
            return byte(self, row, draught, right) if len(row.figures) == 30 else right
    slip(words)(Broken)


def is_below(one, other):
    return one[0] * other[1] < other[0] * one[1]


changed_byte("the marks are those of the intermediate stage", lambda self, row, draught, right: self.added_up(
    *(number < cap for number, cap in zip(self.stage(row, draught)[2:4], (50, 700))), self.stage(row, draught)[4] > 1500, False))
changed_byte("an intermediate stage below one adds its marks", lambda self, row, draught, right: right | self.added_up(
    *(number < cap for number, cap in zip(self.stage(row, draught)[2:4], (50, 700))), self.stage(row, draught)[4] > 1500, False))
changed_byte("no mark where the intermediate stage decides", lambda self, row, draught, right: 0 if is_below(
    self.intermediate(*self.stage(row, draught)[2:5]), self.upright(row, draught)) else right)
changed_byte("s-mom below one marks the lever", lambda self, row, draught, right: right | is_below(
    self.moved(self.result(row, draught)[0], *self.stage(row, draught)[:2]), (1, 1)))
changed_byte("the ro-ro mark is told as 16", lambda self, row, draught, right: right + 16 * self.stage(row, draught)[5])

# R


def changed_persons(words, persons):
    changed(words, persons=lambda self: persons(*self.hull.persons))


changed_persons("persons in excess count once", lambda in_lifeboats, in_excess: in_lifeboats + in_excess)
changed_persons("persons in lifeboats count twice", lambda in_lifeboats, in_excess: 2 * in_lifeboats + in_excess)
changed_persons("persons in excess do not count", lambda in_lifeboats, in_excess: in_lifeboats)
changed_persons("persons in lifeboats do not count", lambda in_lifeboats, in_excess: 2 * in_excess)
changed_persons("persons do not count", lambda in_lifeboats, in_excess: 0)
changed_persons("every person counts twice", lambda in_lifeboats, in_excess: 2 * (in_lifeboats + in_excess))


def changed_required(words, required):
    """Another R of a passenger ship, from its length and N."""
    changed(words, passenger_required=lambda self: required(self.hull.ls, self.persons()))


changed_required("a passenger ship's R has its length in metres", lambda ls, n: (ls // 100 + 250 * n + 1022500, ls // 100 + 250 * n + 1522500))
changed_required("a passenger ship's R has its length in millimetres", lambda ls, n: (10 * ls + 250 * n + 1022500, 10 * ls + 250 * n + 1522500))
changed_required("a passenger ship's R has 25 m a person", lambda ls, n: (ls + 2500 * n + 1022500, ls + 2500 * n + 1522500))
changed_required("a passenger ship's R has 2.5 cm a person", lambda ls, n: (ls + 5 * n // 2 + 1022500, ls + 5 * n // 2 + 1522500))
changed_required("a passenger ship's R has 2 m a person", lambda ls, n: (ls + 200 * n + 1022500, ls + 200 * n + 1522500))
changed_required("a passenger ship's R a centimetre off", lambda ls, n: (ls + 250 * n + 1022501, ls + 250 * n + 1522501))
changed_required("a passenger ship's R is a cargo ship's", lambda ls, n: (ls + 2400, ls + 15200))


def changed_parts(words, parts, passengers=True):
    """Other marks of the partials, from R."""
    class Broken(Figures):
        def marks(self):
            over, under = self.required()
            return parts(over, under) if passengers == (self.hull.persons is not None) else super().marks()
    slip(words)(Broken)


changed_parts("a passenger ship's partials must reach R/2", lambda over, under: [(over, under)] + [(over, 2 * under)] * 3)
changed_parts("a passenger ship's partials must reach R", lambda over, under: [(over, under)] * 4)
changed_parts("a passenger ship's partials are held to no mark", lambda over, under: [(over, under)] + [(0, 1)] * 3)
changed_parts("a passenger ship's partials must reach 0.8 R", lambda over, under: [(over, under)] + [(4 * over, 5 * under)] * 3)
changed_parts("A of a passenger ship must reach 0.9 R", lambda over, under: [(9 * over, 10 * under)] * 4)
changed_parts("a cargo ship's partials must reach 0.9 R", lambda over, under: [(over, under)] + [(9 * over, 10 * under)] * 3, False)
