"""Height, survival, index and verdict with one rule broken at a time."""

from math import isqrt

from ..figures import BILLION, FULL, Figures, down, up
from .slip import Slips

slip = Slips()


@slip("v is counted from the bottom in every row")
class NoRowBelow(Figures):
    def height(self, row, under, draught):
        return self.reach(row.h - draught)


@slip("v goes on from the layer before")
class HeightGoesOn(Figures):
    def below(self):
        under = []
        for at, (before, low) in enumerate(super().below()):
            under.append((before, self.rows[at - 1].h if at and low is None and self.rows[at - 1].h < self.rows[at].h else low))
        return under


def changed_reach(words, reach):
    class Broken(Figures):
        def reach(self, h):
            return reach(h)
    slip(words)(Broken)


changed_reach("v is not cut at 12,500", lambda h: 0 if h <= 0 else 94 * h if h <= 7800 else min(733200 + 39 * (h - 7800), 916539))
changed_reach("v goes on by 94 to 7,801", lambda h: 0 if h <= 0 else 94 * h if h <= 7801 else min(733200 + 39 * (h - 7800), 916500))
changed_reach("v is full from 12,499", lambda h: 0 if h <= 0 else 94 * h if h <= 7800 else 733200 + 39 * (h - 7800) if h < 12499 else 916500)
changed_reach("v starts at h = 2", lambda h: 0 if h <= 1 else 94 * h if h <= 7800 else min(733200 + 39 * (h - 7800), 916500))
changed_reach("v rises by 39 from 7,799", lambda h: 0 if h <= 0 else 94 * h if h < 7799 else min(733200 + 39 * (h - 7800), 916500))


@slip("the partial draught is the mean")
class MeanDraught(Figures):
    def draughts(self):
        ds, dl = self.hull.ds, self.hull.dl
        return ds, (ds + dl) // 2, dl


@slip("the draughts come in the order light, partial, deepest")
class DraughtsTurned(Figures):
    def draughts(self):
        return super().draughts()[::-1]


@slip("the lever is not capped")
class LongLever(Figures):
    cap_lever = 5000

    def root(self, over, under):
        return super().root(min(over, 10 ** 16 * under), under)


@slip("the range is not capped")
class LongRange(LongLever):
    cap_lever, cap_range = 120, 9000


@slip("the lever's cap is 121")
class CapLever(LongLever):
    cap_lever = 121


@slip("the range's cap is 1601")
class CapRange(LongLever):
    cap_lever, cap_range = 120, 1601


def changed_heel(words, heeled):
    class Broken(Figures):
        def heeled(self, heel):
            return heeled(heel)
    slip(words)(Broken)


changed_heel("k is not squared", lambda heel: 250000 if heel <= 2500 else 0 if heel >= 3000 else 500 * (3000 - heel))
changed_heel("k is 1 to 2,501", lambda heel: 250000 if heel <= 2501 else 0 if heel >= 3000 else (3000 - heel) ** 2)
changed_heel("k is 0 from 2,999", lambda heel: 250000 if heel <= 2500 else 0 if heel >= 2999 else (3000 - heel) ** 2)
changed_heel("k goes on past 3,000", lambda heel: 250000 if heel <= 2500 else min((3000 - heel) ** 2, 250000))
changed_heel("K stands under the root for its fourth power",
             lambda heel: 250000 if heel <= 2500 else 0 if heel >= 3000 else isqrt(250000 * 500 * (3000 - heel)))


@slip("the top is the bottom")
class TopIsBottom(Figures):
    def root(self, over, under):
        bottom = super().root(over, under)[0]
        return bottom, bottom


@slip("the top is one above the bottom, whole or not")
class TopIsMore(Figures):
    def root(self, over, under):
        bottom = super().root(over, under)[0]
        return bottom, min(bottom + 1, 10000)


@slip("what a row adds is rounded down at both ends")
class AddsDown(Figures):
    def adds(self, share, v, s):
        return down(share[0] * v * s[0], FULL), down(share[1] * v * s[1], FULL)


@slip("A's upper end is rounded down")
class WeighedDown(Figures):
    def weighed(self, partials):
        low, high = super().weighed(partials)
        return low, (2 * partials[0][1] + 2 * partials[1][1] + partials[2][1]) // 5


@slip("A is the mean of the three")
class PlainMean(Figures):
    def weighed(self, partials):
        return down(sum(ends[0] for ends in partials), 3), up(sum(ends[1] for ends in partials), 3)


@slip("the partial sums are held at one")
class SumsHeld(Figures):
    def answer(self):
        verdict, ends, *rows = super().answer()
        return (verdict, [(low, min(high, BILLION)) for low, high in ends], *rows)


def changed_required(words, required):
    class Broken(Figures):
        def required(self):
            return required(self.hull.ls)
    slip(words)(Broken)


changed_required("R of the longer ships at every length", lambda ls: (ls + 2400, ls + 15200))
changed_required("R of the shorter ships at every length", lambda ls: (ls * (ls + 2400), ls * (ls + 2400) + 128000000))
changed_required("R a centimetre off", lambda ls: (ls + 2401, ls + 15201) if ls > 10000 else (ls * (ls + 2400), ls * (ls + 2400) + 128000000))
changed_required("R of the shorter ships a little off",
                 lambda ls: (ls + 2400, ls + 15200) if ls > 10000 else (ls * (ls + 2400), ls * (ls + 2400) + 127999999))


@slip("each partial must reach R")
class WholeMarks(Figures):
    def marks(self):
        return [self.required()] * 4


@slip("the partials are not held to a mark")
class NoPartials(Figures):
    def marks(self):
        return super().marks()[:1] + [(0, 1)] * 3


@slip("meets asks for more than the mark")
class StrictlyMeets(Figures):
    def verdict(self, ends):
        verdict = super().verdict(ends)
        met = all(low * under > BILLION * over for (low, _), (over, under) in zip(ends, self.marks()))
        return 3 if verdict == 1 and not met else verdict


@slip("fails takes an upper end at its mark")
class FailsAtTheMark(Figures):
    def verdict(self, ends):
        verdict = super().verdict(ends)
        failed = any(high * under <= BILLION * over for (_, high), (over, under) in zip(ends, self.marks()))
        return 2 if verdict == 3 and failed else verdict


@slip("unsettled comes before fails")
class UnsettledFirst(Figures):
    def verdict(self, ends):
        verdict = super().verdict(ends)
        between = any(low * under < BILLION * over <= high * under for (low, high), (over, under) in zip(ends, self.marks()))
        return 3 if verdict == 2 and between else verdict


@slip("the verdict is taken from the upper ends")
class UpperMeets(Figures):
    def verdict(self, ends):
        return super().verdict([(high, high) for _, high in ends])
