"""The shares with one rule broken at a time: the slips of the trade, and one for each edge and rounding."""

from ..figures import BILLION, Figures, down, up
from .slip import Slips

slip = Slips()


def moved_band(words, edge, by):
    class Broken(Figures):
        def band(self, x):
            ls = self.hull.ls
            first, second = (33 * (x + by * (edge == at)) <= at * ls for at in (5, 10))
            return 1 if first else 2 if second else 3
    slip(words)(Broken)


moved_band("the first band ends a centimetre too soon", 5, 1)
moved_band("the first band ends a centimetre too late", 5, -1)
moved_band("the second band ends a centimetre too soon", 10, 1)
moved_band("the second band ends a centimetre too late", 10, -1)


@slip("one end is tested at the stern alone")
class SternAlone(Figures):
    def touched(self, aft, fore):
        return 2 if (aft, fore) == (0, self.hull.ls) else int(aft == 0)


@slip("one end is tested at the bow alone")
class BowAlone(Figures):
    def touched(self, aft, fore):
        return 2 if (aft, fore) == (0, self.hull.ls) else int(fore == self.hull.ls)


@slip("the whole ship counts as one end")
class WholeIsOne(Figures):
    def touched(self, aft, fore):
        return min(super().touched(aft, fore), 1)


@slip("the spans taken off touch what the group touches")
class GroupTouches(Figures):
    def terms(self, row, before):
        group = self.places[row.a - 1], self.places[row.a - 1 + row.n]
        self.touched = lambda aft, fore: min(Figures.touched(self, *group), 2 if (aft, fore) == group else 1)
        self.kept.clear()
        return super().terms(row, before)


@slip("P with one end is made from the rounded p")
class RoundedP(Figures):
    def chance(self, x, ends):
        if ends != 1:
            return super().chance(x, ends)
        low, high = self.ends_of(self.inner(x))
        return down(low + BILLION * x // self.hull.ls, 2), up(high + up(BILLION * x, self.hull.ls), 2)


@slip("an upper end is always one above the lower")
class AlwaysOneMore(Figures):
    def ends_of(self, fraction):
        low = super().ends_of(fraction)[0]
        return low, low + 1


@slip("15Bx < bL for <=")
class ShortStrictly(Figures):
    def short(self, x, b):
        return 15 * self.hull.breadth * x < b * self.hull.ls


@slip("15Bx <= bL a centimetre too soon")
class ShortSooner(Figures):
    def short(self, x, b):
        return 15 * self.hull.breadth * (x + 1) <= b * self.hull.ls


@slip("the short form is never taken")
class NeverShort(Figures):
    def short(self, x, b):
        return False


@slip("xG1/L is made from the exact G1")
class ExactAlong(Figures):
    def along(self, x, b):
        breadth, ls = self.hull.breadth, self.hull.ls
        over, under = (5500 * b * breadth - 1089 * b * b) * x, 7500 * breadth ** 2 * ls
        return self.ends_of((over, under))


class Shallow(Figures):
    """G with its last step open to change."""

    def shallow(self, x, ends, b):
        if ends == 2:
            return self.g1(b)
        along = self.along(x, b)
        if self.short(x, b):
            inner = self.ends_of(self.inner(x))
            return inner if ends == 0 else self.halved(inner, along)
        return self.less(along, self.g3(b), ends)

    def halved(self, inner, along):
        return down(inner[0] + along[0], 2), up(inner[1] + along[1], 2)

    def less(self, along, g3, ends):
        g3 = (down(g3[0], 2), up(g3[1], 2)) if ends == 1 else g3
        return max(along[0] - g3[1], 0), along[1] - g3[0]


@slip("G3's own end is subtracted and not the opposite one")
class SameEnd(Shallow):
    def less(self, along, g3, ends):
        g3 = (down(g3[0], 2), up(g3[1], 2)) if ends == 1 else g3
        return max(along[0] - g3[0], 0), along[1] - g3[1]


@slip("half of G3 is rounded the way that narrows G")
class NarrowHalf(Shallow):
    def less(self, along, g3, ends):
        g3 = (up(g3[0], 2), down(g3[1], 2)) if ends == 1 else g3
        return max(along[0] - g3[1], 0), along[1] - g3[0]


@slip("G3 is not halved where one end is touched")
class WholeG3(Shallow):
    def less(self, along, g3, ends):
        return super().less(along, g3, 0)


@slip("the half of the short form is rounded the way that narrows G")
class NarrowShort(Shallow):
    def halved(self, inner, along):
        return up(inner[0] + along[0], 2), down(inner[1] + along[1], 2)


@slip("the short form with one end is p alone")
class ShortIsInner(Shallow):
    def halved(self, inner, along):
        return inner


@slip("Q is rounded term by term")
class RoundedTwice(Figures):
    def within(self, aft, fore, b):
        ends = self.touched(aft, fore)
        chance, shallow = self.chance(fore - aft, ends), self.shallow(fore - aft, ends, b)
        over, under = self.depth(b)
        return (down(chance[0] * over, under) + down(shallow[0] * (under - over), under),
                up(chance[1] * over, under) + up(shallow[1] * (under - over), under))


@slip("the middle span is not put back at n >= 3")
class NoMiddle(Figures):
    def spans(self, a, n):
        return super().spans(a, n)[:3]


@slip("a zone is put back at n = 2")
class ZoneBack(Figures):
    def spans(self, a, n):
        return super().spans(a, n) + ([(1, self.places[a], self.places[a + 1])] if n == 2 else [])


@slip("the second span taken off is the first once more")
class SameSpanTwice(Figures):
    def spans(self, a, n):
        spans = super().spans(a, n)
        return spans if n == 1 else spans[:2] + [spans[1]] + spans[3:]


@slip("subtracted spans are rounded like the added ones")
class SameWay(Figures):
    def share(self, row, before):
        terms = self.terms(row, before)
        low, high = (sum(sign * ends[at] for sign, ends in terms) for at in (0, 1))
        return self.held(min(low, high), max(low, high))


@slip("the layer before is not subtracted")
class NoLayer(Figures):
    def terms(self, row, before):
        return super().terms(row, 0)


@slip("the first layer is subtracted in place of the last")
class FirstLayer(Figures):
    def below(self):
        first, under = {}, []
        for row, (before, low) in zip(self.rows, super().below()):
            first.setdefault((row.a, row.n), row.b)
            under.append((first[row.a, row.n] if before else 0, low))
        return under


@slip("the layer before goes on into the next group")
class LayerGoesOn(Figures):
    def below(self):
        under = []
        for at, (before, low) in enumerate(super().below()):
            new_group = at and self.rows[at - 1][:2] != self.rows[at][:2]
            under.append((self.rows[at - 1].b if new_group else before, low))
        return under


@slip("a share is held at 0 layer by layer")
class HeldByLayer(Figures):
    def share(self, row, before):
        low, high = Figures.held(self, *self.layer(row.a, row.n, row.b))
        if before:
            less = Figures.held(self, *self.layer(row.a, row.n, before))
            low, high = low - less[1], high - less[0]
        return self.held(low, high)

    def layer(self, a, n, b):
        terms = [(sign, self.within(aft, fore, b)) for sign, aft, fore in self.spans(a, n)]
        return (sum(ends[0] if sign > 0 else -ends[1] for sign, ends in terms),
                sum(ends[1] if sign > 0 else -ends[0] for sign, ends in terms))


@slip("a lower end below 0 is not held")
class NotHeld(Figures):
    def held(self, low, high):
        return abs(low), high
