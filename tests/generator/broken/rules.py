"""The 2020 passenger rule with one thing broken at a time: the byte that says the rule, refusal 13, R by the persons on board, and which rule counts."""

from ..figures import Figures
from ..judging import Judging, Line, Refused
from .slip import Slips

read, slip = Slips(), Slips()

# the byte


def constant(words, **values):
    read(words)(type("Broken", (Judging,), values))


for words, rules in (("a rule mark of 2 is let through", (0, 1, 2)), ("every rule mark is let through", range(256)), ("the rule of 2020 is refused", (0,))):
    constant(words, rules=rules)


def changed_rule(words, rule):
    """Another rule, from a passenger hull's frame."""
    constant(words, reads=type("Broken", (Line,), {"rule": lambda line: rule(line.frame) if line.frame[0] == 6 else 0}))


changed_rule("the zone count is the rule", lambda frame: frame[14])
changed_rule("the rule is turned round", lambda frame: frame[13] ^ 1)
changed_rule("the rule is the last bit of its byte", lambda frame: frame[13] % 2)
changed_rule("every passenger ship is under the earlier rule", lambda frame: frame[13] if frame[13] > 1 else 0)
changed_rule("every passenger ship is under the rule of 2020", lambda frame: max(frame[13], 1))
changed_rule("an unknown rule mark is the earlier rule's", lambda frame: int(frame[13] == 1))
changed_rule("an unknown rule mark is that of 2020", lambda frame: int(frame[13] > 0))


def rearranged(words, bytes_of):
    """The bytes of a passenger hull after dl in another arrangement."""
    class Broken(Line):
        def __init__(self, *known):
            super().__init__(*known)
            if self.number == 1 and self.frame[:1] == b"\x06" and len(self.frame) >= 14:
                self.frame = self.frame[:9] + bytes_of(self.frame[9:])
    constant(words, reads=Broken)


rearranged("the rule stands before the persons", lambda rest: rest[1:5] + rest[:1] + rest[5:])
rearranged("the rule stands between the persons", lambda rest: rest[:2] + rest[3:5] + rest[2:3] + rest[5:])
rearranged("the rule stands after the zone count", lambda rest: rest[:4] + rest[5:6] + rest[4:5] + rest[6:])
rearranged("the rule stands after the bulkheads", lambda rest: rest[:4] + rest[-1:] + rest[4:-1])
rearranged("a frame without the byte is let through", lambda rest: rest[:4] + bytes(1) + rest[4:] if len(rest) == 3 + 2 * rest[4] else rest)
rearranged("a frame without the byte is let through under the rule of 2020", lambda rest: rest[:4] + b"\x01" + rest[4:] if len(rest) == 3 + 2 * rest[4] else rest)
rearranged("a frame of one zone without the byte is let through", lambda rest: rest[:4] + bytes(1) + rest[4:] if len(rest) == 5 else rest)

# refusal 13

for low, high in ((1352, 6000), (1350, 6000), (1351, 5999), (1351, 6001), (400, 6000), (1351, 20000), (1, 0)):
    constant("13 from %d to %d persons" % (low, high), not_taken=(low, high))
for words, on_board in (("the excess counted twice", lambda persons: persons[0] + 2 * persons[1]), ("those in lifeboats alone", lambda persons: persons[0]),
                        ("those in excess alone", lambda persons: persons[1]), ("the greater count", max), ("the lesser count", min)):
    constant("13 by " + words, on_board=lambda self, persons, on_board=on_board: on_board(persons))
for words, order in (("13 after 5", (10, 2, 3, 4, 5, 13, 6, 7, 8, 9)), ("13 before 4", (10, 2, 3, 13, 4, 5, 6, 7, 8, 9)),
                     ("13 before 3", (10, 2, 13, 3, 4, 5, 6, 7, 8, 9)), ("13 before 2", (10, 13, 2, 3, 4, 5, 6, 7, 8, 9))):
    constant(words, order=order)


def given_under(words, is_under):
    """13 under other rules."""
    class Broken(Judging):
        def rule_13(self, line):
            return line.number == 1 and line.frame[0] == 6 and is_under(line.rule()) and 1351 <= sum(line.persons()) <= 6000
    read(words)(Broken)


given_under("13 under either rule", lambda rule: True)
given_under("13 under the earlier rule", lambda rule: rule == 0)


@read("13 under an unknown rule")
class UnderUnknown(Judging):
    order = (10, 2, 3, 13, 4, 5, 6, 7, 8, 9)

    def rule_13(self, line):
        return line.number == 1 and line.frame[0] == 6 and line.rule() > 1 and 1351 <= sum(line.persons()) <= 6000


@read("13 is told of line 0")
class OfNoLine(Judging):
    def line_of(self, refusal, number):
        return 0 if refusal == 13 else number


def told_as(other):
    class Broken(Judging):
        def read(self, data):
            try:
                return super().read(data)
            except Refused as refused:
                raise Refused(other if refused.number == 13 else refused.number, refused.line) from None
    read("13 is told as %d" % other)(Broken)


for other in (3, 4, 5, 12):
    told_as(other)

# R


def changed(words, **methods):
    slip(words)(type("Broken", (Figures,), methods))


for words, on_board in (
        ("the excess twice", lambda in_lifeboats, in_excess: in_lifeboats + 2 * in_excess), ("those in lifeboats alone", lambda in_lifeboats, in_excess: in_lifeboats),
        ("those in excess alone", lambda in_lifeboats, in_excess: in_excess), ("those in lifeboats twice", lambda in_lifeboats, in_excess: 2 * in_lifeboats + in_excess)):
    changed("the rule of 2020 counts " + words, on_board=lambda self, on_board=on_board: on_board(*self.hull.persons))

for first, second in ((401, 1350), (399, 1350), (0, 1350), (20001, 20001), (400, 1349), (400, 399), (400, 20000)):
    def by_forms(self, first=first, second=second):
        n = self.on_board()
        return self.flat(n) if n < first else self.sloping(n) if n <= second else self.crowded(n)
    changed("the forms of 2020 end at %d and %d" % (first, second), required_of_2020=by_forms)

for over, under in ((7221, 10000), (72, 100), (7219, 10000), (278, 1000)):
    changed("the flat figure is %d/%d" % (over, under), flat=lambda self, n, over=over, under=under: (over, under))
for each, more in ((7581, 66923), (7850, 66923), (7580, 66920), (7580, 66932), (7580, 66924), (7580, 66922)):
    changed("the second form has N/%d + %d" % (each, more), sloping=lambda self, n, each=each, more=more: (100000 * n + each * more, each * 100000))
for fixed, each, more in ((85200000, 3875, 5000), (85300000, 3875, 5000), (85250000, 3870, 5000), (85250000, 3880, 5000), (85250000, 3875, 4999), (85250000, 3875, 5001),
                          (8525000, 3875, 5000)):
    changed("the last form has %d, %d and %d" % (fixed, each, more),
            crowded=lambda self, n, fixed=fixed, each=each, more=more: (100000 * (n + more) - fixed - each * n, 100000 * (n + more)))


def by_rule(words, required):
    """Another R of a passenger ship, from the rule, R of the earlier one and R of 2020."""
    changed(words, required_by_rule=lambda self: required(self.hull.rule, self.passenger_required(), self.required_of_2020()))


def least(one, other):
    return one if one[0] * other[1] <= other[0] * one[1] else other


def most(one, other):
    return other if least(one, other) is one else one


by_rule("the verdict is the earlier rule's", lambda rule, earlier, later: earlier)
by_rule("the verdict is that of 2020", lambda rule, earlier, later: later)
by_rule("the rules change places", lambda rule, earlier, later: earlier if rule else later)
by_rule("the higher R of both rules", lambda rule, earlier, later: most(earlier, later) if rule else earlier)
by_rule("the lower R of both rules", lambda rule, earlier, later: least(earlier, later) if rule else earlier)
by_rule("R of 2020 in ten-thousandths", lambda rule, earlier, later: (10000 * later[0] // later[1], 10000) if rule else earlier)
by_rule("R of 2020 in hundred-thousandths", lambda rule, earlier, later: (100000 * later[0] // later[1], 100000) if rule else earlier)
by_rule("R of 2020 in millionths, rounded up", lambda rule, earlier, later: (-(-1000000 * later[0] // later[1]), 1000000) if rule else earlier)


def parts(words, over, under):
    """Another part of R for the partials under the rule of 2020."""
    class Broken(Figures):
        def marks(self):
            right = super().marks()
            return right[:1] + [(over * right[0][0], under * right[0][1])] * 3 if self.hull.rule else right
    slip("under the rule of 2020 the partials must reach " + words)(Broken)


parts("R/2", 1, 2)
parts("R", 1, 1)
parts("0.8 R", 4, 5)
parts("nothing", 0, 1)


@slip("under the rule of 2020 the partials must reach 0.9 of the earlier R")
class EarlierParts(Figures):
    def marks(self):
        if not self.hull.rule:
            return super().marks()
        over, under = self.passenger_required()
        return super().marks()[:1] + [(9 * over, 10 * under)] * 3
