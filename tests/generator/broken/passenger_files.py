"""A passenger ship's file with one rule broken at a time: kinds and lengths, the hull's limits and persons, a row's numbers and places, and the order."""

from ..judging import Judging, Line
from .slip import Slips

read = Slips()

STAGE = ("displacement", "moment", "lever", "range", "heel", "ro-ro mark")


def constant(words, **values):
    read(words)(type("Broken", (Judging,), values))


# kinds and lengths

constant("kind 06 is refused", shortest_hulls={1: 10})
constant("kind 07 is refused", passenger_lengths={15: 3})
constant("kind 08 is a row of passengers too", passenger_lengths={**Judging.passenger_lengths, 8: 76})
for kind in (2, 3, 5):
    constant("kind %02x in a passenger file" % kind, passenger_lengths={**Judging.passenger_lengths, kind: Judging.lengths[kind]})
constant("kind 07 in a cargo file", lengths={**Judging.lengths, 7: 76})
constant("a passenger file has a cargo file's rows", passenger_lengths=Judging.lengths)
for length in (13, 14, 17):
    constant("a passenger hull from %d bytes" % length, shortest_hulls={1: 10, 6: length})
constant("a cargo hull from 15 bytes", shortest_hulls={1: 15, 6: 15})


class Dry(Line):
    """A passenger row without openings is read as dry, and a short one is filled with zeros."""

    def __init__(self, *known):
        super().__init__(*known)
        if self.frame[:1] == b"\x07" and len(self.frame) == 70:
            self.frame = self.frame[:7] + b"".join(self.frame[at:at + 6] + bytes(2) for at in (7, 13, 19)) + self.frame[25:]
        elif self.frame[:1] == b"\x07":
            self.frame = self.frame.ljust(76, bytes(1))


def also(words, is_let):
    """Rows of passengers in other lengths."""
    class Broken(Judging):
        reads = Dry

        def rule_3(self, line):
            is_row = line.number > 1 and line.frame[:1] == b"\x07" and line.hull.persons is not None
            return super().rule_3(line) and not (is_row and is_let(len(line.text) // 2))
    read(words)(Broken)


also("kind 07 in 70 bytes too", lambda length: length == 70)
also("kind 07 in 75 bytes too", lambda length: length == 75)
also("kind 07 in 77 bytes too", lambda length: length == 77)
also("kind 07 in any length", lambda length: True)

# the hull

for words, least in (("a passenger ship has a cargo ship's least length", (8000, 400)), ("a passenger ship has a cargo ship's least breadth", (2000, 1000)),
                     ("passenger ships from 1,999", (1999, 400)), ("passenger ships from 2,001", (2001, 400)), ("passenger ships from 398 wide", (2000, 398)),
                     ("passenger ships from 402 wide", (2000, 402))):
    constant(words, least={False: (8000, 1000), True: least})
constant("a cargo ship has a passenger ship's least length", least={False: (2000, 1000), True: (2000, 400)})
constant("a cargo ship has a passenger ship's least breadth", least={False: (8000, 400), True: (2000, 400)})
for words, most in (("10,001 in lifeboats", (10001, 10000)), ("10,001 in excess", (10000, 10001)), ("9,999 in lifeboats", (9999, 10000)), ("9,999 in excess", (10000, 9999)),
                    ("any number in lifeboats", (65535, 10000)), ("any number in excess", (10000, 65535))):
    constant(words, most_persons=most)


@read("the sum of the persons is judged")
class SumOfPersons(Judging):
    def crowded(self, line):
        return line.frame[0] == 6 and sum(line.persons()) > 10000


@read("a ship with no persons is refused")
class NoPersons(Judging):
    def crowded(self, line):
        return super().crowded(line) or line.persons() == (0, 0)


@read("persons are judged after the zones")
class PersonsLate(Judging):
    def rule_4(self, line):
        return super().rule_4(line) and not (self.crowded(line) and self.rule_5(line))


def changed_line(words, **methods):
    """Another reading of a passenger ship's line."""
    read(words)(type("Broken", (Judging,), {"reads": type("Broken", (Line,), methods)}))


changed_line("persons in lifeboats and in excess change places", persons=lambda line: (line.field(11), line.field(9)) if line.frame[0] == 6 else None)
changed_line("persons in lifeboats stand for both", persons=lambda line: (line.field(9), line.field(9)) if line.frame[0] == 6 else None)
changed_line("persons have their low byte first",
             persons=lambda line: tuple(int.from_bytes(line.frame[at:at + 2], "little") for at in (9, 11)) if line.frame[0] == 6 else None)
changed_line("the zone count stands before the persons", zones_at=lambda line: 9)

# a row's numbers


def limits(words, number, low, high):
    wrong = list(Judging.stage_limits)
    wrong[number] = low, high
    constant(words, stage_limits=tuple(wrong))


for number, (low, high) in enumerate(Judging.stage_limits):
    name = STAGE[number]
    limits("%s to %d" % (name, high + 1), number, low, high + 1)
    limits("%s to %d" % (name, high - 1), number, low, high - 1)
    limits("%s to anything" % name, number, low, 2 ** 32)
    limits("%s from %d" % (name, low + 1), number, low + 1, high)
    if low:
        limits("%s from %d" % (name, low - 1), number, low - 1, high)


def stages_changed(words, stages):
    """Other numbers of the three stages, from the line's right ones."""
    changed_line(words, stages=lambda line: tuple(stages([list(Line.stages(line)[at:at + 6]) for at in (0, 6, 12)])))


def flat(three):
    return sum(map(tuple, three), ())


def in_order(*order):
    """The numbers of each stage in another order."""
    return lambda three: flat([one[at] for at in order] for one in three)


stages_changed("the stages come light first", lambda three: flat(three[::-1]))
stages_changed("the deepest stage stands for all", lambda three: flat(three[:1] * 3))
stages_changed("the light stage stands for the partial", lambda three: flat([three[0], three[2], three[2]]))
stages_changed("deepest and partial stage change places", lambda three: flat([three[1], three[0], three[2]]))
stages_changed("displacement and moment change places", in_order(1, 0, 2, 3, 4, 5))
stages_changed("a stage's lever and range change places", in_order(0, 1, 3, 2, 4, 5))
stages_changed("a stage's range and heel change places", in_order(0, 1, 2, 4, 3, 5))
stages_changed("a stage's lever and heel change places", in_order(0, 1, 4, 3, 2, 5))
stages_changed("a ro-ro mark of the deepest draught stands for all", lambda three: flat([one[:5] + three[0][5:] for one in three]))
stages_changed("a displacement of the deepest draught stands for all", lambda three: flat([three[0][:1] + one[1:] for one in three]))
stages_changed("a moment of the deepest draught stands for all", lambda three: flat([one[:1] + three[0][1:2] + one[2:] for one in three]))
stages_changed("displacements and moments have two bytes", lambda three: flat([one[0] % 65536, one[1] % 65536, *one[2:]] for one in three))
stages_changed("moments have three bytes", lambda three: flat([one[0], one[1] % 2 ** 24, *one[2:]] for one in three))
stages_changed("displacements have three bytes", lambda three: flat([one[0] % 2 ** 24, *one[1:]] for one in three))


def swapped(number):
    """A number of four bytes with its halves changed."""
    return number % 65536 * 65536 + number // 65536


stages_changed("displacements and moments have their low half first", lambda three: flat([swapped(one[0]), swapped(one[1]), *one[2:]] for one in three))


def rearranged(words, bytes_of):
    """The bytes of a passenger row after its head in another arrangement."""
    class Broken(Line):
        def __init__(self, *known):
            super().__init__(*known)
            if self.frame[:1] == b"\x07" and len(self.frame) == 76:
                self.frame = self.frame[:7] + bytes_of(self.frame[7:])
    read(words)(type("Broken", (Judging,), {"reads": Broken}))


rearranged("result and stage stand draught by draught",
           lambda rest: b"".join(rest[at:at + 8] for at in (0, 23, 46)) + b"".join(rest[at:at + 15] for at in (8, 31, 54)))
rearranged("the stages stand before the results", lambda rest: rest[45:] + rest[:45])
rearranged("the ro-ro mark stands first in its stage",
           lambda rest: rest[:24] + b"".join(rest[at + 1:at + 15] + rest[at:at + 1] for at in (24, 39, 54)))
rearranged("the ro-ro marks stand after the stages",
           lambda rest: rest[:24] + b"".join(rest[24 + 14 * at:38 + 14 * at] + rest[66 + at:67 + at] for at in range(3)))
rearranged("an intermediate stage stands before its displacement",
           lambda rest: rest[:24] + b"".join(rest[at + 6:at + 14] + rest[at:at + 6] + rest[at + 14:at + 15] for at in (24, 39, 54)))

# order


def let_through(number, words, where=lambda self, line: True):
    """Rows of passengers that the rule should have refused."""
    def rule(self, line):
        return getattr(Judging, "rule_%d" % number)(self, line) and not (line.is_row and line.frame[0] == 7 and where(self, line))
    constant(words, **{"rule_%d" % number: rule})


let_through(7, "a row of passengers is not judged by its numbers")
let_through(8, "a row of passengers is held to no order")
let_through(9, "a row of passengers may leave the last one open")
for at in range(30):
    def kept(self, line, at=at):
        """Whether the row keeps rule 7 but for the figure at this place."""
        class Kept(Line):
            def figures(self):
                right = super().figures()
                return right[:at] + ((1,) if at >= 12 and (at - 12) % 6 < 2 else (0,)) + right[at + 1:]
        return not Judging.rule_7(self, Kept(line.number, line.text, line.closed, line.hull, line.rows, line.ended))
    let_through(7, "figure %d of kind 07 is not judged" % (at + 1), kept)
