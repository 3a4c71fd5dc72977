"""The openings with one rule broken at a time: their bytes and places, the frame that has none, and what an immersed one does to survival."""

from ..figures import Figures
from ..judging import Judging, Line
from .slip import Slips

read = Slips()
slip = Slips()

OPENINGS = (13, 21, 29)  # where they stand in a row of kind 02, and in the first set of kind 05


def changed_opening(words, opening):
    """Another number for the opening of a row, from the line and the place where it stands."""
    class Broken(Line):
        def opening(self, at):
            return opening(self, at)
    read(words)(type("Broken", (Judging,), {"reads": Broken}))


changed_opening("an opening's sign is dropped", lambda line, at: abs(Line.opening(line, at)))
changed_opening("an opening has no sign", lambda line, at: line.field(at))
changed_opening("an opening is read in ones' complement", lambda line, at: Line.opening(line, at) + (line.field(at) >= 32768))
changed_opening("an opening has its low byte first", lambda line, at: int.from_bytes(line.frame[at:at + 2], "little", signed=True))
changed_opening("an opening is its low byte", lambda line, at: int.from_bytes(line.frame[at + 1:at + 2], "big", signed=True))
changed_opening("the heel is read for the opening", lambda line, at: line.field(at - 2))
changed_opening("the deepest opening is read for all", lambda line, at: Line.opening(line, OPENINGS[0]))
changed_opening("the light opening is read for the partial", lambda line, at: Line.opening(line, OPENINGS[2] if at == OPENINGS[1] else at))
changed_opening("the openings come light first", lambda line, at: Line.opening(line, sum(OPENINGS[::2]) - at))


def changed_figures(words, figures):
    """Other numbers after H for a row of results, from the right ones."""
    class Broken(Line):
        def figures(self):
            right = super().figures()
            return figures(right) if len(right) == 12 else right
    read(words)(type("Broken", (Judging,), {"reads": Broken}))


def unsigned(figure):
    """The two bytes of a figure as a number without a sign."""
    return figure % 65536


def signed(figure):
    """The same bytes in two's complement."""
    return figure - 65536 if figure >= 32768 else figure


changed_figures("the opening stands before the lever",
                lambda right: sum(((unsigned(right[at + 3]), right[at], right[at + 1], signed(right[at + 2])) for at in (0, 4, 8)), ()))
changed_figures("the openings stand after the three results",
                lambda right: sum((tuple(map(unsigned, right[3 * at:3 * at + 3])) + (signed(right[9 + at]),) for at in range(3)), ()))


class Without(Line):
    """A row of results that has no openings is read as dry."""

    def figures(self):
        right = super().figures()
        return sum((right[at:at + 3] + (0,) for at in (0, 3, 6)), ()) if len(right) == 9 else right


for length, line_read in ((25, Without), (30, Line), (32, Line)):
    read("kind 02 in %d bytes too" % length)(type("Broken", (Judging,), {
        "reads": line_read,
        "rule_3": lambda self, line, length=length: Judging.rule_3(self, line) and not (line.frame[0] == 2 and len(line.frame) == length)}))
read("kind 02 in 25 bytes")(type("Broken", (Judging,), {"reads": Without, "lengths": {**Judging.lengths, 2: 25}}))
for words, values in (("an opening to 30,001", {"row_limits": ((5000, 9000, 9000, 30001), (10000,))}), ("an opening from -30,001", {"lowest": -30001}),
                      ("an opening to 29,999", {"row_limits": ((5000, 9000, 9000, 29999), (10000,))}), ("an opening from -29,999", {"lowest": -29999}),
                      ("an opening to 32,767", {"row_limits": ((5000, 9000, 9000, 32767), (10000,))}), ("an opening from -32,768", {"lowest": -32768}),
                      ("an opening must be dry", {"lowest": 0})):
    read(words)(type("Broken", (Judging,), values))


def changed_immersed(words, immersed):
    class Broken(Figures):
        def immersed(self, opening):
            return immersed(opening)
    slip(words)(Broken)


changed_immersed("an opening at 0 is immersed", lambda opening: opening <= 0)
changed_immersed("an opening of 1 is immersed", lambda opening: opening <= 1)
changed_immersed("an opening of -1 is not immersed", lambda opening: opening < -1)
changed_immersed("an opening of -30,000 is not immersed", lambda opening: -30000 < opening < 0)
changed_immersed("a dry opening is taken for an immersed one", lambda opening: opening > 0)


@slip("survival stays as it was where the opening is immersed")
class AlwaysDry(Figures):
    def immersed(self, opening):
        return False


@slip("an immersed opening takes the bottom alone down to 0")
class TopStays(Figures):
    def survival(self, row, draught):
        return super().survival(row, draught)[0], AlwaysDry(self.hull, self.rows).survival(row, draught)[1]


@slip("an immersed opening takes the top alone down to 0")
class BottomStays(Figures):
    def survival(self, row, draught):
        return AlwaysDry(self.hull, self.rows).survival(row, draught)[0], super().survival(row, draught)[1]


def changed_result(words, opening):
    """Another opening for the first set of a row, from the rows, the row itself, the draught and the right one."""
    class Broken(Figures):
        def result(self, row, draught, of=0):
            lever, reach, heel, right = super().result(row, draught, of)
            return lever, reach, heel, right if of else opening(self.rows, row, draught, right)
    slip(words)(Broken)


def openings_of(row):
    """The openings of a row's first set at the three draughts; a given survival has none."""
    return row.figures[3:12:4]


changed_result("an opening immersed at one draught is so at all", lambda rows, row, draught, right: min(openings_of(row)))
changed_result("an opening dry at one draught is so at all", lambda rows, row, draught, right: max(openings_of(row)))
changed_result("the first row's openings stand for all", lambda rows, row, draught, right: (openings_of(rows[0]) or openings_of(row))[draught])
changed_result("the openings are those of the row before",
               lambda rows, row, draught, right: (openings_of(rows[max(rows.index(row) - 1, 0)]) or openings_of(row))[draught])
changed_result("an opening that was immersed stays so",
               lambda rows, row, draught, right: min([right] + [openings_of(other)[draught] for other in rows[:rows.index(row)] if openings_of(other)]))
