"""Shapes of a drawing, all in tenths of a unit, and how wide a text will be."""

from dataclasses import dataclass, field
from typing import NamedTuple

UNIT = 10  # a coordinate is a whole number of tenths

# Widths in hundredths of the size, those of the widest of the usual faces.
_NARROW = dict.fromkeys("iljI|.,:;'!·", 30)
_NARROW.update(dict.fromkeys("ftr()[]-/ ", 36))
_BROAD = dict.fromkeys("mwMW%@—–", 90)
_WIDTHS = {**_NARROW, **_BROAD}


def width(text, size, bold=False):
    """How wide a text of a size is, in tenths, rather too wide than too narrow."""
    hundredths = sum(_WIDTHS.get(c) or (57 if c < "\u0250" and not c.isupper() else 72 if c < "\u2e80" else 105) for c in text)
    return hundredths * size * (107 if bold else 100) // 10_000


def fitted(text, size, room, bold=False):
    """The text, or as much of its front as the room takes, with a mark that it goes on."""
    if width(text, size, bold) <= room:
        return text
    while text and width(text + "…", size, bold) > room:
        text = text[:-1]
    return text.rstrip() + "…" if text else ""


class Box(NamedTuple):
    x: int
    y: int
    wide: int
    high: int
    look: str
    tip: str = ""


class Line(NamedTuple):
    x1: int
    y1: int
    x2: int
    y2: int
    look: str


class Area(NamedTuple):
    """A closed outline."""

    corners: tuple
    look: str
    tip: str = ""


class Text(NamedTuple):
    x: int
    y: int  # of the line that the letters stand on
    text: str
    size: int
    look: str = ""
    anchor: str = "start"  # or "middle", "end"
    sub: str = ""  # a letter below the line
    turned: bool = False  # reads upwards

    @property
    def box(self):
        """Left, top, right, bottom, as estimated."""
        wide = width(self.text, self.size, "strong" in self.look) + width(self.sub, self.size * 7 // 10)
        back = {"start": 0, "middle": wide // 2, "end": wide}[self.anchor]
        if self.turned:
            return self.x - self.size * 3 // 4, self.y - wide + back, self.x + self.size // 4, self.y + back
        return self.x - back, self.y - self.size * 3 // 4, self.x - back + wide, self.y + self.size // 4


@dataclass
class Drawing:
    """A picture with its name and what it says, for those who do not see it."""

    name: str  # of its elements' ids
    title: str
    wide: int
    high: int
    says: str = ""
    shapes: list = field(default_factory=list)
    least: int = 0  # pixels: on a narrower screen it scrolls rather than shrinks

    def box(self, *what):
        self.shapes.append(Box(*what))

    def line(self, *what):
        self.shapes.append(Line(*what))

    def area(self, corners, look, tip=""):
        self.shapes.append(Area(tuple(corners), look, tip))

    def text(self, *what, **more):
        self.shapes.append(Text(*what, **more))

    def texts(self):
        return [shape for shape in self.shapes if isinstance(shape, Text)]


def tenths(number):
    """A coordinate as SVG has it."""
    if number % UNIT == 0:
        return str(number // UNIT)
    sign = "-" if number < 0 else ""
    return "%s%d.%d" % (sign, *divmod(abs(number), UNIT))


def scaled(part, whole, length):
    """So much of a length, to the nearest tenth."""
    return (2 * part * length + whole) // (2 * whole)


def apart(wanted, least, low, high):
    """Places as near to those wanted as may be, in their order, at least so far from each other and between two limits."""
    placed = []
    for place in wanted:
        placed.append(max(place, placed[-1] + least if placed else low))
    for i in range(len(placed) - 1, -1, -1):
        placed[i] = min(placed[i], placed[i + 1] - least if i + 1 < len(placed) else high)
    return placed
