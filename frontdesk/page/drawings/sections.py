"""Half sections of the groups that lose most: each case a rectangle, from the layer before to b and from the height below to H, at each draught."""

from typing import NamedTuple

from .pen import Drawing, apart, scaled, width
from .triangle import shade
from .views import ticks

WIDE, HIGH, GAP, LEFT, HEAD = 2_700, 1_900, 450, 700, 300


class Case(NamedTuple):
    """Where a case begins and ends (cm in, mm up), and what is survived at each draught in ten-thousandths and as text."""

    inner: int
    outer: int
    below: int
    above: int
    kept: tuple
    texts: tuple
    tip: str


def drawn(name, title, cases, half, draughts, texts):
    """Draughts are (name, mm, text); texts has those of the depths and heights by their numbers; half is B/2 in cm."""
    highest = max(case.above for case in cases)
    drawing = Drawing(name, title, LEFT + 3 * (WIDE + GAP) - GAP + 60, HEAD + HIGH + 420, least=620)
    for i, (draught, level, label) in enumerate(draughts):
        left = LEFT + i * (WIDE + GAP)
        drawing.text(left, HEAD - 100, "%s, %s m" % (draught, label), 125, "strong")
        drawing.box(left, HEAD, WIDE, HIGH, "empty")
        for case in cases:
            _case(drawing, case, i, left, level, half, highest)
        _water(drawing, left, level, highest)
        _depths(drawing, left, cases, half, texts)
    _heights(drawing, cases, highest, texts)
    return drawing


def _up(height, highest):
    return HEAD + HIGH - scaled(height, highest, HIGH)


def _case(drawing, case, i, left, level, half, highest):
    """What lies below the waterline holds no damage's end, and stays empty."""
    if case.above <= level:
        return
    x1, x2 = left + scaled(case.inner, half, WIDE), left + scaled(case.outer, half, WIDE)
    y1, y2 = _up(case.above, highest), _up(max(case.below, level), highest)
    dark = shade(case.kept[i] // 100)
    drawing.box(x1, y1, x2 - x1, y2 - y1, "kept%d" % dark, case.tip)
    text = case.texts[i]
    if width(text, 110, True) + 40 <= x2 - x1 and y2 - y1 >= 150:
        drawing.text((x1 + x2) // 2, (y1 + y2) // 2 + 40, text, 110, "on%d strong" % dark, "middle")
    elif x2 - x1 >= 140 and width(text, 110, True) + 40 <= y2 - y1:
        drawing.text((x1 + x2) // 2 + 40, (y1 + y2) // 2, text, 110, "on%d strong" % dark, "middle", turned=True)


def _water(drawing, left, level, highest):
    y = _up(level, highest)
    drawing.box(left, y, WIDE, HEAD + HIGH - y, "water")
    drawing.line(left - 60, y, left + WIDE, y, "draught deepest")
    drawing.line(left, HEAD, left, HEAD + HIGH, "keel")
    drawing.line(left, HEAD + HIGH, left + WIDE, HEAD + HIGH, "keel")
    drawing.line(left + WIDE, HEAD, left + WIDE, HEAD + HIGH, "centre")


def _depths(drawing, left, cases, half, texts):
    depths = sorted({case.outer for case in cases})
    least = max(width(texts["b", depth], 100) for depth in depths) + 60
    depths = depths[-(WIDE // least):]  # more do not fit: those by the shell stay without a text
    wanted = [left + scaled(depth, half, WIDE) for depth in depths]
    for depth, x, at in zip(depths, wanted, apart(wanted, least, left - 200, left + WIDE - least // 3)):
        drawing.line(x, HEAD + HIGH, at, HEAD + HIGH + 60, "tick")
        drawing.text(at, HEAD + HIGH + 160, texts["b", depth], 100, "quiet", "middle")
    drawing.text(left + WIDE // 2, HEAD + HIGH + 310, "m in from the shell", 100, "quiet", "middle")


def _heights(drawing, cases, highest, texts):
    heights = {case.above: texts["H", case.above] for case in cases}
    ticks(drawing, LEFT - 110, HEAD, HIGH, highest, {0: "keel 0", **heights})
