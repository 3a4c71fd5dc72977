"""Chance by number of zones as bars: what is survived solid, what is lost hatched, what is not listed hollow."""

from typing import NamedTuple

from .pen import Drawing, scaled

LEFT, LONG, ROOM, STEP, HEAD = 900, 6_900, 3_700, 330, 60


class Bar(NamedTuple):
    """One number of zones; amounts in any one unit."""

    label: str
    kept: int
    lost: int
    missing: int
    text: str


def drawn(bars):
    title = "Chance of damage by number of zones: survived, lost and not listed"
    drawing = Drawing("levels", title, LEFT + LONG + ROOM, HEAD + STEP * len(bars) + 60, least=560)
    longest = max(bar.kept + bar.lost + bar.missing for bar in bars) or 1
    for i, bar in enumerate(bars):
        top = HEAD + i * STEP
        drawing.text(LEFT - 110, top + 185, bar.label, 120, "", "end")
        x = LEFT
        for amount, look in ((bar.kept, "kept"), (bar.lost, "short"), (bar.missing, "missing")):
            wide = scaled(amount, longest, LONG)
            if wide:
                drawing.box(x, top + 40, wide, 210, look)
            x += wide
        drawing.text(x + 110, top + 185, bar.text, 110, "quiet")
    drawing.line(LEFT, HEAD, LEFT, HEAD + STEP * len(bars), "axis")
    drawing.says = " ".join("%s: %s." % (bar.label, bar.text) for bar in bars)
    return drawing
