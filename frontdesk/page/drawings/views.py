"""The ship from the side and from above, as the one-zone groups have her: bulkheads, heights, layers, draughts. No hull form is made up."""

from typing import NamedTuple

from .pen import apart, scaled, width

HIGH, GAP = 1_250, 520


class Views(NamedTuple):
    """Heights and layers of each zone with their texts, the limits of both views, and the draughts."""

    heights: tuple  # a tuple of (mm, text) for each zone, without the top
    top: tuple  # (mm, text)
    layers: tuple  # a tuple of (cm, text) for each zone, without B/2
    half: tuple  # (cm, text)
    draughts: tuple  # (name, mm, text), deepest first
    stations: tuple  # text of each bulkhead


def under(drawing, across, places, top, views):
    """Draws both views below the zones; returns where the drawing ends."""
    side = top + 250
    _side(drawing, across, side, views)
    plan = side + HIGH + GAP
    _plan(drawing, across, plan, views)
    return _stations(drawing, across, plan + HIGH * 7 // 10, views)


def _frame(drawing, across, top, high, title, note):
    drawing.text(across[0], top - 80, title, 110, "strong")
    drawing.text(across[0] + width(title, 110, True) + 100, top - 80, note, 100, "quiet")
    drawing.box(across[0], top, across[-1] - across[0], high, "empty")


def _side(drawing, across, top, views):
    highest = views.top[0]
    _frame(drawing, across, top, HIGH, "From the side", "heights H of the one-zone groups and the three draughts, m above the keel")
    deepest = scaled(views.draughts[0][1], highest, HIGH)
    drawing.box(across[0], top + HIGH - deepest, across[-1] - across[0], deepest, "water")
    for x in across:
        drawing.line(x, top, x, top + HIGH, "bulkhead")
    texts = {0: "keel 0", highest: views.top[1]}
    for (left, right), heights in zip(zip(across, across[1:]), views.heights):
        for height, text in heights:
            y = top + HIGH - scaled(height, highest, HIGH)
            drawing.line(left, y, right, y, "deck")
            texts[height] = text
    drawing.line(across[0], top + HIGH, across[-1], top + HIGH, "keel")
    ticks(drawing, across[0] - 90, top, HIGH, highest, texts)
    wanted = [top + HIGH - scaled(height, highest, HIGH) + 35 for _, height, _ in views.draughts]
    for (name, height, text), y in zip(views.draughts, apart(wanted, 125, top, top + HIGH)):
        level = top + HIGH - scaled(height, highest, HIGH)
        drawing.line(across[0], level, across[-1] + 60, level, "draught " + name)
        drawing.text(across[-1] + 90, y, "%s %s" % (name, text), 100, "quiet")


def ticks(drawing, x, top, high, whole, texts):
    """Texts beside their heights; the ends always, others where they do not touch."""
    placed = {height: top + high - scaled(height, whole, high) + (75 if height == whole else 35) for height in texts}
    chosen = [0, whole]
    for height in sorted(texts):
        if all(abs(placed[height] - placed[other]) >= 110 for other in chosen):
            chosen.append(height)
    for height in chosen:
        drawing.text(x, placed[height], texts[height], 100, "quiet", "end")


def _plan(drawing, across, top, views):
    half, text = views.half
    high = HIGH * 7 // 10
    _frame(drawing, across, top, high, "From above, one half", "layers b of the one-zone groups, m in from the shell below to the centre line above")
    for x in across:
        drawing.line(x, top, x, top + high, "bulkhead")
    texts = {0: "shell 0", half: text}
    for (left, right), layers in zip(zip(across, across[1:]), views.layers):
        for depth, name in layers:
            y = top + high - scaled(depth, half, high)
            drawing.line(left, y, right, y, "deck")
            texts[depth] = name
    drawing.line(across[0], top, across[-1], top, "centre")
    drawing.line(across[0], top + high, across[-1], top + high, "keel")
    ticks(drawing, across[0] - 90, top, high, half, texts)


def _stations(drawing, across, top, views):
    """Where the bulkheads stand; the ends always, others where they do not touch."""
    shown = [0, len(across) - 1]
    last = across[-1] - width(views.stations[-1], 100) // 2
    edge = across[0] + width(views.stations[0], 100) // 2
    for i in range(1, len(across) - 1):
        half = width(views.stations[i], 100) // 2
        if across[i] - half > edge + 90 and across[i] + half + 90 < last:
            shown.append(i)
            edge = across[i] + half
    for i in shown:
        drawing.line(across[i], top, across[i], top + 50, "tick")
        drawing.text(across[i], top + 160, views.stations[i], 100, "quiet", "middle")
    drawing.text((across[0] + across[-1]) // 2, top + 310, "bulkheads, m from the aft end of Ls: aft on the left, forward on the right", 100, "quiet", "middle")
    return top + 380
