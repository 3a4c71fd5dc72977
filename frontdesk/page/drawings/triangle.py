"""The zone diagram: every group of zones over the ship's length, shaded by how much of its damage is survived."""

from typing import NamedTuple

from . import views
from .pen import Drawing, fitted, scaled, width

LEFT, LONG, RIGHT = 900, 9_200, 1_500
FOOT, HEAD = 400, 120
SHADES = 5  # fifths of what is survived


class Group(NamedTuple):
    """A cell: its zones, its share as short text, what is kept in per cent, and whether the file lists it."""

    first: int
    count: int
    share: str
    kept: int  # per cent, cut off; nothing where the group is not listed
    listed: bool
    rank: str = ""  # a letter for those that lose most
    tip: str = ""


class Level(NamedTuple):
    """All groups of so many zones."""

    count: int
    share: str
    kept: str


def shade(kept):
    """1 to 5, the more is survived, the darker."""
    return min(kept // 20, SHADES - 1) + 1


def drawn(places, groups, levels, ship_views, names=()):
    """Places are bulkheads in cm from aft to forward; groups without a share are not among those given."""
    tallest = max((group.count for group in groups), default=1)
    step = 460 if tallest <= 9 else 380 if tallest <= 13 else 320
    ground = HEAD + step * tallest + FOOT
    drawing = Drawing("zones", "Zone diagram: the groups of zones over the ship's length", LEFT + LONG + RIGHT, 0, least=900)
    across = [LEFT + scaled(place, places[-1], LONG) for place in places]
    _cells(drawing, groups, across, ground, step)
    _levels(drawing, groups, levels, across, ground, step)
    foot = _zones(drawing, across, ground, names)
    drawing.high = views.under(drawing, across, places, foot, ship_views)
    return drawing


def corners(group, across, ground, step):
    """The cell's outline: left, top, right, bottom; a single zone stands on a foot."""
    i, j = group.first - 1, group.first - 1 + group.count
    level = ground - FOOT

    def knot(a, b):
        return (across[a] + across[b]) // 2, level - step * (b - a)

    if group.count == 1:
        return (across[i], ground), (across[i], level), knot(i, j), (across[j], level), (across[j], ground)
    return knot(i, j - 1), knot(i, j), knot(i + 1, j), knot(i + 1, j - 1)


def _cells(drawing, groups, across, ground, step):
    """Fillings, then the outlines of missing groups, each edge once, then figures, and the worst on top of all."""
    outlines = {group: corners(group, across, ground, step) for group in groups}
    edges = set()
    for group, outline in outlines.items():
        drawing.area(outline, "kept%d" % shade(group.kept) if group.listed else "hollow", group.tip)
        if not group.listed:
            edges |= {tuple(sorted(edge)) for edge in zip(outline, outline[1:] + outline[:1])}
    for (x1, y1), (x2, y2) in sorted(edges):
        drawing.line(x1, y1, x2, y2, "edge")
    for group, outline in outlines.items():
        _figures(drawing, group, outline, ground, step)
    badges = []
    for group, outline in outlines.items():
        if group.rank:
            _worst(drawing, group, outline, step, badges)


def _figures(drawing, group, outline, ground, step):
    """Share and per cent in the middle of the cell, in the greater size that fits, or the share alone."""
    single = group.count == 1
    left, right = (outline[0][0], outline[-1][0]) if single else (outline[0][0], outline[2][0])
    middle = (left + right) // 2 if single else (outline[1][0] + outline[3][0]) // 2
    centre = ground - FOOT // 2 if single else outline[0][1]
    room = right - left if single else (right - left) * (step - 100) // step
    ink = "on%d" % shade(group.kept) if group.listed else "quiet"
    texts = [(group.share, ink + " strong" if group.listed else ink)] + ([("%d%%" % group.kept, ink)] if group.listed else [])
    for size, chosen in ((105, texts), (90, texts), (90, texts[:1]), (80, texts[:1])):
        if all(width(text, size, "strong" in look) + 10 <= room for text, look in chosen):
            base = centre + (size * 35 // 100 if len(chosen) == 1 else -size // 7)
            for i, (text, look) in enumerate(chosen):
                drawing.text(middle, base + i * size * 115 // 100, text, size - (5 if i else 0), look, "middle")
            return


def _worst(drawing, group, outline, step, badges):
    """A thicker outline, and the group's letter below its top corner, or on it where another letter is too near."""
    drawing.area(outline, "worst")
    x, y = outline[2] if group.count == 1 else outline[1]
    y = next((y + down for down in (step // 4, -step // 5, -step // 2) if all(abs(x - a) > 150 or abs(y + down - b) > 150 for a, b in badges)), y)
    badges.append((x, y))
    drawing.area(_disc(x, y, 70), "badge")
    drawing.text(x, y + 35, group.rank, 100, "onbadge strong", "middle")


def _disc(x, y, r):
    """Eight corners are round enough for so small a thing."""
    d = r * 7 // 10
    return (x - r, y), (x - d, y - d), (x, y - r), (x + d, y - d), (x + r, y), (x + d, y + d), (x, y + r), (x - d, y + d)


def _levels(drawing, groups, levels, across, ground, step):
    """What stands before and behind the cells of each number of zones."""
    by_count = {level.count: level for level in levels}
    outlines = [corners(group, across, ground, step) for group in groups]
    for count in sorted({group.count for group in groups}):
        base = ground - FOOT // 2 + 35 if count == 1 else ground - FOOT - step * (count - 1) + 35
        left, right = _reach(outlines, base - 150, base + 90)
        drawing.text(left - 80, base, "1 zone" if count == 1 else "%d zones" % count, 110, "quiet", "end")
        level, right = by_count.get(count), right + 80
        if level:
            drawing.text(right, base - (60 if level.kept else 0), level.share, 110, "strong")
            if level.kept:
                drawing.text(right, base + 65, level.kept, 105, "quiet")


def _reach(outlines, top, bottom):
    """The leftmost and the rightmost place that any outline has between two heights."""
    places = []
    for outline in outlines:
        for (x1, y1), (x2, y2) in zip(outline, outline[1:] + outline[:1]):
            for y in (top, bottom):
                if min(y1, y2) <= y <= max(y1, y2) and y1 != y2:
                    places.append(x1 + (x2 - x1) * (y - y1) // (y2 - y1))
            if top <= y1 <= bottom:
                places.append(x1)
    return min(places), max(places)


def _zones(drawing, across, ground, names):
    """Zone numbers, and their names in up to three lines where there is room."""
    deepest = 0
    for zone, (left, right) in enumerate(zip(across, across[1:]), 1):
        middle, room = (left + right) // 2, right - left - 20
        if width(str(zone), 115, True) <= room:
            drawing.text(middle, ground + 150, str(zone), 115, "strong", "middle")
        lines = _wrapped(names[zone - 1], room) if names else []
        for i, line in enumerate(lines):
            drawing.text(middle, ground + 275 + 105 * i, line, 90, "quiet", "middle")
        deepest = max(deepest, len(lines))
    return ground + 210 + 105 * deepest


def _wrapped(name, room, most=3):
    """The name in lines that fit, the last one cut where it goes on."""
    if room < 200:
        return []
    lines, words = [], name.split()
    while words and len(lines) < most:
        line = words.pop(0)
        while words and width(line + " " + words[0], 90) <= room and len(lines) < most - 1:
            line += " " + words.pop(0)
        if len(lines) == most - 1 and words:
            line = " ".join([line, *words])
            words = []
        lines.append(fitted(line, 90, room))
    return lines
