"""Holds the report's drawings as numbers: cells tile, bars are as long as their figures, all lies within the picture, and no two texts overlap."""

import sys
from pathlib import Path

sys.path.insert(0, str(Path(__file__).resolve().parent))

import seeds  # noqa: E402
from frontdesk.figures import engine, findings  # noqa: E402
from frontdesk.page import pictures  # noqa: E402
from frontdesk.page.drawings import bars, gauge, pen, sections, triangle  # noqa: E402
from frontdesk.page.drawings.pen import Area, Box, Line  # noqa: E402
from frontdesk.reading import casefile  # noqa: E402
from tally import Tally  # noqa: E402

RANDOM = 60  # ships of each type
BILLION = 10**9
tally = Tally()


def corners_of(shape):
    """Every place that a shape reaches."""
    if isinstance(shape, Box):
        return [(shape.x, shape.y), (shape.x + shape.wide, shape.y + shape.high)]
    if isinstance(shape, Line):
        return [(shape.x1, shape.y1), (shape.x2, shape.y2)]
    if isinstance(shape, Area):
        return list(shape.corners)
    left, top, right, bottom = shape.box
    return [(left, top), (right, bottom)]


def within(drawing):
    """Shapes that leave the picture, and boxes that are turned inside out."""
    out = [shape for shape in drawing.shapes if any(not (0 <= x <= drawing.wide and 0 <= y <= drawing.high) for x, y in corners_of(shape))]
    return out + [shape for shape in drawing.shapes if isinstance(shape, Box) and (shape.wide < 0 or shape.high < 0)]


def overlaps(drawing):
    """Pairs of texts whose boxes share some place."""
    boxes = sorted((text.box, text.text) for text in drawing.texts())
    found = []
    for i, ((left, top, right, bottom), text) in enumerate(boxes):
        for (other_left, other_top, _, other_bottom), other in boxes[i + 1:]:
            if other_left >= right:
                break
            if top < other_bottom and other_top < bottom:
                found.append((text, other))
    return found


def doubled_area(corners):
    return abs(sum(x1 * y2 - x2 * y1 for (x1, y1), (x2, y2) in zip(corners, corners[1:] + corners[:1])))


def tiling():
    """All groups of a ship: the cells fill the triangle on its foot, and each inner edge belongs to two of them."""
    for across in ((0, 1000, 2600, 3000, 7000), (100, 9300), tuple(range(0, 4001, 200))):
        zones, step = len(across) - 1, 460
        ground = 10_000 + step * zones
        cells = [triangle.Group(first, count, "", 0, True) for first in range(1, zones + 1) for count in range(1, zones - first + 2)]
        outlines = [triangle.corners(cell, across, ground, step) for cell in cells]
        level, width = ground - triangle.FOOT, across[-1] - across[0]
        filled = sum(map(doubled_area, outlines))
        tally.that(filled == 2 * width * triangle.FOOT + width * step * zones, "cells of %d zones fill the triangle" % zones, filled)
        edges = {}
        for outline in outlines:
            for edge in zip(outline, outline[1:] + outline[:1]):
                edges[tuple(sorted(edge))] = edges.get(tuple(sorted(edge)), 0) + 1
        outer = [edge for edge, times in edges.items() if times == 1]
        tally.that(set(edges.values()) <= {1, 2} and len(outer) == 3 * zones + 2, "inner edges of %d zones are shared by two" % zones, len(outer))
        tally.that(all(y <= ground and y >= level - step * zones for outline in outlines for _, y in outline), "no cell is below its foot")


def gauged(name, found):
    """Bars and marks stand where their figures are."""
    drawing = pictures.gauged(found)
    solid = [shape for shape in drawing.shapes if isinstance(shape, Box) and shape.look == "kept"]
    hatched = [shape for shape in drawing.shapes if isinstance(shape, Box) and shape.look == "short"]
    wanted = [pen.scaled(index.ends.lower, BILLION, gauge.LONG) for index in found.indices]
    tally.same([box.wide for box in solid], wanted, name + ": bars are as long as the lower ends")
    marks = sorted(shape.x1 for shape in drawing.shapes if isinstance(shape, Line) and shape.look == "mark" and shape.x1 < gauge.GLASS)
    at = sorted(gauge.LEFT + pen.scaled(index.mark.numerator, index.mark.denominator, gauge.LONG) for index in found.indices)
    tally.same(marks, at, name + ": marks stand at R and its part")
    short = sum(reached < pen.scaled(index.mark.numerator, index.mark.denominator, gauge.LONG) for reached, index in zip(wanted, found.indices))
    tally.that(len(hatched) == short, name + ": what is short is hatched")
    inside = [shape for shape in drawing.shapes if isinstance(shape, Line) and shape.look == "mark" and shape.x1 >= gauge.GLASS]
    tally.that(len(inside) >= sum(index.verdict == engine.UNSETTLED for index in found.indices), name + ": an unsettled mark is under the glass")
    return drawing


def zoned(name, found):
    """Cells are the groups with a share, hollow where they are not listed, shaded by what is kept."""
    drawing = pictures.zoned(found)
    areas = [shape for shape in drawing.shapes if isinstance(shape, Area)]
    groups = pictures.with_share(found)
    looks = ["kept%d" % (min((group.whole.kept or 0) // 20, 4) + 1) if group.listed else "hollow" for group in groups]
    tally.same([area.look for area in areas if area.look.startswith(("kept", "hollow"))], looks, name + ": the cells' shades")
    tally.same(sum(area.look == "worst" for area in areas), len(pictures.worst_groups(found)), name + ": the worst are outlined")
    return drawing


def levelled(name, found):
    """Bars by number of zones are as long as what they show."""
    drawing = pictures.levelled(found)
    counts = [count for count in found.counts if any(group.listed or group.surely for group in count.groups)]
    parts = [(count.whole.adds.lower, count.whole.loss.upper, 10 * count.missing_most) for count in counts]
    longest = max((sum(part) for part in parts), default=1) or 1
    wide = [pen.scaled(amount, longest, bars.LONG) for part in parts for amount in part]
    tally.same([box.wide for box in drawing.shapes if isinstance(box, Box)], [amount for amount in wide if amount], name + ": bars by number of zones")
    return drawing


def sectioned(name, found):
    """The rectangles of a half section, with the water below them, fill the section once."""
    drawn = pictures.sectioned(found, pictures.layout(found.ship))
    for letter, group, drawing in drawn:
        filled = {}
        for box in drawing.shapes:
            if isinstance(box, Box) and box.look != "empty":
                side = (box.x - sections.LEFT) // (sections.WIDE + sections.GAP)
                filled[side] = filled.get(side, 0) + box.wide * box.high
        highest = max(case.row.height for case in group.cases)
        closed = all(case.row.height == highest for case in group.cases if case.row.height >= found.ship.top)
        whole = sections.WIDE * sections.HIGH
        fits = all(area == whole for area in filled.values()) if closed else all(area <= whole for area in filled.values())
        tally.that(fits and len(filled) == 3, name + ": section %s is filled once" % letter, filled, whole)
    return [drawing for _, _, drawing in drawn]


def looked_at(name, data, library):
    found = findings.find(library, casefile.parse(data, name))
    all_of_it = [gauged(name, found), zoned(name, found), levelled(name, found), *sectioned(name, found)]
    for drawing in all_of_it:
        tally.same(within(drawing)[:2], [], "%s: %s lies within its picture" % (name, drawing.name))
        tally.same(overlaps(drawing)[:2], [], "%s: texts of %s keep apart" % (name, drawing.name))
        tally.that(drawing.title and drawing.says, "%s: %s is told in words" % (name, drawing.name))


def small_things():
    tally.same([pen.tenths(number) for number in (0, 10, 15, -15, -20, 7)], ["0", "1", "1.5", "-1.5", "-2", "0.7"], "coordinates as text")
    tally.same(pen.apart([0, 5, 6, 100], 10, 0, 104), [0, 10, 20, 100], "places are pushed apart")
    tally.same(pen.apart([98, 99, 100], 10, 0, 100), [80, 90, 100], "and back from the edge")
    tally.same([triangle.shade(kept) for kept in (0, 19, 20, 79, 80, 100)], [1, 1, 2, 4, 5, 5], "shades by fifths")
    tally.that(pen.width("0.1234", 100) < pen.width("0.1234", 100, True) < 450, "a text's width")
    tally.that(pen.fitted("engine room", 90, 300).endswith("…"), "a text is cut to its room")
    tally.same([pen.fitted("a", 90, 300), pen.fitted("mm", 90, 10)], ["a", ""], "one that fits is whole, one without room is left out")


def main():
    library = engine.load()
    small_things()
    tiling()
    for name, data in seeds.examples():
        looked_at(name, data, library)
    for passengers in (False, True):
        for name, data in seeds.random_files(RANDOM, passengers, most=30, seed="drawn"):
            looked_at(name, data, library)
    return tally.close()


if __name__ == "__main__":
    sys.exit(main())
