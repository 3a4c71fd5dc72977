"""From findings to the plain numbers that the drawings are made of."""

from frontdesk.figures.decimals import BILLION, cut
from frontdesk.figures.engine import FAILS, MEETS
from frontdesk.page import wording
from frontdesk.page.drawings import bars, gauge, sections, triangle, views
from frontdesk.ship import DRAUGHTS

WORST = 3  # groups with a letter in the zone diagram and a half section
RANKS = "abc"


def gauged(findings):
    names = {MEETS: "lies below both ends", FAILS: "lies above both ends"}
    entries = []
    for index in findings.indices:
        mark = "R" if not index.draught else wording.mark_name(findings.ship)
        compared = "%s %s" % (mark, names.get(index.verdict, "lies between them"))
        fraction = index.mark.numerator, index.mark.denominator
        entries.append((*wording.LETTERS[index.name], index.draught or "all three", *index.ends, fraction, mark, compared))
    return gauge.drawn(entries, wording.billionths)


def layout(ship):
    """For each row of the ship the layer before it and the height below it: where its damages begin."""
    begins, group, layer, inner, below = [], None, None, 0, 0
    for row in ship.rows:
        if (row.first, row.count) != group:
            group, layer, inner, below = (row.first, row.count), row.depth, 0, 0
        elif row.depth != layer:
            inner, layer, below = layer, row.depth, 0
        begins.append((inner, below))
        below = row.height
    return begins


def worst_groups(findings):
    """The groups that lose most, none that loses nothing."""
    losing = [group for group in findings.groups if group.listed and group.whole.loss.upper]
    return sorted(losing, key=lambda group: (-group.whole.loss.lower, -group.whole.loss.upper, group.first, group.count))[:WORST]


def with_share(findings):
    """Groups that are listed or surely have a share. Of the others the upper end is some billionths or 0, and they may have none."""
    return [group for group in findings.groups if group.listed or group.surely]


def thousandths(ends):
    """A share as a drawing has it: at least so many thousandths."""
    return "<0.1" if ends.lower < BILLION // 10_000 else cut(ends.lower, 1, BILLION // 1000)


def zoned(findings):
    ship = findings.ship
    ranks = {(group.first, group.count): RANKS[i] for i, group in enumerate(worst_groups(findings))}
    cells, shown = [], with_share(findings)
    for group in shown:
        kept = group.whole.kept or 0
        share = "share at least %s" % wording.billionths(group.share.lower)
        tip = "%s: %s, %s" % (wording.zones_of(group.first, group.count), share, "at least %d%% survives" % kept if group.listed else "not listed")
        cells.append(triangle.Group(group.first, group.count, thousandths(group.share), kept, group.listed, ranks.get((group.first, group.count), ""), tip))
    levels = []
    for count in findings.counts:
        if any(group.listed or group.surely for group in count.groups):
            kept = count.kept
            levels.append(triangle.Level(count.zones, thousandths(count.share), "%d%% survives" % kept if count.listed and kept is not None else "not listed"))
    drawing = triangle.drawn(ship.places, cells, levels, _views(findings), ship.zone_names)
    drawing.says = _zones_said(findings, shown)
    return drawing


def _zones_said(findings, shown):
    listed = sum(group.listed for group in shown)
    worst = worst_groups(findings)
    told = "Groups of zones that are listed: %d; that have a share of the damage and are not: %d." % (listed, len(shown) - listed)
    if worst:
        told += " Most is lost in " + ", ".join("%s: %s" % (letter, wording.zones_of(g.first, g.count)) for letter, g in zip(RANKS, worst)) + "."
    return told + " The table below has every figure of the drawing."


def _views(findings):
    ship = findings.ship
    heights, layers = [set() for _ in range(ship.zones)], [set() for _ in range(ship.zones)]
    for row in ship.rows:
        if row.count == 1:
            if row.height < ship.top:
                heights[row.first - 1].add(row.height)
            if row.depth < ship.half_breadth:
                layers[row.first - 1].add(row.depth)
    return views.Views(
        tuple(tuple((height, wording.fine_metres(height)) for height in sorted(zone)) for zone in heights), (ship.top, wording.fine_metres(ship.top)),
        tuple(tuple((depth, wording.metres(depth)) for depth in sorted(zone)) for zone in layers), (ship.half_breadth, wording.metres(ship.half_breadth)),
        tuple((name, int(draught), wording.fine_metres(draught)) for name, draught in zip(DRAUGHTS, ship.draughts)),
        tuple(wording.metres(place) for place in ship.places),
    )


def levelled(findings):
    entries = []
    for count in findings.counts:
        if not any(group.listed or group.surely for group in count.groups):
            continue
        worth, missing = count.whole, 10 * count.missing_most
        parts = []
        if count.listed:
            parts.append("%d%% survives" % (worth.kept or 0))
            parts.append("at most %s lost" % wording.most(worth.loss.upper))
        if missing:
            parts.append("%s not listed" % wording.most(missing))
        kept = worth.adds.lower
        entries.append(bars.Bar("1 zone" if count.zones == 1 else "%d zones" % count.zones, kept, worth.loss.upper, missing, ", ".join(parts)))
    return bars.drawn(entries)


def sectioned(findings, begins):
    """A half section for each of the groups that lose most."""
    ship, drawn = findings.ship, []
    draughts = [(name, int(draught), wording.fine_metres(draught)) for name, draught in zip(DRAUGHTS, ship.draughts)]
    for letter, group in zip(RANKS, worst_groups(findings)):
        texts, cases = {("b", ship.half_breadth): wording.metres(ship.half_breadth)}, []
        for case in group.cases:
            row, (inner, below) = case.row, begins[case.number - 1]
            texts["b", row.depth], texts["H", row.height] = wording.metres(row.depth), wording.fine_metres(row.height)
            kept = tuple(at.bottom for at in case.at)
            tip = "Case %d, %s: s at least %s" % (case.number, wording.extent(inner, row, below, ship), ", ".join(cut(s, 4, 10_000) for s in kept))
            cases.append(sections.Case(inner, row.depth, below, row.height, kept, tuple(_survival(s) for s in kept), tip))
        title = "Half sections of %s at the three draughts" % wording.zones_of(group.first, group.count).lower()
        drawing = sections.drawn("section-" + letter, title, cases, ship.half_breadth, draughts, texts)
        drawing.says = "; ".join("case %d, %s" % (case.number, told.tip.split(", ", 1)[1]) for case, told in zip(group.cases, cases)) + "."
        drawn.append((letter, group, drawing))
    return drawn


def _survival(bottom):
    """A survival as a drawing has it: cut to hundredths."""
    return "1" if bottom == 10_000 else "0" if bottom == 0 else cut(bottom, 2, 10_000)
