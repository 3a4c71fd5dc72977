"""The two tables with three lines a case, built as text: a template would take longer than the engine for so many cells."""

from markupsafe import Markup, escape

from frontdesk.figures.decimals import HEIGHTS, SURVIVALS, cut
from frontdesk.page import wording
from frontdesk.ship import DRAUGHTS, PASSENGER

LINES = "<th scope=row>%s</th>"
OVER = "<td rowspan=3>%s</td>"  # ends stand below each other, so that two tables stand side by side on paper
DASH = "–"


def survival(ten_thousandths):
    return {0: "0", SURVIVALS: "1"}.get(ten_thousandths) or cut(ten_thousandths, 4, SURVIVALS)


def _damage(case, ship, anchor):
    """The first cells of a case, over its three lines."""
    row = case.row
    number = case.number if anchor else '<a href="#case-%d">%d</a>' % (case.number, case.number)
    name = ' <span class=name dir=auto>%s</span>' % escape(row.name) if row.name else ""
    zones = row.first if row.count == 1 else "%d–%d" % (row.first, row.first + row.count - 1)
    half, top = row.depth == ship.half_breadth, row.height == ship.top
    first = '<th scope=rowgroup rowspan=3>%s<br><span class=at>%s</span></th><td rowspan=3 class=zones>%s%s</td>' % (number, row.place or DASH, zones, name)
    return first + OVER % (wording.metres(row.depth) + "<br>B/2" * half) + OVER % (wording.fine_metres(row.height) + "<br>top" * top)


def stacked(texts):
    return "<br>".join(texts)


def of_all(worth):
    """What a case, or all of them, add to A and lose of it: both ends and the loss, one below the other."""
    return Markup(stacked(wording.tenths(end) for end in (worth.adds.lower, worth.adds.upper, worth.loss.upper)))


def outcomes(findings):
    """One body of three lines for each case: its figures as the library has them."""
    parts = []
    for case in findings.cases:
        share = OVER % stacked(map(wording.billionths, case.share))
        parts.append("<tbody id=case-%d><tr>%s%s" % (case.number, _damage(case, findings.ship, True), share))
        for i, (at, draught) in enumerate(zip(case.at, DRAUGHTS)):
            parts.append("<th scope=row>%s</th><td>%s</td><td>%s</td><td>%s</td><td class=why>%s</td><td>%s</td><td>%s</td>" % (
                draught, cut(at.v, 6, HEIGHTS), survival(at.bottom), survival(at.top), ", ".join(at.reasons),
                wording.billionths(at.worth.adds.lower), wording.billionths(at.worth.adds.upper)))
            if i == 0:
                parts.append(OVER % of_all(case.whole))
            parts.append("</tr>" if i == 2 else "</tr><tr>")
        parts.append("</tbody>")
    return Markup("".join(parts))


RESULT = ("lever m", "range deg", "heel deg", "opening m")
FLOODING = ("displacement t", "heeling moment tm", "intermediate lever m", "intermediate range deg", "intermediate heel deg", "ro-ro")


def headings(ship):
    """What the input's table has columns for: only what some row of the ship has."""
    kinds = {row.kind for row in ship.rows}
    found = list(RESULT) if kinds - {3} or not kinds else []
    if 5 in kinds:
        found += ["second " + heading for heading in RESULT]
    if ship.type == PASSENGER:
        found += FLOODING
    return found + (["given survival"] if 3 in kinds else [])


def _result(result):
    return [wording.fine_metres(result.lever), wording.degrees(result.range), wording.degrees(result.heel), wording.opening(result.opening)]


def _flooding(flooding):
    return [wording.grouped(flooding.displacement), wording.grouped(flooding.moment), wording.fine_metres(flooding.lever), wording.degrees(flooding.range),
            wording.degrees(flooding.heel), "yes" if flooding.ro_ro else "no"]


def _entered(row, i, kinds, passenger):
    """What a row has at a draught, nothing where the column is of other rows."""
    cells = []
    if kinds - {3}:
        cells += _result(row.results[i]) if row.results else [""] * 4
    if 5 in kinds:
        cells += _result(row.results[3 + i]) if len(row.results) == 6 else [""] * 4
    if passenger:
        cells += _flooding(row.floodings[i])
    if 3 in kinds:
        cells.append(survival(row.given[i]) if row.given else "")
    return cells


def inputs(findings):
    """One body of three lines for each case: what was entered, in the user's units."""
    ship, parts = findings.ship, []
    kinds, passenger = {row.kind for row in ship.rows}, ship.type == PASSENGER
    for case in findings.cases:
        parts.append("<tbody><tr>" + _damage(case, ship, False))
        for i, draught in enumerate(DRAUGHTS):
            parts.append(LINES % draught + "<td>" + "</td><td>".join(_entered(case.row, i, kinds, passenger)) + ("</td></tr>" if i == 2 else "</td></tr><tr>"))
        parts.append("</tbody>")
    return Markup("".join(parts))
