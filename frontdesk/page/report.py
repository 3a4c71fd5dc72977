"""The report: findings to one HTML page with its drawings and style inside, and the page for what cannot be read."""

from functools import lru_cache
from pathlib import Path

from jinja2 import Environment, FileSystemLoader, StrictUndefined

from frontdesk.figures import reasons
from frontdesk.figures.decimals import cut, lifted, nearer
from frontdesk.figures.slip import HOW, NOT_PROVED
from frontdesk.page import longtables, pictures, wording
from frontdesk.page.drawings.pen import Area, Box, Line, Text, tenths
from frontdesk.ship import DRAUGHTS, PASSENGER

TEMPLATES = Path(__file__).resolve().parent / "templates"
LOSSES = 15  # cases in the list of where the index is lost
SHAPES = {Area: "area", Box: "box", Line: "line", Text: "text"}


@lru_cache(maxsize=1)
def environment():
    made = Environment(loader=FileSystemLoader(TEMPLATES), autoescape=True, undefined=StrictUndefined, trim_blocks=True, lstrip_blocks=True)
    made.filters.update(
        billionths=wording.billionths, tenths=wording.tenths, most=wording.most, least=wording.least, metres=wording.metres,
        fine_metres=wording.fine_metres, grouped=wording.grouped, symbols=wording.symbols, counted=wording.counted, going_on=wording.going_on,
        place=tenths, shape=lambda shape: SHAPES[type(shape)],
        floor=lambda fraction: signed(cut(fraction, 9)), ceiling=lambda fraction: signed(lifted(fraction, 9)),
        cut_off=lambda fraction: signed(nearer(fraction, 9)),
    )
    made.globals.update(wording=wording, draughts=DRAUGHTS, style=(TEMPLATES / "style.css").read_text())
    return made


def signed(text):
    """A number below zero with the sign that print has for it."""
    return text.replace("-", "\u2212")


def page(findings, doubts=(), slip=None):
    """The whole report as HTML."""
    ship = findings.ship
    begins = pictures.layout(ship)
    look, headline = wording.VERDICTS[findings.verdict]
    if not findings.agrees:
        look, headline = "fails", "The page's sums do not agree with the library"
    return environment().get_template("page.html").render(
        findings=findings, ship=ship, doubts=list(doubts), slip=slip, look=look, headline=headline, passenger=ship.type == PASSENGER,
        title=ship.name or ship.source.file or "Ship without a name", place=wording.place_name(ship), short=wording.SHORT,
        gauge=pictures.gauged(findings), zones=pictures.zoned(findings) if findings.groups else None, levels=pictures.levelled(findings),
        sections=pictures.sectioned(findings, begins), losses=losses(findings, begins), causes=causes(findings), lost_in_all=findings.total.whole.loss.upper,
        outcomes=longtables.outcomes(findings), all_added=longtables.of_all(findings.total.whole), inputs=longtables.inputs(findings),
        entered_headings=longtables.headings(ship),
        counts=[count for count in findings.counts if any(group.listed or group.surely for group in count.groups)], shown=pictures.with_share(findings),
        missing=missing(findings), doubtful=[group for group in findings.missing if not group.surely],
        slip_said={"not_proved": NOT_PROVED, "how": HOW},
    )


def refusal_page(name, messages):
    """The page for the browser where nothing can be shown: what is wrong, in the words of the command line."""
    return environment().get_template("refusal.html").render(title=name or "No name", messages=[str(message) for message in messages])


def losses(findings, begins):
    """The cases that lose most, each with its three draughts in words and the running total of what is lost at most."""
    worst, running, listed = findings.worst[:LOSSES], 0, []
    greatest = max((4 * case.at[i].worth.loss.upper if i < 2 else 2 * case.at[i].worth.loss.upper for case in worst for i in range(3)), default=0)
    for rank, case in enumerate(worst, 1):
        running += case.whole.loss.upper
        inner, below = begins[case.number - 1]
        lines = []
        for i, weight in enumerate((4, 4, 2)):
            at = case.at[i]
            lost = weight * at.worth.loss.upper
            lines.append({"draught": DRAUGHTS[i], "bottom": longtables.survival(at.bottom), "why": wording.why(case, i), "lost": lost,
                          "bar": lost * 1000 // greatest if greatest else 0})
        listed.append({"rank": rank, "case": case, "extent": wording.extent(inner, case.row, below, findings.ship), "lines": lines, "running": running})
    return listed


def missing(findings):
    """Groups that surely have a share and are not listed, by number of zones."""
    by_count = {}
    for group in findings.missing:
        if group.surely:
            by_count.setdefault(group.count, []).append(group)
    return [{"count": count, "groups": groups, "most": sum(group.share.upper for group in groups)} for count, groups in sorted(by_count.items())]


def causes(findings):
    """What is lost by each reason or reasons together, in words."""
    greatest = max((cause.loss.upper for cause in findings.causes), default=0)
    return [
        {"words": "; ".join(reasons.in_general(reason, findings.ship) for reason in cause.reasons), "cause": cause, "bar": cause.loss.upper * 1000 // greatest}
        for cause in findings.causes
    ]
