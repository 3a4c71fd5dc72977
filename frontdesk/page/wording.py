"""Findings in words: the verdict's sentence, a group's zones, how far a damage reaches, why a survival is below one."""

import re
from fractions import Fraction

from markupsafe import Markup, escape

from frontdesk.figures import reasons
from frontdesk.figures.decimals import BILLION, cut, exact, lifted, text_of
from frontdesk.figures.engine import FAILS, MEETS, UNSETTLED
from frontdesk.ship import NO_OPENING, PASSENGER, RULES

VERDICTS = {MEETS: ("meets", "Meets the required index"), FAILS: ("fails", "Does not meet the required index"), UNSETTLED: ("open", "Unsettled")}
SHORT = {MEETS: "meets", FAILS: "fails", UNSETTLED: "unsettled"}
LETTERS = {"A": ("A", ""), "As": ("A", "s"), "Ap": ("A", "p"), "Al": ("A", "l")}
PLACES = 6  # of a figure in a sentence
VERDICT_CHECK = "the ends against R and the marks"  # the one check whose figures are verdicts


def metres(cm):
    return exact(cm, 2, 100)


def fine_metres(mm):
    """Millimetres, and tenths of them where the partial draught has such, in metres."""
    mm = Fraction(mm)
    return exact(mm, 3 if mm.denominator == 1 else 4, 1000)


def degrees(hundredths):
    return exact(hundredths, 2, 100)


def billionths(count):
    return text_of(count, 9)


def tenths(count):
    """Tenths of billionths, in which what a case adds to A is exact."""
    return text_of(count, 10)


def most(count, places=PLACES):
    return lifted(count, places, 10 * BILLION)


def least(count, places=PLACES):
    return cut(count, places, 10 * BILLION)


def grouped(number):
    """A count with its thousands apart."""
    return "{:,}".format(number)


def counted(number, what):
    return "%s %s%s" % (grouped(number), what, "" if number == 1 else "s")


def going_on(fraction, places=9):
    """A fraction as a decimal that is cut off, with a sign where more follows."""
    return cut(fraction, places) + ("" if (fraction * 10**places).denominator == 1 else "…")


def mark_name(ship):
    return "0.9 R" if ship.type == PASSENGER else "R/2"


def rule_name(ship):
    if ship.type != PASSENGER:
        return "cargo ship"
    return "passenger ship, %s" % ("rule of 2020" if RULES[ship.rule] == "2020" else "earlier rule")


def zones_of(first, count):
    return "Zone %d" % first if count == 1 else "Zones %d\u2013%d" % (first, first + count - 1)


def zone_names(ship, first, count):
    """The names of a group's zones, each once where neighbours share it."""
    names = []
    for name in ship.zone_names[first - 1:first - 1 + count]:
        if name and name not in names[-1:]:
            names.append(name)
    return ", ".join(names)


def split_ends(lower, upper):
    """Both ends as text, and how many characters of their front are the same."""
    pair = billionths(lower), billionths(upper)
    same = next((i for i, (a, b) in enumerate(zip(*pair)) if a != b), len(pair[0]))
    return [(text[:same], text[same:]) for text in pair]


def mark_at_most(index):
    return lifted(index.mark, PLACES)


def mark_at_least(index):
    return cut(index.mark, PLACES)


def sentence(findings):
    """What the verdict rests on, as (symbol, subscript, text) pieces: symbols are set apart by the page."""
    verdict = findings.verdict
    if verdict == MEETS:
        whole, *parts = findings.indices
        tightest = min(parts, key=lambda index: index.ends.lower)
        return [
            "A is at least %s and must reach R, which is at most %s: it is above by at least %s."
            % (cut(whole.ends.lower, PLACES, BILLION), mark_at_most(whole), whole.margin_text(PLACES)),
            "Each partial index must reach %s, at most %s; the least of them, at the %s draught, is at least %s."
            % (mark_name(findings.ship), mark_at_most(tightest), tightest.draught, cut(tightest.ends.lower, PLACES, BILLION)),
        ]
    if verdict == FAILS:
        short = [index for index in findings.indices if index.verdict == FAILS]
        return [_short(index, findings.ship) for index in short] + _rest(findings, short)
    return [_open(index, findings.ship) for index in findings.indices if index.verdict == UNSETTLED] + [
        "The proved ends do not decide it: take it as not shown. More survival in the cases that lose most may settle it. On which side it lies now, "
        "a second program that is not proved can tell (see “Do it again”)."
    ]


def called(index, ship):
    """The index and its mark, by name."""
    if not index.draught:
        return "A", "R"
    return "%s, the partial index at the %s draught," % (index.name, index.draught), mark_name(ship)


def _short(index, ship):
    name, mark = called(index, ship)
    return "%s is at most %s and must reach %s, which is at least %s: it is short by at least %s." % (
        name, lifted(index.ends.upper, PLACES, BILLION), mark, mark_at_least(index), index.margin_text(PLACES).lstrip("-"))


def _rest(findings, short):
    good = [index.name for index in findings.indices if index.verdict == MEETS]
    if not good:
        return []
    names = good[0] if len(good) == 1 else "%s and %s" % (", ".join(good[:-1]), good[-1])
    return ["%s %s what is asked." % (names, "reaches" if len(good) == 1 else "reach")]


def _open(index, ship):
    name, mark = called(index, ship)
    return "%s lies between %s and %s, and %s, %s, lies between these two ends." % (
        name, billionths(index.ends.lower), billionths(index.ends.upper), mark, going_on(index.mark))


def extent(inner, row, below, ship):
    """How far in and how high the damages of a row reach."""
    if row.depth == ship.half_breadth:
        deep = "to the centre line" if not inner else "deeper than %s m" % metres(inner)
    else:
        deep = "up to %s m in" % metres(row.depth) if not inner else "%s to %s m in" % (metres(inner), metres(row.depth))
    if row.height >= ship.top:
        high = "over the whole height" if not below else "above %s m" % fine_metres(below)
    else:
        high = "up to %s m high" % fine_metres(row.height) if not below else "%s to %s m high" % (fine_metres(below), fine_metres(row.height))
    return ("%s, %s" % (deep, high)).replace(" m", "\u00a0m")


def why(case, i):
    """What holds the survival down at a draught, with what was entered where the row has one result there."""
    at, row = case.at[i], case.row
    if not at.reasons:
        return "nothing is missing" if at.v else "no damage ends there"
    if row.kind not in (2, 7):
        return reasons.told(at.reasons, row, i)
    result = row.results[i]
    if result.lever == 0 and result.range == 0:
        return "no righting lever is left" + (", opening immersed" if reasons.OPENING in at.reasons else "")
    entered = {
        reasons.LEVER: "lever %s m, " % fine_metres(result.lever), reasons.RANGE: "range %s°, " % degrees(result.range),
        reasons.HEEL: "heel %s°, " % degrees(result.heel), reasons.OPENING: "opening %s m, " % fine_metres(result.opening),
    }
    told = {reasons.OPENING: "immersed"}
    return "; ".join(
        entered.get(reason, "") + (told.get(reason) or reasons.words(reason, row, i).split(" ", 1)[1].replace(" degrees", "°") if reason in entered
                                   else reasons.words(reason, row, i))
        for reason in at.reasons
    )


def opening(mm):
    return "none" if mm == NO_OPENING else fine_metres(mm)


def place_name(ship):
    """What the user counts a row by."""
    return "line" if ship.source.form == "case file" else "row"


def checked(check):
    """Both figures of a closing check as text: ends as decimals, a verdict in words, counts as they are."""
    if isinstance(check.summed, tuple):
        return [" to ".join(map(billionths, value)) if isinstance(value, tuple) else billionths(value) for value in (check.summed, check.proved)]
    if check.what == VERDICT_CHECK:
        return [SHORT.get(value, str(value)) for value in (check.summed, check.proved)]
    return [grouped(check.summed), grouped(check.proved)]


SYMBOL = re.compile(r"\b(A(?=[spl]?\b)|R\b|L(?=s\b))([spl]?)\b")


def symbols(text):
    """A sentence of the desk's own with its letters as the trade sets them."""
    return Markup(SYMBOL.sub(lambda found: "<i>%s%s</i>" % (found[1], "<sub>%s</sub>" % found[2] if found[2] else ""), str(escape(text))))
