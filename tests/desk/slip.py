"""Tests the slip of the middle span: docs/ONE-HOLE.md's ship, the desk's exact shares against the proved ends and the second program, and the verdicts."""

import re
import sys
from fractions import Fraction
from pathlib import Path

sys.path.insert(0, str(Path(__file__).resolve().parent))

import seeds  # noqa: E402
from frontdesk.figures import engine, findings, slip  # noqa: E402
from frontdesk.reading import casefile  # noqa: E402
from frontdesk.ship import Ship  # noqa: E402
from independent import reading  # noqa: E402
from independent.regulation import Q, group_share, group_terms, row_share  # noqa: E402
from tally import Tally  # noqa: E402

RANDOM = 60  # ships of each type
BILLION = 10**9
tally = Tally()
library = engine.load()


def small_ship():
    """The table of docs/ONE-HOLE.md: its ship's groups with the middle put back, and with it left out."""
    text = (seeds.ROOT / "docs/ONE-HOLE.md").read_text(encoding="utf-8")
    lines = re.findall(r"^\| (1|2|3|1 and 2|2 and 3|1, 2 and 3|together) \| ([^|]*) \| (-?\d+) \| [^|]* \|$", text, re.M)
    tally.same([line[0] for line in lines], ["1", "2", "3", "1 and 2", "2 and 3", "1, 2 and 3", "together"], "the page's table")
    page = {tuple(map(int, re.findall(r"\d", zones))): (int(re.findall(r"-?\d+", right)[-1]), int(slipped)) for zones, right, slipped in lines}
    ship = Ship("cargo", 9900, 1600, 6000, 4000, (3000, 6000), ())
    found = slip.slip(findings.find(library, ship))
    for one in found.groups:
        zones = tuple(range(one.group.first, one.group.first + one.group.count))
        tally.same((one.right * 297, one.slipped * 297), page[zones], "zones %s of the page's ship" % (zones,))
    tally.same((sum(one.right for one in found.groups) * 297, found.total * 297), page[()], "the page's ship together")
    tally.same((found.total, found.groups[2].slipped), (Fraction(227, 297), Fraction(-70, 297)), "the page's ship in figures")
    tally.same(found.total_held, 1, "the page's ship with the negative share held at 0")


def without_middle(hull, row):
    """A row's share by the second program's terms, the middle span left out."""
    terms = group_terms(hull.zones, row.a, row.n)[:3]
    return sum((sign * (Q(span, row.b, hull.L, hull.B) - (Q(span, row.b_before, hull.L, hull.B) if row.b_before else 0)) for sign, span in terms), Fraction(0))


def index(case, found, share, held=False):
    """A's ends with these shares of the rows, by the second program's figures and the library's v and survival."""
    ends = [Fraction(0), Fraction(0)]
    for row, mine in zip(case.rows, found.cases):
        part = share(case.hull, row)
        part = max(part, Fraction(0)) if held else part
        for at, weight in zip(mine.at, (2, 2, 1)):
            both = [part * at.v * s * weight / 5 / 916_500 / 10_000 for s in (at.bottom, at.top)]
            ends[0] += min(both)
            ends[1] += max(both)
    return tuple(ends)


def against(name, data):
    """The desk's own shares are the second program's, and lie between the proved ends; so does the index without the slip."""
    ship = casefile.parse(data, name)
    found = findings.find(library, ship)
    slipped, case = slip.slip(found), reading(data)
    outside = [one.group.name for one in slipped.groups if not one.group.share.lower <= one.right * BILLION <= one.group.share.upper]
    tally.same(outside, [], name + ": exact shares between the proved ends")
    others = [one.group.name for one in slipped.groups if one.right != group_share(case.hull, one.group.first, one.group.count)]
    tally.same(others, [], name + ": shares of the second program")
    tally.that(slipped.agrees, name + ": the index without the slip lies within the proved ends")
    tally.same(slipped.right.ends[0], index(case, found, row_share), name + ": A without the slip")
    tally.same(slipped.as_it_comes.ends[0], index(case, found, without_middle), name + ": A with the slip")
    tally.same(slipped.held.ends[0], index(case, found, without_middle, held=True), name + ": A with the slip, held at 0")
    ordered = zip(slipped.as_it_comes.ends, slipped.held.ends, slipped.right.ends)
    tally.that(all(one[end] <= two[end] <= three[end] for one, two, three in ordered for end in (0, 1)), name + ": the slip never adds")
    tally.that(all((one.slipped < one.right) == (one.group.count >= 3) for one in slipped.groups), name + ": three and more zones lose")
    return slipped


def main():
    small_ship()
    told = {name: against(name, data) for name, data in seeds.examples()}
    for passengers in (False, True):
        for name, data in seeds.random_files(RANDOM, passengers, most=30, seed="slip"):
            against(name, data)
    wanted = {
        "printed": "No: the ship meets, with the slip and without it.",
        "night-ferry": "Yes: with the slip the ship fails. The proved verdict is that it meets.",
        "night-ferry-2020": "No: the ship fails, with the slip and without it.",
        "coaster": "It depends on what was done with chances below zero: taken as they come out, the ship fails; held at 0, it meets. "
                   "The proved verdict is that it meets.",
        "reefer": "Yes: with the slip the ship fails. The proved verdict is that it is unsettled.",
    }
    for name, answer in wanted.items():
        tally.same(told[name].answer, answer, name + ": was it among them?")
    tally.same(told["printed"].total, 1, "two zones lose nothing")
    tally.that("No figure of this section is proved" in slip.NOT_PROVED and len(slip.HOW) == 3, "what it says of itself")
    return tally.close()


if __name__ == "__main__":
    sys.exit(main())
