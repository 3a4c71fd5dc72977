"""Holds every figure of the report's tables against the library itself, for the examples and random ships, and what the page says in each state."""

import hashlib
import re
import sys
import time
from dataclasses import replace
from fractions import Fraction
from pathlib import Path

sys.path.insert(0, str(Path(__file__).resolve().parent))

import pages  # noqa: E402
import seeds  # noqa: E402
from frontdesk.doubts import Doubt  # noqa: E402
from frontdesk.figures import engine, findings, slip, twin  # noqa: E402
from frontdesk.page import report  # noqa: E402
from frontdesk.reading import casefile  # noqa: E402
from frontdesk.ship import DRAUGHTS, Flooding, Result, Source  # noqa: E402
from independent.casefile import Result as Second, Stage  # noqa: E402
from independent.regulation import passenger_s_fourth  # noqa: E402
from independent.rounding import survival_ends  # noqa: E402
from pages import whole  # noqa: E402
from tally import Tally  # noqa: E402

RANDOM = 200  # ships of each type
BILLION = 10**9
WORDS = {1: "meets", 2: "fails", 3: "unsettled"}
HEADLINES = {1: "Meets the required index", 2: "Does not meet the required index", 3: "Unsettled"}
MARKS = ((1, "lever"), (2, "range"), (4, "heel"), (8, "opening"))
tally = Tally()
library = engine.load()


class Told:
    """What the library itself answers for a file and for its twin."""

    def __init__(self, data, ship):
        self.figures, self.rows, self.required, self.groups = library.figures(data), library.rows(data), library.required(data), library.groups(data)
        most = casefile.write(twin.twin(ship))
        self.could, self.could_figures = library.rows(most), library.figures(most)

    def losses(self, number):
        """At most lost of A by a case, in tenths of billionths."""
        row, could = self.rows[number], self.could[number]
        return sum(weight * (could[at + 5] - row[at + 4]) for weight, at in ((4, 2), (4, 8), (2, 14)) if row[at + 1] != 10_000)


def survival(text):
    return {"0": 0, "1": 10_000}.get(text) if text in ("0", "1") else whole(text, 4)


def indices(root, told):
    """The table of the four indices."""
    wrong = []
    marks = [Fraction(*told.required[:2])] + [Fraction(*told.required[2:])] * 3
    for i, (line, mark) in enumerate(zip(pages.table(root, "The indices against their marks"), marks)):
        lower, upper = told.figures[4 + 2 * i:6 + 2 * i]
        verdict = 1 if lower >= mark * BILLION else 2 if upper < mark * BILLION else 3
        if [whole(line[2], 9), whole(line[3], 9)] != [lower, upper] or whole(line[5].rstrip("…"), 9) != mark * BILLION // 1:
            wrong.append("ends or mark %r" % line)
        if line[5].endswith("…") != ((mark * BILLION).denominator != 1) or line[7] != WORDS[verdict]:
            wrong.append("result %r" % line)
        if verdict == 3:
            wrong += [] if line[6] == "–" else ["margin %r" % line]
            continue
        short = Fraction(lower if verdict == 1 else upper, BILLION) - mark
        if whole(line[6], 6) != (short * 10**6 // 1 if short >= 0 else -(-short * 10**6 // 1)):
            wrong.append("margin %r" % line)
    return wrong


def held_down(row, i, marked):
    """What holds a survival below one down; of a passenger ship by the second program, in exact fourth powers cut as the library cuts them."""
    if not row.floodings:
        return marked
    result, stage = Second(*row.results[i]), Stage(*row.floodings[i])
    now, upright, unmoved = (survival_ends(passenger_s_fourth(*two)) for two in (
        (result, stage), (Second(5_000, 9_000, 0, 30_000), stage), (result, Stage(300_000, 1, 5_000, 9_000, 0, stage.roro))))
    staged = unmoved != now
    marked = marked if upright != now or not staged else []
    return marked + ["stage"] if staged or not marked else marked


def stages():
    """A lever that is a millimetre short does not hold down what a far worse intermediate stage does, and the other way round."""
    ferry = casefile.parse(dict(seeds.examples())["ferry"])
    short, poor = Result(119, 2_000, 300, 500), Result(10, 2_000, 300, 500)
    good, weak, heavy = Flooding(10_000, 1, 100, 2_000, 0, False), Flooding(10_000, 1, 5, 100, 0, False), Flooding(100, 2_000, 100, 2_000, 0, False)
    for result, flooding, wanted in (short, weak, ("stage",)), (short, good, ("lever",)), (poor, good, ("lever",)), (short, heavy, ("lever", "stage")):
        ship = replace(ferry, rows=(replace(ferry.rows[0], height=ferry.top, results=(result,) * 3, floodings=(flooding,) * 3),))
        found = findings.find(library, ship)
        tally.same([at.reasons for at in found.cases[0].at], [wanted] * 3, "what holds a passenger ship's survival down")


def cases(root, told, ship):
    """The long table: twenty numbers of the library in three lines a case, what they add to A, and the sums at the foot."""
    lines = pages.table(root, "All cases") or []
    wrong, adds = [], [0, 0, 0]
    for number, row in enumerate(told.rows):
        given, whole_row = bool(ship.rows[number].given), lines[3 * number:3 * number + 3]
        weighed = [sum(weight * row[at] for weight, at in ((4, 6 + end), (4, 12 + end), (2, 18 + end))) for end in (0, 1)] + [told.losses(number)]
        adds = [a + b for a, b in zip(adds, weighed)]
        for i, line in enumerate(whole_row):
            v, bottom, top, marks, low, high = row[2 + 6 * i:8 + 6 * i]
            held = [] if bottom == 10_000 else ["given"] if given else held_down(ship.rows[number], i, [name for mark, name in MARKS if marks & mark])
            found = [*map(int, line[0].split()), *(whole(text, 9) for text in line[4].split()), line[5], whole(line[6], 6), *map(survival, line[7:9]), line[9]]
            if found != [number + 1, ship.rows[number].place, *row[:2], DRAUGHTS[i], v * 10**6 // 916_500, bottom, top, ", ".join(held)]:
                wrong.append("case %d %r" % (number + 1, line))
            if [whole(line[10], 9), whole(line[11], 9)] != [low, high] or [whole(text, 10) for text in line[12].split()] != weighed:
                wrong.append("case %d adds %r" % (number + 1, line))
    if lines and [whole(text, 10) for text in lines[-1][-1].split()] != adds:
        wrong.append("foot %r" % lines[-1])
    if len(lines) != (3 * len(told.rows) + 1 if told.rows else 0):
        wrong.append("%d lines" % len(lines))
    return wrong


def groups(root, told, ship):
    """The zone groups, those that are missing, and the chance that is listed."""
    keys = [(first, count) for first in range(1, ship.zones + 1) for count in range(1, ship.zones - first + 2)]
    listed = {(row.first, row.count) for row in ship.rows}
    shares, wrong = dict(zip(keys, told.groups)), []
    names = {"%d–%d" % (first, first + count - 1) if count > 1 else str(first): (first, count) for first, count in keys}
    shown = pages.table(root, "Figures of the zone groups")
    for line in shown:
        key = names[line[0]]
        ends = tuple(whole(text, 9) for text in line[-6:-4])
        if ends != tuple(shares[key]) or (line[-7] == "not listed") == (key in listed):
            wrong.append("group %r" % line)
        if key in listed:
            wrong += group_sums(line, key, told, ship)
    if {names[line[0]] for line in shown} != {key for key in keys if key in listed or shares[key][0]}:
        wrong.append("other groups are shown")
    absent = {key for key in keys if key not in listed and shares[key][0]}
    told_missing = pages.table(root, "Groups that are not listed") or ()
    named = {text: part for line in told_missing for text, part in re.findall(r"(\d+(?:–\d+)?) (\d\.\d{6})", line[1])}
    if {names[name]: whole(part, 6) for name, part in named.items()} != {key: -(-shares[key][1] // 1000) for key in absent}:
        wrong.append("missing groups %r" % named)
    foot = pages.table(root, "Sums by number of zones")[-1]
    if (0 if foot[-1] == "–" else whole(foot[-1], 9)) != sum(share[1] for key, share in shares.items() if key not in listed):
        wrong.append("could be added %r" % foot)
    for i, line in enumerate(pages.table(root, "Chance listed at each draught")):
        if [whole(text, 9) for text in line[1:]] != list(told.could_figures[6 + 2 * i:8 + 2 * i]):
            wrong.append("chance listed %r" % line)
    return wrong


def group_sums(line, key, told, ship):
    rows = [number for number, row in enumerate(ship.rows) if (row.first, row.count) == key]
    low, high = (sum(weight * told.rows[number][at] for number in rows for weight, at in ((4, 6 + end), (4, 12 + end), (2, 18 + end))) for end in (0, 1))
    chance = sum(weight * told.could[number][at] for number in rows for weight, at in ((4, 7), (4, 13), (2, 19)))
    lost = sum(told.losses(number) for number in rows)
    kept = 100 if chance and not lost else 100 * low // chance if chance else 0
    found = [whole(text, 10) for text in line[-4:-1]] + [int(line[-1].removesuffix(" %"))]
    return [] if found == [low, high, lost, kept] and int(line[-7]) == len(rows) else ["sums of group %r" % line]


def lost(root, told):
    """The list of losses: sorted, each as the library has it, the running total and the sum by reasons."""
    lines, wrong, running, before = pages.table(root, "Cases that lose most") or [], [], 0, None
    for at in range(0, len(lines), 3):
        line = lines[at]
        number = int(re.search(r"case (\d+)", line[1])[1]) - 1
        loss = told.losses(number)
        running += loss
        if [whole(line[7], 6), whole(line[8], 6)] != [-(-loss // 10_000), -(-running // 10_000)]:
            wrong.append("loss %r" % line)
        row, could = told.rows[number], told.could[number]
        least = sum(weight * max(could[k + 4] - row[k + 5], 0) for weight, k in ((4, 2), (4, 8), (2, 14)) if row[k + 1] != 10_000)
        if before is not None and least > before:
            wrong.append("not sorted %r" % line)
        before = least
        for i, (weight, k) in enumerate(((4, 2), (4, 8), (2, 14))):
            part = 0 if row[k + 1] == 10_000 else weight * (could[k + 5] - row[k + 4])
            if survival(lines[at + i][3]) != row[k + 1] or whole(lines[at + i][5], 6) != -(-part // 10_000):
                wrong.append("loss at a draught %r" % lines[at + i])
    total = sum(told.losses(number) for number in range(len(told.rows)))
    reasons = pages.table(root, "Losses by reason")
    if (reasons is None) != (total == 0) or (reasons and whole(reasons[-1][2], 6) != -(-total // 10_000)):
        wrong.append("sum by reasons")
    if reasons and not 0 <= sum(whole(line[2], 6) for line in reasons[:-1]) - whole(reasons[-1][2], 6) < len(reasons):
        wrong.append("reasons do not add up")
    return wrong


def entered(root, ship):
    """The input's echo, read back into whole units."""
    lines, wrong = pages.table(root, "The cases as entered") or [], []
    for number, row in enumerate(ship.rows):
        for i, line in enumerate(lines[3 * number:3 * number + 3]):
            cells = [text for text in line[5:] if text]
            numbers = [whole(text.replace(",", ""), places) if text != "none" else 30_000 for text, places in zip(cells, places_of(row))]
            results = [number for result in row.results[i::3] for number in result]
            wanted = results + ([*row.floodings[i][:5]] if row.floodings else []) + ([row.given[i]] if row.given else [])
            if row.given:
                numbers = [survival(cells[0])]
            ro_ro = cells[-1] if row.floodings else None
            zones = str(row.first) if row.count == 1 else "%d–%d" % (row.first, row.first + row.count - 1)
            where = [line[1].split()[0], whole(line[2].split()[0], 2), whole(line[3].split()[0], 3)]
            if numbers != wanted or where != [zones, row.depth, row.height] or ro_ro not in (None, "yes" if row.floodings and row.floodings[i].ro_ro else "no"):
                wrong.append("entered %r" % line)
    zones = [[whole(text, 2) for text in line[-2:]] for line in pages.table(root, "The zones as entered")]
    return wrong + ([] if zones == [list(pair) for pair in zip(ship.places, ship.places[1:])] else ["zones"])


def places_of(row):
    """How many places the numbers of a row are shown with."""
    result = (3, 2, 2, 3)
    return result * (len(row.results) // 3) + ((0, 0, 3, 2, 2) if row.floodings else ())


def ship_page(name, data):
    """One ship's page against the library."""
    ship = casefile.parse(data, name + ".case")
    found = findings.find(library, ship)
    page = report.page(found)
    root, told = pages.read(page, drawings=False), Told(data, ship)
    wrong = root.wrong + indices(root, told) + cases(root, told, ship) + groups(root, told, ship) + lost(root, told) + entered(root, ship)
    verdict = next(element for element in root.all("h2") if element.get("id") == "verdict").text.strip()
    if verdict != HEADLINES[told.figures[2]]:
        wrong.append("headline " + verdict)
    texts = [code.text for code in root.all("code")]
    if hashlib.sha256(data).hexdigest() not in page or data.decode() not in texts or "version " + library.version not in root.text:
        wrong.append("how to do it again")
    if any(line[3] != "agrees" for line in pages.table(root, "Closing check")):
        wrong.append("closing check")
    tally.same(wrong[:3], [], name + ": the page against the library")
    return found, page


def states(found):
    """What the page says where it must say something else."""
    ship = replace(found.ship, source=Source("book.xlsx", "workbook", True, 3))
    doubt = Doubt("All ranges are below one degree.", 7, "cases")
    text = " ".join(pages.read(report.page(replace(found, ship=ship), [doubt])).text.split())
    tally.that("3 numbers were not whole" in text and "put into the order" in text, "rounded and reordered rows are told")
    tally.that("All ranges are below one degree. (cases, row 7)" in text, "a warning has its text and its row")
    plain = " ".join(pages.read(report.page(found)).text.split())
    none = "no warning of the desk's applies" in plain and "No number was rounded" in plain and "put into the order" not in plain
    tally.that(none, "none of it is told where there is none")
    odd = replace(found, checks=(found.checks[0]._replace(agrees=False), *found.checks[1:]))
    root = pages.read(report.page(odd))
    differs = pages.table(root, "Closing check")[0][3] == "DIFFERS" and "do not agree" in root.one("h2").text
    tally.that(differs, "a sum that differs is told at the top and in the check")
    slipped = " ".join(pages.read(report.page(found, [], slip.slip(found))).text.split())
    asked = "Not proved." in slipped and "Was my ship among them?" in slipped
    tally.that(asked and "Was my ship among them?" not in plain, "the slip's section only where it is asked for")


def odd_names(found):
    """Names are text, whatever they hold."""
    names = ("<script>alert(1)</script>", "x" * 300, "\u0633\u0637\u062d \u0627\u0644\u0633\u0641\u064a\u0646\u0629", "", "a & \"b\" 'c' {{ 7 * 7 }}")
    ship = found.ship
    rows = tuple(replace(row, name=names[i % 5]) for i, row in enumerate(ship.rows))
    odd = replace(ship, name=names[0], zone_names=tuple(names[i % 5] for i in range(ship.zones)), rows=rows, source=replace(ship.source, file="<i>.xlsx"))
    root = pages.read(report.page(findings.find(library, odd)))
    tally.same(root.wrong, [], "odd names leave the page well formed")
    tally.that(not list(root.all("script")) and root.one("h1").text == names[0], "a name is no element")
    zones = [line[1] for line in pages.table(root, "The zones as entered")]
    tally.same(zones, [names[i % 5] for i in range(ship.zones)], "zone names come through")
    lines = pages.table(root, "All cases")[:-1:3]
    tally.that(all(line[1].endswith(names[i % 5]) for i, line in enumerate(lines)), "case names come through")
    refusal = pages.read(report.refusal_page("<u>x", ["cases, row 14: <b> & 1605", "second"]))
    tally.same([item.text for item in refusal.all("li")], ["cases, row 14: <b> & 1605", "second"], "a refusal's words come through")
    tally.that(not refusal.wrong and refusal.one("h1").text == "<u>x", "a refusal's page is well formed")


def large(found):
    """500 rows: the page's size, and its time beside the engine."""
    rows = [replace(row, height=row.height) for row in found.ship.rows][:1]
    top, half = found.ship.top, found.ship.half_breadth
    many = tuple(replace(rows[0], first=1, count=1, depth=half if i >= 499 else 1 + i, height=top, name="case %d" % i) for i in range(500))
    big = findings.find(library, replace(found.ship, rows=many))
    report.page(found)
    start = time.process_time()
    page = report.page(big)
    spent = time.process_time() - start
    tally.that(len(page.encode()) < 1_500_000, "500 rows make a page below 1.5 MB", len(page.encode()))
    tally.that(spent < 1, "500 rows are a page in below a second", spent)


def main():
    ships = {}
    for name, data in seeds.examples():
        ships[name], _ = ship_page(name, data)
    for passengers in (False, True):
        for name, data in seeds.random_files(RANDOM, passengers, most=8):
            ship_page(name, data)
    stages()
    states(ships["reefer"])
    odd_names(ships["day-boat"])
    large(ships["container-ship"])
    return tally.close()


if __name__ == "__main__":
    sys.exit(main())
