"""Writes the example files, their answers and the tables of README.md anew; --check says whether they are just what is made."""

import argparse
import re
import subprocess
import sys
from collections import Counter
from functools import lru_cache
from pathlib import Path

HERE = Path(__file__).resolve().parent
ROOT = HERE.parent
sys.path[:0] = [str(HERE), str(ROOT / "tests")]

from fleet import CRUISE_SHIP, DAY_BOAT, FERRY, FLEET, NIGHT_FERRY, NIGHT_FERRY_2020, PAPER_CARRIER  # noqa: E402
from independent import answer, reading  # noqa: E402
from independent.regulation import group_share, marks, row_s_fourth, s_final_fourth, s_fourth, s_intermediate_fourth, s_mom  # noqa: E402
from heeling import MOMENTS, displacement, greatest, moment  # noqa: E402
from ship import DRAUGHTS, case_file, exact, groups  # noqa: E402

VERDICTS = {1: "meets", 2: "fails", 3: "unsettled"}
DRAUGHT_NAMES = ("deepest", "partial", "light")
PROGRAMS = {"damindex": [str(ROOT / "damindex")], "the independent program": [sys.executable, str(ROOT / "tests" / "independent")]}
PRINTED = (
    b"0126ac064017700fa00205dc\n"
    b"02010103204844001e019000000000001e019000000000001e019000000000\n"
    b"03010203204844000000000000\n"
    b"03020103204844271027102710\n"
    b"0f0003\n"
)
PRINTED_WHAT = "a ship of two zones, 99 m"
PRINTED_SHOWS = "the case that the scope prints, byte for byte"
HEAD = ("| file | ship | what it shows | rows | A | R | verdict |", "|---|---|---|---|---|---|---|")
MARKS_HEAD = ("| file | rows of results | deepest | partial | light |", "|---|---|---|---|---|")
SETS_HEAD = ("| survived worse | deepest | partial | light |", "|---|---|---|---|")
SETS = {1: "the second set, with the inner bottom whole", -1: "the first set, with everything flooded", 0: "neither"}
MARKS = slice(-3, None)  # the last bytes of a row's line, at the deepest, the partial and the light draught
RULES = ("earlier", "of 2020")  # by the byte of the hull
RULE_AT = slice(26, 28)          # its digits there
PEOPLE_HEAD = ("| file | rule | persons in lifeboats | in excess | N | R | 0.9 R | As | Ap | Al |", "|---|---|---|---|---|---|---|---|---|---|")
RULES_HEAD = ("| | under the earlier rule | under the rule of 2020 |", "|---|---|---|")
MOMENT_HEAD = (
    "| file | draught | displacement, t | passengers, tm | wind, tm | boats, tm | entered, tm |",
    "|---|---|---|---|---|---|---|",
)
HELD_HEAD = (
    "| file | draught | one | intermediate stage | final stage | heeling moment | final stage and heeling moment | lost |",
    "|---|---|---|---|---|---|---|---|",
)
ONE, INTERMEDIATE, FINAL, MOMENT, BOTH, LOST = HELD = ("one", "intermediate stage", "final stage", "heeling moment", "final stage and heeling moment", "lost")
WITHOUT_HEAD = (
    "| file | as it is | without intermediate stages | without heeling moments | without ro-ro marks |",
    "|---|---|---|---|---|",
)
# the numbers that a passenger ship's row has at a draught beside its result, by their digits, and those that leave something out: an intermediate stage at its
# caps, the least heeling moment that a file may have, no ro-ro mark
STAGE = re.compile("(.{8})(.{8})(.{12})(..)")
LEFT_OUT = {"intermediate stages": r"\g<1>\g<2>003202bc0000\g<4>", "heeling moments": r"\g<1>00000001\g<3>\g<4>", "ro-ro marks": r"\g<1>\g<2>\g<3>00"}

found = lru_cache(maxsize=None)(answer)


@lru_cache(maxsize=None)
def made(ship):
    """The ship's case file, which must be one."""
    data = case_file(ship)
    if found(data).number:
        sys.exit(f"{ship.name} is refused: {found(data).number} at line {found(data).line}")
    return data


def cases():
    """Each example's name, what the ship is, what it shows, and its case file."""
    yield "printed", PRINTED_WHAT, PRINTED_SHOWS, PRINTED
    for ship in FLEET:
        yield ship.name, ship.what, ship.shows, made(ship)


def run(program, data):
    return subprocess.run(PROGRAMS[program], input=data, stdout=subprocess.PIPE, timeout=60).stdout


def verdict(data):
    return VERDICTS[found(data).verdict]


def millionths(count):
    return f"0.{count:06d}"


def in_millionths(ends):
    """The ends of an index to six places, the lower cut off and the upper rounded up."""
    return f"{millionths(ends.lower // 1000)} to {millionths(-(-ends.upper // 1000))}"


def attained(data):
    """The ends of A to six places."""
    return in_millionths(found(data).ends[0])


def marks_of(data):
    """What A and each partial index must reach, to six places: R by the ship's own rule, and its part."""
    hull = reading(data).hull
    return [millionths(round(mark * 10**6)) for mark in marks(hull.L, hull.persons, hull.rule)[:2]]


def table_line(name, what, shows, data):
    """A line of the table."""
    return f"| [{name}]({name}.case) | {what} | {shows} | {found(data).rows} | {attained(data)} | {marks_of(data)[0]} | {verdict(data)} |"


def marks_line(name, data):
    """A line of the second table: how many rows of results have each byte of marks at a draught, as the example's answer prints them."""
    path = HERE / f"{name}.answer"
    lines = path.read_text(encoding="ascii").splitlines()[1:] if path.exists() else []
    marks = [bytes.fromhex(line)[MARKS] for line, row in zip(lines, reading(data).rows) if row.given is None]
    cells = [", ".join(f"`{byte:02x}` {count}" for byte, count in sorted(Counter(at).items())) for at in zip(*marks)]
    return f"| {name} | {len(marks)} | {' | '.join(cells)} |"


def sets_lines(data):
    """The lines of the third table: in how many rows of two sets the second, the first or neither is survived worse, at each draught."""
    both = [[[s_fourth(*result) for result in at] for at in zip(*row.sets)] for row in reading(data).rows if len(row.sets) == 2]
    for worse, what in SETS.items():
        cells = [sum((first > second) - (first < second) == worse for first, second in at) for at in zip(*both)]
        yield f"| {what} | {' | '.join(map(str, cells))} |"


def counted_persons(people):
    """N by the ship's rule: those in excess count twice by the earlier one, and once by that of 2020."""
    return people.in_lifeboats + people.in_excess * (1 if people.rule else 2)


def people_line(ship):
    """A line of the fourth table: a passenger ship's rule and persons, what they make of R, and the partial indices."""
    people = ship.people
    partials = " | ".join(map(in_millionths, found(made(ship)).ends[1:]))
    return (f"| {ship.name} | {RULES[people.rule]} | {people.in_lifeboats} | {people.in_excess} | {counted_persons(people)} | {' | '.join(marks_of(made(ship)))} "
            f"| {partials} |")


def moment_lines(ship):
    """The lines of the fifth table: a passenger ship's displacement and its three heeling moments, to a tenth, with the one that is entered."""
    for at, draught in zip(DRAUGHTS, DRAUGHT_NAMES):
        three = " | ".join(f"{round(of(ship, at) * 10) / 10:.1f}" for of in MOMENTS.values())
        yield f"| {ship.name} | {draught} | {displacement(ship, at):,} | {three} | {moment(ship, at):,} |"


def held_down(row, at):
    """What holds a passenger ship's survival down at one draught: the intermediate stage where it alone is the lesser; otherwise the final stage, the heeling
    moment or both; that the ship is lost in the end where lever, range, heel and opening are all 0."""
    result, stage = row.results[at], row.stages[at]
    final = s_final_fourth(result, stage.roro) if result.opening >= 0 else 0
    upright = s_mom(result.lever, stage)
    if not any(result):
        return LOST
    if s_intermediate_fourth(stage) < final * upright**4:
        return INTERMEDIATE
    if final == 1:
        return ONE if upright == 1 else MOMENT
    return FINAL if upright == 1 else BOTH


def held_lines(name, data):
    """The lines of the sixth table: of how many rows of a passenger ship what holds the survival down, at each draught."""
    rows = reading(data).rows
    for at, draught in zip(DRAUGHTS, DRAUGHT_NAMES):
        counts = Counter(held_down(row, at) for row in rows)
        yield f"| {name} | {draught} | {' | '.join(str(counts[what]) for what in HELD)} |"


def without(data, what):
    """A passenger ship's file with its intermediate stages, its heeling moments or its ro-ro marks left out."""
    lines = [line[:62] + STAGE.sub(LEFT_OUT[what], line[62:]) if line.startswith("07") else line for line in data.decode("ascii").splitlines()]
    return "".join(line + "\n" for line in lines).encode("ascii")


def without_line(name, data):
    """A line of the seventh table: A and the verdict of a passenger ship as it is, and with one thing left out."""
    files = [data, *(without(data, what) for what in LEFT_OUT)]
    return f"| {name} | {' | '.join('the same' if file == data and at else f'{attained(file)}, {verdict(file)}' for at, file in enumerate(files))} |"


def rules_lines():
    """The lines of the eighth table: the night ferry under both rules."""
    ships = NIGHT_FERRY, NIGHT_FERRY_2020
    required, partial = zip(*(marks_of(made(ship)) for ship in ships))
    people, (twice, once) = NIGHT_FERRY.people, [counted_persons(ship.people) for ship in ships]
    yield f"| byte 13 of the hull | {' | '.join(f'`{made(ship).decode()[RULE_AT]}`' for ship in ships)} |"
    yield f"| N | {people.in_lifeboats} + 2·{people.in_excess} = {twice} | {people.in_lifeboats} + {people.in_excess} = {once} |"
    yield f"| R | 1 - 5,000/({NIGHT_FERRY.length} + 2.5·{twice} + 15,225) = {required[0]} | {once}/7,580 + 0.66923 = {required[1]} |"
    yield f"| 0.9 R | {' | '.join(partial)} |"
    for name, *ends in zip(("A", "As", "Ap", "Al"), *(map(in_millionths, found(made(ship)).ends) for ship in ships)):
        yield f"| {name} | {' | '.join(ends)} |"
    yield f"| verdict | {' | '.join(verdict(made(ship)) for ship in ships)} |"


def with_table(text, head, lines):
    """A page with other lines under the head of one of its tables."""
    before, _, rest = text.partition(head[0] + "\n")
    return before + "\n".join([*head, *lines]) + rest[rest.index("\n\n"):]


def with_tables(text):
    """README.md with the tables of the examples as they are made now."""
    text = with_table(text, HEAD, [table_line(*case) for case in cases()])
    text = with_table(text, MARKS_HEAD, [marks_line(name, data) for name, _, _, data in cases()])
    text = with_table(text, SETS_HEAD, sets_lines(made(PAPER_CARRIER)))
    carriers = [ship for ship in FLEET if ship.people]
    apart = [ship for ship in carriers if ship != NIGHT_FERRY_2020]  # whose rows are the night ferry's
    text = with_table(text, PEOPLE_HEAD, map(people_line, carriers))
    text = with_table(text, MOMENT_HEAD, [line for ship in apart for line in moment_lines(ship)])
    text = with_table(text, HELD_HEAD, [line for ship in apart for line in held_lines(ship.name, made(ship))])
    text = with_table(text, WITHOUT_HEAD, [without_line(ship.name, made(ship)) for ship in carriers])
    return with_table(text, RULES_HEAD, rules_lines())


def survivals(row):
    """The fourth powers of a row's survival: those of its results; a given survival here is 0."""
    return row.given or [row_s_fourth(row, at) for at in DRAUGHTS]


def rising(case):
    """Rows of a group that do better than those of a shorter group inside it, at the same layer and height."""
    rows = {(row.a, row.n, row.b, row.H): row for row in case.rows}
    for (a, n, b, h), row in rows.items():
        for aft in range(1, a + 1):
            for more in range(n + 1, len(case.hull.zones) + 1):
                longer = rows.get((aft, more, b, h))
                if longer and aft + more >= a + n and any(s > t for s, t in zip(survivals(longer), survivals(row))):
                    yield aft, more, b, h


def every_group(ship, hull):
    """The groups whose share is not 0, up to the ship's number of adjacent zones."""
    zones = len(hull.zones)
    return [(a, n) for a in range(1, zones + 1) for n in range(1, min(ship.adjacent, zones - a + 1) + 1) if group_share(hull, a, n)]


def file_faults():
    """For each example: whether its files are what is made, and what both programs print."""
    for name, _, _, data in cases():
        path = HERE / f"{name}.case"
        kept = path.read_bytes() if path.exists() else None
        yield None if kept == data else f"{name}.case is not what is made"
        for program in PROGRAMS:
            wanted = path.with_suffix(".answer")
            same = wanted.exists() and run(program, kept or b"") == wanted.read_bytes()
            yield None if same else f"{name}.answer is not what {program} prints"


def with_gm(ship, more):
    """The ship with so many millimetres more of GM at each draught."""
    return ship._replace(gm=tuple(float(exact(gm) + exact(more) / 1000) for gm in ship.gm))


def with_vents(ship, more):
    """The ship with its lowest opening so many metres higher."""
    return ship._replace(vents=float(exact(ship.vents) + exact(more)))


def of_one_set(data, place):
    """The file with one set of each row of two, the first or the second."""
    return re.sub(rb"(?m)^05(.{12})(.{48})(.{48})$", rb"02\1" + (rb"\2", rb"\3")[place], data)


def ship_faults():
    """For each ship: its verdict, its list of groups, and that no longer damage is survived better; what a millimetre of GM does, how much higher its
    vents must be, and what either set of results does alone; of a passenger ship which heeling moment is the greatest, and what turns its verdict."""
    for ship in FLEET:
        case = reading(made(ship))
        yield None if verdict(made(ship)) == ship.verdict else f"{ship.name}: the verdict is not {ship.verdict}"
        yield None if list(groups(ship)) == every_group(ship, case.hull) else f"{ship.name}: the groups are not those of a share above 0"
        yield None if not any(rising(case)) else f"{ship.name}: a longer damage is survived better"
        if ship.verdict == "unsettled":
            told = [verdict(made(with_gm(ship, more))) for more in (1, -1)]
            yield None if told == ["meets", "fails"] else f"{ship.name}: a millimetre of GM more and less gives {told}"
        if ship.raised is not None:
            told = [verdict(made(with_vents(ship, more))) for more in (exact(ship.raised), exact(ship.raised) - exact(0.1))]
            yield None if told == ["meets", "fails"] else f"{ship.name}: vents {ship.raised} m higher, and a tenth less, give {told}"
        if ship.alone is not None:
            told = [verdict(of_one_set(made(ship), place)) for place in (0, 1)]
            yield None if told == [ship.alone, ship.alone] else f"{ship.name}: the first and the second set alone give {told}"
        if ship.people:
            told = [greatest(ship, at) for at in DRAUGHTS]
            yield None if told == 3 * [ship.heeled] else f"{ship.name}: the greatest heeling moments are those of {told}"
            told = tuple(what for what in LEFT_OUT if verdict(without(made(ship), what)) != ship.verdict)
            yield None if told == ship.turned else f"{ship.name}: its verdict is turned without {told}"


def rule_faults():
    """The night ferry under both rules: two files that differ in the byte of the rule alone, and two answers that differ in the verdict alone."""
    earlier, later = (made(ship).decode("ascii") for ship in (NIGHT_FERRY, NIGHT_FERRY_2020))
    alike = later == earlier[:RULE_AT.start] + "01" + earlier[RULE_AT.stop:] and earlier[RULE_AT] == "00"
    yield None if alike else "the night ferry's two files differ in more than the rule"
    earlier, later = ((HERE / f"{ship.name}.answer").read_text(encoding="ascii") for ship in (NIGHT_FERRY, NIGHT_FERRY_2020))
    alike = earlier.startswith("8101") and later == "8102" + earlier[4:]
    yield None if alike else "the night ferry's two answers differ in more than the verdict"


def counted():
    """What README.md counts of the passenger ships beside its tables, in its own words."""
    rows = reading(made(FERRY)).rows
    marked = [row for row in rows if all(stage.roro for stage in row.stages)]
    yield f"has {len(rows)} rows, and {len(marked)} of them have the ro-ro mark, at all three draughts"
    yield f"The other {sum(not any(stage.roro for stage in row.stages) for row in rows)} go by 120 mm and 16 degrees."

    rows, told = reading(made(DAY_BOAT)).rows, found(made(DAY_BOAT)).survivals
    silent = [three for three in told if all(not any(one.marks) and one.ends.lower < 10_000 for one in three)]
    yield f"Of its {len(rows)} rows {len(silent)} have no mark at any draught, and a survival below one at each."
    lever, stage = rows[4].results[0].lever, rows[4].stages[0]
    yield (f"In row 5 the lever is {lever} mm at the deepest draught, nearly twice what s-final asks for, and {DAY_BOAT.people.passengers} passengers on one side of "
           f"{stage.displacement} tonnes leave s-mom at ({lever} - 40) · {stage.displacement} / {1000 * stage.moment:,} = {float(s_mom(lever, stage)):.4f}.")

    row, told = reading(made(CRUISE_SHIP)).rows[44], found(made(CRUISE_SHIP)).survivals[44]
    heels = [f"{stage.heel / 100:.2f}" for stage in row.stages]
    bottom, top = told[1].ends
    yield f"has inner walls in {('no', 'one', 'two', 'three', 'four', 'five')[sum(zone.walled for zone in CRUISE_SHIP.zones)]} zones"
    yield f"In row 45 the heel on the way is {heels[0]}, {heels[1]} and {heels[2]} degrees at the three draughts"
    yield f"a lever of {row.stages[1].lever} mm is left of the 50, and it is {bottom / 10_000:.4f} to {top / 10_000:.4f}, with {'a' if any(told[1].marks) else 'no'} mark"
    yield f"the survival is {told[0].ends.upper}; at the partial"


def page_faults():
    """The tables of README.md, what it counts beside them, and files that nothing makes."""
    page = HERE / "README.md"
    text = page.read_text(encoding="utf-8")
    yield None if text == with_tables(text) else "the tables of README.md are not what is made"
    for words in counted():
        yield None if words in " ".join(text.split()) else f"README.md does not say: {words}"
    names = {name for name, *_ in cases()}
    for path in sorted([*HERE.glob("*.case"), *HERE.glob("*.answer")]):
        yield None if path.stem in names else f"{path.name} is made by nothing"


def build():
    """One run on no input with no limit: the program is built where it is missing."""
    subprocess.run(PROGRAMS["damindex"], input=b"", stdout=subprocess.DEVNULL, stderr=subprocess.DEVNULL)


def check():
    looked_at = [*file_faults(), *ship_faults(), *rule_faults(), *page_faults()]
    faults = [fault for fault in looked_at if fault]
    for fault in faults:
        print(fault)
    print(f"{len(looked_at) - len(faults)} passed, {len(faults)} failed")
    return 1 if faults or not looked_at else 0


def write():
    for name, _, _, data in cases():
        (HERE / f"{name}.case").write_bytes(data)
        (HERE / f"{name}.answer").write_bytes(run("damindex", data))
    page = HERE / "README.md"
    page.write_text(with_tables(page.read_text(encoding="utf-8")), encoding="utf-8")
    return 0


def main():
    parser = argparse.ArgumentParser(prog="python3 examples/make.py", description=__doc__)
    parser.add_argument("--check", action="store_true", help="compare and write nothing")
    wanted = parser.parse_args()
    build()
    return check() if wanted.check else write()


if __name__ == "__main__":
    sys.exit(main())
