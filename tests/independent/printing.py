"""The text of an answer: the lines of the program damindex, the numbers that the library lends, and the exact figures and total for reading."""

from fractions import Fraction
from math import floor

from .casefile import Refusal
from .regulation import WHOLE_SURVIVAL, WHOLE_V, draughts, group_share, groups, marks as index_marks, required_numbers, row_s_fourth, row_share, row_v
from .rounding import group_share_ends

DRAUGHTS = ("deepest", "partial", "light")
ROW_NUMBERS = 20


def mark_byte(marks):
    """Why is this survival not one, and Openings: 1 for lever, 2 for range, 4 for heel, 8 for the opening, added up."""
    return 1 * marks.lever + 2 * marks.reach + 4 * marks.heel + 8 * marks.opening


def row_line(share, survivals):
    """One file in full: an 82 line, a row's share ends and the byte of its marks at each draught."""
    marks = "".join(f"{mark_byte(survival.marks):02x}" for survival in survivals)
    return f"82{share.lower:08x}{share.upper:08x}{marks}\n"


def printed(answer):
    """One file in full: an 81 line and an 82 line a row, or the one 8f line of a refusal."""
    if answer.number:
        return f"8f{answer.number:02x}{answer.line:04x}\n"
    index = "".join(f"{end.lower:08x}{end.upper:08x}" for end in answer.ends)
    rows = "".join(row_line(*row) for row in zip(answer.shares, answer.survivals))
    return f"81{answer.verdict:02x}{index}\n{rows}"


def figures(answer):
    """The answer's numbers: number, line, verdict, rows, eight ends, then what the sheet is given."""
    ends = [figure for end in answer.ends for figure in end]
    sheet = [figure for share in answer.shares for figure in share]
    return [answer.number, answer.line, answer.verdict, answer.rows] + ends + sheet


def row_numbers(answer):
    """Twenty numbers a row: its share's ends, and at the deepest, the partial and the light draught v, bottom, top and mark byte of its survival, and the
    ends of what it adds; none at a refusal."""
    told = []
    for share, *threes in zip(answer.shares, answer.heights, answer.survivals, answer.added):
        told += share
        for height, survival, added in zip(*threes):
            told += [height, survival.ends.lower, survival.ends.upper, mark_byte(survival.marks), added.lower, added.upper]
    return told


def rows_text(answer):
    """The rows' numbers for reading, a row's twenty a line."""
    if answer.number:
        return f"refused {answer.number} at line {answer.line}\n"
    told = row_numbers(answer)
    return "".join(" ".join(map(str, told[at:at + ROW_NUMBERS])) + "\n" for at in range(0, len(told), ROW_NUMBERS))


def required_of(read):
    """R's numerator and denominator, then those of the mark of a partial index; nothing at a refusal."""
    return [] if isinstance(read, Refusal) else list(required_numbers(read.hull.L, read.hull.persons, read.hull.rule))


def required_text(read):
    """R and the mark of a partial index for reading, numerator and denominator a line."""
    if isinstance(read, Refusal):
        return f"refused {read.number} at line {read.line}\n"
    return "{} {}\n{} {}\n".format(*required_of(read))


def group_numbers(read):
    """The ends of every group's share, two numbers a group; nothing at a refusal."""
    if isinstance(read, Refusal):
        return []
    return [end for a, n in groups(len(read.hull.zones)) for end in group_share_ends(read.hull, a, n)]


def groups_text(read):
    """Every group for reading, a line each: its first zone, how many it has, and the ends of its share."""
    if isinstance(read, Refusal):
        return f"refused {read.number} at line {read.line}\n"
    ends = group_numbers(read)
    return "".join(f"{a} {n} {lower} {upper}\n" for (a, n), lower, upper in zip(groups(len(read.hull.zones)), ends[::2], ends[1::2]))


def exact_survival(row, draught):
    """Height and survival: a row's s⁴ at one draught as a fraction, or its given survival."""
    if row.given is not None:
        return f"s {row.given[draught]}/{WHOLE_SURVIVAL} given"
    return f"s^4 {row_s_fourth(row, draught)}"


def exact_text(read):
    """Shares, and Height and survival: the exact figures of a reading, one a line."""
    if isinstance(read, Refusal):
        return f"refused {read.number} at line {read.line}\n"
    hull = read.hull
    depths = draughts(hull.ds, hull.dl)
    shares = [row_share(hull, row) for row in read.rows]
    lines = []
    for number, (row, share) in enumerate(zip(read.rows, shares), 1):
        lines.append(f"row {number}: group ({row.a}, {row.n}) b {row.b} H {row.H} share {share}")
        for draught, name in enumerate(DRAUGHTS):
            lines.append(f"  {name}: v {row_v(row, depths[draught])}/{WHOLE_V} {exact_survival(row, draught)}")
    required, partial, *_ = index_marks(hull.L, hull.persons, hull.rule)
    lines += [f"R {required}", f"partial mark {partial}"]
    for d, name in zip(depths, DRAUGHTS):
        total = sum(share * row_v(row, d) for row, share in zip(read.rows, shares)) / WHOLE_V if shares else 0
        lines.append(f"total chance at {name} draught {d}: {total}")
    return "".join(line + "\n" for line in lines)


def decimal(count, places):
    """A count of the last place as a decimal number."""
    return f"{count // 10**places}.{count % 10**places:0{places}d}"


def cut(value, places):
    """A fraction to so many places, with dots where more follows."""
    scaled = value * 10**places
    return decimal(floor(scaled), places) + ("" if scaled.denominator == 1 else "...")


def with_decimal(fraction):
    """A fraction, and its first nine places where it is none of the whole numbers."""
    return f"{fraction}" if fraction.denominator == 1 else f"{fraction} = {cut(fraction, 9)}"


def total_text(read):
    """Shares: what the listed groups come to together, and the groups of any share that are not listed, one a line."""
    if isinstance(read, Refusal):
        return f"refused {read.number} at line {read.line}\n"
    shares = {(a, n): group_share(read.hull, a, n) for a, n in groups(len(read.hull.zones))}
    listed = {row.group for row in read.rows}
    lines = [f"total {with_decimal(sum((shares[group] for group in listed), Fraction(0)))}"]
    lines += [f"not listed: group ({a}, {n}) share {with_decimal(share)}"
              for (a, n), share in shares.items() if share and (a, n) not in listed]
    return "".join(line + "\n" for line in lines)
