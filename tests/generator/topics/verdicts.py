"""The verdict: A and each partial at its mark, just above and just below it, for the whole range of lengths."""

from ..case import accepted
from ..found import MARKS
from ..frames import Hull, Row, case_file
from ..shapes import dry

FIGURES = ("As", "Ap", "Al")
WORDS = {1: "just meets", 2: "just fails", 3: "has its upper end on"}


def steps(ls, found, at=None):
    """A ship of one draught and three heights whose ends were tuned; at one draught alone, or at all of them."""
    first, second, third = found
    hull = Hull(ls, 2000, 8000, 8000)
    rows = []
    for h, s in ((first, third + 2), (second, third + 1), (12500, third)):
        figures = (s, s, s) if at is None else tuple(s if place == at else 10000 for place in range(3))
        rows.append(Row(1, 1, hull.half, 8000 + h, figures))
    return case_file(hull, rows)


def tuned():
    for (ls, part, verdict), found in sorted(MARKS.items()):
        if part == 1:
            yield accepted("index-%d-verdict-%d" % (ls, verdict), steps(ls, found), "A %s R at L = %d" % (WORDS[verdict], ls), verdict=verdict)
        else:
            for at, name in enumerate(FIGURES):
                yield accepted("%s-%d-verdict-%d" % (name.lower(), ls, verdict), steps(ls, found, at),
                               "%s %s R/2 at L = %d and nothing else is near its mark" % (name, WORDS[verdict], ls), verdict=verdict)


def whole_survivals():
    for ls, s in ((8000, 3940), (10000, 4921), (10400, 5000), (16050, 5904), (16800, 6000), (19800, 6343)):
        for given, verdict in ((s, 1), (s - 1, 2)):
            hull = Hull(ls, 2000, 8000, 5000)
            yield accepted("given-%d-%d" % (ls, given), case_file(hull, [Row(1, 1, 1000, hull.top, (given,) * 3)]),
                           "A = %d ten-thousandths at L = %d" % (given, ls), verdict=verdict)
    for name, figures, verdict in (
            ("at-the-half", (2500, 10000, 10000), 1), ("below-the-half", (2499, 10000, 10000), 2), ("ap-at-the-half", (10000, 2500, 10000), 1),
            ("ap-below-the-half", (10000, 2499, 10000), 2), ("al-at-the-half", (10000, 10000, 2500), 1), ("al-below-the-half", (10000, 10000, 2499), 2),
            ("index-at-the-mark", (2500, 7500, 5000), 1), ("index-below-the-mark", (2500, 7500, 4999), 2), ("light-weighs-once", (5000, 5000, 4999), 2),
            ("light-lost", (10000, 10000, 0), 2)):
        hull = Hull(10400, 2000, 8000, 5000)
        yield accepted("half-%s" % name, case_file(hull, [Row(1, 1, 1000, hull.top, figures)]), "R = 1/2, survivals %s" % (figures,), verdict=verdict)


def unsettled():
    """Results whose survival has two ends with a mark between them."""
    near, near_half, safe, lost = (12, 1257, 0), (2, 472, 0), (120, 1600, 0), (0, 0, 0)
    for name, results, verdict, shows in (
            ("near-the-mark", near * 3, 3, "R lies between the ends of A"),
            ("near-the-half-at-ds", near_half + safe + safe, 3, "R/2 lies between the ends of As"),
            ("near-the-half-at-dp", safe + near_half + safe, 3, "R/2 lies between the ends of Ap"),
            ("near-the-half-at-dl", safe + safe + near_half, 3, "R/2 lies between the ends of Al"),
            ("two-near-one-lost", near_half + near_half + lost, 2, "two partials unsettled and one lost: fails"),
            ("near-and-lost", near_half + safe + lost, 2, "one partial unsettled and another lost: fails"),
            ("near-half-and-index-short", near_half * 3, 2, "every partial unsettled, A well below R: fails")):
        hull = Hull(12000, 2000, 8000, 5000)
        yield accepted("results-%s" % name, case_file(hull, [Row(1, 1, 1000, hull.top, dry(results))]), shows, verdict=verdict)


def cases():
    for part in (tuned, whole_survivals, unsettled):
        for case in part():
            yield case
