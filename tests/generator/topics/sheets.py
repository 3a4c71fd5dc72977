"""Refusal 11, which comes last: sheets too short by much and by one, just long enough, and longer."""

from ..case import accepted, refused
from ..frames import Hull, case_file, end_line, joined
from ..judging import without
from ..shapes import ABOARD, FOUR, every_group, group
from .following import EARLY, rows_in
from .pairs import HULL, UNTAKEN, row


def cases():
    one_zone = Hull(12000, 2000, 8000, 5000)
    for rows in ([], group(FOUR, 1, 1), every_group(FOUR, layers=(400,)), group(one_zone, 1, 1, heights=tuple(range(1, 500)))):
        hull = one_zone if len(rows) == 500 else FOUR
        count = len(rows)
        data = case_file(hull, rows)
        for sheet in sorted({0, max(2 * count - 1, 0), 2 * count, 2 * count + 5}):
            name, shows = "%d-rows-%d-places" % (count, sheet), "%d rows and a sheet of %d numbers" % (count, sheet)
            if sheet < 2 * count:
                yield refused(name, data, 11, 0, shows, sheet)
            else:
                yield accepted(name, data, shows, sheet)
    rows = group(one_zone, 1, 1, heights=tuple(range(1, 257)))
    yield refused("257-rows-257-places", case_file(one_zone, rows), 11, 0, "257 rows and a sheet of one number a row", 257)
    for number, (where, lines) in EARLY.items():
        more = [] if number == 10 else [row(3, 1), end_line(rows_in(lines) + 1)]
        data = joined(lines + more)
        assert without(number).refusal(data) is None, "with %d let through the sheet does not decide" % number
        yield refused("11-and-%d-%s" % (number, where), data, number, len(lines),
                      "a sheet of no numbers, and %d on line %d" % (number, len(lines)), 0)
    yield refused("11-and-13-hull", case_file(UNTAKEN, group(UNTAKEN, 1, 1, figures=ABOARD)), 13, 1, "a sheet of no numbers, and 13 on line 1", 0)
    yield refused("11-and-10-no-input", b"", 10, 1, "a sheet of no numbers and no input", 0)
    yield refused("11-and-10-no-end", joined([HULL]), 10, 2, "a sheet of no numbers and no end frame", 0)
    yield refused("11-and-1", b"0" * 65537, 1, 0, "a sheet of no numbers and an input too long", 0)
