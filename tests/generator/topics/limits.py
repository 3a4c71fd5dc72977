"""Both sides of every limit: the last value that is let through and the first that is not."""

from ..case import accepted, refused
from ..frames import Hull, Row, case_file, end_line, hull_line, joined, lines_of, row_line
from ..shapes import CERTAIN, PRINTED, SAFE, every_group, group


def hull_numbers():
    """Refusal 4: Ls, B, ds, dl."""
    sides = [
        ("Ls", lambda v: Hull(v, 2000, 8000, 5000, (3000,)), (8000, 19800), (7999, 19801, 65535)),
        ("B", lambda v: Hull(12000, v, 8000, 5000, (3000,)), (1000, 1002, 5998, 6000), (998, 1001, 5999, 6001, 6002)),
        ("ds", lambda v: Hull(12000, 2000, v, 500 + v % 5, (3000,)), (1000, 30000), (999, 30001, 65535)),
        ("dl", lambda v: Hull(12000, 2000, 1000 + v % 5, v, (3000,)), (500, 501, 1000), (499, 1005, 0)),
        ("dl of 30000", lambda v: Hull(12000, 2000, 30000, v, (3000,)), (500, 29995, 30000), (30005,)),
        ("ds less dl", lambda v: Hull(12000, 2000, 8000, 8000 - v, (3000,)), (0, 5, 7500), (1, 2, 3, 4, 6)),
    ]
    for words, hull_at, inside, outside in sides:
        name = words.lower().replace(" ", "-")
        for value in inside:
            hull = hull_at(value)
            yield accepted("%s-%d" % (name, value), case_file(hull, every_group(hull)), "%s = %d is let through" % (words, value))
        for value in outside:
            yield refused("%s-%d" % (name, value), joined([hull_line(hull_at(value)), end_line(0)]), 4, 1, "%s = %d is refused" % (words, value))


def zones():
    """Refusal 5: the zone count, the length that goes with it, the bulkheads."""
    for count in (1, 2, 19, 20):
        hull = Hull(12000, 2000, 8000, 5000, tuple(600 * i for i in range(1, count)))
        yield accepted("zones-%d" % count, case_file(hull, group(hull, 1, count)), "%d zones" % count)
    for count in (0, 21, 22, 255):
        hull = Hull(12000, 2000, 8000, 5000, tuple(40 * i for i in range(1, count)))
        yield refused("zones-%d" % count, joined([hull_line(hull, count), end_line(0)]), 5, 1,
                      "%d zones in a line of %d bytes" % (count, len(hull_line(hull, count)) // 2))
    for count, given in ((1, 1), (1, 2), (2, 0), (2, 2), (20, 18), (20, 20)):
        hull = Hull(12000, 2000, 8000, 5000, tuple(500 * i for i in range(1, given + 1)))
        yield refused("zones-%d-with-%d-bulkheads" % (count, given), joined([hull_line(hull, count), end_line(0)]), 5, 1,
                      "a zone count of %d in a line with %d bulkheads" % (count, given))
    for name, more in (("one-byte-more", "00"), ("long-line", "0fff" * 2000)):
        yield refused("zones-%s" % name, joined([hull_line(PRINTED) + more, end_line(0)]), 5, 1,
                      "a hull line that is longer than its zone count asks for")
    yield refused("hull-9-bytes", joined([hull_line(Hull(12000, 2000, 8000, 5000))[:18], end_line(0)]), 3, 1,
                  "a hull line of nine bytes, one short of the least")
    for name, places, good in (
            ("at-1", (1,), True), ("at-0", (0,), False), ("at-ls-less-1", (11999,), True), ("at-ls", (12000,), False),
            ("above-ls", (12001,), False), ("equal", (3000, 3000), False), ("one-apart", (3000, 3001), True),
            ("falling", (3001, 3000), False), ("first-0-of-3", (0, 3000, 6000), False), ("last-at-ls-of-3", (3000, 6000, 12000), False),
            ("equal-at-the-last", (1000, 2000, 3000, 3000), False), ("all-next-to-the-bow", tuple(range(11981, 12000)), True),
            ("all-next-to-the-stern", tuple(range(1, 20)), True)):
        hull = Hull(12000, 2000, 8000, 5000, places)
        if good:
            yield accepted("bulkheads-%s" % name, case_file(hull, every_group(hull, longest=3)), "bulkheads %s" % (places,))
        else:
            yield refused("bulkheads-%s" % name, joined([hull_line(hull), end_line(0)]), 5, 1, "bulkheads %s" % (places,))


def row_numbers():
    """Refusal 7: the numbers of a row, the second row of a file of two."""
    twenty = Hull(12000, 2000, 8000, 5000, tuple(600 * i for i in range(1, 20)))
    first = row_line(group(twenty, 1, 1)[0])

    def last(row):
        return joined([hull_line(twenty), first, row_line(row), end_line(2)])

    for a, n, good in ((0, 1, False), (1, 0, False), (2, 1, True), (20, 1, True), (21, 1, False), (20, 0, False), (20, 2, False),
                       (1, 20, True), (1, 21, False), (2, 19, True), (2, 20, False), (255, 2, False), (3, 254, False),
                       (3, 255, False), (128, 130, False), (0, 0, False), (0, 2, False)):
        name, shows = "group-%d-%d" % (a, n), "group (%d, %d) in a hull of 20 zones" % (a, n)
        row = Row(a, n, 1000, 20500, CERTAIN)
        yield accepted(name, last(row), shows) if good else refused(name, last(row), 7, 3, shows)
    for b in (0, 1001, 65535):
        yield refused("depth-%d" % b, last(Row(2, 1, b, 20500, CERTAIN)), 7, 3, "b = %d where B/2 is 1000" % b)
    for b in (1, 999):
        yield accepted("depth-%d" % b, case_file(twenty, group(twenty, 2, 1, layers=(b,))), "a layer at b = %d" % b)
    for h in (0, 60001, 65535):
        yield refused("height-%d" % h, last(Row(2, 1, 1000, h, CERTAIN)), 7, 3, "H = %d" % h)
    yield accepted("height-1", case_file(twenty, group(twenty, 2, 1, heights=(1,))), "a row at H = 1")
    yield accepted("height-60000", last(Row(2, 1, 1000, 60000, CERTAIN)), "a row at H = 60000")
    yield accepted("results-at-the-most", last(Row(2, 1, 1000, 20500, (5000, 9000, 9000, 30000) * 3)),
                   "lever 5000, range 9000, heel 9000 and opening 30000 at each draught")
    yield accepted("survivals-at-the-most", last(Row(2, 1, 1000, 20500, CERTAIN)), "given survival 10,000 at each draught")
    for place, name in enumerate(("lever", "range", "heel") * 3):
        value, draught, at = 5001 if name == "lever" else 9001, ("ds", "dp", "dl")[place // 3], place + place // 3
        yield refused("%s-%d-at-%s" % (name, value, draught), last(Row(2, 1, 1000, 20500, SAFE[:at] + (value,) + SAFE[at + 1:])), 7, 3,
                      "%s = %d at %s" % (name, value, draught))
    for at, draught in enumerate(("ds", "dp", "dl")):
        yield refused("survival-10001-at-%s" % draught, last(Row(2, 1, 1000, 20500, (5000,) * at + (10001,) + (5000,) * (2 - at))), 7, 3,
                      "given survival 10,001 at %s" % draught)


def tops():
    """A layer ends with the first row at or above ds + 12,500, whatever the other draughts are."""
    for ds, dl in ((8000, 5000), (30000, 500), (1000, 1000)):
        hull = Hull(12000, 2000, ds, dl, (3000,))
        top = ds + 12500
        one = [Row(1, 1, 1000, h, CERTAIN) for h in (top - 1, top)]
        yield accepted("top-%d" % top, case_file(hull, one[1:]), "H = ds + 12,500 closes the layer at ds = %d" % ds)
        yield refused("top-%d-less-1" % top, case_file(hull, one[:1]), 9, 3, "H one below ds + 12,500 leaves the group open at ds = %d" % ds)
        yield accepted("top-%d-after-one-less" % top, case_file(hull, one), "a row one below the top, then the top")
        yield refused("top-%d-and-one-more" % top, case_file(hull, one + [Row(1, 1, 1000, top + 1, CERTAIN)]), 8, 4,
                      "a higher row in a layer that has reached its top")


def of_its_own(at):
    """Two sets of results that no other row has."""
    return sum((((7 * at + 13 * j) % 131, (31 * at + 57 * j) % 1701, (17 * at + 400 * j) % 3101, (11 * at + j) % 40 - 2) for j in range(6)), ())


def many_rows():
    """Refusal 6 and the counts of rows; refusal 1 and the size of the input."""
    tall = tuple(range(1, 500))
    hull = Hull(12000, 2000, 8000, 5000, ())
    for count in (0, 1, 2, 499, 500):
        rows = group(hull, 1, 1, heights=tall[:count - 1]) if count else []
        yield accepted("rows-%d" % count, case_file(hull, rows), "%d rows" % count, verdict=1 if count else 2)
    rows = group(hull, 1, 1, heights=tall + (500,))
    yield refused("rows-501", case_file(hull, rows), 6, 502, "row 501")
    yield refused("rows-501-counted-500", case_file(hull, rows, 500), 6, 502, "row 501 with an end count of 500")
    for count, given in ((0, 1), (0, 65535), (1, 0), (1, 2), (1, 257), (500, 499), (500, 501), (500, 244)):
        rows = group(hull, 1, 1, heights=tall[:count - 1]) if count else []
        yield refused("rows-%d-counted-%d" % (count, given), case_file(hull, rows, given), 6, count + 2,
                      "%d rows and an end count of %d" % (count, given))
    long = Hull(12000, 2000, 8000, 5000, tuple(600 * i for i in range(1, 20)))
    one_set = case_file(long, group(long, 1, 20, heights=tall, figures=SAFE))
    longest = case_file(long, [row._replace(figures=of_its_own(at)) for at, row in enumerate(group(long, 1, 20, heights=tall))])
    assert (len(one_set), len(longest)) == (31604, 55604)
    yield accepted("longest-file-of-one-set", one_set, "20 zones and 500 rows of kind 02: 31,604 bytes")
    yield accepted("longest-file", longest, "20 zones and 500 rows of kind 05: 55,604 bytes, the longest file that is accepted")
    for size in (65536, 65537):
        outside = size > 65536
        padded = longest + b"0" * (size - len(longest) - 1) + b"\n"
        yield refused("bytes-%d-after-the-end" % size, padded, 1 if outside else 10, 0 if outside else 503,
                      "%d bytes: a valid file and one line more" % size)
        yield refused("bytes-%d-of-line-feeds" % size, b"\n" * size, 1 if outside else 2, 0 if outside else 1, "%d line feeds" % size)
        one_line = joined([hull_line(PRINTED) + "0" * (size - 25)])
        yield refused("bytes-%d-in-one-line" % size, one_line, 1 if outside else 2, 0 if outside else 1,
                      "%d bytes in a single hull line" % size)
        more = joined(lines_of(long, group(long, 1, 20, heights=tuple(range(1, 645)), figures=SAFE + SAFE)))
        yield refused("bytes-%d-of-rows" % size, more[:size - 1] + b"\n", 1 if outside else 6, 0 if outside else 502,
                      "%d bytes of rows: more than 500 of them" % size)
    yield refused("bytes-65535-in-one-line", joined([hull_line(PRINTED) + "0" * 65510]), 5, 1,
                  "65,535 bytes in a single hull line: an even number of digits, all of them good")
    yield refused("bytes-65536", b"0" * 65536, 2, 1, "65,536 bytes with no line feed: a size that two bytes would lose")
    yield refused("bytes-65537", b"0" * 65537, 1, 0, "65,537 bytes with no line feed: one, where two bytes have their size")


def too_long_before():
    """Inputs of 32,769 bytes, one more than could be before there were second sets: they are judged line by line as others are."""
    hull = Hull(12000, 2000, 8000, 5000, tuple(600 * i for i in range(1, 20)))
    rows = group(hull, 1, 20, heights=tuple(range(1, 645)), figures=SAFE)
    whole = case_file(hull, rows[145:])
    yield refused("bytes-32769-after-the-end", whole + b"0" * (32768 - len(whole)) + b"\n", 10, 503, "32769 bytes: a valid file and one line more")
    yield refused("bytes-32769-of-line-feeds", b"\n" * 32769, 2, 1, "32769 line feeds")
    yield refused("bytes-32769-in-one-line", joined([hull_line(PRINTED) + "0" * 32744]), 5, 1, "32769 bytes in a single hull line")
    yield refused("bytes-32769-of-rows", case_file(hull, rows)[:32768] + b"\n", 6, 502, "32769 bytes of rows: more than 500 of them")


def cases():
    for part in (hull_numbers, zones, row_numbers, tops, many_rows, too_long_before):
        for case in part():
            yield case
