"""Each refusal on its own, clause by clause, at the lines where it can stand."""

from ..case import accepted, refused
from ..frames import Row, case_file, end_line, hull_line, joined, lines_of, row_line
from ..shapes import CERTAIN, FOUR, PRINTED, SAFE, group

ROWS = group(FOUR, 1, 1, figures=SAFE) + group(FOUR, 1, 2) + group(FOUR, 2, 1)
LINES = lines_of(FOUR, ROWS)


def with_line(at, line):
    """The plain file of three rows with one line put in the place of another, counted from 1."""
    return joined(LINES[:at - 1] + [line] + LINES[at:])


def two():
    for at in (1, 2, 3, 5):
        line = LINES[at - 1]
        yield refused("2-empty-at-%d" % at, with_line(at, ""), 2, at, "an empty line")
        yield refused("2-odd-at-%d" % at, with_line(at, line[:-1]), 2, at, "an odd number of digits")
        yield refused("2-unclosed-at-%d" % at, joined(LINES[:at])[:-1], 2, at, "the last line is not closed by a line feed")
        place = len(line) * at // 5 - 1
        yield refused("2-alien-at-%d" % at, with_line(at, line[:place] + "g" + line[place + 1:]), 2, at, "a letter that is no digit")
    for byte in b"\x00\t\r /:@AFG`g~\x7f\x80\xff":
        line = LINES[3].encode("ascii")
        yield refused("2-byte-%02x" % byte, with_line(4, line[:8] + bytes([byte]) + line[9:]), 2, 4, "the byte %02x in a row" % byte)
    yield refused("2-one-digit", b"0", 2, 1, "a single digit")
    yield refused("2-one-line-feed", b"\n", 2, 1, "a single line feed")


def three():
    for kind in (0, 2, 3, 15, 17):
        yield refused("3-first-kind-%02x" % kind, with_line(1, "%02x" % kind + LINES[0][2:]), 3, 1, "line 1 of kind %02x" % kind)
    for kind in (0, 1, 4, 14, 16, 18, 31, 255):
        yield refused("3-later-kind-%02x" % kind, with_line(3, "%02x" % kind + LINES[2][2:]), 3, 3, "a later line of kind %02x" % kind)
    yield refused("3-second-hull", with_line(2, LINES[0]), 3, 2, "a second hull line")
    for at, name, lengths in ((2, "02", (1, 13, 24, 26, 30, 32)), (3, "03", (3, 12, 14, 25, 31)), (5, "0f", (1, 2, 4, 13))):
        line = LINES[at - 1]
        for length in lengths:
            changed = (line + "00" * 30)[:2 * length]
            yield refused("3-kind-%s-%d-bytes" % (name, length), with_line(at, changed), 3, at, "kind %s in %d bytes" % (name, length))
    for length in (1, 2, 8, 9):
        yield refused("3-hull-%d-bytes" % length, with_line(1, LINES[0][:2 * length]), 3, 1, "a hull line of %d bytes" % length)
    yield refused("3-end-first", joined([end_line(0)]), 3, 1, "an end frame on line 1")
    yield refused("3-row-first", joined(LINES[1:]), 3, 1, "the hull line is missing")


def eight_and_nine():
    half, top = FOUR.half, FOUR.top

    def rows(name, number, at, listed, shows):
        return refused(name, case_file(FOUR, [Row(a, n, b, h, CERTAIN) for a, n, b, h in listed]), number, at, shows)

    yield rows("8-earlier-a", 8, 3, [(2, 1, half, top), (1, 1, half, top)], "a group of an earlier first zone")
    yield rows("8-earlier-a-greater-n", 8, 3, [(2, 1, half, top), (1, 2, half, top)], "an earlier first zone, more zones")
    yield rows("8-earlier-n", 8, 3, [(1, 2, half, top), (1, 1, half, top)], "the same first zone, fewer zones")
    yield rows("8-group-again", 8, 4, [(1, 1, half, top), (1, 2, half, top), (1, 1, half, top)], "a group that was listed before")
    yield rows("8-row-again", 8, 3, [(1, 1, half, top), (1, 1, half, top)], "the same row twice: after the top")
    yield rows("8-smaller-b", 8, 3, [(1, 1, half, top), (1, 1, half - 1, top)], "the same group, a smaller b")
    yield rows("8-smaller-b-after-a-layer", 8, 4, [(1, 1, 400, top), (1, 1, half, top), (1, 1, 400, top)], "a layer that was listed before")
    yield rows("8-same-h", 8, 3, [(1, 1, half, 9000), (1, 1, half, 9000)], "the same layer, the same H")
    yield rows("8-lower-h", 8, 3, [(1, 1, half, 9000), (1, 1, half, 8999)], "the same layer, a lower H")
    yield rows("8-after-the-top", 8, 3, [(1, 1, half, top), (1, 1, half, top + 1)], "the same layer, higher, after its top")
    yield rows("8-after-the-top-of-a-first-layer", 8, 4, [(1, 1, 400, 9000), (1, 1, 400, top), (1, 1, 400, 60000), (1, 1, half, top)],
               "the first layer goes on above its top")
    yield rows("9-new-group-inside-b", 9, 3, [(1, 1, 400, top), (1, 2, half, top)], "a new group before the last layer was at B/2")
    yield rows("9-new-group-one-short-of-b", 9, 3, [(1, 1, half - 1, top), (2, 1, half, top)], "a new group, the last layer one short of B/2")
    yield rows("9-new-group-below-the-top", 9, 3, [(1, 1, half, top - 1), (1, 2, half, top)], "a new group before the layer was at its top")
    yield rows("9-new-group-both", 9, 3, [(1, 1, 400, 9000), (1, 2, half, top)], "a new group, neither B/2 nor the top reached")
    yield rows("9-new-layer", 9, 3, [(1, 1, 400, 9000), (1, 1, half, top)], "a new layer before the last was at its top")
    yield rows("9-new-layer-one-short", 9, 4, [(1, 1, 400, 9000), (1, 1, 400, top - 1), (1, 1, half, top)], "a new layer, one below the top")
    yield rows("9-end-inside-b", 9, 3, [(1, 1, 400, top)], "the end before the last layer was at B/2")
    yield rows("9-end-below-the-top", 9, 3, [(1, 1, half, 9000)], "the end before the layer was at its top")
    yield rows("9-end-both", 9, 4, [(1, 1, half, top), (1, 2, 400, 9000)], "the end, neither B/2 nor the top reached")


def ten():
    whole = joined(LINES)
    yield refused("10-empty-input", b"", 10, 1, "no input at all")
    yield refused("10-hull-alone", joined(LINES[:1]), 10, 2, "a hull and nothing more")
    yield refused("10-no-end", joined(LINES[:-1]), 10, 5, "no end frame, all groups closed")
    yield refused("10-no-end-open-group", joined(LINES[:1] + [row_line(Row(1, 1, 400, 9000, CERTAIN))]), 10, 3,
                  "no end frame and an open group: 10 and not 9")
    yield refused("10-line-feed-more", whole + b"\n", 10, 6, "one line feed more after the end frame")
    yield refused("10-two-line-feeds-more", whole + b"\n\n", 10, 6, "two line feeds more")
    yield refused("10-second-end", whole + joined([end_line(3)]), 10, 6, "a second end frame")
    yield refused("10-row-after-the-end", whole + joined([row_line(group(FOUR, 3, 1)[0])]), 10, 6, "a good row after the end frame")
    yield refused("10-unclosed-after-the-end", whole + b"0f0003", 10, 6, "bytes after the end frame with no line feed")
    yield refused("10-a-whole-file-more", whole + whole, 10, 6, "the file twice over")
    yield refused("10-after-no-rows", joined([hull_line(PRINTED), end_line(0), end_line(0)]), 10, 3, "a second end frame in a file of no rows")


def cases():
    yield accepted("none", joined(LINES), "the plain file of three rows that the refusals here start from")
    for part in (two, three, eight_and_nine, ten):
        for case in part():
            yield case
