"""Files damaged on the way: bytes changed, cut, doubled, recoded; what the reader of such a file must say."""

from ..case import Case, accepted, refused
from ..dice import Dice
from ..frames import case_file, joined, lines_of, row_line
from ..fresh import damaged
from ..judging import Judging
from ..seeded import seeded_case
from ..shapes import CERTAIN, FOUR, group

WHOLE = case_file(FOUR, group(FOUR, 1, 1, (400,), (9000,)) + group(FOUR, 1, 2) + group(FOUR, 2, 1))
LINES = WHOLE.decode("ascii").split("\n")[:-1]


def put(at, line):
    """The whole file with another line in this place, counted from 1."""
    return joined(LINES[:at - 1] + [line] + LINES[at:])


def coded():
    yield accepted("untouched", WHOLE, "the file of six rows that is damaged here")
    yield refused("carriage-returns", WHOLE.replace(b"\n", b"\r\n"), 2, 1, "lines closed by CR LF")
    yield refused("carriage-returns-alone", WHOLE.replace(b"\n", b"\r"), 2, 1, "lines closed by CR alone: one unclosed line")
    yield refused("carriage-return-at-the-end", WHOLE[:-1] + b"\r\n", 2, 8, "CR LF after the end frame alone")
    yield refused("upper-case", WHOLE.upper(), 2, 1, "capital digits")
    yield refused("upper-case-end", put(8, LINES[7].upper()), 2, 8, "a capital F in the end frame")
    yield refused("byte-order-mark", b"\xef\xbb\xbf" + WHOLE, 2, 1, "a byte order mark before the hull")
    yield refused("two-bytes-a-letter", WHOLE.decode("ascii").encode("utf-16-le"), 2, 1, "two bytes a letter")
    yield refused("high-bits", bytes(byte | 128 for byte in WHOLE), 2, 1, "every byte above 127")
    yield refused("raw-bytes", bytes.fromhex(LINES[0]) + b"\n", 2, 1, "the hull's bytes themselves")
    yield refused("spaced-digits", put(2, " ".join(LINES[1][at:at + 2] for at in range(0, 26, 2))), 2, 2, "a space between the bytes of a row")
    yield refused("leading-space", b" " + WHOLE, 2, 1, "a space before the hull")
    yield refused("prefixed", put(1, "0x" + LINES[0]), 2, 1, "0x before the hull")
    yield refused("nul-in-a-row", put(3, LINES[2][:10] + "\x00" + LINES[2][11:]), 2, 3, "a NUL byte in a row")
    yield refused("nul-at-the-end", WHOLE + b"\x00", 10, 9, "a NUL byte after the end frame")
    yield refused("nuls-alone", bytes(64), 2, 1, "64 NUL bytes")
    yield refused("comment", WHOLE.replace(b"\n", b"\n# a note\n", 1), 2, 2, "a note between the lines")


def cut_short():
    yield refused("nothing-left", b"", 10, 1, "nothing is left")
    yield refused("no-last-line-feed", WHOLE[:-1], 2, 8, "the last line feed is missing")
    yield refused("cut-in-the-hull", WHOLE[:11], 2, 1, "cut inside the hull, after an odd number of digits")
    yield refused("cut-in-the-hull-even", WHOLE[:12], 2, 1, "cut inside the hull, after whole bytes")
    yield refused("cut-after-the-hull", joined(LINES[:1]), 10, 2, "cut after the hull")
    yield refused("cut-in-a-row", joined(LINES[:3]) + LINES[3][:8].encode("ascii"), 2, 4, "cut inside a row")
    yield refused("cut-after-a-row", joined(LINES[:4]), 10, 5, "cut after a row, the group still open")
    yield refused("cut-before-the-end", joined(LINES[:7]), 10, 8, "the end frame is gone")
    yield refused("cut-in-the-end", WHOLE[:-3], 2, 8, "cut inside the end frame")
    yield refused("hull-gone", joined(LINES[1:]), 3, 1, "the hull line is gone")
    yield refused("row-gone", joined(LINES[:5] + LINES[6:]), 6, 7, "a row of a group of its own is gone: the count tells")
    yield refused("top-gone", joined(LINES[:2] + LINES[3:]), 9, 3, "the row at a layer's top is gone")
    yield refused("digit-gone", put(4, LINES[3][:5] + LINES[3][6:]), 2, 4, "one digit of a row is gone")
    yield refused("byte-gone", put(4, LINES[3][:6] + LINES[3][8:]), 3, 4, "two digits of a row are gone")
    yield refused("line-feed-gone", joined(LINES[:2])[:-1] + joined(LINES[2:]), 3, 2, "two rows run into one line")


def doubled():
    yield refused("file-twice", WHOLE + WHOLE, 10, 9, "the file twice over")
    yield refused("hull-twice", joined(LINES[:1] + LINES), 3, 2, "the hull twice")
    yield refused("row-twice", joined(LINES[:6] + LINES[5:]), 8, 7, "a row twice")
    yield refused("low-row-twice", joined(LINES[:2] + LINES[1:]), 8, 3, "a row below the top twice")
    yield refused("end-twice", WHOLE + joined(LINES[-1:]), 10, 9, "the end frame twice")
    yield refused("line-feed-twice", WHOLE.replace(b"\n", b"\n\n", 1), 2, 2, "an empty line after the hull")
    yield refused("line-feed-twice-inside", put(5, LINES[4] + "\n"), 2, 6, "an empty line between rows")
    yield refused("line-feed-first", b"\n" + WHOLE, 2, 1, "an empty line before the hull")
    yield refused("line-feed-last", WHOLE + b"\n", 10, 9, "an empty line after the end frame")
    yield refused("digit-twice", put(4, LINES[3][:5] + LINES[3][4:]), 2, 4, "one digit of a row twice")
    yield refused("rows-swapped", joined(LINES[:5] + [LINES[6], LINES[5]] + LINES[7:]), 8, 7, "two groups in the wrong order")
    yield refused("layers-swapped", joined(LINES[:1] + LINES[3:5] + LINES[1:3] + LINES[5:]), 8, 4, "two layers in the wrong order")
    yield refused("end-before-the-last-row", joined(LINES[:6] + [LINES[7], LINES[6]]), 6, 7, "the end frame before the last row")
    yield refused("row-of-another-ship", put(7, row_line(group(FOUR, 5, 1, figures=CERTAIN)[0])), 7, 7, "a row of a ship with more zones")


def seeded():
    """Damage by dice; the expectation is that of the generator's own reading."""
    for seed in range(12):
        dice = Dice(3000 + seed)
        hull, rows = seeded_case(dice, 8)
        data, words = damaged(dice, joined(lines_of(hull, rows)))
        yield Case("seeded-%02d" % seed, data, "seeded damage: %s" % words, Judging().refusal(data))


def cases():
    for part in (coded, cut_short, doubled, seeded):
        for case in part():
            yield case
