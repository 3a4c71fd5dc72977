#!/usr/bin/env python3
"""A program in Python that calls the library by ctypes: reads a case file and tells its answer in words.

    ./library
    python3 examples/host.py FILE

Exit status: 0 meets, 2 fails, 3 unsettled, 4 refused; 1 where the input or the library could not be read, or the call was wrong."""

import argparse
import ctypes
import signal
import sys
from pathlib import Path

LIBRARY = Path(__file__).resolve().parent.parent / "target" / "library" / "lib" / "libdamindex.so"
WRITTEN_FOR = 70000  # version 7.0.0; another one serves where the major number is the same and it is not older

# as include/damindex.h has them
LONGEST_INPUT, LONGEST_REPORT, LONGEST_SHEET, FIGURES = 65536, 12569, 1000, 12
ROW_NUMBERS, LONGEST_ROWS, DRAUGHT_NUMBERS, REQUIRED_NUMBERS, LONGEST_GROUPS = 20, 10000, 6, 4, 420
WHOLE_V = 916500  # what v is counted in
MARKS = {1: "lever", 2: "range", 4: "heel", 8: "an immersed opening"}
DRAUGHTS = ("deepest", "partial", "light")

VERDICTS = {
    1: "meets the required index",
    2: "fails the required index",
    3: "unsettled: a mark lies between the ends",
}

REFUSALS = {
    1: "the input is too long",
    2: "not a line of hexadecimal digits",
    3: "no frame that may stand here",
    4: "length, breadth, a draught, the persons or the rule are outside their limits",
    5: "zone count or bulkheads are wrong",
    6: "too many rows, or they are counted wrongly",
    7: "a number of the row is outside its limits",
    8: "the row is out of order",
    9: "the layer or group before is not closed",
    10: "the end frame is missing, or not the last line",
    11: "the sheet is too short",
    13: "under its rule a ship of so many persons is not judged yet",
}
NOT_KNOWN = "a number that this program does not know"  # a later library that fits may have more of them

STATUSES = {1: 0, 2: 2, 3: 3}
CANNOT, REFUSED = 1, 4


def load(path):
    """The library of a path, its functions declared. CDLL lets other threads of Python run during a call, and calls may run at the same time."""
    library = ctypes.CDLL(str(Path(path).resolve() if Path(path).exists() else path))  # a bare name is looked for by the loader
    library.damindex_version.argtypes = []
    library.damindex_version.restype = ctypes.c_uint32
    version = library.damindex_version()
    if version // 10000 != WRITTEN_FOR // 10000 or version < WRITTEN_FOR:
        raise OSError("%s has the version number %d, and this program was written for %d" % (path, version, WRITTEN_FOR))
    numbers = ctypes.POINTER(ctypes.c_uint64)
    # bytes go as c_char_p with their length beside it, so that a zero byte among them is nothing special
    library.damindex_figures.argtypes = [ctypes.c_char_p, ctypes.c_size_t, numbers, ctypes.c_size_t, numbers, ctypes.c_size_t]
    library.damindex_figures.restype = ctypes.c_size_t
    for entry in (library.damindex_rows, library.damindex_required, library.damindex_groups):
        entry.argtypes = [ctypes.c_char_p, ctypes.c_size_t, numbers, ctypes.c_size_t]
        entry.restype = ctypes.c_size_t
    library.damindex_report.argtypes = [ctypes.c_char_p, ctypes.c_size_t, ctypes.POINTER(ctypes.c_char), ctypes.c_size_t]
    library.damindex_report.restype = ctypes.c_size_t
    return library


def figures(library, data):
    """The twelve figures of any bytes. Each row's share is on the sheet, and among the row's own numbers too."""
    sheet, told = (ctypes.c_uint64 * LONGEST_SHEET)(), (ctypes.c_uint64 * FIGURES)()
    library.damindex_figures(data, len(data), sheet, len(sheet), told, len(told))
    return list(told)


def lent(entry, data, longest):
    """What an entry gives of any bytes: its numbers, none at a refusal."""
    numbers = (ctypes.c_uint64 * longest)()
    return numbers[:entry(data, len(data), numbers, longest)]


def rows(library, data):
    """Each row's share, and what it has at the deepest, the partial and the light draught: v, bottom, top, marks, and the ends of what it adds."""
    numbers = lent(library.damindex_rows, data, LONGEST_ROWS)
    told = [numbers[at:at + ROW_NUMBERS] for at in range(0, len(numbers), ROW_NUMBERS)]
    return [(row[:2], [row[at:at + DRAUGHT_NUMBERS] for at in range(2, ROW_NUMBERS, DRAUGHT_NUMBERS)]) for row in told]


def required(library, data):
    """R and what each partial index must reach, numerator and denominator of each."""
    return lent(library.damindex_required, data, REQUIRED_NUMBERS)


def groups(library, data):
    """The ends of each group's share, by its first zone and its last, in the order in which the library gives them."""
    numbers = lent(library.damindex_groups, data, LONGEST_GROUPS)
    zones = next(zones for zones in range(21) if zones * (zones + 1) == len(numbers))
    named = [(first, last) for first in range(1, zones + 1) for last in range(first, zones + 1)]
    return dict(zip(named, zip(numbers[::2], numbers[1::2])))


def listed(data):
    """The groups that an accepted file lists, by first zone and last: bytes 1 and 2 of each line between the first and the last."""
    heads = [bytes.fromhex(line[:6].decode("ascii")) for line in data.split()[1:-1]]
    return {(first, first + many - 1) for _, first, many in heads}


def report(library, data):
    """The printed answer of any bytes, as the program damindex writes it."""
    out = ctypes.create_string_buffer(LONGEST_REPORT)
    length = library.damindex_report(data, len(data), out, len(out))
    return out.raw[:length].decode("ascii")


def decimal(count, places=9):
    """A count of billionths, or of the last of so many places."""
    return "%d.%0*d" % (count // 10 ** places, places, count % 10 ** places)


def is_of_passengers(data):
    """Whether a file is a passenger ship's: its hull is of kind 06."""
    return data.startswith(b"06")


def held_down(bottom, marks, of_passengers):
    """What holds a survival down, in words. Of a given survival, and of one that is one already, there is nothing to tell. A passenger ship's marks are those of
    the final stage; what is below one without a mark is so by the intermediate stage or the heeling moment, and which of the two it is the answer does not say."""
    names = [name for mark, name in MARKS.items() if marks & mark]
    if names:
        return ", %s %s" % ("marks of the final stage:" if of_passengers else "held down by", " and ".join(names))
    return ", held down by the intermediate stage or the heeling moment" if of_passengers and bottom < 10000 else ""


def tell_indices(library, data, ends):
    """A and the partial indices, and what they must reach."""
    for name, lower, upper in zip(("A", "As", "Ap", "Al"), ends[::2], ends[1::2]):
        print("%-2s %s to %s" % (name, decimal(lower), decimal(upper)))
    print("required: A %d/%d, each partial index %d/%d" % tuple(required(library, data)))


def tell_rows(library, data):
    """Each row's share, and at each draught its v, its survival, what it adds to the index, and what holds the survival down."""
    for row, ((lower, upper), three) in enumerate(rows(library, data), 1):
        print("row %3d: share %s to %s" % (row, decimal(lower), decimal(upper)))
        for draught, (v, bottom, top, marks, least, most) in zip(DRAUGHTS, three):
            survival, adds = (decimal(bottom, 4), decimal(top, 4)), (decimal(least), decimal(most))
            print("row %3d: %-7s v %6d of %d, survival %s to %s, adds %s to %s%s"
                  % (row, draught, v, WHOLE_V, *survival, *adds, held_down(bottom, marks, is_of_passengers(data))))


def tell_not_listed(library, data):
    """Each group that the file does not list and that some damage reaches, with its share, and what all that are not listed could add at most."""
    there = listed(data)
    missing = {group: ends for group, ends in groups(library, data).items() if group not in there}
    for (first, last), (lower, upper) in missing.items():
        if lower:
            print("zones %2d to %2d: not listed, share %s to %s" % (first, last, decimal(lower), decimal(upper)))
    print("groups not listed: %d, which could add at most %s" % (len(missing), decimal(sum(upper for _, upper in missing.values()))))


def tell(library, data, told):
    """The answer in words, and the status that the program ends with."""
    number, line, verdict, _, *ends = told
    if number:
        print("refused, number %d at line %d: %s" % (number, line, REFUSALS.get(number, NOT_KNOWN)))
        return REFUSED
    print(VERDICTS[verdict])
    tell_indices(library, data, ends)
    tell_rows(library, data)
    tell_not_listed(library, data)
    return STATUSES[verdict]


class Arguments(argparse.ArgumentParser):
    def error(self, message):
        self.exit(CANNOT, "%s: %s\n" % (self.prog, message))  # not argparse's own 2, which is a verdict here


def main():
    arguments = Arguments(description="Tells the damage subdivision index of a case file, by the library damindex.")
    arguments.add_argument("file", nargs="?", help="the case file; standard input where none is named")
    arguments.add_argument("--library", default=LIBRARY, metavar="PATH", help="the shared object; as ./library makes it by default")
    arguments.add_argument("--report", action="store_true", help="print the answer as the program damindex does, and nothing in words")
    chosen = arguments.parse_args()
    try:
        library = load(chosen.library)
    except (OSError, AttributeError) as fault:  # no such file, none for this machine, another version, or a function that is not there
        arguments.error("%s%s" % (fault, "" if Path(chosen.library).exists() else "; ./library makes it"))
    try:
        with open(chosen.file or sys.stdin.fileno(), "rb") as source:
            data = source.read(LONGEST_INPUT + 1)  # one byte more than the longest is enough to be refused
    except OSError as fault:
        arguments.error(str(fault))
    told = figures(library, data)
    if not chosen.report:
        return tell(library, data, told)
    sys.stdout.write(report(library, data))
    return REFUSED if told[0] else STATUSES[told[2]]


if __name__ == "__main__":
    signal.signal(signal.SIGPIPE, signal.SIG_DFL)  # where nobody reads on, it ends without a word
    sys.exit(main())
