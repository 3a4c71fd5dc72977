"""Calls the library on slices of many lengths, the corpus and fresh files, and holds every number around what is lent against the independent program."""

import subprocess

import package
from expected import (
    ENTRIES, FOUR, HERE, LONGEST_REPORT, LONGEST_SHEET, MOST_NUMBERS, MOST_ROWS, TWELVE, TWENTY, answer, answer_faults, both_ways, corpus, fresh, independent,
    lent, numbers,
)
from independent.printing import mark_byte
from independent.regulation import WHOLE_SURVIVAL, WHOLE_V, Marks

MARGIN, LONGEST_INPUT = 8, 65536
LONGEST_FILE = 97 + 111 * MOST_ROWS + 7  # a hull of twenty zones, rows of kind 05 and the end, which keep every rule
LONGEST_OF_PASSENGERS = 43 + 153 * 428 + 7  # a hull of four zones, as many rows of kind 07 as fit, and the end


def number_marks(length):
    return [0xA5A5A5A500000000 + place for place in range(length + 2 * MARGIN)]


def byte_marks(length):
    return bytes(128 | place & 127 for place in range(length + 2 * MARGIN))


def over(marks, written):
    """Marks with what is written in place of the first of them, after the margin."""
    return marks[:MARGIN] + written + marks[MARGIN + len(written):]


def figures_expected(data, sheet, figures):
    """What is returned, then the sheet and the figures afterwards, each with its margins."""
    if figures < TWELVE:
        return numbers(0, *number_marks(sheet), *number_marks(figures))
    told = independent.figures(answer(data, sheet))
    return numbers(TWELVE, *over(number_marks(sheet), told[TWELVE:]), *over(number_marks(figures), told[:TWELVE]))


def numbers_expected(entry, data, room):
    """What is returned, then the numbers afterwards, with their margins: none of them where there is no room for all."""
    told = lent(entry, data)
    told = told if len(told) <= room else []
    return numbers(len(told), *over(number_marks(room), told))


def report_expected(data, out):
    text = independent.printed(answer(data)).encode("ascii")
    text = text if len(text) <= out else b""
    return numbers(len(text)) + over(byte_marks(out), text)


def questions():
    """Each question in words, as the program reads it, and the bytes that it must answer."""
    for name, data in corpus():
        file, needed = numbers(len(data)) + data, 2 * answer(data).rows
        for sheet in sorted({0, max(needed - 1, 0), needed, needed + 5}):
            for figures in (0, TWELVE - 1, TWELVE, TWELVE + 3):
                yield ("%s with a sheet of %d and %d figures" % (name, sheet, figures),
                       b"f" + numbers(sheet, figures) + file, figures_expected(data, sheet, figures))
        length = len(independent.printed(answer(data)))
        for out in (0, length - 1, length, length + 5):
            yield "%s with a buffer of %d" % (name, out), b"r" + numbers(out) + file, report_expected(data, out)
        for entry, (of, _) in ENTRIES.items():
            yield from number_questions(name, file, data, entry, of)


def number_questions(name, file, data, entry, of):
    """One of the entries with no room, a number short, just enough and more; of a refused file with the room that others need."""
    needed = len(lent(entry, data))
    rooms = {0, max(needed - 1, 0), needed, needed + 5} if needed else {0, 1, FOUR, TWENTY + 5}
    for room in sorted(rooms):
        yield "%s with room for %d numbers of %s" % (name, room, of), entry.encode() + numbers(room) + file, numbers_expected(entry, data, room)


def fresh_questions():
    """Every entry with more room than the answer takes, on fresh files."""
    for name, data in fresh():
        file, sheet = numbers(len(data)) + data, 2 * answer(data).rows + 5
        yield name, b"f" + numbers(sheet, TWELVE) + file, figures_expected(data, sheet, TWELVE)
        for entry, (of, _) in ENTRIES.items():
            room = len(lent(entry, data)) + 5
            yield "%s, %s" % (name, of), entry.encode() + numbers(room) + file, numbers_expected(entry, data, room)


def constants():
    """The header's sizes, places and marks, as they must be."""
    marks = [mark_byte(Marks(*(place == at for place in range(4)))) for at in range(4)]
    sizes = LONGEST_INPUT, LONGEST_REPORT, LONGEST_SHEET, TWELVE, TWENTY, MOST_NUMBERS["n"], MOST_NUMBERS["q"], MOST_NUMBERS["g"]
    return *sizes, 0, 1, 2, 8, 14, *range(7), WHOLE_V, WHOLE_SURVIVAL, *range(4), *marks


def length_faults():
    """What is wrong with each answer, None where nothing is."""
    asked = [("the version", b"v", numbers(package.NUMBER, package.NUMBER)), ("sizes, places and marks", b"c", numbers(*constants())),
             *questions(), *fresh_questions()]
    longest = max(len(independent.printed(answer(data))) for _, data in corpus())
    yield None if longest == LONGEST_REPORT else "the longest answer of the corpus has %d bytes" % longest
    longest = max((len(data) for _, data in corpus() if has_most_results(data)), default=0)
    yield None if longest == LONGEST_FILE else "no file of %d bytes in the corpus has %d rows of kind 05" % (LONGEST_FILE, MOST_ROWS)
    longest = max((len(data) for _, data in corpus() if data.startswith(b"06") and answer(data).rows), default=0)
    yield None if longest == LONGEST_OF_PASSENGERS else "the longest file of a passenger ship in the corpus that is accepted has %d bytes" % longest
    longest = {entry: max(len(lent(entry, data)) for _, data in corpus()) for entry in ENTRIES}
    yield None if longest == MOST_NUMBERS else "the most numbers that the corpus has of each entry are %s" % longest
    for way, words in both_ways(HERE / "lengths.c"):
        run = subprocess.run(words, input=b"".join(question for _, question, _ in asked), stdout=subprocess.PIPE)
        yield from answer_faults(run, way, ((name, expected) for name, _, expected in asked))


def has_most_results(data):
    """Whether a file is accepted with as many rows as there can be, each of them of kind 05, which is the longest."""
    return answer(data).rows == MOST_ROWS and data.count(b"\n05") == MOST_ROWS
