"""What the independent program says of the corpus and of fresh files, by each of the library's entries, and what a program told held against it."""

import struct
from functools import lru_cache
from pathlib import Path

import independent
import package
from generator.dice import Dice
from generator.fresh import seeded_file
from linking import ROOT, linked

HERE = Path(__file__).resolve().parent
TWELVE, TWENTY, FOUR, MOST_ROWS, MOST_ZONES = 12, 20, 4, 500, 20
LONGEST_SHEET, LONGEST_REPORT = 2 * MOST_ROWS, 69 + 25 * MOST_ROWS
MOST_NUMBERS = {"n": TWENTY * MOST_ROWS, "q": FOUR, "g": MOST_ZONES * (MOST_ZONES + 1)}  # by the letters that ask for rows, R and groups
RANDOM, SEED = 500, 7  # fresh files, some of them damaged
answer = lru_cache(maxsize=None)(independent.answer)
reading = lru_cache(maxsize=None)(independent.reading)


def both_ways(source):
    """The words that run a program in C, linked with the archive and with the shared object."""
    return ("the archive", linked(source, "host")), ("the shared object", package.linked_with_package(source))


def corpus():
    for path in sorted((ROOT / "tests" / "cases").glob("*/*.case")):
        yield "%s/%s" % (path.parent.name, path.stem), path.read_bytes()


def fresh():
    """Random and damaged files."""
    for number in range(RANDOM):
        data, shows = seeded_file(Dice(SEED * 10 ** 9 + number))
        yield "random file %d (%s)" % (number, shows), data


def numbers(*values):
    return struct.pack("<%dQ" % len(values), *values)


ENTRIES = {
    "n": ("the rows", lambda data: independent.row_numbers(answer(data))),
    "q": ("R", lambda data: independent.required_of(reading(data))),
    "g": ("the groups", lambda data: independent.group_numbers(reading(data))),
}


@lru_cache(maxsize=None)
def lent(entry, data):
    """What one of the entries gives that lend an array of numbers."""
    return ENTRIES[entry][1](data)


def answer_faults(run, way, wanted):
    """Holds what a program told, answer after answer, against what it must tell."""
    at = 0
    for name, expected in wanted:
        got = run.stdout[at:at + len(expected)]
        at += len(expected)
        yield None if got == expected else "%s, with %s: not what the independent program says" % (name, way)
    if run.returncode or at != len(run.stdout):
        yield "the program with %s ended with status %d after %d bytes of %d" % (way, run.returncode, len(run.stdout), at)
