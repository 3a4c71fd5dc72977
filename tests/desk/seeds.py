"""Ships for tests of the desk: the examples, and random ones of the project's generator, as case files that the library accepts."""

import sys
from pathlib import Path

ROOT = Path(__file__).resolve().parent.parent.parent
for folder in (ROOT / "tests", ROOT):
    if str(folder) not in sys.path:
        sys.path.insert(0, str(folder))
sys.dont_write_bytecode = True

from generator.dice import Dice  # noqa: E402
from generator.frames import case_file  # noqa: E402
from generator.seeded import seeded_case  # noqa: E402


def examples():
    """Each example's name and bytes."""
    return [(path.stem, path.read_bytes()) for path in sorted((ROOT / "examples").glob("*.case"))]


def random_files(count, passengers, most=40, seed="desk"):
    """So many random ships of one type, each with a name to find it again by."""
    for number in range(count):
        name = "%s %s %d" % (seed, "passenger" if passengers else "cargo", number)
        yield name, case_file(*seeded_case(Dice(name), most=most, passengers=passengers, rule=number % 2 if passengers else None))
