"""Reads the guide's chapter on the desk as a test: runs its commands, and holds its tables of columns, parts and warnings against the
desk's own words. Holds the pages that list the desk's tests and modules against the tree."""

import os
import re
import subprocess
import sys
import tempfile
from pathlib import Path

sys.dont_write_bytecode = True
ROOT = Path(__file__).resolve().parent.parent.parent
sys.path[:0] = [str(ROOT / "tests" / "desk"), str(ROOT)]

from frontdesk.reading import blank  # noqa: E402
from frontdesk.reading.columns import SHEETS  # noqa: E402
from tally import Tally  # noqa: E402

CHAPTER = re.compile(r"^## From a table to a report\n(.*?)(?=^## )", re.M | re.S)
FENCE = re.compile(r"^```(\w*)\n(.*?)^```$", re.M | re.S)
TABLE = r"^\| %s \|\n\|[-|]+\n((?:\|.*\n)+)"
LENT = ("desk", "examples")  # what the commands name

tally = Tally()


def cells(text, head):
    """The cells of each table under this head."""
    return [[[cell.strip().strip("`") for cell in row.strip("|").split("|")] for row in rows.splitlines()] for rows in re.findall(TABLE % head, text, re.M)]


def check_commands(text):
    """Each command prints what stands below it, standard error too, in a folder that begins empty."""
    blocks = FENCE.findall(text)
    shown = [(command, after) for (kind, command), (kind_after, after) in zip(blocks, blocks[1:]) if (kind, kind_after) == ("sh", "text")]
    tally.same(len(shown), len([kind for kind, _ in blocks if kind == "sh"]), "each command has what it prints below it")
    with tempfile.TemporaryDirectory() as folder:
        for name in LENT:
            os.symlink(ROOT / name, Path(folder) / name)
        for command, wanted in shown:
            run = subprocess.run(["sh", "-c", command], cwd=folder, stdin=subprocess.DEVNULL, stdout=subprocess.PIPE, stderr=subprocess.STDOUT, timeout=60)
            tally.same(run.stdout.decode("utf-8"), wanted, "what is printed by: " + command.strip())
    tally.that(len(shown) >= 9, "the chapter has its commands")


def check_columns(text):
    """The three tables of columns have the words of the empty workbook's notes, every column once and in its order."""
    tables = cells(text, r"heading \| takes \| what it is")
    tally.same(len(tables), len(SHEETS), "a table of columns for each sheet")
    for sheet, told in zip(SHEETS, tables):
        tally.same(told, [list(row[1:]) for row in blank.notes() if row[0] == sheet and row[1]], "the columns of the sheet " + sheet)


def check_parts(text):
    """The parts of the report, by their numbers and headings."""
    pages = "".join(path.read_text(encoding="utf-8") for path in sorted((ROOT / "frontdesk" / "page" / "templates").glob("*.html"))).lower()
    for rows in cells(text, r"part \| what it tells") or [[]]:
        numbers = [part.partition(" ") for part, _ in rows if part[0].isdigit()]
        tally.same([number for number, _, _ in numbers], [str(number) for number in range(1, 9)], "the numbers of the report's parts")
        for number, _, heading in numbers:
            tally.that(re.search(r">%s</span>\s*%s" % (number, re.escape(heading)), pages), "part %s of the report is headed: %s" % (number, heading))


def words_of(*modules):
    """What modules say, as their text has it."""
    return "".join(path.read_text(encoding="utf-8") for path in modules)


def are_said(told, words):
    """Whether each piece of what is told, parted by dots where a number or a name stands, is said."""
    return all(piece.strip() in words for piece in told.split(".."))


def check_errors(text):
    """What an error is said to say is the desk's own words."""
    words = words_of(*(ROOT / "frontdesk").rglob("*.py"))
    rows = [row for rows in cells(text, r"it says \| do") for row in rows]
    tally.that(len(rows) >= 8, "the table of errors")
    for told, _ in rows:
        tally.that(are_said(told, words), "the desk tells: " + told)


def check_warnings(text):
    """Each doubt of the desk has its line, in its own words, and no other has."""
    words = words_of(ROOT / "frontdesk" / "doubts.py")
    for rows in cells(text, r"the warning \| what to do") or [[]]:
        for told, _ in rows:
            tally.that(are_said(told, words), "the desk warns: " + told)
        doubts = len(re.findall(r"yield (?:Doubt|gathered)\(|yield from ratio\(", words)) - 1  # that of ratio itself is there for each call
        tally.same(len(rows), doubts, "as many lines as there are doubts")


def check_tests():
    """docs/TESTING.md names each test of the desk, and none that is gone."""
    page = (ROOT / "docs" / "TESTING.md").read_text(encoding="utf-8")
    told = {name for rows in cells(page, r"test \| what it holds") for names, _ in rows for name in re.findall(r"\w+", names)}
    there = {path.stem for path in (ROOT / "tests" / "desk").glob("*.py") if "tally.close()" in path.read_text(encoding="utf-8")}
    tally.same(sorted(told), sorted(there), "the desk's tests that docs/TESTING.md names")


def check_modules():
    """docs/ARCHITECTURE.md names each module of the desk."""
    page = (ROOT / "docs" / "ARCHITECTURE.md").read_text(encoding="utf-8").partition("\n## The desk\n")[2]
    modules = {path.stem for path in (ROOT / "frontdesk").rglob("*.py") if path.parent.name != "drawings"} - {"__init__"}
    tally.same(sorted(modules - set(re.findall(r"`(\w+)`", page))), [], "modules that docs/ARCHITECTURE.md does not name")


chapter = CHAPTER.search((ROOT / "docs" / "GUIDE.md").read_text(encoding="utf-8"))
if tally.that(chapter, "the guide has its chapter on the desk"):
    check_commands(chapter[1])
    check_columns(chapter[1])
    check_parts(chapter[1])
    check_errors(chapter[1])
    check_warnings(chapter[1])
check_tests()
check_modules()
sys.exit(tally.close())
