"""Workbooks that are not as they should be: sheets missing, hidden or merged, formulas without values, and files made to take all memory, told in words."""

import io
import re
import subprocess
import sys
import zipfile
from pathlib import Path

ROOT = Path(__file__).resolve().parent.parent.parent
sys.path[:0] = [str(ROOT), str(ROOT / "tests"), str(ROOT / "tests" / "desk")]

from books import cargo  # noqa: E402
from handed import SHEET, begins, repacked, told, with_cases  # noqa: E402
from tally import Tally  # noqa: E402

from frontdesk.reading import archive, tables  # noqa: E402

ROOM = 120  # MB: what a process may take for the worst of these files, the interpreter and openpyxl among it
ALONE = """
import sys
sys.path.insert(0, sys.argv[1])
from frontdesk.reading import intake, mistakes
line = "read"
try:
    intake.read("book.xlsx", sys.stdin.buffer.read())
except mistakes.Mistakes as found:
    line = found.lines()[0]
most = next(line for line in open("/proc/self/status") if line.startswith("VmHWM:"))  # what getrusage tells has the starting process's in it
print(int(most.split()[1]) // 1024, line)
"""
LEVER = b'<c r="E3" t="n"><v>0.1</v>'
END = b"</sheetData>"


def sheets(tally):
    """What can be wrong with the sheets themselves; other sheets and macros are passed over."""
    for change, words in (
            (lambda book: setattr(book["cases"], "title", "case"),
             'cases: there is no sheet of this name; found "ship", "zones", "case". Did you mean "case"?'),
            (lambda book: book.remove(book["zones"]), 'zones: there is no sheet of this name; found "ship", "cases".'),
            (lambda book: setattr(book["zones"], "sheet_state", "hidden"), "zones: the sheet is hidden; expected one that can be seen."),
            (lambda book: book["cases"].merge_cells("A3:A5"), "cases, row 3: the cells A3:A5 are merged; expected a value in each cell."),
            (lambda book: book["ship"].delete_rows(1, 9), "ship, row 1: found nothing; expected the headings in this row.")):
        begins(tally, cargo().bytes(change), words)
    for change, what in ((lambda book: setattr(book["cases"], "title", "CASES "), "a sheet's name in other letters"),
                         (lambda book: book.create_sheet("notes").append(["anything"]), "notes"),
                         (lambda book: book.create_sheet("Hydrostatics").append(["anything"]), "a sheet of the office's own")):
        tally.same(told(cargo().bytes(change)), [], what)
    tally.same(told(repacked(cargo().bytes(), {"xl/vbaProject.bin": b"macro"})), [], "macros are not looked at")


def cells(tally):
    """Formulas with and without a stored value, what a formula's arithmetic leaves, and a size that is not true."""
    begins(tally, with_cases(LEVER, b'<c r="E3"><f>1/10</f>'), 'cases, row 3, "lever m, deepest": found a formula without a stored value')
    tally.same(told(with_cases(LEVER, b'<c r="E3"><f>1/10</f><v>0.1</v>')), [], "a formula with its value")
    begins(tally, with_cases(LEVER, b'<c r="E3" t="str"><f>IF(TRUE,"","x")</f><v></v>'), 'cases, row 3, "lever m, deepest": found nothing; expected')
    begins(tally, with_cases(b"<v>0.1</v>", b"<v>0.30000000000000004</v>"),
           'cases, row 2, "lever m, deepest": found 0.30000000000000004, which is 300.00000000000004 mm; expected whole millimetres.')
    size = with_cases(b'<dimension ref="A1:AE7"', b'<dimension ref="A1:B2"')
    tally.same((told(size), len(tables.read(size).rows)), ([], 6), "no row is left out where a file says that it is smaller than it is")


def other_writers(tally):
    """Tags with a prefix, which some programs write, are seen as those without; rows that are out of order would be passed over, and are told."""
    formula = with_cases(LEVER, b'<c r="E3"><f>1/10</f>')
    xml = zipfile.ZipFile(io.BytesIO(formula)).read(SHEET)
    xml = re.sub(rb"<(/?)([a-zA-Z])", rb"<\1x:\2", xml).replace(b"xmlns=", b"xmlns:x=")
    begins(tally, repacked(formula, {SHEET: xml}), 'cases, row 3, "lever m, deepest": found a formula without a stored value', "tags with a prefix")
    begins(tally, with_cases(b'<row r="7"', b'<row r="2"'), "cases: the rows of this sheet are not in order", "a row that stands too late")


def too_much(tally):
    """Rows, cells, tags, bytes and parts without end."""
    rows = [b'<row r="%d"/>' % at for at in range(8, 1_000_008)]
    alone(tally, with_cases(END, b"".join(rows) + END), "book.xlsx: the sheet cases has more than a table can have: ")
    begins(tally, with_cases(END, b"".join(rows[:4_000]) + END), "cases: found 4007 rows; expected at most 2000. Delete the empty rows below the table.")
    begins(tally, with_cases(END, b'<row r="1048576"><c r="A1048576"><v>1</v></c></row>' + END), "cases, row 2002: found more than 2000 rows")
    alone(tally, with_cases(END, b'<row r="9">' + b"<c/>" * 3_000_000 + b"</row>" + END), "book.xlsx: the sheet cases has more")
    alone(tally, with_cases(END, END + b" " * 60_000_000), "book.xlsx: this workbook unpacks to more than 50 MB")
    alone(tally, with_cases(END, END + b" " * 45_000_000), "read")
    begins(tally, repacked(cargo().bytes(), {"x%d" % at: b"" for at in range(200)}), "book.xlsx: this workbook has 2", "very many parts")


def alone(tally, data, words):
    """A file read by a process of its own, so that the memory is the reading's and not that of making the file."""
    run = subprocess.run([sys.executable, "-I", "-c", ALONE, str(ROOT)], input=data, capture_output=True, timeout=60)
    used, _, line = run.stdout.decode("utf-8").partition(" ")
    tally.that(line.startswith(words), words, "\n  found ", line, run.stderr.decode("utf-8")[-500:])
    tally.that(used.isdigit() and int(used) < ROOM, "memory", used, "MB, and", ROOM, "are allowed")


def no_workbooks(tally):
    """Damaged ones, and other formats."""
    book = cargo().bytes()
    entities = b'<!DOCTYPE x [<!ENTITY a "aaaaaaaaaa"><!ENTITY b "&a;&a;&a;&a;">]><worksheet'
    begins(tally, with_cases(b"<worksheet", entities), "book.xlsx: %s has XML that no spreadsheet" % SHEET, "entities")
    begins(tally, with_cases(END, b""), "book.xlsx: this workbook cannot be read", "a part whose tags do not close")
    for change, words in (({SHEET: None}, 'cases: there is no sheet of this name; found "ship", "zones".'),
                          ({"xl/workbook.xml": None}, "book.xlsx: this is a zip archive and no workbook"),
                          ({"xl/workbook.xml": b"<workbook"}, "book.xlsx: this workbook cannot be read"),
                          ({"xl/workbook.xml": None, "xl/workbook.bin": b""}, "book.xlsx: this is a binary workbook (.xlsb). Save it as .xlsx."),
                          ({"xl/workbook.xml": None, "content.xml": b"", "mimetype": b""}, "book.xlsx: this is an OpenDocument file. Save it as .xlsx.")):
        begins(tally, repacked(book, change), words)
    for data, words in ((archive.OLE + "Workbook".encode("utf-16-le"), "this is a workbook of the old form (.xls). Save it as .xlsx."),
                        (archive.OLE + "EncryptedPackage".encode("utf-16-le"), "this workbook is protected by a password. Save it without one."),
                        (archive.OLE, "this is an old office document"), (b"PK\x03\x04" + b"x" * 50, "this workbook is damaged"),
                        (book[:2000], "this workbook is damaged"), (book[:3000] + bytes(500) + book[3500:], "this workbook is damaged")):
        begins(tally, data, "book.xlsx: " + words)


if __name__ == "__main__":
    tally = Tally()
    for test in (sheets, cells, other_writers, too_much, no_workbooks):
        test(tally)
    sys.exit(tally.close())
