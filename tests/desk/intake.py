"""What the desk is handed: files of every kind told apart by content, refusals in words, CSV files that are not as they should be, and empty workbooks."""

import io
import sys
import tempfile
from pathlib import Path

ROOT = Path(__file__).resolve().parent.parent.parent
sys.path[:0] = [str(ROOT), str(ROOT / "tests"), str(ROOT / "tests" / "desk")]

from books import cargo, passenger  # noqa: E402
from handed import begins, refusal, told  # noqa: E402
from tally import Tally  # noqa: E402

from frontdesk.reading import blank, casefile, commas, intake, refusals, tables, workbook  # noqa: E402
from frontdesk.reading.mistakes import Mistakes, Refused  # noqa: E402
from frontdesk.reading.sheets import Sheet  # noqa: E402

COASTER = (ROOT / "examples" / "coaster.case").read_bytes()


def kinds(tally):
    """The three kinds of input, by path and by bytes."""
    book, files = cargo().bytes(), commas.written(tables.sheets_of(casefile.parse(COASTER)))
    with tempfile.TemporaryDirectory() as folder:
        place = Path(folder)
        (place / "ship.xlsx").write_bytes(book)
        (place / "a.case").write_bytes(COASTER)
        for name, content in files.items():
            (place / name.upper()).write_bytes(content)
        for name, source, form in (("ship.xlsx", place / "ship.xlsx", "workbook"), ("other.dat", book, "workbook"),
                                   ("a.case", str(place / "a.case"), "case file"), ("a.case", COASTER, "case file"),
                                   ("folder", place, "CSV files"), ("folder", files, "CSV files")):
            ship = intake.read(name, source, refusal=refusal)
            tally.same((ship.source.form, ship.source.file), (form, name), "%s as %s" % (form, type(source).__name__))
        tally.same(casefile.write(intake.read("folder", place)), COASTER, "the folder's case file")
        begins(tally, place / "none.xlsx", "none.xlsx: there is no such file", name="none.xlsx")
        begins(tally, "/dev/null", "none: this is no file", name="none")
        (place / "ZONES.CSV").unlink()
        begins(tally, place, "there is no file zones.csv; found CASES.CSV, SHIP.CSV.")
        (place / "Zones.txt").write_bytes("zone\tname".encode("utf-16"))
        begins(tally, place, "there is no file zones.csv; found CASES.CSV, SHIP.CSV, Zones.txt. Save Zones.txt as CSV UTF-8.")
    tally.same([row.place for row in casefile.parse(COASTER).rows][:3], [2, 3, 4], "a row's place is its line")


def neither(tally):
    """What is none of the three kinds."""
    for data, words, name in ((b"", "the file is empty", "x"), (b" \n", "the file is empty", "x"), (b"%PDF-1.4", "this is a PDF document", "x"),
                              (b"<html>", "this is a web page", "x"), (b"zone,name\n1,a\n", "this is a single CSV file", "zones.csv"),
                              (b"zone;name\n", "this is a single CSV file", "x"), (b"zone\tname\n", "this is a table with tabs between its columns", "x"),
                              ("zone\tname".encode("utf-16"), "this is a text in UTF-16", "zones.txt"),
                              ("zone".encode("utf-16-be"), "this is a text in UTF-16", "zones.txt"),
                              (bytes(range(256)), "this is no file that the desk can read", "x"),
                              (b"7" * 20_000_001, "the file has more than 20 MB", "x"), (b"0" * 70_000, "found more than 65536 bytes", "x")):
        begins(tally, data, "%s: %s" % (name, words), name=name)


def refused(tally):
    """Each refusal of a case file with its line and what stands there, never as a bare number."""
    for old, new, number, line, heading, words in (
            (b"\n", b"\r\n", 2, 1, "", "found a carriage return"), (b"a", b"A", 2, 2, "", 'found "A"'),
            (b"01210c", b"\xef\xbb\xbf01210c", 2, 1, "", "found a byte order mark"), (b"0f0029\n", b"", 10, 43, "", "found no end"),
            (b"0f0029", b"0f0028", 6, 43, "", "found an end that counts 40 rows; expected 41"),
            (b"0f0029\n", b"0f0029\n00\n", 10, 44, "", "found a line after the end"),
            (b"01210c", b"02210c", 3, 1, "", "found a line of kind 02; expected a hull"),
            (b"01210c", b"01110c", 4, 1, "Ls m", "found 43.64; expected 80 to 198 m")):
        try:
            intake.read("a.case", COASTER.replace(old, new), refusal=refusal)
            tally.that(False, "not refused", old)
        except Refused as found:
            item = found.items[0]
            tally.same((found.number, found.line, item.row, item.heading), (number, line, line, heading), str(found))
            tally.that(item.text.startswith(words) and item.text.endswith("(refusal %d)" % number), item.text)
    tally.same(str(refusals.told(7, 3, b"", tables.read(cargo().bytes()))).partition(" (")[0],
               "cases, row 3: the library refused this ship: a number of the row is outside its limits", "a refusal that the tables did not foresee")


def every_refusal(tally):
    """Each refused file of the corpus is told with the library's own number and line, and with what was found and expected."""
    for path in sorted((ROOT / "tests" / "cases").glob("*/*.case")):
        answer = path.with_suffix(".expected").read_text()
        number, line = (int(answer[2:4], 16), int(answer[4:8], 16)) if answer.startswith("8f") else (0, 0)
        if number not in (0, 11):
            item = refusals.told(number, line, path.read_bytes()).items[0]
            tally.that(item.row == line and "found" in item.text and "expected" in item.text, path.name, str(item))


def csv_files(tally):
    """CSV files that are not as they should be, by file and line or by row."""
    good = commas.written(tables.sheets_of(tables.read(cargo().bytes())))
    zones, cases = good["zones.csv"], good["cases.csv"]
    for file, content, words in (
            ("zones.csv", b"zone\tname\taft m\tforward m\n", "zones.csv, line 1: the columns are separated by tabs"),
            ("zones.csv", zones.replace(b"hold", b"h\xfcld"), "zones.csv, line 3: byte fc is no UTF-8"),
            *(("zones.csv", "zone\tname".encode(code), 'zones.csv, line 1: this is UTF-16, as "Unicode text" is saved; expected UTF-8. Save it as CSV UTF-8.')
              for code in ("utf-16", "utf-16-le", "utf-16-be")),
            ("zones.csv", b"sep=\t\nzone\tname\n", "zones.csv, line 1: found sep= with a tab behind it; expected sep=, or sep=;"),
            ("zones.csv", b"sep=|\nzone|name\n", 'zones.csv, line 1: found sep= with "|" behind it'),
            ("zones.csv", b"sep=\r\nzone,name\n", "zones.csv, line 1: found sep= with nothing behind it"),
            ("zones.csv", b"sep=,\n" + zones + b'4,"open\n', "zones.csv, line 6: this cannot be read as CSV"),
            ("zones.csv", b"sep=,\n", "zones, row 1: found nothing; expected the headings"),
            ("zones.csv", b"sep=,\n" + zones.replace(b"1,", b"1x,", 1), 'zones, row 2, "zone": found "1x"'),
            ("zones.csv", b"sep=;\n" + zones, 'zones, row 1, "zone,name,aft m,forward m": this heading is not known'),
            ("zones.csv", b"", "zones, row 1: found nothing; expected the headings"),
            ("zones.csv", zones + b'4,"open\n', "zones.csv, line 5: this cannot be read as CSV"),
            ("zones.csv", zones + b"4,\0\n", "zones.csv, line 5: found a zero byte"),
            ("cases.csv", cases + b"\n" * 3_000, "cases, row 2002: found more than 2000 rows"),
            ("cases.csv", cases + b" " * 5_000_000, "cases.csv: the file has more than 5000000 bytes"),
            ("cases.csv", b"zones,b m,H m,lever m,deepest\n",
             'cases, row 1, "lever m": this heading is not known. In a CSV file a heading with a comma stands in quotation marks.'),
            ("Ship.csv", b"name", "found ship.csv and Ship.csv; expected one file ship.csv."),
            ("cases.csv", cases.replace(b"b m", b"\x1b[2Jb m", 1), 'cases, row 1, "?[2Jb m": this heading is not known.'),
            ("cases.csv", cases.replace(b",0.1,", b',"0,125",', 1),
             'cases, row 2, "lever m, deepest": found "0,125"; expected 0 to 5 m. Write the decimal comma as'),
            ("cases.csv", cases.replace(b",0.1,", b',"0,1",', 1), 'cases, row 2, "lever m, deepest": found "0,1"; expected 0 to 5 m. Write the decimal comma')):
        begins(tally, {**good, file: content}, words)
    windows = {name: b"\xef\xbb\xbf" + content.replace(b"\n", b"\r\n") for name, content in good.items()}
    tally.same(told(windows), [], "a byte order mark and the line ends of Windows")
    for ends in (b"\n", b"\r\n", b"\r"):
        for separator, comma in ((",", False), (";", True), (";", False)):
            files = commas.written(tables.sheets_of(tables.read(cargo().bytes())), separator, comma)
            marked = {name: (b"\xef\xbb\xbfsep=%s\n" % separator.encode() + content).replace(b"\n", ends) for name, content in files.items()}
            tally.same((told(marked), [row.place for row in tables.read(marked).rows]), ([], [row.place for row in tables.read(good).rows]),
                       "a first line that names %s as the separator is not counted" % separator)
    begins(tally, {"case.csv": b"", "ship.csv": good["ship.csv"], "zones.csv": zones},
           "there is no file cases.csv; found case.csv, ship.csv, zones.csv. Did you mean case.csv?")
    mixed = commas.written(tables.sheets_of(tables.read(passenger().bytes())), ";", comma=True)
    begins(tally, {**mixed, "cases.csv": mixed["cases.csv"].replace(b";9460;", b";9.460;", 1)},
           'cases, row 2, "displacement t, deepest": found 9.460; expected 1 to 300000 t. Write thousands without a mark: 9460.')


def empty_workbooks(tally):
    """What new makes: read as it is it is told to be empty, and filled in it is a ship."""
    for type, first in (("", "ship, row 2: found nothing; expected the ship's data"), ("cargo", 'ship, row 2, "Ls m": found nothing; expected 80 to 198 m.'),
                        ("passenger", 'ship, row 2, "Ls m": found nothing; expected 20 to 198 m.')):
        begins(tally, blank.book(12, type), first)
    tally.same(list(blank.groups(4)), ["1", "1-2", "1-3", "2", "2-3", "2-4", "3", "3-4", "4"], "groups in the file's order")
    tally.same([len(list(blank.groups(zones))) for zones in (1, 2, 20)], [1, 3, 57], "as many groups as there are")
    sheets = blank.blank_sheets(1, "cargo")
    rows = tuple((at, row[:4] + (0.1, 15, 2, "none") * 3) for at, row in sheets["cases"].rows)
    ship = tables.ship_of({"ship": Sheet("ship", sheets["ship"].headings, ((2, ("", "cargo", "90", "16", "7", "4")),)),
                           "zones": Sheet("zones", sheets["zones"].headings, ((2, (1, "", 0, 90)),)), "cases": Sheet("cases", sheets["cases"].headings, rows)})
    tally.same((ship.zones, len(ship.rows), ship.rows[0].height, ship.rows[0].depth), (1, 1, ship.top, ship.half_breadth), "filled in")
    for zones in (0, 21):
        try:
            blank.book(zones)
            tally.that(False, zones, "zones are taken")
        except Mistakes as found:
            tally.same(str(found), "found %d zones; expected 1 to 20." % zones, "zones")


def set_up(tally):
    """How an empty workbook meets its reader: headings that stay, drop-downs, columns wide enough for each word, and pages that can be read."""
    from openpyxl import load_workbook
    for type, wide in (("", 3), ("cargo", 2), ("passenger", 2)):
        book = load_workbook(io.BytesIO(blank.book(20, type)))
        lists = {rule.formula1 for sheet in book for rule in sheet.data_validations.dataValidation if rule.type == "list"}
        wanted = {'"cargo,passenger"'} | ({'"earlier,2020"', '"yes,no"'} if type != "cargo" else set())
        tally.same(lists, wanted, "drop-downs of %s" % (type or "either type"))
        tally.same([sheet.freeze_panes for sheet in book], ["A2", "A2", "E2", "A2"], "headings stay in sight")
        for sheet in book:
            paper = sheet.page_setup.orientation, sheet.page_setup.paperSize, sheet.sheet_properties.pageSetUpPr.fitToPage, sheet.print_title_rows
            tally.same(paper, ("landscape", 9, True, "$1:$1"), "%s is printed across on A4, its headings on each page" % sheet.title)
        tally.same([sheet.page_setup.fitToWidth for sheet in book], [1, 1, wide, 1], "pages across")
        tally.same(book["cases"].print_title_cols, "$A:$D", "the damage stands on each page")
        cut = [cell.value for sheet in book for cell in sheet[1] if max(map(len, cell.value.split())) + 1 > sheet.column_dimensions[cell.column_letter].width]
        tally.same(cut, [], "no word of a heading is wider than its column")
        notes = book["notes"]
        low = [row[3].value for row in notes.iter_rows(min_row=2) if notes.row_dimensions[row[0].row].height < 15 * (1 + len(row[3].value) // 121)]
        tally.same(low, [], "no note is higher than its row")


def without_openpyxl(tally):
    """CSV and case files are read where the library for workbooks is missing; workbooks are told what to install."""
    book, files = cargo().bytes(), commas.written(tables.sheets_of(casefile.parse(COASTER)))
    held = {name: sys.modules[name] for name in list(sys.modules) if name.split(".")[0] == "openpyxl"}
    try:
        sys.modules.update(dict.fromkeys(held))
        tally.same((told(files), told(COASTER)), ([], []), "CSV and case files without openpyxl")
        tally.same(told(book), ["book.xlsx: " + workbook.MISSING], "a workbook without openpyxl")
    finally:
        sys.modules.update(held)


if __name__ == "__main__":
    tally = Tally()
    for test in (kinds, neither, refused, every_refusal, csv_files, empty_workbooks, set_up, without_openpyxl):
        test(tally)
    sys.exit(tally.close())
