"""The three sheets as CSV files: comma or semicolon, UTF-8 with or without a mark, a decimal comma where the semicolon leaves it free."""

import csv
import io
import re
from pathlib import Path

from frontdesk.reading.columns import SHEETS, nearest
from frontdesk.reading.mistakes import Mistake, Mistakes
from frontdesk.reading.sheets import MOST_ROWS, Sheet
from frontdesk.reading.units import BLANKS, WITH_COMMA, is_blank

LONGEST_FILE = 5_000_000  # bytes: 2,000 rows have less
TEXTS = (".txt", ".tsv", ".tab")  # what a spreadsheet calls a table with tabs between its columns
MARK = re.compile(r'"?sep=([^\r\n"]?)"? *(?:\r\n|\r|\n|$)', re.IGNORECASE)


def sheets(source, name=""):
    """The sheets of a folder, or of the files that it would hold by their names. Raises Mistakes."""
    files = source if isinstance(source, dict) else in_folder(Path(source))
    by_sheet = {sheet: [file for file in files if file.casefold() == sheet + ".csv"] for sheet in SHEETS}
    wrong = [missing(sheet, found, files) for sheet, found in by_sheet.items() if len(found) != 1]
    if wrong:
        raise Mistakes(wrong)
    read, wrong = {}, []
    for sheet, (file,) in by_sheet.items():
        try:
            read[sheet] = table(sheet, file, files[file])
        except Mistakes as fault:
            wrong += fault.items
    if wrong:
        raise Mistakes(wrong)
    comma = any(separator == ";" and has_commas(rows) for separator, rows in read.values())
    return {sheet: Sheet(sheet, tuple(rows[0]), tuple(enumerate(rows[1:], 2)), comma and separator == ";") for sheet, (separator, rows) in read.items()}


def in_folder(folder):
    """What a folder's files hold that are named as sheets, as far as a file may be long; other CSV files, and sheets as other texts, by name alone."""
    found = {}
    try:
        for path in sorted(folder.iterdir()):
            suffix, named = path.suffix.casefold(), path.stem.casefold() in SHEETS
            if (suffix == ".csv" or named and suffix in TEXTS) and path.is_file():
                found[path.name] = b""
                if named and suffix == ".csv":
                    with path.open("rb") as file:
                        found[path.name] = file.read(LONGEST_FILE + 1)
    except OSError as fault:
        raise Mistakes([Mistake(folder.name, 0, "", "the folder cannot be read (%s)." % fault.strerror)]) from None
    return found


def missing(sheet, found, files):
    if found:
        return Mistake("", 0, "", "found %s; expected one file %s.csv." % (" and ".join(found), sheet))
    there = ", ".join(sorted(files)) or "no CSV file"
    texts = [file for file in sorted(files) if file.casefold() in [sheet + suffix for suffix in TEXTS]]
    if texts:
        return Mistake("", 0, "", "there is no file %s.csv; found %s. Save %s as CSV UTF-8." % (sheet, there, texts[0]))
    near = nearest(sheet + ".csv", sorted(file for file in files if file.casefold() not in [each + ".csv" for each in SHEETS]))
    return Mistake("", 0, "", "there is no file %s.csv; found %s.%s" % (sheet, there, " Did you mean %s?" % near if near else ""))


def table(sheet, file, data):
    """A file's separator, and its rows as texts; the row of headings is the first."""
    if len(data) > LONGEST_FILE:
        raise Mistakes([Mistake(file, 0, "", "the file has more than %d bytes; expected a table of cases." % LONGEST_FILE)])
    marked, text = unmarked(file, decoded(file, data))
    separator = marked or separator_of(file, text)
    rows = []
    reader = csv.reader(io.StringIO(text, newline=""), delimiter=separator, strict=True)
    try:
        for row in reader:
            rows.append(row)
            if len(rows) > MOST_ROWS + 1:
                raise Mistakes([Mistake(sheet, len(rows), "", "found more than %d rows; expected at most 500 cases." % MOST_ROWS)])
    except csv.Error as fault:
        text = "this cannot be read as CSV (%s). Look for a quotation mark that is not closed." % fault
        raise Mistakes([Mistake(file, reader.line_num + bool(marked), "", text, "line")]) from None
    if not rows or all(is_blank(cell) for cell in rows[0]):
        raise Mistakes([Mistake(sheet, 1, "", "found nothing; expected the headings in this row.")])
    return separator, rows


def decoded(file, data):
    """The text of a file, which is UTF-8."""
    if is_wide(data):
        raise Mistakes([Mistake(file, 1, "", 'this is UTF-16, as "Unicode text" is saved; expected UTF-8. Save it as CSV UTF-8.', "line")])
    try:
        text = data.decode("utf-8-sig")
    except UnicodeDecodeError as fault:
        line = data.count(b"\n", 0, fault.start) + 1
        raise Mistakes([Mistake(file, line, "", "byte %02x is no UTF-8; expected UTF-8. Save it as CSV UTF-8." % data[fault.start], "line")]) from None
    if "\0" in text:
        line = text.count("\n", 0, text.index("\0")) + 1
        raise Mistakes([Mistake(file, line, "", "found a zero byte; expected text.", "line")])
    return text


def is_wide(data):
    """Whether a text is UTF-16: by its mark, or by a zero beside its first letter."""
    return data[:2] in (b"\xff\xfe", b"\xfe\xff") or 0 in data[:2] and any(32 < byte < 127 for byte in data[:2])


def unmarked(file, text):
    """The separator that a first line as sep=; names, if there is one, and the text without that line, which spreadsheets neither show nor count."""
    mark = MARK.match(text)
    if mark is None:
        return "", text
    if mark[1] not in (",", ";"):
        what = {"\t": "a tab", "": "nothing"}.get(mark[1]) or '"%s"' % mark[1]
        raise Mistakes([Mistake(file, 1, "", "found sep= with %s behind it; expected sep=, or sep=; and columns separated so." % what, "line")])
    return mark[1], text[mark.end():]


def separator_of(file, text):
    """Comma or semicolon, by the headings: what stands between them outside of quotation marks."""
    heading = text.splitlines()[0] if text.strip(BLANKS) else ""
    outside = "".join(heading.split('"')[::2])
    if ";" in outside:
        return ";"
    if "\t" in outside:
        raise Mistakes([Mistake(file, 1, "", "the columns are separated by tabs; expected commas or semicolons. Save it as CSV UTF-8.", "line")])
    return ","


def has_commas(rows):
    """Whether a cell has a number with a decimal comma."""
    return any(WITH_COMMA.fullmatch(cell.strip(BLANKS)) for row in rows[1:] for cell in row)


def written(sheets, separator=",", comma=False):
    """The files of three sheets by name, each as bytes; with decimal commas where they are asked for."""
    files = {}
    for name, sheet in sheets.items():
        text = io.StringIO(newline="")
        lines = csv.writer(text, delimiter=separator, lineterminator="\n")
        lines.writerow(sheet.headings)
        for _, cells in sheet.rows:
            lines.writerow([str(cell).replace(".", ",") if comma and not isinstance(cell, str) else str(cell) for cell in cells])
        files[name + ".csv"] = text.getvalue().encode("utf-8")
    return files
