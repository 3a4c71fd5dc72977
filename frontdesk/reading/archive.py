"""A workbook's parts looked over before anything unpacks them: so many of them, so large and with so many tags, and none with what XML could hide in."""

import html
import io
import re
import zipfile
from typing import NamedTuple

from frontdesk.reading.mistakes import of_the_file

MOST_PARTS = 100
MOST_BYTES = 50_000_000  # unpacked, all parts together
MOST_TAGS = 1_000_000  # of all parts together; 2,000 rows with every column have less than half of it
MOST_HIDDEN = 2_000  # rows that are told apart
PIECE = 1 << 20  # bytes that are looked at in one go
OVERLAP = 2_100  # bytes of the piece before that are looked at again, so that no tag is cut

OLE = bytes.fromhex("d0cf11e0a1b11ae1")
MERGED = re.compile(rb'<(?:\w+:)?mergeCell\s[^>]*?ref="([A-Z0-9:]{2,30})"')
ROW = re.compile(rb'<(?:\w+:)?row\b[^>]{0,2000}>')
ROW_NUMBER = re.compile(rb'\sr="([0-9]{1,9})"')
HIDDEN = re.compile(rb'\shidden="(?:1|true)"')
COLUMN = re.compile(rb'<(?:\w+:)?col\s[^>]{0,500}>')
ENDS = re.compile(rb'\s(min|max)="([0-9]{1,6})"')
FORMULA = re.compile(rb"<(?:\w+:)?f[\s/>]")
SHEET = re.compile(rb'<(?:\w+:)?sheet\s[^>]*>')


class Part(NamedTuple):
    """What was seen in passing of a part of the workbook."""

    rows: int
    ordered: bool  # the rows stand in the order of their numbers
    formulas: bool
    merged: tuple  # ranges such as A2:A5
    hidden: tuple = ()  # rows
    hidden_columns: tuple = ()  # (first, last), from 1


def look_over(data, name):
    """The parts of a workbook by name. Raises Mistakes where it is none, or none that can be read in bounded room."""
    if data.startswith(OLE):
        raise of_the_file(name, of_ole(data))
    try:
        with zipfile.ZipFile(io.BytesIO(data)) as archive:
            check_directory(archive, name)
            return scanned(archive, name)
    except (zipfile.BadZipFile, zipfile.LargeZipFile, NotImplementedError, RuntimeError, OSError, EOFError, ValueError) as fault:
        raise of_the_file(name, "this workbook is damaged and cannot be unpacked (%s). Save it again." % fault) from None
    except Exception as fault:  # what unpacking raises has no common name
        if type(fault).__module__ in ("zlib", "_lzma"):
            raise of_the_file(name, "this workbook is damaged and cannot be unpacked (%s). Save it again." % fault) from None
        raise


def of_ole(data):
    if "EncryptedPackage".encode("utf-16-le") in data:
        return "this workbook is protected by a password. Save it without one."
    if "Workbook".encode("utf-16-le") in data or "Book".encode("utf-16-le") in data:
        return "this is a workbook of the old form (.xls). Save it as .xlsx."
    return "this is an old office document, and no workbook that can be read. Save it as .xlsx."


def check_directory(archive, name):
    """By the archive's own directory, which unpacking is held to: nothing is unpacked yet."""
    parts = archive.infolist()
    names = {part.filename for part in parts}
    if len(parts) > MOST_PARTS:
        raise of_the_file(name, "this workbook has %d parts; expected at most %d. Copy the three sheets to a new workbook." % (len(parts), MOST_PARTS))
    if sum(part.file_size for part in parts) > MOST_BYTES:
        limit = MOST_BYTES // 10**6
        raise of_the_file(name, "this workbook unpacks to more than %d MB; expected three tables. Copy the three sheets to a new workbook." % limit)
    if "xl/workbook.xml" in names:
        return
    if "xl/workbook.bin" in names:
        raise of_the_file(name, "this is a binary workbook (.xlsb). Save it as .xlsx.")
    if "content.xml" in names and "mimetype" in names:
        raise of_the_file(name, "this is an OpenDocument file. Save it as .xlsx.")
    raise of_the_file(name, "this is a zip archive and no workbook; expected an .xlsx workbook, a folder of CSV files or a case file.")


def scanned(archive, name):
    """Every part read once, piece by piece, and only counted."""
    left, found = MOST_TAGS, {}
    for part in archive.infolist():
        if not part.filename.casefold().endswith((".xml", ".rels", ".vml")):
            continue
        with archive.open(part) as file:
            tags, seen = scan(file, left)
        if tags is None:
            raise of_the_file(name, "%s has XML that no spreadsheet program writes; nothing of it is read. Save the workbook again." % part.filename)
        left -= tags
        if left < 0:
            raise of_the_file(name, "%s has more than a table can have%s. Copy the three sheets, without empty rows below them, to a new workbook."
                              % (sheet_named(archive, part.filename), ": %d rows so far" % seen.rows if seen.rows > 2_000 else ""))
        found[part.filename] = seen
    return found


def scan(file, left):
    """How many tags a part has, up to somewhat more than are left, and what is told of it; no number of tags where it has what XML could hide in."""
    tags, rows, last, ordered, formulas, merged, hidden, columns, before = 0, 0, 0, True, False, set(), set(), set(), b""
    while tags <= left and (piece := file.read(PIECE)):
        whole = before + piece
        if b"<!DOCTYPE" in whole or b"<!ENTITY" in whole or b"\0" in piece or (not before and piece.startswith((b"\xff\xfe", b"\xfe\xff"))):
            return None, None
        tags += piece.count(b"<")
        for row in ROW.finditer(whole):
            if row.end() > len(before):
                number = ROW_NUMBER.search(row[0])
                rows, last, ordered = rows + 1, int(number[1]) if number else last + 1, ordered and (not number or int(number[1]) > last)
                if len(hidden) < MOST_HIDDEN and HIDDEN.search(row[0]):
                    hidden.add(last)
        formulas = formulas or FORMULA.search(whole) is not None
        merged.update(MERGED.findall(whole) if len(merged) < 100 else ())
        columns.update(hidden_columns(whole) if len(columns) < 100 else ())
        before = piece[-OVERLAP:]
    return tags, Part(rows, ordered, formulas, tuple(sorted(ref.decode("ascii") for ref in merged)), tuple(sorted(hidden)), tuple(sorted(columns)))


def hidden_columns(text):
    """First and last of the columns that are hidden together."""
    for column in COLUMN.findall(text):
        ends = {name: int(number) for name, number in ENDS.findall(column)}
        if HIDDEN.search(column) and len(ends) == 2:
            yield ends[b"min"], ends[b"max"]


def sheet_named(archive, part):
    """A part by the name of its sheet, which is what the user knows; by its own where there is none."""
    try:
        relations = archive.read("xl/_rels/workbook.xml.rels")[:PIECE]
        place = part.removeprefix("xl/").encode("utf-8")
        relation = next(tag for tag in re.findall(rb"<(?:\w+:)?Relationship\s[^>]*>", relations) if place + b'"' in tag)
        known = re.search(rb'\sId="([^"]*)"', relation)[1]
        tag = next(tag for tag in SHEET.findall(archive.read("xl/workbook.xml")[:PIECE]) if b':id="%s"' % known in tag)
        return "the sheet %s" % html.unescape(re.search(rb'\sname="([^"]*)"', tag)[1].decode("utf-8"))
    except (KeyError, StopIteration, TypeError, UnicodeDecodeError):
        return part
