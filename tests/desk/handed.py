"""For the tests of what the desk is handed: what it tells of a source, and workbooks changed part by part."""

import io
import zipfile

from books import cargo
from independent.casefile import Refusal, reading

from frontdesk.reading import intake
from frontdesk.reading.mistakes import Mistakes

SHEET = "xl/worksheets/sheet3.xml"  # of cases


def refusal(data):
    """Number and line, by the second program, which the library is held against elsewhere."""
    found = reading(data)
    return (found.number, found.line) if isinstance(found, Refusal) else (0, 0)


def told(source, name="book.xlsx"):
    """The lines that a user sees, or none where it is read."""
    try:
        intake.read(name, source, refusal=refusal)
    except Mistakes as found:
        return found.lines()
    return []


def begins(tally, source, words, what="", name="book.xlsx"):
    lines = told(source, name)
    tally.that(lines and lines[0].startswith(words), what or words, "\n  found  %r\n  wanted %r" % (lines[:1], words))


def repacked(data, change):
    """An archive with its parts changed: a new content, or nothing to leave the part out; a part that is not there is added."""
    old, written = zipfile.ZipFile(io.BytesIO(data)), io.BytesIO()
    parts = {part: old.read(part) for part in old.namelist()}
    parts.update(change)
    with zipfile.ZipFile(written, "w", zipfile.ZIP_DEFLATED) as new:
        for part, content in parts.items():
            if content is not None:
                new.writestr(part, content)
    return written.getvalue()


def with_cases(old, new):
    """The cargo ship's workbook with something replaced in the XML of its sheet of cases, which has it."""
    data = cargo().bytes()
    xml = zipfile.ZipFile(io.BytesIO(data)).read(SHEET)
    assert old in xml
    return repacked(data, {SHEET: xml.replace(old, new)})
