"""Whatever a user has, read to a Ship: a workbook, a folder of CSV files or a case file, told apart by what is in it and not by its name."""

from pathlib import Path

from frontdesk.reading import archive, casefile, commas, refusals, tables
from frontdesk.reading.mistakes import of_the_file

LONGEST_FILE = 20_000_000  # bytes that are read of a file
KINDS = "an .xlsx workbook, a folder with ship.csv, zones.csv and cases.csv, or a case file"
OTHERS = ((b"%PDF", "a PDF document"), (b"<", "a web page or another XML file"), (b"\x89PNG", "a picture"), (b"\xff\xd8", "a picture"), (b"{", "a JSON file"))
ZIP = (b"PK\x03\x04", b"PK\x05\x06", b"PK\x07\x08")


def read(name, source, against=False, refusal=None):
    """The ship of a path, of a file's bytes, or of CSV files' bytes by name. Raises Mistakes; with refusal, which is asked for a file's
    refusal number and line first, Refused for a case file that the library does not accept."""
    if isinstance(source, dict):
        return tables.read(source, name, against)
    if isinstance(source, (str, Path)):
        path = Path(source)
        if path.is_dir():
            return tables.read(path, name, against)
        source = content(path, name)
    return read_bytes(name, bytes(source), against, refusal)


def content(path, name):
    """A file's bytes, as far as any input may be long."""
    if not path.exists():
        raise of_the_file(name, "there is no such file.")
    if not path.is_file():
        raise of_the_file(name, "this is no file; expected %s." % KINDS)
    try:
        with path.open("rb") as file:
            return file.read(LONGEST_FILE + 1)
    except OSError as fault:
        raise of_the_file(name, "the file cannot be read (%s)." % fault.strerror) from None


def read_bytes(name, data, against, refusal):
    if len(data) > LONGEST_FILE:
        raise of_the_file(name, "the file has more than %d MB; expected %s." % (LONGEST_FILE // 10**6, KINDS))
    if data.startswith(ZIP) or data.startswith(archive.OLE):
        return tables.read(data, name, against)
    if not data.strip():
        raise of_the_file(name, "the file is empty; expected %s." % KINDS)
    if not like_a_case_file(data):
        raise of_the_file(name, unlike(name, data))
    return read_case(name, data, refusal)


def read_case(name, data, refusal):
    """The ship of a case file; whether it is one, the library judges."""
    number, line = refusal(data)[:2] if refusal is not None else (0, 0)
    if number:
        raise refusals.told(number, line, data, name=name)
    ship = casefile.parse(data, name)
    if ship is None:
        raise of_the_file(name, "this is no case file that can be read; expected lines of hexadecimal digits, a hull first and an end last.")
    return ship


def like_a_case_file(data):
    """Whether the first line has hexadecimal digits and little else: what an editor adds to a case file does not make it another kind of file."""
    first = data[:2000].replace(b"\0", b"").removeprefix(b"\xef\xbb\xbf").removeprefix(b"\xff\xfe").removeprefix(b"\xfe\xff").split(b"\n")[0]
    kept = first.translate(None, b" \t\r,;\"")
    return len(kept) >= 2 and not kept.translate(None, b"0123456789abcdefABCDEF")


def unlike(name, data):
    """What a file is that is none of the three kinds."""
    first = data[:2000].split(b"\n")[0]
    if name.casefold().endswith(".csv") or b";" in first or b"," in first and b"\0" not in data[:2000]:
        return "this is a single CSV file; expected a folder with ship.csv, zones.csv and cases.csv."
    if commas.is_wide(data):
        return 'this is a text in UTF-16, as "Unicode text" is saved; expected %s. Save each sheet as CSV UTF-8.' % KINDS
    if b"\t" in first and b"\0" not in first:
        return "this is a table with tabs between its columns; expected %s. Save each sheet as CSV UTF-8." % KINDS
    for start, what in OTHERS:
        if data.startswith(start):
            return "this is %s; expected %s." % (what, KINDS)
    return "this is no file that the desk can read; expected %s." % KINDS
