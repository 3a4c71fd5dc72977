"""The sheet cases: the rows of a ship in whole units and in the file's order, every rule that they can break told by row and heading."""

import datetime
import re
from dataclasses import replace

from frontdesk.reading.columns import CASE, DEPTH, FIRST, FLOODING, GIVEN, GROUP, HEIGHT, OF_PART, PARTS, SECOND
from frontdesk.reading.layers import check_layers
from frontdesk.reading.units import in_words, is_blank
from frontdesk.ship import CARGO, NO_OPENING, PASSENGER, TOP_ABOVE_DEEPEST, Flooding, Result, Row

MONTH = r"[^\W0-9]{3,9}\.?"
DATE = re.compile(r"[0-9]{1,2}[-. ]+%s(?:[-. ]+[0-9]{2,4})?|%s[-. ]+[0-9]{1,4}|[0-9]{1,4}[-./][0-9]{1,2}[-./][0-9]{2,4}" % (MONTH, MONTH))
AS_A_DATE = "The spreadsheet took what was typed for a date. Make the column text, and enter it again."
FEW = 3  # blank cells of a part that are told each
ZONES = re.compile(r"([0-9]{1,4})\s*(?:[-\u2010-\u2013\u2212]\s*([0-9]{1,4}))?")


def read_cases(table, hull):
    """The rows in the file's order, and whether the sheet had them in another; what is wrong is in the ledger."""
    table.ask_for((GROUP, DEPTH, HEIGHT))
    if hull.type is not None:
        ask_for_parts(table, hull.type)
    found = [read_row(line, hull) for line in table.lines]
    placed = [row for row in found if row is not None]
    if len(placed) == len(found):
        check_layers(table, hull, placed)
    rows = sorted(placed, key=lambda row: row.order)
    return tuple(rows), rows != placed


def ask_for_parts(table, type):
    """Tells the headings that are missing: of a passenger ship's two parts all; of a cargo ship's all of each part that there is, and one part at least."""
    own = [part for part in PARTS if type in PARTS[part]]
    begun = [part for part in own if any(table.has(column) for column in OF_PART[part])]
    needed = own if type == PASSENGER else begun if GIVEN in begun else [FIRST, *begun]
    if SECOND in needed and FIRST not in needed:
        needed = [FIRST, *needed]
    table.ask_for(column for part in own if part in needed for column in OF_PART[part])


def read_row(line, hull):
    """A row, or None where its place could not be read; its numbers are there only where all could be."""
    zones, depth, height = read_group(line, hull), read_depth(line, hull), read_height(line, hull)
    numbers = read_parts(line, hull.type) or {}
    name = line.name(CASE)
    if None in (zones, depth, height):
        return None
    return Row(*zones, depth, height, name=name, place=line.number, **numbers)


def read_group(line, hull):
    """First zone and how many zones there are, from 3 or 3-5."""
    if not line.table.has(GROUP):
        return None
    count = len(hull.places) - 1 if hull.places else None
    expected = "a zone such as 2 or zones such as 2-4" + (", of 1 to %d" % count if count else "")
    cell = line.cell(GROUP)
    if isinstance(cell, float) and cell.is_integer():
        cell = int(cell)
    if not isinstance(cell, (int, str)) and not is_blank(cell):
        return line.expected(GROUP, expected, AS_A_DATE if isinstance(cell, datetime.date) else in_words(cell)[1])
    match = None if isinstance(cell, bool) or is_blank(cell) else ZONES.fullmatch(str(cell).strip())
    if not match:
        return line.expected(GROUP, expected, AS_A_DATE if isinstance(cell, str) and DATE.fullmatch(cell.strip()) else "")
    first, last = int(match[1]), int(match[2] or match[1])
    if last < first:
        return line.expected(GROUP, expected, "From aft forward, that is %d-%d." % (last, first))
    if first < 1 or count is not None and last > count or last > 255:
        return line.expected(GROUP, expected)
    return first, last - first + 1


def read_depth(line, hull):
    """b in centimetres; where B is not known, B/2 cannot be told, and nothing is said of it."""
    if not line.table.has(DEPTH):
        return None
    if hull.breadth is None:
        return None if line.word(DEPTH) else line.whole(DEPTH) and None
    half = hull.breadth // 2
    return half if line.word(DEPTH) else line.whole(replace(DEPTH, most=half))


def read_height(line, hull):
    """H in millimetres, the same way."""
    if not line.table.has(HEIGHT):
        return None
    if line.word(HEIGHT):
        return None if hull.deepest is None else hull.deepest + TOP_ABOVE_DEEPEST
    return line.whole(HEIGHT)


def read_parts(line, type):
    """A row's results, given survivals and floodings; nothing where something is missing or wrong, or the type of the ship is not known."""
    filled = {part: [column for column in columns if not line.blank(column)] for part, columns in OF_PART.items()}
    for part, columns in filled.items():
        if columns and type is not None and type not in PARTS[part]:
            other = PASSENGER if type == CARGO else CARGO
            line.expected(columns[0], "nothing: %s belong to a %s ship" % ("these columns" if part == FLOODING else part, other))
    own = [part for part in filled if filled[part] and (type is None or type in PARTS[part])]
    if not own:
        if type is not None:
            line.wrong(None, "found no results; expected %s. A damage that is not survived is left out, or has zeros." % wanted(type))
        return None
    if type is not None and GIVEN in own and len(own) > 1:
        return line.expected(filled[GIVEN][0], "results or given survivals, and not both in one row")
    asked = needed_parts(own, type)
    if type is not None:
        tell_blanks(line, asked, filled, own)
    numbers = {column.heading: read_number(line, column) for part in asked for column in filled[part]}
    if type is None or any(numbers.get(column.heading) is None for part in asked for column in OF_PART[part]):
        return None
    return assembled(asked, numbers)


def wanted(type):
    return "the results of the final stage, and of the intermediate stage" if type == PASSENGER else "results, or given survivals"


def needed_parts(own, type):
    """The parts that a row must have in full, once it has something of these."""
    if type == PASSENGER:
        return [FIRST, FLOODING]
    return [FIRST, *own] if SECOND in own and FIRST not in own else own


def tell_blanks(line, parts, filled, own):
    """Tells the blank cells of parts that are begun, one by one where they are few; a cell of the row that is filled in is named."""
    for part in parts:
        blank = [column for column in OF_PART[part] if line.table.has(column) and line.blank(column)]
        beside = 'The row has "%s".' % (filled[part] or filled[own[0]])[0].heading
        if len(blank) > FEW:
            line.expected(blank[0], "all %d cells of the %s, and %d are blank" % (len(OF_PART[part]), part, len(blank)), beside)
        else:
            for column in blank:
                line.expected(column, guess=beside)


def read_number(line, column):
    """A cell of a part."""
    if column.choices:
        return line.choice(column)
    return NO_OPENING if line.word(column) else line.whole(column)


def assembled(parts, numbers):
    """A row's fields from its numbers."""
    fields = {}
    for part in parts:
        values = [numbers[column.heading] for column in OF_PART[part]]
        if part == GIVEN:
            fields["given"] = tuple(values)
        elif part == FLOODING:
            fields["floodings"] = tuple(Flooding(*values[at:at + 5], values[at + 5] == "yes") for at in range(0, 18, 6))
        else:
            fields["results"] = fields.get("results", ()) + tuple(Result(*values[at:at + 4]) for at in range(0, 12, 4))
    return fields
