"""Writes a workbook for each example ship, and one ship as CSV files too, by the desk; --check says whether they are just what is made.

It needs the desk's packages (packages.txt), and so the distribution's own Python: /usr/bin/python3 examples/workbooks.py"""

import argparse
import io
import sys
import zipfile
from dataclasses import replace
from pathlib import Path

HERE = Path(__file__).resolve().parent
sys.path[:0] = [str(HERE), str(HERE.parent)]

from fleet import FLEET  # noqa: E402
from flooding import exact, is_opened, opens_garage  # noqa: E402
from frontdesk.reading import binding, casefile, commas, intake, tables  # noqa: E402
from frontdesk.reading.mistakes import Mistakes  # noqa: E402
from frontdesk.reading.units import plain  # noqa: E402

IN_METRES = {ship.name: ship for ship in FLEET}
AS_CSV = ("coaster",)


def joined(parts):
    """Things in a row: a, b and c."""
    return " and ".join([", ".join(parts[:-1]), parts[-1]] if len(parts) > 1 else parts)


def case_name(ship, row, half_breadth, top):
    """What a case floods, by the names of zones, holds and decks, and how far in and up it goes where something holds the water."""
    zones = ship.zones[row.first - 1:row.first - 1 + row.count]
    depth, height = exact(row.depth) / 100, exact(row.height) / 1000
    flooded = [zone.name for zone in zones] if row.count < 3 else ["%s to %s" % (zones[0].name, zones[-1].name)]
    holds = dict.fromkeys(zone.hold for zone in zones if zone.hold and is_opened(zone, depth))
    flooded += [*holds, *(["ro-ro deck"] if opens_garage(ship, row.first, row.count, height) else [])]
    ends = [", in to %s m" % plain(row.depth, 2)] if row.depth < half_breadth else []
    ends += [", up to %s m" % plain(row.height, 3)] if row.height < top else []
    return joined(flooded) + "".join(ends)


def named(name, data):
    """The ship of an example's case file, with the names that the file has no place for."""
    ship = casefile.parse(data, name + ".case")
    title = name.replace("-", " ").capitalize()
    if name not in IN_METRES:
        return replace(ship, name=title)
    metres = IN_METRES[name]
    rows = tuple(replace(row, name=case_name(metres, row, ship.half_breadth, ship.top)) for row in ship.rows)
    return replace(ship, name=title, zone_names=tuple(zone.name for zone in metres.zones), rows=rows)


def made():
    """Every file by its path: the workbooks, and the CSV files."""
    for path in sorted(HERE.glob("*.case")):
        sheets = tables.sheets_of(named(path.stem, path.read_bytes()))
        yield path.with_suffix(".xlsx"), binding.bound(sheets)
        if path.stem in AS_CSV:
            for file, content in commas.written(sheets).items():
                yield path.with_suffix("") / file, content


def parts(data):
    """What an archive holds, by name; the same content may be packed otherwise by another version of the packer."""
    with zipfile.ZipFile(io.BytesIO(data)) as archive:
        return {name: archive.read(name) for name in archive.namelist()}


def is_kept(path, data):
    """Whether a file is just what is made."""
    if not path.exists():
        return False
    kept = path.read_bytes()
    return kept == data or path.suffix == ".xlsx" and zipfile.is_zipfile(path) and parts(kept) == parts(data)


def case_of(path):
    """The case file that the desk makes of a workbook or a folder, or the desk's words where there is none."""
    try:
        return casefile.write(intake.read(path.name, path))
    except Mistakes as mistakes:
        return "; ".join(mistakes.lines())


def faults(files):
    """Each file against what is made of its case file, and its case file against what the desk reads from it."""
    for path, data in files.items():
        yield None if is_kept(path, data) else "%s is not what is made" % path.relative_to(HERE)
    for path in sorted({path if path.suffix == ".xlsx" else path.parent for path in files}):
        wanted = path.with_suffix(".case").read_bytes()
        yield None if path.exists() and case_of(path) == wanted else "%s does not give %s.case" % (path.name, path.stem)
    for path in sorted([*HERE.glob("*.xlsx"), *HERE.glob("*/*.csv")]):
        yield None if path in files else "%s is made by nothing" % path.relative_to(HERE)


def check():
    looked_at = list(faults(dict(made())))
    found = [fault for fault in looked_at if fault]
    for fault in found:
        print(fault)
    print("%d passed, %d failed" % (len(looked_at) - len(found), len(found)))
    return 1 if found or not looked_at else 0


def write():
    for path, data in made():
        path.parent.mkdir(exist_ok=True)
        if not is_kept(path, data):
            path.write_bytes(data)
    return 0


def main():
    parser = argparse.ArgumentParser(description=__doc__.partition("\n")[0])
    parser.add_argument("--check", action="store_true")
    try:
        return check() if parser.parse_args().check else write()
    except Mistakes as mistakes:
        sys.exit("\n".join(mistakes.lines()))


if __name__ == "__main__":
    sys.exit(main())
