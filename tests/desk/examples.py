"""Holds the workbooks and CSV files of examples/ against their script and their case files, and the script against another day."""

import datetime
import subprocess
import sys
import tempfile
import time
from pathlib import Path

sys.dont_write_bytecode = True
ROOT = Path(__file__).resolve().parent.parent.parent
sys.path[:0] = [str(ROOT / "tests" / "desk"), str(ROOT / "examples"), str(ROOT)]

import workbooks  # noqa: E402
from frontdesk.reading import casefile, intake  # noqa: E402
from openpyxl.packaging.core import DocumentProperties  # noqa: E402
from tally import Tally  # noqa: E402

tally = Tally()


def made_on_another_day():
    """What is made with another date in openpyxl, which takes it when it is loaded, and in the packer's clock."""
    begun, clock = DocumentProperties.__init__.__defaults__, time.localtime
    later = datetime.datetime(2031, 7, 9, 23, 59, 58)
    DocumentProperties.__init__.__defaults__ = tuple(later if isinstance(each, datetime.datetime) else each for each in begun)
    time.localtime = lambda *_: later.timetuple()
    try:
        return dict(workbooks.made())
    finally:
        DocumentProperties.__init__.__defaults__, time.localtime = begun, clock


def check_all():
    today = dict(workbooks.made())
    for fault in workbooks.faults(today):
        tally.that(fault is None, fault)
    for path, data in made_on_another_day().items():
        tally.that(data == today[path], path.name + " has other bytes on another day")
    tally.that((ROOT / "examples" / "ferry.xlsx") in today, "the first command's workbook is made")


def check_names():
    """What the case file has no place for is in the workbook: the ship's name, its zones' and each case's, all different within a ship."""
    for path in sorted((ROOT / "examples").glob("*.xlsx")):
        ship = intake.read(path.name, path)
        tally.that(ship.name, path.name + " names its ship")
        if path.stem != "printed":
            tally.that(len(ship.zone_names) == ship.zones and all(ship.zone_names), path.name + " names its zones")
            tally.same(len({row.name for row in ship.rows if row.name}), len(ship.rows), path.name + " names each case, none twice")


def check_command():
    """The script as it is run, and that it tells a workbook that is not what is made."""
    run = subprocess.run(["/usr/bin/python3", "-B", "examples/workbooks.py", "--check"], cwd=ROOT, stdout=subprocess.PIPE, text=True, timeout=120)
    tally.that(run.returncode == 0 and run.stdout.endswith(" passed, 0 failed\n"), "--check: " + run.stdout)
    coaster = ROOT / "examples" / "coaster.xlsx"
    wanted = coaster.read_bytes()
    other = workbooks.named("coaster", (ROOT / "examples" / "coaster.case").read_bytes().replace(b"005d0bec", b"005c0bec"))
    with tempfile.TemporaryDirectory() as folder:
        path = Path(folder) / coaster.name
        for content, kept, what in ((wanted, True, "a copy"), (wanted[:-9], False, "one that is cut off"), (b"", False, "an empty file"),
                                    (workbooks.binding.bound(workbooks.tables.sheets_of(other)), False, "a millimetre less of a lever")):
            path.write_bytes(content)
            tally.same(workbooks.is_kept(path, wanted), kept, "held against the kept workbook: " + what)
        tally.that(workbooks.case_of(path) == casefile.write(other) != coaster.with_suffix(".case").read_bytes(), "another workbook gives another case file")


check_all()
check_names()
check_command()
sys.exit(tally.close())
