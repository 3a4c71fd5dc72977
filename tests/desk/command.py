"""Runs `./desk` as a user does: each command, its exit status, its words, what it writes and what it leaves alone."""

import dataclasses
import os
import re
import resource
import shutil
import signal
import subprocess
import sys
import tempfile
import time
from pathlib import Path

sys.path.insert(0, str(Path(__file__).resolve().parent))

import seeds  # noqa: E402
from tally import Tally  # noqa: E402

ROOT = seeds.ROOT
EXAMPLES = ROOT / "examples"
tally = Tally()


def desk(*words, stdin=None, program=(str(ROOT / "desk"),), **more):
    """Exit status, standard output and standard error."""
    run = subprocess.run([*program, *map(str, words)], input=stdin, stdin=None if stdin is not None else subprocess.DEVNULL,
            stdout=subprocess.PIPE, stderr=subprocess.PIPE, **more)
    return run.returncode, run.stdout.decode(), run.stderr.decode()


def told(what, words, status, *parts, program=(str(ROOT / "desk"),), **more):
    """A command that ends with this status, and says each of these on standard error, without a traceback."""
    found, out, err = desk(*words, program=program, **more)
    tally.same(found, status, "%s: exit status" % what)
    for part in parts:
        tally.that(part in err, "%s: it says %r" % (what, part), "\n  it said %r" % err)
    tally.that("Traceback" not in err, "%s: no traceback" % what, err)
    return out, err


def helps():
    status, out, _ = desk("--help")
    tally.same(status, 0, "help's exit status")
    for part in ("report", "case", "table", "new", "batch", "serve", "0 meets, 1 fails, 2 error or refused, 3 unsettled", "desk new ferry.xlsx --zones 12"):
        tally.that(part in out, "the help has %r" % part)
    told("no command", [], 2, "desk: ", "--help")
    told("another command", ["reprot"], 2, "desk: ", "reprot")
    told("another option", ["report", "x", "--again"], 2, "desk: ", "--again")
    told("an option cut short", ["report", "x", "--ag"], 2, "--ag")


def statuses(folder):
    for name, status, words in (
        ("printed", 0, "printed.case meets the required index."), ("timber-carrier", 1, "does not meet"), ("reefer", 3, "unsettled"),
                ("container-ship", 0, "Warning: ")
    ):  # fmt: skip
        found, out, err = desk("report", EXAMPLES / (name + ".case"))
        tally.same(found, status, "%s: exit status" % name)
        tally.that(words in out and "A  0." in out, "%s: the summary says %r" % (name, words), out)
        tally.same(err, "", "%s: standard error" % name)
    (folder / "bad.case").write_text("0123\n")
    out, err = told("a refused file", ["report", folder / "bad.case", "-o", folder / "bad.html"], 2, "desk: bad.case, line 1")
    tally.that(not (folder / "bad.html").exists(), "a refused file gets no page")
    timber = desk("report", EXAMPLES / "timber-carrier.case")[1]
    tally.that("As 0.156853 to 0.156879, its mark 0.250000: not reached, short by 0.093121 at least" in timber, "the summary's line of As", timber)


def writes(folder):
    case, page, table, book = EXAMPLES / "printed.case", folder / "page.html", folder / "page.csv", folder / "page.xlsx"
    status, out, _ = desk("report", case, "-o", page, "--csv", table, "--xlsx", book, "--licensed-slip")
    tally.same(status, 0, "a report with everything")
    tally.that(page.read_text().startswith("<!DOCTYPE html>"), "the page is HTML")
    tally.same(len(table.read_text().splitlines()), 4, "lines of the case table")
    tally.that(book.read_bytes().startswith(b"PK"), "the workbook is one")
    tally.that(all("Written: %s" % path in out for path in (page, table, book)), "the summary names what was written", out)
    tally.that("licensed slip" in out, "the summary speaks of the slip")
    status, out, err = desk("report", case, "-o", "-")
    tally.that(out.startswith("<!DOCTYPE html>") and "meets" in err and status == 0, "`-o -` writes the page to standard output and the summary beside it")
    tally.same(desk("report", case, "-o", "-")[1], out, "the same file gives the same page")
    tally.same(page.stat().st_mode & 0o777, 0o666 & ~umask(), "who may read the page")
    link = folder / "link.html"
    link.symlink_to(page)
    page.write_text("old")
    desk("report", case, "-o", link)
    tally.that(link.is_symlink() and page.read_text().startswith("<!DOCTYPE"), "a link stays a link")
    status, out, err = desk("report", "/dev/stdin", stdin=case.read_bytes())
    tally.that(status == 0 and "stdin meets" in out, "a case file through a pipe", out, err)


def umask():
    mask = os.umask(0)
    os.umask(mask)
    return mask


def cannot_write(folder):
    case = EXAMPLES / "printed.case"
    there = sorted(folder.iterdir())
    told("an output in no folder", ["report", case, "-o", folder / "none" / "x.html"], 2, "desk: ", "none/x.html cannot be written: no such file or directory.")
    told("an output that is a folder", ["report", case, "-o", folder], 2, "cannot be written: is a directory.")
    told("a file as a folder", ["table", case, "-o", folder / "page.csv" / "x"], 2, "cannot be written")
    kept = folder / "kept.case"
    kept.write_bytes(case.read_bytes())
    told("an output over the input", ["case", kept, "-o", kept], 2, "is named twice")
    tally.same(kept.read_bytes(), case.read_bytes(), "the input is left as it was")
    shutil.copytree(EXAMPLES / "coaster", folder / "sheets")
    told("an output over a sheet", ["report", folder / "sheets", "--csv", folder / "sheets" / "cases.csv"], 2, "belongs to the input")
    tally.same((folder / "sheets/cases.csv").read_bytes(), (EXAMPLES / "coaster/cases.csv").read_bytes(), "the sheet is left as it was")
    told("an output beside the sheets", ["report", folder / "sheets", "-o", folder / "sheets" / "report.html"], 0)
    told("the same again", ["report", folder / "sheets", "-o", folder / "sheets" / "report.html"], 0)
    shutil.rmtree(folder / "sheets")
    told("one output of two that cannot be written", ["report", case, "-o", folder / "two.html", "--csv", folder / "none" / "x.csv"], 2, "cannot be written")
    tally.that(not (folder / "two.html").exists(), "the other is not written either")
    told("a report over a workbook", ["report", case, "-o", folder / "page.xlsx"], 2, "page.xlsx: the report is HTML; --csv and --xlsx write tables.")
    told("a case file over a workbook", ["case", case, "-o", folder / "page.xlsx"], 2, "page.xlsx: a case file is written here; `desk table` writes tables.")
    tally.that((folder / "page.xlsx").read_bytes().startswith(b"PK"), "the workbook is left as it was")
    told("two outputs to one file", ["report", case, "-o", folder / "one", "--csv", folder / "one"], 2, "is named twice")
    kept.unlink()
    tally.same(sorted(folder.iterdir()), there, "nothing is left behind")
    old = folder / "old.html"
    old.write_text("old")
    told("a disk that is full in the middle", ["report", case, "-o", old], 2, "old.html cannot be written: file too large.",
         preexec_fn=lambda: resource.setrlimit(resource.RLIMIT_FSIZE, (20_000, 20_000)))  # fmt: skip
    tally.same(old.read_text(), "old", "what was there before is left as it was")
    old.unlink()
    tally.same(sorted(folder.iterdir()), there, "nothing is left behind in the middle either")
    if os.path.exists("/dev/full"):
        told("a full device", ["report", case, "-o", "/dev/full"], 2, "/dev/full cannot be written: no space left on device.")
        for words in (["report", case], ["case", case]):
            with open("/dev/full", "wb") as full:
                run = subprocess.run([str(ROOT / "desk"), *map(str, words)], stdout=full, stderr=subprocess.PIPE, check=False)
            tally.that(run.returncode == 2 and run.stderr.startswith(b"desk: standard output") and run.stderr.count(b"\n") == 1,
                       "standard output that is full", run.returncode, run.stderr)


def cannot_read(folder):
    told("a missing input", ["report", folder / "none.xlsx"], 2, "desk: there is no file or folder %s" % (folder / "none.xlsx"))
    (folder / "empty").mkdir()
    told("a folder without sheets", ["report", folder / "empty"], 2, "desk: there is no file ship.csv; found no CSV file.\nthere is no file zones.csv")
    _, err = told("a folder without sheets", ["case", folder / "empty"], 2)
    tally.same(err.count("desk: "), 1, "the program's name stands before the first mistake alone")
    unforeseen()
    told("a library that is not there", ["report", EXAMPLES / "printed.case"], 2, "There is no file /none/lib.so.",
            env={**os.environ, "DAMINDEX_LIBRARY": "/none/lib.so"})


def unforeseen():
    """A refusal that the desk did not foresee is told with its number, its row and a sentence: here the rule on the rows' order is taken out of the desk."""
    from frontdesk import enquiry
    from frontdesk.figures import engine
    from frontdesk.reading import casefile
    from frontdesk.reading.mistakes import Mistakes

    ship = casefile.parse((EXAMPLES / "coaster.case").read_bytes())
    read, enquiry.intake.read = enquiry.intake.read, lambda *_, **__: dataclasses.replace(
        ship, rows=(ship.rows[1], ship.rows[0], *ship.rows[2:]), source=dataclasses.replace(ship.source, form="workbook"))
    try:
        enquiry.asked(engine.load(), "coaster.xlsx", b"")
        tally.that(False, "rows out of order are refused")
    except Mistakes as mistakes:
        tally.that(re.fullmatch(r"cases, row \d+: the library refuses .*refusal 8, line 3 .*a defect of the desk\.", str(mistakes)),
                "an unforeseen refusal", mistakes)
    finally:
        enquiry.intake.read = read


def rounds(folder):
    for name in ("night-ferry", "paper-carrier", "printed"):
        case = EXAMPLES / (name + ".case")
        book, sheets, back = folder / (name + ".xlsx"), folder / name, folder / "back.case"
        tally.same(desk("table", case, "-o", book), (0, "", ""), "%s: its workbook" % name)
        tally.same(desk("table", case, "-o", sheets), (0, "", ""), "%s: its CSV files" % name)
        tally.same(desk("case", book)[1], case.read_text(), "%s: back from the workbook" % name)
        desk("case", str(sheets) + "/", "-o", back)
        tally.same(back.read_bytes(), case.read_bytes(), "%s: back from the CSV files" % name)
    told("a table to another ending", ["table", EXAMPLES / "printed.case", "-o", folder / "x.ods"], 2, "ends in .xlsx")


def against(folder):
    sheets = folder / "printed"
    cases = (sheets / "cases.csv").read_text()
    (sheets / "cases.csv").write_text(cases.replace("0.03,4,", "0.0305,4,", 1))
    told("a number that is not whole", ["report", sheets], 2, "desk: cases, row ", '"lever m, deepest"')
    status, out, _ = desk("report", sheets, "--against")
    tally.that(status == 0 and "1 number" in out and "rounded" in out, "--against rounds it and says so", out)
    told("the case file of it", ["case", sheets, "--against", "-o", folder / "rounded.case"], 0, "1 number", "rounded")
    tally.same((folder / "rounded.case").read_bytes(), (EXAMPLES / "printed.case").read_bytes(), "the lever was rounded down")


def blanks(folder):
    book = folder / "new.xlsx"
    tally.same(desk("new", book, "--zones", "12"), (0, "", ""), "a new workbook")
    before = book.read_bytes()
    told("a workbook that is there", ["new", book, "--zones", "3"], 2, "is there already")
    tally.same(book.read_bytes(), before, "it is left as it was")
    told("no zones", ["new", folder / "n.xlsx", "--zones", "0"], 2, "1 to 20 zones")
    told("too many zones", ["new", folder / "n.xlsx", "--zones", "21"], 2, "1 to 20 zones")
    told("another ending", ["new", folder / "n.ods", "--zones", "3"], 2, "ends in .xlsx")
    told("zones in words", ["new", folder / "n.xlsx", "--zones", "three"], 2, "three")
    _, err = told("a workbook that is still empty", ["report", book], 2, "desk: ship, row 2")
    tally.that(err.count("desk: ") == 1 and len(err.splitlines()) > 20, "all that is missing at once", err)
    tally.same(desk("new", folder / "p.xlsx", "--zones", "3", "--type", "passenger")[0], 0, "a passenger ship's")


def surroundings(folder):
    """Another Python earlier on the path, a link, a copy, an old Python, and packages that are missing."""
    other = folder / "bin"
    other.mkdir()
    (other / "python3").write_text("#!/bin/sh\nexit 99\n")
    (other / "python3").chmod(0o755)
    case = EXAMPLES / "printed.case"
    unlike = {**os.environ, "PATH": "%s:%s" % (other, os.environ["PATH"]), "PYTHONPATH": str(folder / "bad"), "PYTHONHOME": "/none", "PYTHONSTARTUP": "/none"}
    (folder / "bad").mkdir()
    (folder / "bad" / "argparse.py").write_text("raise SystemExit(98)\n")
    tally.same(desk("report", case, env=unlike)[0], 0, "another Python earlier on the path, and its variables")
    (folder / "argparse.py").write_text("raise SystemExit(97)\n")
    tally.same(desk("report", case, cwd=folder)[0], 0, "a module of the same name in the current folder")
    (folder / "linked").symlink_to(ROOT / "desk")
    tally.same(desk("report", case, program=[str(folder / "linked")])[0], 0, "a link to the script")
    shutil.copy(ROOT / "desk", folder / "copied")
    told("a copy of the script", ["--help"], 2, "make a link", program=[str(folder / "copied")])
    old = "import sys; sys.version_info = (3, 9, 2); __file__ = sys.argv[1]; exec(open(__file__).read())"
    told("an old Python", [], 2, "desk: this is Python 3.9, and 3.11 or later is asked for.", program=["/usr/bin/python3", "-I", "-c", old, str(ROOT / "desk")])

    def without(package):
        return ["/usr/bin/python3", "-I", "-c",
                "import sys; sys.dont_write_bytecode = True; sys.modules[%r] = None; sys.path.insert(0, %r); from frontdesk.command import main; "
                "sys.exit(main())" % (package, str(ROOT))]  # fmt: skip

    told("no Jinja2", ["report", case, "-o", folder / "j.html"], 2, "Jinja2 is not installed", "python3-jinja2", "pyproject.toml", program=without("jinja2"))
    tally.same(desk("report", case, program=without("jinja2"))[0], 0, "no Jinja2: the verdict alone")
    told("no openpyxl, a workbook", ["report", folder / "printed.xlsx"], 2, "openpyxl", "python3-openpyxl", program=without("openpyxl"))
    told("no openpyxl, the case table as a workbook", ["report", case, "--xlsx", folder / "o.xlsx"], 2, "openpyxl", "python3-openpyxl",
            program=without("openpyxl"))
    tally.same(desk("report", folder / "paper-carrier", "-o", folder / "o.html", program=without("openpyxl"))[0], 1, "no openpyxl: CSV files")
    names = (ROOT / "packages.txt").read_text()
    tally.that("python3-openpyxl" in names and "python3-jinja2" in names, "packages.txt names both")


def signals(folder):
    big = folder / "big.case"
    big.write_bytes((EXAMPLES / "container-ship.case").read_bytes())
    run = subprocess.run("%s table %s -o %s/big && %s report %s -o - | head -c 1 >/dev/null" % (ROOT / "desk", big, folder, ROOT / "desk", big), shell=True,
                         stderr=subprocess.PIPE, check=False)  # fmt: skip
    tally.that(b"rror" not in run.stderr, "a reader that goes away is nothing to tell", run.stderr)
    serve = subprocess.Popen([str(ROOT / "desk"), "serve", "--port", "0"], stdout=subprocess.PIPE, stderr=subprocess.PIPE)
    line = serve.stdout.readline()
    tally.that(line.startswith(b"The desk is at http://127.0.0.1:"), "serve says where it is", line)
    serve.send_signal(signal.SIGINT)
    out, err = serve.communicate(timeout=20)
    tally.same((serve.returncode, out, err), (130, b"", b""), "Ctrl-C ends it quietly")
    told("a port that is none", ["serve", "--port", "70000"], 2, "0 to 65535")


def main():
    litter = set((ROOT / "frontdesk").rglob("__pycache__"))
    folder = Path(tempfile.mkdtemp(prefix="desk."))
    try:
        helps()
        for part in (statuses, writes, cannot_write, cannot_read, rounds, against, blanks, surroundings, signals):
            at = time.monotonic()
            part(folder)
            if "--times" in sys.argv:
                print("%s %.1f s" % (part.__name__, time.monotonic() - at))
    finally:
        shutil.rmtree(folder)
    tally.same(set((ROOT / "frontdesk").rglob("__pycache__")), litter, "no bytecode beside the code")
    return tally.close()


sys.exit(main())
