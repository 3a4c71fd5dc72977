"""Runs `desk batch` on 400 ships and on what goes wrong: order, content, one bad file, a run that was stopped, a process that is ended, odd names."""

import csv
import fcntl
import io
import os
import pty
import shutil
import signal
import subprocess
import sys
import tempfile
from fractions import Fraction
from pathlib import Path

sys.path.insert(0, str(Path(__file__).resolve().parent))

import seeds  # noqa: E402
from frontdesk.figures import engine  # noqa: E402
from frontdesk.reading import binding, casefile, commas, tables  # noqa: E402
from frontdesk.reading.mistakes import Mistakes  # noqa: E402
from frontdesk.studies import batch, crew, lines  # noqa: E402
from tally import Tally  # noqa: E402

ROOT = seeds.ROOT
FILES = 400
BILLION = 10**9
tally = Tally()
library = engine.load()


def run(folder, out):
    """The batch in this process: exit status, what it said, and the lines of its result."""
    said = io.StringIO()
    status = batch.run(str(folder), str(out), library, said)
    return status, said.getvalue(), table(out) if status == 0 else None


def table(out):
    with open(out, newline="", encoding="utf-8", errors="surrogateescape") as there:
        return list(csv.DictReader(there))


def study(folder):
    """400 ships in folders, two of them refused, one empty, one no case file at all; a workbook, CSV files, and what is passed over."""
    for number, (_, content) in enumerate([*seeds.random_files(FILES // 2, False), *seeds.random_files(FILES // 2, True)]):
        inside = folder / ("part %d" % (number % 7))
        inside.mkdir(parents=True, exist_ok=True)
        (inside / ("ship-%03d.case" % number)).write_bytes(content)
    (folder / "part 0" / "bad-row.case").write_bytes((ROOT / "examples/coaster.case").read_bytes().replace(b"\n02", b"\n04", 1))
    (folder / "part 0" / "empty.case").write_bytes(b"")
    (folder / "part 1" / "long.case").write_bytes(b"0" * 70_000)
    (folder / "part 1" / "picture.case").write_bytes(b"\x89PNG\r\n")
    printed = casefile.parse((ROOT / "examples/printed.case").read_bytes())
    sheets = tables.sheets_of(printed)
    (folder / "books").mkdir()
    (folder / "books" / "Printed.XLSX").write_bytes(binding.bound(sheets))
    (folder / "books" / "broken.xlsx").write_bytes(b"PK\x03\x04 and no more")
    (folder / "books" / "~$Printed.xlsx").write_bytes(b"lock")
    (folder / "books" / ".hidden.case").write_bytes(b"")
    (folder / "books" / "notes.txt").write_bytes(b"")
    (folder / "sheets").mkdir()
    for name, content in commas.written(sheets).items():
        (folder / "sheets" / name).write_bytes(content)
    (folder / "half").mkdir()
    (folder / "half" / "ship.csv").write_bytes(b"name\n")
    (folder / "odd").mkdir()
    for name in ('comma, "quotes".case', "line\nfeed.case", "umlaut-\u00e4.case", os.fsdecode(b"latin-\xe4.case")):
        (folder / "odd" / name).write_bytes((ROOT / "examples/printed.case").read_bytes())
    (folder / "odd" / "loop").symlink_to(folder)
    os.mkfifo(folder / "odd" / "pipe.case")


def margin(lower, upper, mark):
    """As the guide says it, from fractions."""
    low, high = Fraction(lower, BILLION) - mark, Fraction(upper, BILLION) - mark
    if low >= 0:
        return Fraction(low * BILLION // 1, BILLION)
    return -Fraction(-high * BILLION // 1, BILLION) if high < 0 else None


def margins():
    """At the mark itself, and a billionth to each side of it: 0.5 is whole in billionths, a third is not."""
    half, third = lines.Marks((1, 2, 1, 3)).bounds[:2], lines.Marks((1, 2, 1, 3)).bounds[2:]
    for what, ends, bounds, wanted in (
        ("at the mark", (500_000_000, 500_000_001), half, "0.000000000"), ("below and at it", (499_999_999, 500_000_000), half, ""),
        ("below it", (499_999_998, 499_999_999), half, "-0.000000001"), ("above a third", (333_333_334, 333_333_335), third, "0.000000000"),
        ("on both sides of a third", (333_333_333, 333_333_334), third, ""), ("below a third", (333_333_332, 333_333_333), third, "-0.000000000"),
        ("well above", (833_333_334, 833_333_335), third, "0.500000000"),
    ):  # fmt: skip
        tally.same(lines.margin(*ends, *bounds), wanted, "the margin %s" % what)


def content(folder, found):
    """Every line of a case file against the library's own figures."""
    wrong = 0
    for line in found:
        path = folder / line["file"]
        if path.suffix != ".case" or line["verdict"] == "error":
            continue
        data = path.read_bytes()
        told, (r, of, part, part_of) = library.figures(data), library.required(data)
        ends = [line["%s %s" % (name, end)] for name in ("A", "As", "Ap", "Al") for end in ("lower", "upper")]
        same = [int(text.replace(".", "")) for text in ends] == list(told[4:]) and line["verdict"] == lines.VERDICTS[told[2]] and int(line["rows"]) == told[3]
        same = same and (int(line["R numerator"]), int(line["R denominator"])) == (r, of)
        same = same and 0 <= Fraction(line["R"]) - Fraction(r, of) < Fraction(1, BILLION)
        for name, at, mark in (("A", 4, Fraction(r, of)), ("As", 6, Fraction(part, part_of)),
                ("Ap", 8, Fraction(part, part_of)), ("Al", 10, Fraction(part, part_of))):
            wanted, cell = margin(told[at], told[at + 1], mark), line["margin " + name]
            same = same and (cell == "" if wanted is None else cell != "" and Fraction(cell) == wanted
                    and cell.startswith("-") == (told[at + 1] < mark * BILLION))
        wrong += not same
    tally.same(wrong, 0, "lines that are not the library's")


def whole(folder, out):
    status, said, found = run(folder, out)
    tally.same(status, 0, "exit status")
    names = [line["file"] for line in found]
    tally.same(names, sorted(names), "the lines are in order")
    tally.same(len(found), FILES + 4 + 2 + 2 + 4, "a line for every input")
    tally.same(list(found[0]), list(lines.HEADINGS), "the headings")
    tally.that(not any("~$" in name or ".hidden" in name or "loop" in name or "pipe" in name for name in names), "what is passed over")
    tally.that(said.startswith("desk: %d files in " % len(found)) and said.count("\n") == 1 and "6 with an error" in said, "a closing sentence alone", said)
    tally.that(not os.path.exists(str(out) + ".part"), "no part file is left")
    content(folder, found)
    by = {line["file"]: line for line in found}
    for name, words in (
        ("part 0/bad-row.case", "line "), ("part 0/empty.case", "empty"), ("part 1/long.case", "65536"), ("part 1/picture.case", "picture"),
        ("books/broken.xlsx", "workbook"), ("half", "zones.csv"),
    ):  # fmt: skip
        line = by.get(name, {})
        tally.that(line.get("verdict") == "error" and words in line.get("error", "") and not line["A lower"], "%s is told" % name, line)
    unfolded = {name: by[name]["A lower"] for name in ("books/Printed.XLSX", "sheets", "odd/line\nfeed.case", 'odd/comma, "quotes".case')}
    tally.same(set(unfolded.values()), {"0.874789561"}, "workbook, CSV files and odd names are judged alike")
    tally.that(os.fsdecode(b"odd/latin-\xe4.case") in by, "a name that is no UTF-8")
    return found


class Stopped:
    """Has a run stopped by Ctrl-C after so many answers."""

    def __init__(self, answers):
        self.left, self.tell = answers, batch.Progress.tell

    def __enter__(self):
        def tell(progress, done):
            self.left -= 1
            if self.left == 0:
                raise KeyboardInterrupt
            self.tell(progress, done)

        batch.Progress.tell = tell

    def __exit__(self, *_):
        batch.Progress.tell = self.tell


def counted_work():
    """How many inputs the processes were handed, told by a list that grows."""
    handed, before = [], batch.crew.share_out

    def share_out(chunks, work, hands=None):
        chunks = list(chunks)
        handed.extend(range(sum(stop - start for start, stop in chunks)))
        return before(chunks, work, hands)

    batch.crew.share_out = share_out
    return handed, before


def resumed(folder, out, before):
    part = Path(str(out) + ".part")
    old = out.read_bytes()
    with Stopped(4):
        status, said, _ = run(folder, out)
    tally.same(status, 130, "a run that is stopped")
    tally.that(str(part) in said and "goes on from there" in said, "it says where it goes on", said)
    tally.that(out.read_bytes() == old and part.exists(), "the result before is left, and the part file is there")
    kept = part.read_bytes().count(b"\n") - 1
    tally.that(0 < kept < len(before), "some lines are kept")
    with open(part, "ab") as there:
        there.write(b"part 5/ship-005.case,meets,0.1")  # cut off in the middle
    changed = next(line["file"] for line in csv.DictReader(
            io.StringIO(",".join(lines.HEADINGS) + ",stamp\n" + part.read_text(errors="surrogateescape").split("\n", 1)[1]))
                   if line["file"].startswith("part") and line["verdict"] != "error")  # fmt: skip
    (folder / changed).write_bytes((ROOT / "examples/printed.case").read_bytes())
    handed, share_out = counted_work()
    status, said, found = run(folder, out)
    batch.crew.share_out = share_out
    tally.same(status, 0, "the run that goes on")
    tally.that(len(before) - kept <= len(handed) <= len(before) - kept + 10,
            "it does what was not done, what has changed and what could not be read", len(handed), kept)
    tally.that("from a run before" in said, "it says how many lines were taken over", said)
    tally.same([line for line in found if line["file"] != changed], [line for line in before if line["file"] != changed], "the result is the same")
    tally.same(next(line["A lower"] for line in found if line["file"] == changed), "0.874789561", "but for the file that was changed")
    stamp = lines.stamp_of(folder / "part 0/ship-000.case", lines.CASE)
    part.write_text("desk batch %d,library 0.0.0,folder %s\n" % (batch.FORMAT, batch.digest(folder)) + "part 0/ship-000.case,meets" + "," * 17 + ",%s\n" % stamp)
    tally.same(run(folder, out)[2], found, "lines of another library are not taken over")
    with open(part, "wb") as held:
        fcntl.flock(held, fcntl.LOCK_EX)
        try:
            run(folder, out)
            tally.that(False, "two runs at once")
        except Mistakes as mistakes:
            tally.that("another run" in str(mistakes), "two runs at once are told", mistakes)
    part.unlink()


def elsewhere(folder, out):
    """A part file of another folder is not gone on with, though its files have the same names, sizes and times; an input is not written over."""
    part, text = Path(str(out) + ".part"), (ROOT / "examples/printed.case").read_bytes()
    for name in ("one", "other"):
        (folder / name).mkdir(parents=True)
        (folder / name / "ship.case").write_bytes(text)
        os.utime(folder / name / "ship.case", (1_000_000_000, 1_000_000_000))
    stamp = lines.stamp_of(folder / "other/ship.case", lines.CASE)
    for theirs in ("one", "other"):
        line = "ship.case,meets" + "," * 17 + ",%s\n" % stamp
        part.write_text("desk batch %d,library %s,folder %s\n" % (batch.FORMAT, library.version, batch.digest(folder / theirs)) + line)
        taken = run(folder / "other", out)[2][0]["A lower"] == ""
        tally.same(taken, theirs == "other", "a line of the folder %s is taken over" % theirs)
    first = lines.stamp_of(folder / "one/ship.case", lines.CASE)
    os.utime(folder / "one/ship.case", (1_000_000_000, 1_000_000_000))
    tally.that(first != lines.stamp_of(folder / "one/ship.case", lines.CASE), "a file that was touched with its old time has another stamp")
    (folder / "one" / "=1+1.case").write_bytes(text)
    tally.same([line["file"] for line in run(folder / "one", out)[2]], ["./=1+1.case", "ship.case"], "no name begins as a formula")
    try:
        run(folder / "one", folder / "one" / "ship.case")
        tally.that(False, "a result over an input")
    except Mistakes as mistakes:
        tally.that("is an input" in str(mistakes), "a result over an input is told", mistakes)
    tally.same((folder / "one" / "ship.case").read_bytes(), text, "and the input is left as it was")


def ended(folder, out, before):
    """A process that is killed over one file: the others have their lines."""
    judged = lines.Lines.judged

    def killed(self, path, content):
        if path.endswith("ship-101.case"):
            os.kill(os.getpid(), signal.SIGKILL)
        return judged(self, path, content)

    lines.Lines.judged = killed
    _, _, found = run(folder, out)
    lines.Lines.judged = judged
    differ = [line for line, old in zip(found, before) if line != old]
    tally.that(len(found) == len(before) and [line["file"][-13:] for line in differ] == ["ship-101.case"],
            "the other files of a process that is ended have their lines", differ[:3])
    tally.that(differ and "was ended" in differ[0]["error"], "what happened to it is told", differ[:1])


def from_outside(folder, out):
    """The command itself: on a pipe, on a terminal, with nothing to do."""
    ran = subprocess.run([str(ROOT / "desk"), "batch", str(folder), "-o", str(out)], stdout=subprocess.PIPE, stderr=subprocess.PIPE, check=False)
    tally.same((ran.returncode, ran.stdout), (0, b""), "the command")
    tally.that(ran.stderr.count(b"\n") == 1 and b"\r" not in ran.stderr, "a pipe gets the closing sentence alone", ran.stderr)
    ours, theirs = pty.openpty()
    ran = subprocess.Popen([str(ROOT / "desk"), "batch", str(folder), "-o", str(out)], stderr=theirs)
    os.close(theirs)
    shown = b""
    try:
        while piece := os.read(ours, 1 << 16):
            shown += piece
    except OSError:
        pass  # the terminal's other end is closed
    os.close(ours)
    tally.same(ran.wait(), 0, "on a terminal")
    tally.that(b" of 412, " in shown and b" a second, " in shown and b" left" in shown and b"\rdesk: [" in shown,
            "a terminal gets a progress bar", shown[-300:])
    (folder / "none").mkdir()
    for what, words, said in (
        ("an empty folder", [folder / "none", "-o", out], b"has no workbook"), ("no folder", [folder / "nowhere", "-o", out], b"is no folder"),
        ("a result that is a folder", [folder, "-o", folder], b"to a file"),
                ("a result in no folder", [folder, "-o", folder / "nowhere" / "r.csv"], b"cannot be written"),
    ):  # fmt: skip
        ran = subprocess.run([str(ROOT / "desk"), "batch", *map(str, words)], stderr=subprocess.PIPE, check=False)
        tally.that(ran.returncode == 2 and said in ran.stderr and b"Traceback" not in ran.stderr, what, ran.stderr)


def main():
    folder = Path(tempfile.mkdtemp(prefix="batch."))
    try:
        margins()
        study(folder / "study")
        out = folder / "results.csv"
        before = whole(folder / "study", out)
        ended(folder / "study", out, before)
        resumed(folder / "study", out, before)
        from_outside(folder / "study", out)
        elsewhere(folder / "two", out)
        tally.that(crew.processors() >= 1, "processors")
    finally:
        shutil.rmtree(folder)
    return tally.close()


sys.exit(main())
