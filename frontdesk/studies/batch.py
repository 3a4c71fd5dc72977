"""`desk batch`: a line for every workbook, CSV folder and case file below a folder, on all processors; an interrupted run goes on where it was."""

import csv
import fcntl
import hashlib
import io
import os
import sys
import time
from collections import Counter

from frontdesk import outputs
from frontdesk.reading.mistakes import of_the_file
from frontdesk.studies import crew
from frontdesk.studies.lines import CASE, CSV_NAMES, FOLDER, HEADINGS, NO_STAMP, VERDICTS, WORKBOOK, Lines, failed, listed, stamp_of

ENDINGS = {".case": CASE, ".xlsx": WORKBOOK, ".xlsm": WORKBOOK}
CHUNK = 64  # case files that a process is handed at a time; of the others one
BETWEEN = 0.1  # seconds between two states of the progress line
FORMAT = 2  # of the part file: another one is not gone on with


def found(folder):
    """Every input below a folder as (path below it, form), sorted. Hidden files, a spreadsheet's lock files (~$) and links to folders are passed over."""
    inputs, folders = [], [""]
    while folders:
        inside = folders.pop()
        try:
            with os.scandir(os.path.join(folder, inside)) as entries:
                entries = [entry for entry in entries if not entry.name.startswith((".", "~$"))]
        except OSError as error:
            if not inside:
                raise of_the_file("", "%s cannot be read: %s." % (folder, outputs.reason(error))) from None
            inputs.append((inside[:-1], FOLDER))
            continue
        if any(entry.name.lower() in CSV_NAMES for entry in entries):
            inputs.append((inside[:-1] or ".", FOLDER))
        for entry in entries:
            if entry.is_dir(follow_symlinks=False):
                folders.append("%s%s/" % (inside, entry.name))
                continue
            form = ENDINGS.get(os.path.splitext(entry.name)[1].lower())
            if form and entry.is_file():
                inputs.append((inside + entry.name, form))
    return sorted(inputs)


class Part:
    """The lines that are there already, each with its input's stamp, in a file beside the result: what an interrupted run leaves behind."""

    def __init__(self, path, version, folder):
        self.path, self.head = path, "desk batch %d,library %s,folder %s\n" % (FORMAT, version, digest(folder))
        try:
            self.handle = os.open(path, os.O_RDWR | os.O_CREAT | os.O_CLOEXEC, 0o666)
            fcntl.flock(self.handle, fcntl.LOCK_EX | fcntl.LOCK_NB)
        except BlockingIOError:
            raise of_the_file("", "%s is being written by another run." % path) from None
        except OSError as error:
            raise outputs.cannot(path, error) from None

    def lines(self):
        """By path: stamp, verdict and line. What was cut off in the middle is left out, and written over."""
        with open(os.dup(self.handle), "rb") as there:
            content = there.read()
        whole = content[:content.rfind(b"\n") + 1].decode("utf-8", "surrogateescape")
        head, _, rest = whole.partition("\n")
        kept = {}
        if head + "\n" == self.head:
            for fields in csv.reader(io.StringIO(rest, newline="")):
                if len(fields) == len(HEADINGS) + 1:
                    kept[fields[0]] = fields[-1], fields[1], row_text(fields[:-1])
        os.ftruncate(self.handle, 0)
        os.lseek(self.handle, 0, os.SEEK_SET)
        self.write(self.head + "".join(stamped(line, stamp) for stamp, _, line in kept.values()))
        return kept

    def write(self, text):
        data = text.encode("utf-8", "surrogateescape")
        try:
            while data:
                data = data[os.write(self.handle, data):]
        except OSError as error:
            raise outputs.cannot(self.path, error) from None

    def __enter__(self):
        return self

    def __exit__(self, *_):
        os.close(self.handle)


def digest(folder):
    """What tells a folder from others, whatever signs its name has: files of one name, size and time may lie in two."""
    return hashlib.sha256(os.fsencode(os.path.realpath(folder))).hexdigest()


def row_text(fields):
    text = io.StringIO(newline="")
    csv.writer(text, lineterminator="\n").writerow(fields)
    return text.getvalue()


def stamped(line, stamp):
    return "%s,%s\n" % (line[:-1], stamp)


class Progress:
    """One changing line on a terminal: how many are done, how many a second, how long it takes yet. Nothing elsewhere."""

    def __init__(self, total, stream):
        self.total, self.stream, self.begun, self.told = total, stream, time.monotonic(), 0.0
        self.shown = stream.isatty() and total > 0
        self.width = 0

    def tell(self, done):
        now = time.monotonic()
        if not self.shown or now - self.told < BETWEEN:
            return
        self.told = now
        rate = done / max(now - self.begun, 0.001)
        bar = ("#" * (24 * done // self.total)).ljust(24, ".")
        left = "%s left" % seconds((self.total - done) / rate) if done else "begins"
        self.line("desk: [%s] %s of %s, %s a second, %s" % (bar, "{:,}".format(done), "{:,}".format(self.total), "{:,.0f}".format(rate), left))

    def line(self, text):
        self.stream.write("\r" + text.ljust(self.width))
        self.stream.flush()
        self.width = len(text)

    def clear(self):
        if self.width:
            self.line("")
            self.stream.write("\r")


def seconds(number):
    """A time as people say it."""
    whole = int(number + 0.5)
    return "%d s" % whole if whole < 120 else "%d min" % (whole // 60)


def chunks(inputs, todo):
    """Ranges of what is to be done: many case files at a time, every other input by itself."""
    start = 0
    for at in range(len(todo) + 1):
        alone = at < len(todo) and inputs[todo[at]][1] != CASE
        if at > start and (at == len(todo) or alone or at - start == CHUNK):
            yield start, at
            start = at
        if alone:
            yield at, at + 1
            start = at + 1


def taken_over(folder, inputs, kept):
    """The lines of a run before whose inputs have not changed since, by number."""
    lines = {}
    for number, (path, form) in enumerate(inputs):
        stamp, verdict, line = kept.get(listed(path), (NO_STAMP, "", ""))
        if stamp != NO_STAMP:
            try:
                if stamp == stamp_of(os.path.join(folder, path), form):
                    lines[number] = verdict, line
            except OSError:
                pass
    return lines


def spare(folder, inputs, out):
    """Stops where the result would be written over an input."""
    name = os.path.basename(out).lower()
    if not os.path.exists(out) or os.path.splitext(name)[1] not in ENDINGS and name not in CSV_NAMES:
        return
    for path, form in inputs:
        place = os.path.join(folder, path, os.path.basename(out)) if form == FOLDER else os.path.join(folder, path)
        if os.path.exists(place) and os.path.samefile(place, out):
            raise of_the_file("", "%s is an input of this batch: the result needs a file of its own." % out)


def run(folder, out, engine, stream=None):
    """Judges everything below the folder and writes the result; returns the exit status."""
    begun, stream = time.monotonic(), stream or sys.stderr
    inputs = found(folder)
    if not inputs:
        raise of_the_file("", "%s has no workbook (.xlsx, .xlsm), no folder of CSV files (ship.csv, zones.csv, cases.csv) and no case file (.case)." % folder)
    spare(folder, inputs, out)
    with Part(out + ".part", engine.version, folder) as part:
        lines = taken_over(folder, inputs, part.lines())
        before, progress = len(lines), Progress(len(inputs), stream)
        try:
            judge(folder, inputs, lines, part, progress, engine)
        except KeyboardInterrupt:
            progress.clear()
            stream.write("desk: stopped with %d of %d done, kept in %s; the same command goes on from there.\n" % (len(lines), len(inputs), part.path))
            return 130
        progress.clear()
        outputs.put(out, row_text(HEADINGS) + "".join(lines[number][1] for number in range(len(inputs))))
        os.unlink(part.path)
    stream.write(closing(lines, before, time.monotonic() - begun, out))
    return 0


def judge(folder, inputs, lines, part, progress, engine):
    """Has every input judged that has no line yet."""
    todo = [number for number in range(len(inputs)) if number not in lines]
    work = Lines(engine, folder, [inputs[number] for number in todo])
    for (start, end), answer in crew.share_out(chunks(inputs, todo), work):
        if answer is None:
            path = inputs[todo[start]][0]
            fields = [NO_STAMP, VERDICTS[0], failed(path, "The process that read it was ended; it may need more memory than there is.")]
        else:
            fields = answer.decode("utf-8", "surrogateescape").split("\0")
        new = list(zip(fields[1::3], fields[2::3]))
        lines.update(zip(todo[start:end], new))
        part.write("".join(stamped(line, stamp) for stamp, (_, line) in zip(fields[::3], new)))
        progress.tell(len(lines))


def closing(lines, before, took, out):
    """What the batch came to, in a sentence."""
    count = Counter(verdict for verdict, _ in lines.values())
    words = ["%s %s" % ("{:,}".format(count[word]), plural) for word, plural in
             (("meets", "meet"), ("fails", "fail"), ("unsettled", "unsettled"), ("error", "with an error")) if count[word]]
    over = ", %s of them from a run before" % "{:,}".format(before) if before else ""
    return "desk: %s files in %.1f s%s: %s. %s has a line for each.\n" % ("{:,}".format(len(lines)), took, over, ", ".join(words), out)
