"""One line of a batch's result for one input: a case file's bytes go to the library as they are, a workbook or CSV folder is read as for a report."""

import os

from frontdesk.outputs import LIKE_FORMULAS
from frontdesk.reading import casefile, intake
from frontdesk.reading.mistakes import Mistakes

HEADINGS = (
    "file", "verdict", "A lower", "A upper", "As lower", "As upper", "Ap lower", "Ap upper", "Al lower", "Al upper",
    "R numerator", "R denominator", "R", "margin A", "margin As", "margin Ap", "margin Al", "rows", "error",
)  # fmt: skip
VERDICTS = ("error", "meets", "fails", "unsettled")  # by the library's number
CASE, WORKBOOK, FOLDER = "case", "workbook", "folder"
CSV_NAMES = ("ship.csv", "zones.csv", "cases.csv")
LONGEST = 65_536  # bytes of a case file; one more tells that a file is longer
TOLD = 3  # mistakes that a line tells before it counts the others
BILLION = 1_000_000_000
NO_STAMP = "0"  # of an input that could not be read: it is read anew in any case


class Lines:
    """Makes the lines of inputs, which are (path below the folder, form). What R and the marks come to is kept by the hull's line."""

    def __init__(self, engine, folder, inputs):
        self.engine, self.folder, self.inputs = engine, folder, inputs
        self.required = {}

    def begin(self):
        """In the process that does the work: file names are then told below the folder."""
        os.chdir(self.folder)

    def done(self, start, stop):
        """Stamp, verdict and line of each input from start to before stop, parted by NUL, which no file's name has."""
        return "\0".join(field for path, form in self.inputs[start:stop] for field in self.line(path, form)).encode("utf-8", "surrogateescape")

    def line(self, path, form):
        stamp = NO_STAMP
        try:
            if form == CASE:
                stamp, content = read_case(path)
            else:
                stamp = stamp_of(path, form)
                content = casefile.write(intake.read("", path))
            line = self.judged(path, content)
            if line is None and form == CASE:
                line = self.judged(path, casefile.write(intake.read("", content, refusal=self.engine.figures)))
            if line is not None:
                return stamp, *line
            words = "The library refuses what was read from it: a defect of the desk."
        except Mistakes as mistakes:
            words = told(mistakes.items)
        except OSError as error:
            words = "It cannot be read: %s." % (error.strerror or error)
        except Exception as error:  # one bad file stops nothing
            words = "A defect of the desk: %s: %s" % (type(error).__name__, error)
        return stamp, VERDICTS[0], failed(path, words)

    def judged(self, path, content):
        """Verdict and line of a case file's bytes; None where they are refused."""
        refusal, _, verdict, rows, *ends = self.engine.figures(content)
        if refusal:
            return None
        hull = content[:content.index(b"\n") + 1]
        marks = self.required.get(hull)
        if marks is None:
            marks = self.required[hull] = Marks(self.engine.required(hull + b"0f0000\n"))
        word = VERDICTS[verdict]
        a, b, c, d, e, f, g, h = ends
        up, down, part_up, part_down = marks.bounds
        line = "%s,%s,%s,%s,%s,%s,%s,%s,%s,%s,%s,%s,%s,%s,%s,%d,\n" % (
            quoted(listed(path)), word, nine(a), nine(b), nine(c), nine(d), nine(e), nine(f), nine(g), nine(h), marks.text,
            margin(a, b, up, down), margin(c, d, part_up, part_down), margin(e, f, part_up, part_down), margin(g, h, part_up, part_down), rows,
        )  # fmt: skip
        return word, line


class Marks:
    """R and the mark of a partial index, lifted and cut to billionths, and R's text."""

    def __init__(self, numbers):
        numerator, denominator, part, of = numbers
        self.bounds = (-(-BILLION * numerator // denominator), BILLION * numerator // denominator, -(-BILLION * part // of), BILLION * part // of)
        self.text = "%d,%d,%s" % (numerator, denominator, nine(self.bounds[0]))


def nine(billionths):
    return "%d.%09d" % divmod(billionths, BILLION)


def margin(lower, upper, lifted, cut):
    """At least so much above a mark where the lower end reaches it, at most so much (below zero) where the upper end does not; nothing between."""
    if lower >= lifted:
        return nine(lower - lifted)
    return "-" + nine(cut - upper) if upper < lifted else ""


def read_case(path):
    """Stamp and bytes of a case file, as far as the library needs them."""
    handle = os.open(path, os.O_RDONLY | os.O_CLOEXEC)
    try:
        about = os.fstat(handle)
        content = os.read(handle, LONGEST + 1)
        while len(content) < about.st_size and len(content) <= LONGEST:
            more = os.read(handle, LONGEST + 1 - len(content))
            if not more:
                break
            content += more
    finally:
        os.close(handle)
    return stamped(about), content


def stamped(about):
    """Size, and the times at which the content and anything else of a file were changed: a copy may keep the first of the two."""
    return "%d:%d:%d" % (about.st_size, about.st_mtime_ns, about.st_ctime_ns)


def stamp_of(path, form):
    """Size and times of a file, or of each sheet of a folder: what tells that it is the same as before."""
    stamps = []
    for name in [path] if form != FOLDER else sorted(os.path.join(path, name) for name in os.listdir(path) if name.lower() in CSV_NAMES):
        stamps.append(stamped(os.stat(name)))
    return "+".join(stamps)


def listed(path):
    """A path as its line has it: one that a spreadsheet would take for a formula begins with its folder."""
    return "./" + path if path.startswith(LIKE_FORMULAS) else path


def quoted(text):
    """A text as a CSV cell."""
    return '"%s"' % text.replace('"', '""') if any(sign in text for sign in ',"\n\r') else text


def told(items):
    """The first mistakes of an input, and how many more there are, in one line."""
    words = [" ".join(str(item).split()) for item in items[:TOLD]]
    if len(items) > TOLD:
        words.append("and %d more" % (len(items) - TOLD))
    return "; ".join(words)


def failed(path, words):
    return "%s,%s%s%s\n" % (quoted(listed(path)), VERDICTS[0], "," * (len(HEADINGS) - 2), quoted(" ".join(words.split())))
