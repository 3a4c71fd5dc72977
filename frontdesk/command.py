"""The command line of the desk: what each command asks for, what it prints, and the status that it ends with."""

import argparse
import os
import sys
import traceback

from frontdesk import outputs
from frontdesk.figures import engine
from frontdesk.reading.mistakes import Mistakes, of_the_file

DONE, ERROR, STOPPED, READER_GONE = 0, 2, 130, 141
PACKAGES = {"jinja2": ("Jinja2", "python3-jinja2"), "markupsafe": ("Jinja2", "python3-jinja2"), "openpyxl": ("openpyxl", "python3-openpyxl")}
PORT = 8765
SHEET_FILES = ("ship.csv", "zones.csv", "cases.csv")

USE = """\
The damage subdivision index of a ship (SOLAS II-1 Part B-1) from an office's own table. Every figure is the proved library's, or a sum of such.

  desk new ferry.xlsx --zones 12            an empty workbook to fill in
  desk report ferry.xlsx                    judges it: the verdict, and what is doubtful
  desk report ferry.xlsx -o report.html     the same with the whole report, one HTML file
  desk case ferry.xlsx -o ferry.case        the case file, which the proved program reads
  desk table ferry.case -o ferry.xlsx       back to a workbook; -o FOLDER gives CSV files
  desk batch studies -o results.csv         a line for every ship below a folder
  desk serve                                the same in a browser, on this machine alone
"""
INPUTS = """\
INPUT is a workbook (sheets ship, zones, cases), a folder with ship.csv, zones.csv and cases.csv, or a case file.
"""
STATUSES = """\
exit status of report: 0 meets, 1 fails, 2 error or refused, 3 unsettled; of every other command: 0 done, 2 error
"""


class Parser(argparse.ArgumentParser):
    """Tells a wrong call as every other error is told."""

    def error(self, message):
        self.exit(ERROR, "desk: %s; see %s --help\n" % (message, self.prog))


def parser():
    shape = {"formatter_class": argparse.RawDescriptionHelpFormatter, "allow_abbrev": False}
    whole = Parser(prog="desk", usage="desk COMMAND ...", description=USE, epilog=INPUTS + STATUSES, **shape)
    commands = whole.add_subparsers(dest="command", metavar="COMMAND", required=True, title="commands")

    def command(name, about, does, more=STATUSES):
        one = commands.add_parser(name, prog="desk " + name, help=about, description=about[0].upper() + about[1:] + ".", epilog=more, **shape)
        one.set_defaults(does=does)
        return one

    one = command("report", "judges a ship and writes its report", report, INPUTS + STATUSES)
    one.add_argument("input", metavar="INPUT")
    one.add_argument("-o", "--output", metavar="FILE", help="the report, one HTML file; without it the verdict alone is printed")
    one.add_argument("--csv", metavar="FILE", help="the table of all cases as CSV")
    one.add_argument("--xlsx", metavar="FILE", help="the table of all cases as a workbook")
    add_against(one)
    one.add_argument("--licensed-slip", action="store_true", help="adds what the index would have been with the middle span never put back")
    one = command("case", "writes the case file of a table", case, INPUTS + STATUSES)
    one.add_argument("input", metavar="INPUT")
    one.add_argument("-o", "--output", metavar="FILE", default=outputs.STANDARD_OUTPUT, help="without it the file goes to standard output")
    add_against(one)
    one = command("table", "writes the table of a case file", table)
    one.add_argument("input", metavar="FILE.case")
    one.add_argument("-o", "--output", metavar="BOOK", required=True, help="a workbook (.xlsx), or a folder for three CSV files")
    one = command("new", "makes an empty workbook to fill in", new)
    one.add_argument("output", metavar="NAME.xlsx")
    one.add_argument("--zones", type=int, required=True, metavar="N", help="1 to 20")
    one.add_argument("--type", choices=("cargo", "passenger"), default="", help="has the columns of that type alone")
    one = command("batch", "judges every ship below a folder", batch)
    one.add_argument("input", metavar="FOLDER")
    one.add_argument("-o", "--output", metavar="RESULTS.csv", required=True)
    one = command("serve", "shows reports in a browser, on this machine alone", serve)
    one.add_argument("--port", type=int, default=PORT, metavar="N", help="%(default)s if it is not given; 0 takes a free one")
    return whole


def add_against(one):
    one.add_argument("--against", action="store_true", help="rounds numbers that are not whole in the file's unit so that survival can only be lower")


def report(words):
    from frontdesk import enquiry, summary

    free(words.input, words.output, words.csv, words.xlsx)
    of_its_kind(words.output, "the report is HTML; --csv and --xlsx write tables", ".xlsx", ".xlsm", ".csv", ".case")
    answer = enquiry.asked(engine.load(), enquiry.named(words.input), given(words.input), words.against, words.licensed_slip)
    contents = {words.output: answer.page} if words.output else {}
    if words.csv or words.xlsx:
        from frontdesk.figures import exports

        contents.update({words.csv: exports.commas(answer.findings)} if words.csv else {})
        contents.update({words.xlsx: exports.workbook(answer.findings)} if words.xlsx else {})
    outputs.put_all(contents)
    print(summary.text(answer, contents), file=sys.stderr if outputs.STANDARD_OUTPUT in contents else sys.stdout)
    return answer.findings.status


def case(words):
    from frontdesk import enquiry, summary
    from frontdesk.reading import casefile

    free(words.input, words.output)
    of_its_kind(words.output, "a case file is written here; `desk table` writes tables", ".xlsx", ".xlsm", ".csv")
    ship = enquiry.read(engine.load(), enquiry.named(words.input), given(words.input), words.against)
    outputs.put(words.output, casefile.write(ship))
    if ship.source.rounded:
        print("desk: " + summary.rounded(ship), file=sys.stderr)
    return DONE


def table(words):
    from frontdesk import enquiry
    from frontdesk.reading import binding, commas, tables

    free(words.input, words.output)
    sheets = tables.sheets_of(enquiry.read(engine.load(), enquiry.named(words.input), given(words.input)))
    if words.output.lower().endswith(".xlsx"):
        outputs.put(words.output, binding.bound(sheets))
        return DONE
    if os.path.splitext(words.output)[1] and not os.path.isdir(words.output):
        raise of_the_file("", "%s: a workbook's name ends in .xlsx, and any other is that of a folder for CSV files, without a dot." % words.output)
    try:
        os.makedirs(words.output, exist_ok=True)
    except OSError as error:
        raise outputs.cannot(words.output, error) from None
    outputs.put_all({os.path.join(words.output, name): content for name, content in commas.written(sheets).items()})
    return DONE


def new(words):
    from frontdesk.reading import blank

    if not words.output.lower().endswith(".xlsx"):
        raise of_the_file("", "%s: a workbook's name ends in .xlsx." % words.output)
    if os.path.lexists(words.output):
        raise of_the_file("", "%s is there already, and is left as it is." % words.output)
    if not 1 <= words.zones <= 20:
        raise of_the_file("", "--zones %d: a ship has 1 to 20 zones." % words.zones)
    outputs.put(words.output, blank.book(words.zones, words.type))
    return DONE


def batch(words):
    from frontdesk.studies import batch as batches

    if not os.path.isdir(words.input):
        raise of_the_file("", "%s is no folder." % words.input)
    if words.output == outputs.STANDARD_OUTPUT or os.path.isdir(words.output):
        raise of_the_file("", "%s: a batch writes its lines to a file." % words.output)
    return batches.run(words.input, words.output, engine.load())


def serve(words):
    from frontdesk.serving import serve as page

    if not 0 <= words.port <= 65535:
        raise of_the_file("", "--port %d: a port is 0 to 65535." % words.port)
    return page.run(engine.load(), words.port)


def free(source, *outputs_asked):
    """Stops where an output would be written over the input or a sheet of its folder, or two outputs to one file."""
    taken = [os.path.realpath(source)]
    if os.path.isdir(source):
        taken += [os.path.realpath(os.path.join(source, name)) for name in os.listdir(source) if name.casefold() in SHEET_FILES]
    for path in outputs_asked:
        if path and path != outputs.STANDARD_OUTPUT:
            if os.path.realpath(path) in taken:
                raise of_the_file("", "%s is named twice, or belongs to the input: an output needs a file of its own." % path)
            taken.append(os.path.realpath(path))


def of_its_kind(path, what, *others):
    """Stops where an output has the ending of another kind of file: it may be somebody's workbook."""
    if path and path.lower().endswith(others):
        raise of_the_file("", "%s: %s." % (path, what))


def given(path):
    """A path that is there; a pipe's or device's bytes, which can be read but once."""
    if not os.path.exists(path):
        raise of_the_file("", "there is no file or folder %s." % path)
    if os.path.isdir(path) or os.path.isfile(path):
        return path
    with open(path, "rb") as there:
        return there.read(MOST_PIPED + 1)


MOST_PIPED = 4_000_000  # bytes


def tell(mistakes):
    """One line a mistake on standard error, the program's name before the first."""
    lines = mistakes.lines()
    print("desk: " + "\n".join(lines), file=sys.stderr)


def main(arguments=None):
    """Runs a command and returns its exit status."""
    status = carried_out(parser().parse_args(arguments))
    try:
        sys.stdout.flush()
    except OSError:  # told already: what cannot be written is not tried once more at the end
        os.dup2(os.open(os.devnull, os.O_WRONLY), sys.stdout.fileno())
    return status


def carried_out(words):
    """The exit status of a command, what keeps it from being done told in words."""
    try:
        status = words.does(words)
        sys.stdout.flush()
        return status
    except BrokenPipeError:
        os.dup2(os.open(os.devnull, os.O_WRONLY), sys.stdout.fileno())  # nothing is flushed to a reader that has gone
        return READER_GONE
    except Mistakes as mistakes:
        tell(mistakes)
    except engine.NoLibrary as missing:
        print("desk: %s" % missing, file=sys.stderr)
    except ModuleNotFoundError as missing:
        if missing.name not in PACKAGES:
            raise
        print("desk: %s is not installed. On Debian: apt-get install %s; elsewhere pyproject.toml names what is needed."
                % PACKAGES[missing.name], file=sys.stderr)
    except OSError as error:
        print("desk: %s: %s." % (error.filename or "standard output", outputs.reason(error)), file=sys.stderr)
    except MemoryError:
        print("desk: there is not enough memory for this.", file=sys.stderr)
    except KeyboardInterrupt:
        return STOPPED
    except Exception as defect:
        traceback.print_exc()
        print("desk: a defect of the desk, which stopped at %s. Nothing that it has not named is written." % type(defect).__name__, file=sys.stderr)
    return ERROR
