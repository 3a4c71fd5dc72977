"""The second program: answers a case file, from a path or from standard input, by plain whole numbers and fractions."""

import argparse
import sys
from pathlib import Path

sys.path.insert(0, str(Path(__file__).resolve().parent.parent))

from independent import answer, exact_text, figures, groups_text, printed, reading, required_text, rows_text, settled_text, total_text  # noqa: E402


def whole_number(text):
    """A sheet's length, which is not negative."""
    if not (text.isascii() and text.isdigit()):
        raise argparse.ArgumentTypeError(f"not a whole number: {text}")
    return int(text)


def arguments():
    """The command line's parts."""
    parser = argparse.ArgumentParser(prog="independent", description=__doc__)
    parser.add_argument("file", nargs="?", help="the case file; standard input where left out")
    parser.add_argument("--sheet", type=whole_number, metavar="N", help="a sheet of N numbers; else as long as needed")
    form = parser.add_mutually_exclusive_group()
    form.add_argument("--exact", action="store_true", help="the exact figures as fractions")
    form.add_argument("--figures", action="store_true", help="the answer as decimal numbers, one a line")
    form.add_argument("--rows", action="store_true", help="each row's share, and at the three draughts v, bottom, top, mark byte and what it adds, a row a line")
    form.add_argument("--required", action="store_true", help="R, and the mark of a partial index, numerator and denominator a line")
    form.add_argument("--groups", action="store_true", help="the share of every group of the hull down to B/2, a group a line")
    form.add_argument("--settle", action="store_true", help="whether an unsettled ship meets or fails, with the roots to more places")
    form.add_argument("--total", action="store_true", help="the total chance of the listed groups, and the groups that are not listed")
    return parser.parse_args()


def main():
    """Reads, answers and writes."""
    asked = arguments()
    if not asked.file and sys.stdin.isatty():
        print("independent: waiting for a case file, closed by Ctrl-D", file=sys.stderr)
    try:
        data = Path(asked.file).read_bytes() if asked.file else sys.stdin.buffer.read()
    except OSError as fault:
        sys.exit(f"independent: {fault}")
    if asked.exact:
        text = exact_text(reading(data))
    elif asked.settle:
        text = settled_text(reading(data))
    elif asked.total:
        text = total_text(reading(data))
    elif asked.required:
        text = required_text(reading(data))
    elif asked.groups:
        text = groups_text(reading(data))
    elif asked.rows:
        text = rows_text(answer(data))
    elif asked.figures:
        text = "".join(f"{figure}\n" for figure in figures(answer(data, asked.sheet)))
    else:
        text = printed(answer(data, asked.sheet))
    sys.stdout.buffer.write(text.encode("ascii"))


if __name__ == "__main__":
    main()
