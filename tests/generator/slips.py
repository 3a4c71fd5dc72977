"""Rules broken on purpose: the corpus must tell each broken reading from document 01's own."""

from .broken import indices, marks, openings, passenger_files, passengers, refusals, rules, second, shares
from .expecting import expected
from .figures import Figures
from .judging import Judging

ALL = ([(words, broken, Figures) for words, broken in refusals.slip + openings.read + second.read + passenger_files.read + rules.read]
       + [(words, Judging, broken) for words, broken in (
           shares.slip + indices.slip + openings.slip + second.slip + passengers.slip + rules.slip + marks.slip)])


def prints(data, sheet, judging, figures):
    """What a broken reading prints; nothing where it comes to grief."""
    try:
        return expected(data, sheet, judging, figures)
    except (ArithmeticError, IndexError, OverflowError, ValueError, TypeError):
        return b""


def broken(wanted, data):
    """The answer of the first broken rule with these words in its own."""
    for words, judging, figures in ALL:
        if wanted in words:
            return prints(data, None, judging, figures)
    raise SystemExit("no broken rule says: %s" % wanted)


def told(cases, most=3):
    """For each broken rule, the names of the first cases that tell it from the right one."""
    cases = sorted(cases, key=lambda case: len(case.data))
    right = [expected(case.data, case.sheet) for case in cases]
    for words, judging, figures in ALL:
        names = []
        for case, output in zip(cases, right):
            if figures is not Figures and not output.startswith(b"81"):
                continue
            if prints(case.data, case.sheet, judging, figures) != output:
                names.append(case.name)
                if len(names) == most:
                    break
        yield words, names


def report(cases):
    missed = 0
    for words, names in told(cases):
        print("%-60s %s" % (words, ", ".join(names) or "NO CASE TELLS"))
        missed += not names
    print("%d broken rules, %d of them told by no case" % (len(ALL), missed))
    return 1 if missed else 0
