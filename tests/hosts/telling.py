"""Runs the examples in C and in Python: their words and numbers, their manners, another library than they were written for, and the guide's commands."""

import os
import re
import shutil
import subprocess
import sys

import package
from expected import HERE, answer, both_ways, corpus, independent, reading
from independent.regulation import WHOLE_V, groups
from linking import AT_HOME, COMPILER, ROOT

STATUSES = {1: 0, 2: 2, 3: 3}
MARKED = ("lever", "range", "heel", "opening")  # the words by which the examples name what holds a survival down, in the order of their marks
# cases by the start of their names: every byte of marks, which of two sets counts, what decides in a passenger ship, and files that list few groups or none
SHOWN = ("marks/each-byte-", "marks/given-between-", "openings/each-byte-", "openings/given-between-", "second/lower-", "second/equal-",
         "passengers/each-byte-", "passengers/decided-", "hulls/seeded-0", "hulls/ten-", "hulls/twenty-zones-no-")
EXAMPLE, IN_PYTHON = ROOT / "examples" / "host.c", ROOT / "examples" / "host.py"


def example_runs():
    """The printed case with its whole text, then cases of the corpus with their numbers and what holds each survival down: one for each refusal
    and verdict, those that have every byte of marks at every draught, with the opening's and without, and those that tell which of two sets counts, or
    what decides in a passenger ship, or that leave groups out."""
    printed = (ROOT / "crates" / "damindex" / "stdin").read_bytes()
    yield "the printed case", printed, (HERE / "printed.expected").read_text(encoding="ascii")
    seen = set()
    for name, data in corpus():
        told = answer(data)
        if (told.number, told.verdict) not in seen or name.startswith(SHOWN):
            seen.add((told.number, told.verdict))
            yield name, data, example_words(data)


def example_words(data):
    """The numbers of the example's text, and the marks that it names, in their order there."""
    told = answer(data)
    if told.number:
        return [str(number) for number in (told.number, told.line)]
    words = [end for ends in told.ends for end in ends] + independent.required_of(reading(data))
    for row, (share, *threes) in enumerate(zip(told.shares, told.heights, told.survivals, told.added), 1):
        words += [row, *share]
        for v, (ends, marks), added in zip(*threes):
            words += [row, v, WHOLE_V, *ends, *added] + [name for name, held in zip(MARKED, marks) if held]
    return [str(word) for word in words + not_listed_words(reading(data))]


def not_listed_words(case):
    """The groups that the file does not list and that some damage reaches, by zones and share, and what all that are not listed could add."""
    ends, listed = independent.group_numbers(case), {row.group for row in case.rows}
    missing = [(group, share) for group, share in zip(groups(len(case.hull.zones)), zip(ends[::2], ends[1::2])) if group not in listed]
    reached = [(a, a + n - 1, *share) for (a, n), share in missing if share[0]]
    return [word for words in reached for word in words] + [len(missing), sum(upper for _, (_, upper) in missing)]


def words_in(text):
    return re.findall(r"\b(?:\d+|%s)\b" % "|".join(MARKED), text)


def in_decimals(text):
    """The example's whole text as the one in Python has it: in decimals, not in billionths or ten-thousandths."""
    def decimals(found):
        return " to ".join("%d.%0*d" % (int(end) // whole, places, int(end) % whole) for end in found.groups() if end)

    for unit, width, places in (("billionths", 10, 9), ("ten-thousandths", 5, 4)):
        whole = 10 ** places
        text = re.sub(r"(?:([ \d]{%d}) to )?([ \d]{%d}) %s" % (width, width, unit), decimals, text)
    return text


def example_faults():
    """What is wrong with each run of the examples, None where nothing is: in C the text or what it tells, in Python the words of the one in C."""
    in_c = both_ways(EXAMPLE)
    for name, data, expected in example_runs():
        status = STATUSES.get(answer(data).verdict, 4)
        for way, words in in_c:
            run = subprocess.run(words, input=data, stdout=subprocess.PIPE, timeout=60)
            text = run.stdout.decode("ascii")
            got = text if isinstance(expected, str) else words_in(text)
            right = got == expected and run.returncode == status
            yield None if right else "the example on %s, with %s: exit status %d and %r" % (name, way, run.returncode, text[:200])
        if AT_HOME:
            run = subprocess.run([sys.executable, IN_PYTHON], input=data, stdout=subprocess.PIPE, timeout=60)
            right = run.stdout.decode("ascii") == in_decimals(text) and run.returncode == status
            yield None if right else "the example in Python on %s: exit status %d and %r" % (name, run.returncode, run.stdout[:200])
    if not AT_HOME:
        print("the example in Python was not run: this machine loads no objects for x86-64")


def other_library(number, refusal):
    """A shared object that tells this number for its version, and refuses whatever it is given with one refusal."""
    folder = ROOT / "target" / "linked" / ("%d-%d" % (number, refusal))
    folder.mkdir(parents=True, exist_ok=True)
    settings = ["-DOTHER=%d" % number, "-DREFUSAL=%d" % refusal, "-I", ROOT / "include"]
    subprocess.run([COMPILER, "-shared", "-fPIC", *settings, "-o", folder / package.SONAME, HERE / "other.c"], check=True)
    return folder / package.SONAME


def manner_faults():
    """The example in Python by its other ways: a file by name, the printed answer, what is no file, no library, no argument of its own; and both
    examples with a library of another version."""
    if not AT_HOME:
        return
    case = str(ROOT / "examples" / "printed.case")
    printed = (ROOT / "examples" / "printed.answer").read_text(encoding="ascii")
    in_words = in_decimals((HERE / "printed.expected").read_text(encoding="ascii"))
    named = ["--library", str(package.PACKAGE / "lib" / package.OBJECT), case]
    runs = [([case], 0, in_words), (["--report", case], 0, printed), (named, 0, in_words),
            (["no-such.case"], 1, ""), (["--library", "no-such.so", case], 1, ""), (["--frob"], 1, "")]
    in_c = package.linked_with_package(EXAMPLE)
    for number in (package.NUMBER - 1, package.NUMBER + 10000):
        other = other_library(number, 1)
        runs.append((["--library", str(other), case], 1, ""))
        run = subprocess.run(in_c, input=b"", capture_output=True, env={**os.environ, "LD_LIBRARY_PATH": str(other.parent)})
        right = run.returncode == 1 and str(number).encode() in run.stderr and not run.stdout
        yield None if right else "the example with a library %d: status %d and %r" % (number, run.returncode, run.stdout)
    for words, status, wanted in runs:
        run = subprocess.run([sys.executable, IN_PYTHON, *words], capture_output=True, text=True, timeout=60)
        right = run.returncode == status and run.stdout == wanted and bool(run.stderr) == (status == 1) and "Traceback" not in run.stderr
        yield None if right else "the example in Python with %s: status %d, %r and %r" % (words, run.returncode, run.stdout, run.stderr)


def later_faults():
    """Both examples with a later library that fits: of a refusal that they have words for they tell these, of another one its number, and that they do not know
    it. There is no 12, and 13 is the last."""
    if not AT_HOME:
        return
    in_c = package.linked_with_package(EXAMPLE)
    for refusal in (11, 12, 13, 14, 10 ** 9):
        other = other_library(package.NUMBER + 100, refusal)
        run = subprocess.run(in_c, input="", capture_output=True, text=True, timeout=60, env={**os.environ, "LD_LIBRARY_PATH": str(other.parent)})
        told = re.fullmatch(r"refused, number %d at line 1: (.+)\n" % refusal, run.stdout)
        known = told and told.group(1) != "a number that this program does not know"
        right = told and known == (refusal in (11, 13)) and run.returncode == 4
        yield None if right else "the example with a library that refuses with %d: status %d and %r" % (refusal, run.returncode, run.stdout)
        python = subprocess.run([sys.executable, IN_PYTHON, "--library", other], input="", capture_output=True, text=True, timeout=60)
        right = python.stdout == run.stdout and python.returncode == 4 and not python.stderr
        yield None if right else "the example in Python with it: status %d, %r and %r" % (python.returncode, python.stdout, python.stderr)


def guide_faults():
    """The guide's commands about the library, each as it stands: what runs an example tells the printed case. The package is made before. Where
    there is no pkg-config, or no archive of the C library, what needs it is left out."""
    if not AT_HOME:
        return
    in_words = (HERE / "printed.expected").read_text(encoding="ascii")
    section = (ROOT / "docs" / "GUIDE.md").read_text(encoding="utf-8").partition("\n## The library\n")[2]
    first, *commands = re.findall(r"^    (\S.*)$", section, re.M)
    yield None if first == "./library" and len(commands) >= 6 else "the guide does not make the library first, and link and run programs then"
    archive_of_c = subprocess.run([COMPILER, "-print-file-name=libc.a"], stdout=subprocess.PIPE, text=True).stdout
    lacking = [] if shutil.which("pkg-config") else ["host-shared", "host-static"]
    lacking += [] if archive_of_c.startswith("/") else ["host-static"]
    exported = "set -e\n"
    for words in commands:
        if any(program in words for program in lacking):
            print("left out, because this machine lacks what it needs: %s" % words)
        elif words.startswith("export "):
            exported += words + "\n"
        else:
            run = subprocess.run(["sh", "-c", exported + words], cwd=ROOT, stdout=subprocess.PIPE, text=True, timeout=60)
            wanted = in_decimals(in_words) if "host.py" in words else in_words if "printed.case" in words else ""
            right = run.returncode == 0 and run.stdout == wanted
            yield None if right else "the guide's command '%s' ends with %d and tells %r" % (words, run.returncode, run.stdout)
