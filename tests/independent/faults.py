"""Breaks copies of the independent program, one fault each, and sees that its own tests find every fault, or that the corpus does."""

import argparse
import os
import re
import shutil
import subprocess
import sys
import tempfile
import time
from pathlib import Path

HERE = Path(__file__).resolve().parent
sys.path.insert(0, str(HERE.parent))

from independent.faults_to_find import FAULTS, ON_CORPUS  # noqa: E402

LONGEST_RUN = 120  # seconds


def tests_of(file):
    """The names of all tests by module, those of one file before the others."""
    modules = sorted(path.stem for path in HERE.glob("test_*.py"))
    modules.sort(key=lambda module: module != "test_" + file)
    return [f"{HERE.name}.{module}" for module in modules]


def first_failure(folder, tests):
    """How the first test that does not pass ends: FAIL by what it expects, ERROR where the program breaks down."""
    command = [sys.executable, "-m", "unittest", "--failfast", *tests]
    try:
        run = subprocess.run(command, cwd=folder, env=dict(os.environ, PYTHONDONTWRITEBYTECODE="1"),
                             capture_output=True, text=True, timeout=LONGEST_RUN)
    except subprocess.TimeoutExpired:
        return "the tests do not end"
    ended = re.search(r"^(FAIL|ERROR): ", run.stderr, re.M)
    if ended:
        return ended.group(1)
    return "all tests pass" if re.search(r"^Ran [1-9].*\n\nOK$", run.stderr, re.M) else "no test ran"


def first_difference(folder):
    """How a copy of the program ends on the corpus: FAIL where some answer is not the expected one, ERROR where the program breaks down."""
    command = [sys.executable, "-m", f"{HERE.name}.on_corpus", str(HERE.parent / "cases")]
    try:
        run = subprocess.run(command, cwd=folder, env=dict(os.environ, PYTHONDONTWRITEBYTECODE="1"),
                             capture_output=True, text=True, timeout=LONGEST_RUN)
    except subprocess.TimeoutExpired:
        return "the corpus does not end"
    return run.stdout.split(" ")[0] if run.returncode == 1 else "all answers are as expected" if run.returncode == 0 else "no answer was compared"


def with_fault(file, old, new, on_corpus=False):
    """How the tests of a copy of the program end where one place of it is changed, or its answers to the corpus."""
    with tempfile.TemporaryDirectory() as folder:
        copy = Path(folder) / HERE.parent.name / HERE.name
        shutil.copytree(HERE, copy, ignore=shutil.ignore_patterns("__pycache__"))
        shutil.copytree(HERE.parent.parent / "examples", Path(folder) / "examples")
        changed = copy / f"{file}.py"
        text = changed.read_text(encoding="utf-8")
        if text.count(old) != 1:
            return f"its place is there {text.count(old)} times"
        changed.write_text(text.replace(old, new), encoding="utf-8")
        return first_difference(copy.parent) if on_corpus else first_failure(copy.parent, tests_of(file))


def main():
    """Exit status 0 where nothing is found without a fault, and each fault is."""
    parser = argparse.ArgumentParser(prog="faults", description=__doc__)
    parser.add_argument("--corpus", action="store_true",
                        help="the faults of the input's limit, of the second set, of passenger ships and of their rules, which the corpus alone must find")
    on_corpus = parser.parse_args().corpus
    begun, found, missed = time.monotonic(), 0, 0
    unbroken = with_fault("rounding", "BILLION = 10**9", "BILLION = 10**9", on_corpus)
    if unbroken not in ("all tests pass", "all answers are as expected"):
        print(f"without a fault: {unbroken}")
        missed += 1
    for file, faults in (ON_CORPUS if on_corpus else FAULTS).items():
        for what, old, new in faults:
            ended = with_fault(file, old, new, on_corpus)
            if ended == "FAIL":
                found += 1
                continue
            missed += 1
            print(f"NOT FOUND in {file}.py: {what} ({ended})")
    print(f"{time.monotonic() - begun:.0f} seconds")
    print(f"{found} passed, {missed} failed")
    return 0 if found > 0 and missed == 0 else 1


if __name__ == "__main__":
    sys.exit(main())
