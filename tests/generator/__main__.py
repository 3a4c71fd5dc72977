"""Writes the corpus of case files anew; --check says whether the committed one is just what is made."""

import argparse
import sys
from pathlib import Path

HERE = Path(__file__).resolve().parent
sys.path.insert(0, str(HERE.parent))


def main():
    parser = argparse.ArgumentParser(prog="python3 tests/generator", description=__doc__)
    todo = parser.add_mutually_exclusive_group()
    todo.add_argument("--check", action="store_true", help="compare and write nothing")
    todo.add_argument("--slips", action="store_true", help="break the rules one by one and say which case of the corpus tells")
    todo.add_argument("--broken", metavar="WORDS", help="read a case file and answer with the rule of these words broken")
    todo.add_argument("--search", action="store_true", help="run the searches again and write found.py")
    wanted = parser.parse_args()
    if wanted.search:
        from generator import search
        search.write(HERE / "found.py")
        return 0
    if wanted.broken:
        from generator import slips
        sys.stdout.buffer.write(slips.broken(wanted.broken, sys.stdin.buffer.read()))
        return 0
    from generator import corpus
    if wanted.slips:
        from generator import slips
        return slips.report(corpus.all_cases())
    try:
        if not wanted.check:
            print(corpus.write())
            return 0
        differences, summary, agreeing = corpus.check()
    except corpus.Disagreement as readings:
        print(readings)
        print("two readings of document 01 differ: nothing was written")
        print("0 passed, 1 failed")
        return 1
    print(summary)
    for line in differences[:20]:
        print(line)
    print("%d differences" % len(differences) if differences else "the committed corpus is what the generator makes")
    print("%d passed, %d failed" % (agreeing, len(differences)))
    return 1 if differences or not agreeing else 0


if __name__ == "__main__":
    sys.exit(main())
