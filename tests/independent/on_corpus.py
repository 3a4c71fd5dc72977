"""Answers the corpus, the shortest files first, and tells the first case whose answer is not the expected one: `python3 -m independent.on_corpus CASES`."""

import sys
from pathlib import Path

from independent import run


def main():
    """Exit status 0 where every answer is as expected, 1 where one is not, 2 where there is none to compare."""
    folder = Path(sys.argv[1])
    cases = [line.split("\t")[:2] for line in (folder / "index.tsv").read_text(encoding="utf-8").splitlines()]
    cases.sort(key=lambda case: (folder / (case[0] + ".case")).stat().st_size)
    for name, sheet in cases:
        data, expected = ((folder / (name + end)).read_bytes() for end in (".case", ".expected"))
        try:
            ended = None if run(data, None if sheet == "-" else int(sheet)) == expected else "FAIL"
        except Exception:  # whatever a fault makes of the program
            ended = "ERROR"
        if ended:
            print(ended, name)
            return 1
    return 0 if cases else 2


if __name__ == "__main__":
    sys.exit(main())
