"""The whole corpus: made, held against three readings, written, and compared with what is committed."""

from pathlib import Path

from .expecting import expected, refusal_line
from .topics import TOPICS

CASES = Path(__file__).resolve().parent.parent / "cases"
INDEX = "index.tsv"


def topic_of(module):
    return module.__name__.rpartition(".")[2]


def all_cases():
    """Every case under its full name; no name comes twice."""
    seen = set()
    for module in TOPICS:
        for case in module.cases():
            case = case._replace(name="%s/%s" % (topic_of(module), case.name))
            assert case.name not in seen, "the name %s comes twice" % case.name
            seen.add(case.name)
            yield case


def stated(case, output):
    """What is wrong with an answer by what the case itself states of it."""
    if case.refusal is not None:
        if output != refusal_line(*case.refusal):
            return "stated is the refusal %d at line %d" % case.refusal
        return None
    if not output.startswith(b"81"):
        return "stated is that the file is accepted"
    if case.verdict is not None and int(output[2:4], 16) != case.verdict:
        return "stated is the verdict %d" % case.verdict
    if case.marks is not None and marks_in(output) != list(case.marks):
        return "stated are the marks %s" % (case.marks,)
    return unsound(output)


def frames_of(output):
    """The bytes of each printed line."""
    return [bytes.fromhex(line) for line in output.decode("ascii").split("\n")[:-1]]


def marks_in(output):
    """The last three bytes of each row's line."""
    return [tuple(frame[9:]) for frame in frames_of(output)[1:]]


def unsound(output):
    """What no accepted file may show, whatever its figures: ends that cross, or lie farther apart than they can, or a byte that is no marks."""
    frames = frames_of(output)
    rows = len(frames) - 1
    ends = [[int.from_bytes(frame[at:at + 4], "big") for at in range(start, stop, 4)]
            for frame, (start, stop) in zip(frames, [(2, 34)] + [(1, 9)] * rows)]
    apart = [[high - low for low, high in zip(four[::2], four[1::2])] for four in ends]
    if any(width < 0 for widths_of in apart for width in widths_of):
        return "a lower end is above its upper end"
    if any(width > 32 for widths_of in apart[1:] for width in widths_of):
        return "a row's ends are more than 32 apart"
    if any(width > (100000 + 40 * rows if rows else 0) for width in apart[0]):
        return "an index's ends are more than 100,000 + 40 a row apart"
    if any(len(three) != 3 or max(three) > 15 for three in marks_in(output)):
        return "a row has no three bytes of marks"
    return None


def in_short(output):
    """An answer in two words for the index: the refusal and its line, or the verdict."""
    if output.startswith(b"8f"):
        return "%d at %d" % (int(output[2:4], 16), int(output[4:8], 16))
    return "verdict %d" % int(output[2:4], 16)


class Disagreement(Exception):
    """Two readings of document 01 that differ on a file."""


def made():
    """Every file of the corpus by its path: the cases, their expected output, the index."""
    from independent import run
    files, index, wrong = {}, [], []
    for case in all_cases():
        output = run(case.data, case.sheet)
        fault = stated(case, output)
        if fault:
            wrong.append("%s: the independent program prints %r, %s" % (case.name, output[:80], fault))
        if output != expected(case.data, case.sheet):
            wrong.append("%s: the independent program and the generator's own reading differ" % case.name)
        files[case.name + ".case"] = case.data
        files[case.name + ".expected"] = output
        index.append("\t".join([case.name, "-" if case.sheet is None else str(case.sheet), in_short(output), case.shows]) + "\n")
    if wrong:
        raise Disagreement("\n".join(wrong))
    files[INDEX] = "".join(index).encode("utf-8")
    return files


def committed():
    """The files of the corpus as they stand on disk."""
    return {path.relative_to(CASES).as_posix(): path.read_bytes()
            for pattern in ("*/*.case", "*/*.expected", INDEX) for path in CASES.glob(pattern)}


def write():
    """Rewrites the corpus; what the generator no longer makes goes away."""
    files = made()
    for name in set(committed()) - set(files):
        (CASES / name).unlink()
    for name, data in files.items():
        path = CASES / name
        path.parent.mkdir(parents=True, exist_ok=True)
        path.write_bytes(data)
    return summary(files)


def check():
    """The differences between the corpus on disk and the one made now, how it sums up, and how many files agree."""
    files, there = made(), committed()
    differences = ["missing: " + name for name in sorted(set(files) - set(there))]
    differences += ["not made: " + name for name in sorted(set(there) - set(files))]
    differences += ["differs: " + name for name in sorted(files) if name in there and there[name] != files[name]]
    told = (CASES / "README.md").read_text(encoding="utf-8")
    figures = ["| %s | %d |" % one for one in counts(files).items()] + ["%d case files" % sum(counts(files).values())]
    differences += ["README.md does not say: " + words for words in figures if words not in told]
    agreeing = sum(name in there and there[name] == files[name] for name in files)
    return differences, summary(files), agreeing


def counts(files):
    """How many cases each topic has."""
    found = {}
    for name in files:
        if name.endswith(".case"):
            topic = name.partition("/")[0]
            found[topic] = found.get(topic, 0) + 1
    return found


def summary(files):
    words = ["%-10s %4d" % one for one in counts(files).items()]
    words.append("%d cases, %d bytes in all" % (sum(counts(files).values()), sum(map(len, files.values()))))
    return "\n".join(words)
