"""What `desk report` prints on a terminal: the verdict in words, the indices against their marks, what is doubtful, and what was written."""

from frontdesk.figures.decimals import BILLION, cut, lifted
from frontdesk.figures.engine import FAILS, MEETS, UNSETTLED

PLACES = 6
VERDICTS = {
    MEETS: "meets the required index.",
    FAILS: "does not meet the required index.",
    UNSETTLED: "is unsettled: a mark lies between the ends of an index.",
}
WORDS = {MEETS: "reached, by %s at least", FAILS: "not reached, short by %s at least", UNSETTLED: "between the ends"}


def text(answer, written=()):
    """All of it as lines; written are the files, as they were named."""
    found = answer.findings
    lines = ["%s %s" % (title(answer.ship), VERDICTS[found.verdict])]
    lines += [index_line(index) for index in found.indices]
    lines += ["The sums of the desk DIFFER from the proved figures: do not use them." for _ in range(not found.agrees)]
    if answer.ship.source.rounded:
        lines.append(rounded(answer.ship))
    if answer.ship.source.reordered:
        lines.append("The rows were put into the file's order.")
    lines += ["Warning: " + str(doubt) for doubt in answer.doubts]
    if answer.slip:
        lines.append("With the licensed slip (not proved): %s" % answer.slip.answer)
    lines += ["Written: %s" % path for path in written if path != "-"]
    return "\n".join(lines)


def rounded(ship):
    """What --against did."""
    count = ship.source.rounded
    return "%d number%s rounded so that survival can only be lower." % (count, " was" if count == 1 else "s were")


def title(ship):
    """The ship's name in a line of its own length, or else its file's, without signs that steer a terminal."""
    name = ship.name or ship.source.file or "The ship"
    return "".join(sign if sign.isprintable() else "?" for sign in name)[:80]


def index_line(index):
    mark = "R" if not index.draught else "its mark"
    words = WORDS[index.verdict]
    if index.margin is not None:
        words = words % index.margin_text(PLACES).lstrip("-")
    ends = cut(index.ends.lower, PLACES, BILLION), lifted(index.ends.upper, PLACES, BILLION)
    return "  %-2s %s to %s, %s %s: %s" % (index.name, *ends, mark, lifted(index.mark, PLACES), words)
