"""The four indices as bars against their marks, and their two ends under a glass."""

from .pen import Drawing, scaled, width

BILLION = 10**9
LEFT, LONG = 1_250, 5_700  # where a bar begins, and how long an index of one is
GLASS, GLASS_LONG = 7_600, 2_200
HEAD, STEP = 420, 420
STEPS = tuple(digit * 10**power for power in range(10) for digit in (1, 2, 5))


def glass(ends):
    """How many billionths the glass takes in: the least round number that leaves room around the widest pair of ends."""
    widest = max(upper - lower for lower, upper in ends)
    return next(step for step in STEPS if 4 * step >= 5 * max(widest, 1))


def drawn(entries, places):
    """Entries are (letter, subscript, draught, lower, upper, mark as a pair, its name, how it compares); places make text of billionths."""
    drawing = Drawing("gauge", "The attained index and the partial indices against their marks", 11_500, HEAD + STEP * len(entries) + 60, least=720)
    window = glass([entry[3:5] for entry in entries])
    _scale(drawing, len(entries), places(window).rstrip("0"))
    for i, entry in enumerate(entries):
        _bar(drawing, HEAD + i * STEP, entry, places)
        _ends(drawing, HEAD + i * STEP, entry, window, places)
    drawing.says = " ".join("%s%s lies between %s and %s; %s." % (e[0], e[1], places(e[3]), places(e[4]), e[7]) for e in entries)
    return drawing


def _scale(drawing, count, window):
    foot = HEAD + STEP * count
    for tenth in range(0, 11, 2):
        x = LEFT + scaled(tenth, 10, LONG)
        drawing.line(x, HEAD - 60, x, foot, "grid")
        drawing.text(x, HEAD - 130, "1" if tenth == 10 else "0.%d" % tenth if tenth else "0", 115, "quiet", "middle")
    drawing.text(GLASS + GLASS_LONG // 2, HEAD - 270, "the two ends under a glass", 115, "quiet", "middle")
    drawing.text(GLASS + GLASS_LONG // 2, HEAD - 130, window + " from edge to edge", 115, "quiet", "middle")


def _bar(drawing, top, entry, places):
    letter, sub, draught, lower, upper, (part, whole), mark, _ = entry
    middle = top + STEP // 2
    drawing.text(0, middle + 50, letter, 170, "symbol", sub=sub)
    drawing.text(270, middle + 45, draught, 115, "quiet")
    drawing.box(LEFT, middle - 75, LONG, 150, "empty")
    reached = scaled(lower, BILLION, LONG)
    drawing.box(LEFT, middle - 75, reached, 150, "kept")
    at = scaled(part, whole, LONG)
    if reached < at:
        drawing.box(LEFT + reached, middle - 75, at - reached, 150, "short")
    _value(drawing, middle, reached, at, places(lower)[:8])
    drawing.line(LEFT + at, middle - 135, LEFT + at, middle + 110, "halo")
    drawing.line(LEFT + at, middle - 135, LEFT + at, middle + 110, "mark")
    drawing.text(LEFT + at + 45, middle - 98, mark, 110, "strong")


def _value(drawing, middle, reached, at, text):
    """The lower end, cut off, within the end of its bar; behind it where the bar is short or the mark's stroke would go through, and there is room."""
    wide = width(text, 110) + 140
    crossed = reached - wide < at <= reached + 40
    behind = "at least " + text
    if reached < wide or (crossed and max(reached, at) + width(behind, 110) + 140 <= LONG):
        drawing.text(LEFT + max(reached, at) + 80, middle + 38, behind, 110)
    else:
        drawing.text(LEFT + (at if crossed else reached) - 70, middle + 38, text, 110, "on5", "end")


def _ends(drawing, top, entry, window, places):
    _, _, _, lower, upper, (part, whole), _, compared = entry
    middle = top + STEP // 2
    drawing.box(GLASS, middle - 110, GLASS_LONG, 220, "empty")
    start = 2 * lower - (window - (upper - lower))  # half billionths: the ends stand in the middle of the glass

    def place(halves):
        return GLASS + scaled(halves - start, 2 * window, GLASS_LONG)

    left, right = place(2 * lower), place(2 * upper)
    drawing.box(left, middle - 70, max(right - left, 10), 140, "between")
    for x, turn in ((left, 50), (right, -50)):
        drawing.line(x, middle - 70, x, middle + 70, "end")
        drawing.line(x, middle - 70, x + turn, middle - 70, "end")
        drawing.line(x, middle + 70, x + turn, middle + 70, "end")
    at = 2 * part * BILLION // whole
    if start < at < start + 2 * window:
        drawing.line(place(at), middle - 135, place(at), middle + 135, "mark")
    drawing.text(GLASS + GLASS_LONG + 90, middle - 15, places(upper - lower) + " apart", 110)
    drawing.text(GLASS + GLASS_LONG + 90, middle + 105, compared, 110, "quiet")
