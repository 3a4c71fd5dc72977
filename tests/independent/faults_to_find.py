"""The faults that the tests must find, by file: what is wrong, the text as it stands, and the text with the fault."""

from . import passenger_faults as passengers, rule_faults as rules

DRY = "tuple(result._replace(opening=0) for result in row.results)"
TABLE = "        if kind not in lengths or"
JUDGED = "result_is_within(result) for results in row.sets for result in results)"
SECOND_ROW = "    return Row(a, n, b, H, first, None, second=tuple(result_of(frame, 31 + 8 * j) for j in range(3)))"
BOTH = "return lower_survival(row.results[draught], row.second[draught])"
LOWER_ENDS = "Ends(min(one.ends.lower, other.ends.lower), min(one.ends.upper, other.ends.upper))"
BY_S_FOURTH = "one.marks if s_fourth(*first) <= s_fourth(*second) else other.marks"

READING = [
    # Limits and lines
    ("21 zones are let through", "MOST_ZONES = 20", "MOST_ZONES = 21"),
    ("Ls to 19,801", "L <= 19_800", "L <= 19_801"),
    ("an odd B is let through", "B % 2 == 0 and ", ""),
    ("dl above ds is let through", "500 <= dl <= ds", "500 <= dl"),
    ("ds - dl need not be a multiple of 5", " and (ds - dl) % 5 == 0", ""),
    ("two bulkheads may stand at one place", "all(here < there for", "all(here <= there for"),
    ("a + n wraps at a byte", "row.a + row.n - 1 <=", "(row.a + row.n - 1) % 256 <="),
    ("b to B", "row.b <= hull.B // 2", "row.b <= hull.B"),
    ("capital letters are digits too", 'b"0123456789abcdef"', 'b"0123456789abcdefABCDEF"'),
    ("a last line needs no line feed", "(pieces[-1], False)", "(pieces[-1], True)"),
    # Openings
    ("an opening to 30,001", "result.opening <= 30_000", "result.opening <= 30_001"),
    ("an opening from -30,001", "-30_000 <= result.opening", "-30_001 <= result.opening"),
    ("an opening of 30,000 is refused", "result.opening <= 30_000", "result.opening < 30_000"),
    ("an opening of -30,000 is refused", "-30_000 <= result.opening", "-30_000 < result.opening"),
    ("the deepest draught's opening alone is judged", "for result in results)", "for result in results[:1])"),
    ("an opening has no sign", "return number - 65_536 if number >= 32_768 else number", "return number"),
    ("an opening's sign is dropped, and -1 is 1", "return number - 65_536 if", "return 65_536 - number if"),
    ("an opening is read in ones' complement", "return number - 65_536 if", "return number - 65_535 if"),
    ("an opening has its sign in its low byte", "if number >= 32_768 else", "if number % 256 >= 128 else"),
    ("the heel is read for the opening", "two_bytes_signed(frame, at + 6)", "two_bytes_signed(frame, at + 4)"),
    ("the light opening is read for the partial", "two_bytes_signed(frame, at + 6)", "two_bytes_signed(frame, at + (14 if at == 15 else 6))"),
    ("the deepest opening is read for all", "two_bytes_signed(frame, at + 6)", "two_bytes_signed(frame, 13)"),
    ("the opening stands before the lever", """\
    lever, reach, heel = (two_bytes(frame, at + field) for field in (0, 2, 4))
    return Result(lever, reach, heel, two_bytes_signed(frame, at + 6))""", """\
    lever, reach, heel = (two_bytes(frame, at + field) for field in (2, 4, 6))
    return Result(lever, reach, heel, two_bytes_signed(frame, at))"""),
    ("the openings stand after the three results", "tuple(result_of(frame, 7 + 8 * j) for j in range(3))",
     "tuple(result_of(frame, 7 + 6 * j)._replace(opening=two_bytes_signed(frame, 25 + 2 * j)) for j in range(3))"),
    ("a result begins where it did without openings", "result_of(frame, 7 + 8 * j)", "result_of(frame, 7 + 6 * j)"),
    ("a row without openings is let through as dry", "        if kind not in lengths or", """\
        if kind == LEVER_ROW and len(frame) == 25:
            frame = b"".join((frame[:13], bytes(2), frame[13:19], bytes(2), frame[19:], bytes(2)))
        if kind not in lengths or"""),
    ("a row of results that is too long is let through", "len(frame) != lengths[kind]", "(len(frame) != lengths[kind] and len(frame) <= 31)"),
    ("a row of results that is too short is let through", "        if kind not in lengths or", """\
        frame = frame.ljust(31, bytes(1)) if kind == LEVER_ROW else frame
        if kind not in lengths or"""),
    # Judging order
    ("2 is judged before 10", "if ended:", "if ended and is_written_well(text, closed):"),
    ("5 is judged before 4", "if not within:", "if not within and 1 <= frame[count_at] <= MOST_ZONES:"),
    ("6 is judged before 3 at row 501 of kind 02", "        if kind not in lengths or", """\
        if kind == LEVER_ROW and len(rows) == MOST_ROWS:
            return Refusal(6, number)
        if kind not in lengths or"""),
    ("6 is judged before 3 at row 501 of kind 03", "        if kind not in lengths or", """\
        if kind == GIVEN_ROW and len(rows) == MOST_ROWS:
            return Refusal(6, number)
        if kind not in lengths or"""),
    ("7 is judged before 6 at row 501", "if len(rows) == MOST_ROWS:",
     "if len(rows) == MOST_ROWS and row_is_within(row, hull):"),
    ("7 is judged before 3 where the opening is outside", "        if kind not in lengths or", """\
        if kind == LEVER_ROW and len(frame) >= 15 and not result_is_within(result_of(frame, 7)):
            return Refusal(7, number)
        if kind not in lengths or"""),
    ("8 is judged before 7 where the opening is outside", "if not row_is_within(row, hull):",
     "if not row_is_within(row, hull) and (not rows or row.given or not is_out_of_order(row, rows[-1], hull)):"),
    ("9 is judged before 8", "if rows and is_out_of_order(row, rows[-1], hull):",
     "if rows and is_out_of_order(row, rows[-1], hull) and not leaves_open(row, rows[-1], hull):"),
    ("9 is judged before 6 at the end frame", "if two_bytes(frame, 1) != len(rows):",
     "if two_bytes(frame, 1) != len(rows) and (not rows or group_is_closed(rows[-1], hull)):"),
    ("a missing end frame is told of the last line", "Refusal(10, len(lines) + 1)", "Refusal(10, len(lines))"),
    # Order of the rows
    ("groups come by n, then a", "return row.group < before.group", "return row.group[::-1] < before.group[::-1]"),
    ("a layer goes on above its top", " or layer_is_closed(before, hull)", ""),
    ("a group may close before B/2", "row.b == hull.B // 2 and ", ""),
    ("the layer before goes on into the next group", "if not rows or rows[-1].group != row.group:", "if not rows:"),
    ("the row below goes on into the next layer", "b_before=before.b)", "b_before=before.b, H_below=before.H)"),
]

FIGURES = [
    # Spans and penetration
    ("the first band ends a centimetre too late", "33 * x <= 5 * L", "33 * (x - 1) <= 5 * L"),
    ("the second band ends a centimetre too soon", "33 * x <= 10 * L", "33 * (x + 1) <= 10 * L"),
    ("one end is tested at the stern alone", "(span.forward == L)\n", "(span == Span(0, L))\n"),
    ("one end is tested at the bow alone", "return (span.aft == 0) +", "return (span == Span(0, L)) +"),
    ("the edge between the forms of G goes to the first", "15 * B * x <= b * L", "15 * B * x < b * L"),
    # Shares
    ("the middle is not put back at n >= 3", "        (+1, zones_from(a + 1, last - 1)),\n", ""),
    ("a zone is put back at n = 2", "(-1, zones_from(last, last))]",
     "(-1, zones_from(last, last)), (+1, zones_from(a, a))]"),
    ("a subtracted span has a b of its own", "(sign, span, b) for", "(sign, span, b if sign > 0 else b_before or b) for"),
    ("the layer before is not taken off", "if b_before > 0:", "if b_before > b:"),
    # Height and survival
    ("v goes on by 39 to 12,501", "if h <= 12_500:", "if h <= 12_501:"),
    ("v of the row below is not taken off", "v(row.H - d) - below", "v(row.H - d)"),
    ("the lever is not capped", "min(lever, 120)", "lever"),
    ("K² stands for K⁴", "Fraction(3_000 - heel, 500) ** 2", "Fraction(3_000 - heel, 500)"),
    ("k rises again beyond a heel of 3,000", "heel >= 3_000", "heel == 3_000"),
    ("an opening at zero is immersed", "if opening < 0:", "if opening <= 0:"),
    ("an opening of -1 is not immersed", "if opening < 0:", "if opening < -1:"),
    ("a dry opening is taken for an immersed one", "if opening < 0:", "if opening > 0:"),
    ("survival stays as it was where the opening is immersed", "    if opening < 0:\n        return Fraction(0)\n", ""),
    ("survival is one where the opening is immersed", "    if opening < 0:\n        return Fraction(0)\n", "    if opening < 0:\n        return Fraction(1)\n"),
    ("the higher s⁴ of two is the exact one", "return min(s_fourth(*results[draught])", "return max(s_fourth(*results[draught])"),
    ("the partial draught is the mean", "3 * (ds - dl) // 5", "(ds - dl) // 2"),
    # Marks
    ("a lever at its cap is marked", "lever < 120", "lever <= 120"),
    ("a lever just below its cap is not marked", "lever < 120", "lever < 119"),
    ("a range at its cap is marked", "reach < 1_600", "reach <= 1_600"),
    ("a range just below its cap is not marked", "reach < 1_600", "reach < 1_599"),
    ("a heel of 2,500 is marked", "heel > 2_500", "heel >= 2_500"),
    ("a heel of 2,501 is not marked", "heel > 2_500", "heel > 2_501"),
    ("a heel of 3,000 is not marked", "heel > 2_500", "3_000 > heel > 2_500"),
    ("a lever of nothing is not marked", "lever < 120", "0 < lever < 120"),
    ("a range of nothing is not marked", "reach < 1_600", "0 < reach < 1_600"),
    ("lever and range are told for each other", "Marks(lever < 120, reach < 1_600,", "Marks(reach < 1_600, lever < 120,"),
    ("the heel alone is marked where it makes survival 0", "Marks(lever < 120, reach < 1_600,", "Marks(lever < 120 and heel < 3_000, reach < 1_600,"),
    ("an opening at zero is marked", " opening < 0)", " opening <= 0)"),
    ("an opening of -1 is not marked", " opening < 0)", " opening < -1)"),
    ("a dry opening is marked", " opening < 0)", " opening > 0)"),
    ("an opening of -30,000 is not marked", " opening < 0)", " -30_000 < opening < 0)"),
    ("the opening alone is marked where it is immersed", "Marks(lever < 120, reach < 1_600, heel > 2_500,",
     "Marks(lever < 120 and opening >= 0, reach < 1_600, heel > 2_500,"),
    ("an immersed opening marks the lever too", "Marks(lever < 120, reach < 1_600, heel > 2_500,",
     "Marks(lever < 120 or opening < 0, reach < 1_600, heel > 2_500,"),
    ("the opening is marked where nothing else is", " opening < 0)", " opening < 0 and heel <= 2_500)"),
    ("R changes its form a centimetre too late", "if L > 10_000:", "if L > 10_001:"),
    ("a partial index must reach the whole of R", "(R(L), R(L) / 2, ", "(R(L), R(L), "),
    # R as numbers, and the groups
    ("R is reduced", "whole = required_denominator(L, persons, rule)", "whole = required.denominator"),
    ("the mark of a partial index is reduced", "part = whole * (2 if persons is None else 10)", "part = partial.denominator"),
    ("a passenger ship's mark is of twice R's denominator", "(2 if persons is None else 10)", "2"),
    ("R of 2020 is of 758 millions", "37_900_000 if N", "758_000_000 if N"),
    ("R of many persons is of 100,000 times what it is divided by", "800 * (N + 5_000)\n\n\ndef required_numbers", "100_000 * (N + 5_000)\n\n\ndef required_numbers"),
    ("R as numbers changes its form a centimetre too late", "L + 15_200 if L > 10_000 else", "L + 15_200 if L > 10_001 else"),
    ("groups come by their number of zones first", "[(a, n) for a in range(1, zones + 1) for n in range(1, zones - a + 2)]",
     "[(a, n) for n in range(1, zones + 1) for a in range(1, zones - n + 2)]"),
    ("the whole ship is no group", "for n in range(1, zones - a + 2)]", "for n in range(1, zones - a + 2) if n < zones]"),
    ("groups of three zones are the longest", "for n in range(1, zones - a + 2)]", "for n in range(1, min(zones - a, 2) + 2)]"),
]

ENDS = [
    # Spans and penetration
    ("P with one end comes from the ends of p", "    return billionths(P(span, L))", """\
    if ends_touched(span, L) != 1:
        return billionths(P(span, L))
    x, inner = span.length, p_ends(span.length, L)
    lower, upper = quotient_down(x * BILLION, L), quotient_up(x * BILLION, L)
    return Ends(quotient_down(inner.lower + lower, 2), quotient_up(inner.upper + upper, 2))"""),
    ("the product comes from the exact G1", "Ends(quotient_down(x * g1.lower, L), quotient_up(x * g1.upper, L))",
     "billionths(x * G1(b, B) / L)"),
    ("G3's own end is subtracted", "product.lower - g3.upper, product.upper - g3.lower",
     "product.lower - g3.lower, product.upper - g3.upper"),
    ("half of G3 narrows G from below", "quotient_up(g3.upper, 2)", "quotient_down(g3.upper, 2)"),
    ("the half of G's second form narrows it from above", "quotient_up(inner.upper + product.upper, 2)",
     "quotient_down(inner.upper + product.upper, 2)"),
    ("G's lower end is not held at 0", "Ends(max(lower, 0), upper)", "Ends(lower, upper)"),
    ("C is rounded", "return exact.numerator, exact.denominator", "return billionths(exact).lower, BILLION"),
    ("Q's lower end comes from the exact P", "chance.lower * c", "P(span, L) * BILLION * c"),
    ("Q's upper end comes from the exact P", "chance.upper * c", "P(span, L) * BILLION * c"),
    ("Q's lower end is rounded term by term", "quotient_down(chance.lower * c + g.lower * (whole - c), whole)",
     "quotient_down(chance.lower * c, whole) + quotient_down(g.lower * (whole - c), whole)"),
    # Shares
    ("subtracted spans are rounded like the added", "lower -= q.upper\n            upper -= q.lower",
     "lower -= q.lower\n            upper -= q.upper"),
    ("a share is held at 0 after every term", "lower -= q.upper", "lower = max(lower - q.upper, 0)"),
    ("a share's lower end is not held at 0", "max(lower, 0), min(upper, BILLION))\n\n\ndef group", "lower, min(upper, BILLION))\n\n\ndef group"),
    ("a share's upper end is not held at 10⁹", "min(upper, BILLION))\n\n\ndef group", "upper)\n\n\ndef group"),
    ("a group's subtracted spans are rounded like the added", "hull.L, hull.B)[::sign]", "hull.L, hull.B)"),
    ("a group's share goes down to B", "Q_ends(span, hull.B // 2,", "Q_ends(span, hull.B,"),
    ("a group's lower end is not held at 0", "lower + sign * near, upper + sign * far\n    return Ends(max(lower, 0)", "lower + sign * near, upper + sign * far\n    return Ends(lower"),
    # Height and survival
    ("top is one above bottom at an exact root too", "bottom if reaches else bottom + 1", "bottom + 1"),
    ("a row's lower end is rounded after v too", "share.lower * height * survival.lower, whole",
     "quotient_down(share.lower * height, WHOLE_V) * survival.lower, WHOLE_SURVIVAL"),
    ("a row's upper end is rounded after v too", "share.upper * height * survival.upper, whole",
     "quotient_up(share.upper * height, WHOLE_V) * survival.upper, WHOLE_SURVIVAL"),
    ("a row's lower end takes the top s", "height * survival.lower", "height * survival.upper"),
    ("A weighs the light draught twice", "2 * partial.lower + light.lower", "partial.lower + 2 * light.lower"),
    ("A's upper end is rounded down", "quotient_up(2 * deepest", "quotient_down(2 * deepest"),
]

ANSWER = [
    ("a result is that of the deepest draught", "result_survival(row.results[draught])", "result_survival(row.results[0])"),
    ("a given survival is marked where it is not one", "NO_MARKS)", "Marks(*(row.given[draught] < 10_000,) * 4))"),
    ("a given survival is read as a lever", "NO_MARKS)", "survival_marks(row.given[draught], 1_600, 0, 0))"),
    ("a given survival of nothing has the opening's mark", "NO_MARKS)", "NO_MARKS._replace(opening=row.given[draught] == 0))"),
    ("the marks are those of the light draught", "result_survival(row.results[draught])",
     "result_survival(row.results[draught])._replace(marks=survival_marks(*row.results[2]))"),
    ("the opening is that of the deepest draught", "result_survival(row.results[draught])",
     "result_survival(row.results[draught]._replace(opening=row.results[0].opening))"),
    ("the opening is that of the light draught", "result_survival(row.results[draught])",
     "result_survival(row.results[draught]._replace(opening=row.results[2].opening))"),
    ("the opening is that of the first row", "(row_survival(row, draught) for draught in range(3))",
     "(row_survival(row if row.given else row._replace(results=tuple(result._replace(opening=(case.rows[0].results or row.results)[0].opening)"
     " for result in row.results)), draught) for draught in range(3))"),
    ("an immersed opening takes the bottom alone down to nothing", "survival_ends(s_fourth(*result))",
     "survival_ends(s_fourth(*result))._replace(upper=survival_ends(s_fourth(*result[:3], 0)).upper)"),
    ("the marks of a row are those of the first", "(row_survival(row, draught) for draught in range(3))",
     "(row_survival(row, draught)._replace(marks=row_survival(case.rows[0], draught).marks) for draught in range(3))"),
    ("every partial index stands at the deepest draught", "depths = draughts(case.hull.ds, case.hull.dl)", "depths = draughts(case.hull.ds, case.hull.ds)"),
    ("v is that of the deepest draught", "row_v(row, d) for d in depths", "row_v(row, depths[0]) for d in depths"),
    ("v is not less that of the row below", "row_v(row, d) for d in depths", "row_v(row._replace(H_below=None), d) for d in depths"),
    ("what a row adds is that of the first", "row_added(row, share, three, depths) for row", "row_added(case.rows[0], share, three, depths) for row"),
    ("the verdict meets by upper ends", "all(end.lower >= mark", "all(end.upper >= mark"),
    ("the verdict fails only where all fall short", "any(end.upper < mark", "all(end.upper < mark"),
    ("a sheet of just two numbers a row is short", "sheet < 2 * len(read.rows)", "sheet <= 2 * len(read.rows)"),
]

TEXT = [
    ("range and heel change their bytes", "2 * marks.reach + 4 * marks.heel", "4 * marks.reach + 2 * marks.heel"),
    ("lever and range change their bytes", "1 * marks.lever + 2 * marks.reach", "2 * marks.lever + 1 * marks.reach"),
    ("one mark alone is told", "1 * marks.lever + 2 * marks.reach + 4 * marks.heel + 8 * marks.opening",
     "max(1 * marks.lever, 2 * marks.reach, 4 * marks.heel, 8 * marks.opening)"),
    ("the opening's mark hides the others", "1 * marks.lever + 2 * marks.reach + 4 * marks.heel + 8 * marks.opening",
     "8 if marks.opening else 1 * marks.lever + 2 * marks.reach + 4 * marks.heel"),
    ("the opening's mark is not told", " + 8 * marks.opening", ""),
    ("heel and opening change their bytes", "4 * marks.heel + 8 * marks.opening", "8 * marks.heel + 4 * marks.opening"),
    ("the exact survival has no eye for the opening", "row_s_fourth(row, draught)", "row_s_fourth(row._replace(results=%s), draught)" % DRY),
    ("the exact survival has no eye for the second set", "row_s_fourth(row, draught)", "row_s_fourth(row._replace(second=None), draught)"),
    ("the exact figures of a passenger ship have a cargo ship's R", "index_marks(hull.L, hull.persons, hull.rule)", "index_marks(hull.L)"),
    ("the exact figures have no eye for the rule", "index_marks(hull.L, hull.persons, hull.rule)", "index_marks(hull.L, hull.persons)"),
    ("the marks of the light draught stand for the partial", "for survival in survivals)", "for survival in (survivals[0], *survivals[2:] * 2))"),
    ("the draughts come light first", "for survival in survivals)", "for survival in survivals[::-1])"),
    ("the first row's marks are repeated", "row_line(*row) for row in zip(answer.shares, answer.survivals)",
     "row_line(share, answer.survivals[0]) for share in answer.shares"),
    ("a row's numbers have top before bottom", "survival.ends.lower, survival.ends.upper, mark", "survival.ends.upper, survival.ends.lower, mark"),
    ("a row's numbers have the marks first", "[height, survival.ends.lower, survival.ends.upper, mark_byte(survival.marks), ",
     "[mark_byte(survival.marks), height, survival.ends.lower, survival.ends.upper, "),
    ("a row's numbers have v last", "[height, survival.ends.lower, survival.ends.upper, mark_byte(survival.marks), added.lower, added.upper]",
     "[survival.ends.lower, survival.ends.upper, mark_byte(survival.marks), added.lower, added.upper, height]"),
    ("a row adds its upper end before its lower", "added.lower, added.upper]", "added.upper, added.lower]"),
    ("a row adds its lower end twice", "added.lower, added.upper]", "added.lower, added.lower]"),
    ("a row's share stands after its draughts", """\
        told += share
        for height, survival, added in zip(*threes):
            told += [height, survival.ends.lower, survival.ends.upper, mark_byte(survival.marks), added.lower, added.upper]
""", """\
        for height, survival, added in zip(*threes):
            told += [height, survival.ends.lower, survival.ends.upper, mark_byte(survival.marks), added.lower, added.upper]
        told += share
"""),
    ("the draughts of a row's numbers come light first", "in zip(*threes):", "in list(zip(*threes))[::-1]:"),
    ("a row's numbers are ten a line", "ROW_NUMBERS = 20", "ROW_NUMBERS = 10"),
    ("R as numbers has no eye for the persons", "required_numbers(read.hull.L, read.hull.persons, read.hull.rule)", "required_numbers(read.hull.L)"),
    ("R as numbers has no eye for the rule", "required_numbers(read.hull.L, read.hull.persons, read.hull.rule)", "required_numbers(read.hull.L, read.hull.persons)"),
    ("groups come with their upper end first", "for end in group_share_ends(read.hull, a, n)]", "for end in group_share_ends(read.hull, a, n)[::-1]]"),
    ("a listed group's share alone is told", "for a, n in groups(len(read.hull.zones)) for end", "for a, n in dict.fromkeys(row.group for row in read.rows) for end"),
    ("the total takes in groups that are not listed", "(shares[group] for group in listed)", "(shares[group] for group in shares)"),
    ("groups of no share are told as missing", "if share and (a, n) not in listed", "if (a, n) not in listed"),
    ("a group is told as missing though it is listed", "if share and (a, n) not in listed", "if share"),
]

SETTLING = [
    ("a figure reaches its mark by its upper bound", "if lower >= figure.mark:", "if upper >= figure.mark:"),
    ("a figure at its mark does not reach it", "if lower >= figure.mark:", "if lower > figure.mark:"),
    ("the search stops at 4 places", "FIRST_PLACES, MOST_PLACES = 4, 200", "FIRST_PLACES, MOST_PLACES = 4, 4"),
    ("the search does not stop at 200 places", "FIRST_PLACES, MOST_PLACES = 4, 200", "FIRST_PLACES, MOST_PLACES = 4, 256"),
    ("a root that is a fraction is rounded too", "if (top**4, bottom**4) == (fourth.numerator, fourth.denominator):", "if fourth == 0:"),
    ("a root is rounded down on both sides", "Fraction(down + 1, scale)", "Fraction(down, scale)"),
    ("an immersed opening counts as dry", "row_s_fourth(row, draught)", "row_s_fourth(row._replace(results=%s), draught)" % DRY),
    ("the second set does not count", "row_s_fourth(row, draught)", "row_s_fourth(row._replace(second=None), draught)"),
    ("a passenger ship is settled by a cargo ship's R", "marks(hull.L, hull.persons, hull.rule)", "marks(hull.L)"),
    ("a passenger ship is settled by the earlier rule's R", "marks(hull.L, hull.persons, hull.rule)", "marks(hull.L, hull.persons)"),
    ("a passenger ship's partial mark is told as R/2", '"R/2" if hull.persons is None else "0.9 R"', '"R/2"'),
    ("v does not count", "share * row_v(row, d) / WHOLE_V", "share"),
    ("A weighs each draught alike", "(Fraction(2, 5), Fraction(2, 5), Fraction(1, 5))", "(Fraction(1, 3),) * 3"),
    ("the ship fails only where all fall short", "if any(one.reaches is False", "if all(one.reaches is False"),
    ("a figure that stays open lets the ship meet", "if all(one.reaches for", "if all(one.reaches is not False for"),
]

# The input's limit and the second set, which show in what is printed: the corpus alone must find these too
SECOND_READ = [
    # Limits
    ("65,537 bytes are let through", "LONGEST_INPUT = 65_536", "LONGEST_INPUT = 65_537"),
    ("65,535 bytes are the most", "LONGEST_INPUT = 65_536", "LONGEST_INPUT = 65_535"),
    ("32,768 bytes are the most", "LONGEST_INPUT = 65_536", "LONGEST_INPUT = 32_768"),
    ("the second set is not judged", JUDGED, JUDGED.replace("row.sets", "row.sets[:1]")),
    ("the first of two sets is not judged", JUDGED, JUDGED.replace("row.sets", "row.sets[-1:]")),
    *((f"the second set is judged at one draught alone, number {draught + 1}", JUDGED,
       f"result_is_within(result) for results in row.sets for result in (results[{draught}:{draught + 1}] if results is row.second else results))")
      for draught in range(3)),
    *((f"the second set's {name} is not judged", JUDGED,
       f"result_is_within(result._replace({name}=0) if results is row.second else result) for results in row.sets for result in results)")
      for name in ("lever", "reach", "heel", "opening")),
    # Kinds and lengths
    ("kind 05 is refused", "TWO_SETS_ROW: 55, ", ""),
    ("kind 04 is let through for kind 05", TABLE, "        kind = TWO_SETS_ROW if kind == 4 else kind\n        frame = bytes([kind]) + frame[1:]\n" + TABLE),
    ("kind 02 is let through with a second set", TABLE, """\
        if kind == LEVER_ROW and len(frame) == 55:
            kind, frame = TWO_SETS_ROW, bytes([TWO_SETS_ROW]) + frame[1:]
""" + TABLE),
    ("kind 05 is let through with one set", TABLE, """\
        if kind == TWO_SETS_ROW and len(frame) == 31:
            frame += frame[7:]
""" + TABLE),
    ("kind 05 is let through without openings, as dry", TABLE, """\
        if kind == TWO_SETS_ROW and len(frame) == 43:
            frame = frame[:7] + b"".join(frame[at:at + 6] + bytes(2) for at in range(7, 43, 6))
""" + TABLE),
    ("a row of two sets that is too short is let through", TABLE, "        frame = frame.ljust(55, bytes(1)) if kind == TWO_SETS_ROW else frame\n" + TABLE),
    ("a row of two sets that is too long is let through", TABLE, "        frame = frame[:55] if kind == TWO_SETS_ROW else frame\n" + TABLE),
    # Places
    ("the second set is the first again", "result_of(frame, 31 + 8 * j)", "result_of(frame, 7 + 8 * j)"),
    ("the second set stands before the first", SECOND_ROW, SECOND_ROW.replace("first, None, second=", "").replace("range(3)))", "range(3)), None, second=first)")),
    ("the two sets stand draught by draught", SECOND_ROW, """\
    first = tuple(result_of(frame, 7 + 16 * j) for j in range(3))
    return Row(a, n, b, H, first, None, second=tuple(result_of(frame, 15 + 16 * j) for j in range(3)))"""),
    ("the second set comes light first", "result_of(frame, 31 + 8 * j)", "result_of(frame, 47 - 8 * j)"),
    ("the second set begins at its ranges", "result_of(frame, 31 + 8 * j)", "result_of((frame + bytes(2))[2:], 31 + 8 * j)"),
    ("the second set's results have six bytes", "result_of(frame, 31 + 8 * j)", "result_of(frame, 31 + 6 * j)"),
    ("the second set's deepest result stands for all", "result_of(frame, 31 + 8 * j)", "result_of(frame, 31)"),
    ("the second set's openings have no sign", "result_of(frame, 31 + 8 * j)",
     "result_of(frame, 31 + 8 * j)._replace(opening=two_bytes(frame, 37 + 8 * j))"),
    ("the second set has the first one's openings", "result_of(frame, 31 + 8 * j)", "result_of(frame, 31 + 8 * j)._replace(opening=first[j].opening)"),
    # Judging order
    ("6 is judged before 3 at row 501 of kind 05", TABLE, """\
        if kind == TWO_SETS_ROW and len(rows) == MOST_ROWS:
            return Refusal(6, number)
""" + TABLE),
    ("row 501 of kind 05 is let through", "if len(rows) == MOST_ROWS:", "if len(rows) == MOST_ROWS and row.second is None:"),
    ("7 is judged before 6 where the second set is outside", "if len(rows) == MOST_ROWS:",
     "if len(rows) == MOST_ROWS and (row.second is None or row_is_within(row, hull)):"),
    ("7 is judged before 3 where the second set is outside", TABLE, """\
        if kind == TWO_SETS_ROW and len(frame) >= 39 and not result_is_within(result_of(frame, 31)):
            return Refusal(7, number)
""" + TABLE),
    ("8 is judged before 7 where the second set is outside", "if not row_is_within(row, hull):",
     "if not row_is_within(row, hull) and not (rows and row.second and is_out_of_order(row, rows[-1], hull)):"),
    ("9 is judged before 7 where the second set is outside", "if not row_is_within(row, hull):",
     "if not row_is_within(row, hull) and not (rows and row.second and leaves_open(row, rows[-1], hull)):"),
    ("a row of two sets is held to no order", "if rows and is_out_of_order(row, rows[-1], hull):",
     "if rows and row.second is None and is_out_of_order(row, rows[-1], hull):"),
    ("a row of two sets may leave the last group open", "if rows and leaves_open(row, rows[-1], hull):",
     "if rows and row.second is None and leaves_open(row, rows[-1], hull):"),
    ("a row of two sets counts twice", "if two_bytes(frame, 1) != len(rows):",
     "if two_bytes(frame, 1) != sum(max(len(row.sets), 1) for row in rows):"),
    ("a row of two sets does not count", "if two_bytes(frame, 1) != len(rows):", "if two_bytes(frame, 1) != sum(row.second is None for row in rows):"),
    ("the second set goes on into the next row of results", "rows.append(placed(row, rows))",
     "rows.append(placed(row._replace(second=rows[-1].second) if rows and row.results and row.second is None else row, rows))"),
]

SECOND_ANSWERED = [
    # Bottom and top
    ("the higher survival counts", LOWER_ENDS, LOWER_ENDS.replace("min(", "max(")),
    ("the second set is ignored", "if row.second is None:", "if row.results is not None:"),
    ("the first of two sets is ignored", BOTH, "return result_survival(row.second[draught])"),
    ("the first one's bottom and the second one's top", LOWER_ENDS, "Ends(one.ends.lower, other.ends.upper)"),
    ("the second one's bottom and the first one's top", LOWER_ENDS, "Ends(other.ends.lower, one.ends.upper)"),
    ("the lower bottom and the higher top", LOWER_ENDS, LOWER_ENDS.replace("min(one.ends.upper", "max(one.ends.upper")),
    ("the higher bottom and the lower top", LOWER_ENDS, LOWER_ENDS.replace("min(one.ends.lower", "max(one.ends.lower")),
    ("the ends of the lower bottom, the first one's when equal", LOWER_ENDS, "one.ends if one.ends.lower <= other.ends.lower else other.ends"),
    ("the ends of the lower top, the first one's when equal", LOWER_ENDS, "one.ends if one.ends.upper <= other.ends.upper else other.ends"),
    ("the mean of the two counts", LOWER_ENDS, "Ends((one.ends.lower + other.ends.lower) // 2, (one.ends.upper + other.ends.upper + 1) // 2)"),
    ("the product of the two counts", LOWER_ENDS, "Ends(one.ends.lower * other.ends.lower // 10_000, -(-one.ends.upper * other.ends.upper // 10_000))"),
    # Marks
    ("the second one's marks when equal", BY_S_FOURTH, BY_S_FOURTH.replace("<=", "<")),
    ("the marks of the higher one", BY_S_FOURTH, BY_S_FOURTH.replace("<=", ">=")),
    ("the first one's marks always", BY_S_FOURTH, "one.marks"),
    ("the second one's marks always", BY_S_FOURTH, "other.marks"),
    ("the marks of both", BY_S_FOURTH, "Marks(*map(max, one.marks, other.marks))"),
    ("the marks that both have", BY_S_FOURTH, "Marks(*map(min, one.marks, other.marks))"),
    ("the marks of both when equal", BY_S_FOURTH,
     "Marks(*map(max, one.marks, other.marks)) if s_fourth(*first) == s_fourth(*second) else " + BY_S_FOURTH),
    ("marks by bottoms", BY_S_FOURTH, "one.marks if one.ends.lower <= other.ends.lower else other.marks"),
    ("marks by tops", BY_S_FOURTH, "one.marks if one.ends.upper <= other.ends.upper else other.marks"),
    ("marks by bottoms and tops", BY_S_FOURTH, "one.marks if one.ends <= other.ends else other.marks"),
    ("marks by s⁴ in billionths", BY_S_FOURTH, "one.marks if int(10**9 * s_fourth(*first)) <= int(10**9 * s_fourth(*second)) else other.marks"),
    ("marks by the lever, not capped", BY_S_FOURTH,
     "one.marks if first[0] * s_fourth(120, *first[1:]) <= second[0] * s_fourth(120, *second[1:]) else other.marks"),
    ("marks by the range, not capped", BY_S_FOURTH,
     "one.marks if first[1] * s_fourth(first[0], 1_600, *first[2:]) <= second[1] * s_fourth(second[0], 1_600, *second[2:]) else other.marks"),
    ("marks with no eye for the heel", BY_S_FOURTH,
     "one.marks if s_fourth(*first[:2], 0, first[3]) <= s_fourth(*second[:2], 0, second[3]) else other.marks"),
    ("marks with no eye for the opening", BY_S_FOURTH, "one.marks if s_fourth(*first[:3], 0) <= s_fourth(*second[:3], 0) else other.marks"),
    # Draughts
    ("the set that is lower at the deepest draught counts at all", BOTH,
     "return result_survival((row.results if s_fourth(*row.results[0]) <= s_fourth(*row.second[0]) else row.second)[draught])"),
    ("the set that is lower over all draughts counts at each", BOTH,
     "return result_survival(min(row.sets, key=lambda results: sum(s_fourth(*result) for result in results))[draught])"),
    ("the set with the lowest of all counts at each draught", BOTH,
     "return result_survival(min(row.sets, key=lambda results: min(s_fourth(*result) for result in results))[draught])"),
    ("the second set's deepest result counts at each draught", BOTH, BOTH.replace("row.second[draught]", "row.second[0]")),
    ("the second set's draughts are turned round", BOTH, BOTH.replace("row.second[draught]", "row.second[2 - draught]")),
    ("the second set counts at the deepest draught alone", "if row.second is None:", "if row.second is None or draught > 0:"),
    # Numbers of two results taken for each other
    ("the worse of each number counts", BOTH, "lever, reach, heel, opening = zip(row.results[draught], row.second[draught])\n"
     "    return result_survival((min(lever), min(reach), max(heel), min(opening)))"),
    ("an opening immersed in the second set does not count", BOTH,
     BOTH.replace("row.second[draught]", "row.second[draught]._replace(opening=max(row.second[draught].opening, 0))")),
    ("an opening immersed in one set is so in both", BOTH,
     "opening = min(results[draught].opening for results in row.sets)\n"
     "    return lower_survival(*(results[draught]._replace(opening=opening) for results in row.sets))"),
]

ON_CORPUS = {
    "casefile": SECOND_READ + passengers.READ + rules.READ, "regulation": passengers.WORKED + rules.WORKED,
    "answering": SECOND_ANSWERED + passengers.ANSWERED + rules.ANSWERED,
}
FAULTS = {
    "casefile": READING + ON_CORPUS["casefile"], "regulation": FIGURES + ON_CORPUS["regulation"], "rounding": ENDS,
    "answering": ANSWER + ON_CORPUS["answering"], "printing": TEXT, "settling": SETTLING,
}
