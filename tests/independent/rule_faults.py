"""The faults of the 2020 passenger rule, which the tests must find and the corpus alone too: what is wrong, the text as it stands, and the text with the
fault."""

SHORT_HULL = "    if len(frame) <= count_at:\n"
PERSONS = "    persons = (two_bytes(frame, 9), two_bytes(frame, 11)) if passengers else None\n"
RULE = "    rule = frame[13] if passengers else EARLIER_RULE\n"
KNOWN = "rule in (EARLIER_RULE, RULE_OF_2020)"
OUTSIDE = "    if not within:\n"
BETWEEN = "    if rule == RULE_OF_2020 and sum(persons) in NOT_TAKEN_YET:\n        return 13\n"
BAND = "range(1_351, 6_001)"
COUNTED = "sum(persons) in NOT_TAKEN_YET"
PLACES = "[0, *(two_bytes(frame, at) for at in range(15, len(frame) - 1, 2)), L]"

READ = [
    # The byte
    *((f"the rule is {words}", RULE, RULE.replace("frame[13]", changed)) for words, changed in (
        ("the zone count", "frame[14]"), ("turned round", "frame[13] ^ 1"), ("that of the last bit", "frame[13] % 2"), ("always the earlier one", "EARLIER_RULE"),
        ("always that of 2020", "RULE_OF_2020"))),
    ("the rule stands before the persons", PERSONS + RULE, PERSONS.replace("11", "12").replace("9", "10") + RULE.replace("13", "9")),
    ("the rule stands between the persons", PERSONS + RULE, PERSONS.replace("11", "12") + RULE.replace("13", "11")),
    ("the rule stands after the zone count", SHORT_HULL, "    frame = frame[:13] + frame[14:15] + frame[13:14] + frame[15:] if passengers else frame\n" + SHORT_HULL),
    ("the rule stands after the bulkheads", SHORT_HULL, "    frame = frame[:13] + frame[-1:] + frame[13:-1] if passengers and len(frame) > 14 else frame\n" + SHORT_HULL),
    ("the hull has not its rule", "persons, rule)", "persons)"),
    ("a mark of 2 is let through", KNOWN, "rule <= 2"),
    ("every mark is let through", KNOWN, "True"),
    ("the earlier rule is refused", KNOWN, "(rule == RULE_OF_2020 or not passengers)"),
    ("the rule of 2020 is refused", KNOWN, "rule == EARLIER_RULE"),
    ("an unknown mark is told as 13", KNOWN + "\n    )\n" + OUTSIDE, "True\n    )\n    if within and rule > RULE_OF_2020:\n        return 13\n" + OUTSIDE),
    ("an unknown mark is told after 5", KNOWN, "(rule <= RULE_OF_2020 or not 1 <= frame[count_at] <= MOST_ZONES)"),
    # Frames without it
    ("a frame without the byte is let through under the earlier rule", SHORT_HULL, """\
    if passengers and len(frame) >= 14 and len(frame) == 12 + 2 * frame[13]:
        frame = frame[:13] + bytes(1) + frame[13:]
""" + SHORT_HULL),
    ("a frame of one zone without the byte is let through", SHORT_HULL, """\
    if passengers and len(frame) == 14:
        frame = frame[:13] + bytes(1) + frame[13:]
""" + SHORT_HULL),
    ("a frame is as long as it was without the byte", "len(frame) != count_at - 1 + 2 * m:", "len(frame) != (12 if passengers else 8) + 2 * m:"),
    ("a frame may be a byte too long", "len(frame) != count_at - 1 + 2 * m:", "len(frame) - count_at + 1 - 2 * m not in (0, int(passengers)):"),
    # Refusal 13
    *((f"13 is given {words}", BAND, changed) for words, changed in (
        ("from 1,352 persons on", "range(1_352, 6_001)"), ("from 1,350 persons on", "range(1_350, 6_001)"), ("up to 5,999 persons", "range(1_351, 6_000)"),
        ("up to 6,001 persons", "range(1_351, 6_002)"), ("up to 60,000 persons", "range(1_351, 60_001)"), ("from 400 persons on", "range(400, 6_001)"))),
    *((f"13 is judged by {words}", COUNTED, changed) for words, changed in (
        ("the excess counted twice", "persons[0] + 2 * persons[1] in NOT_TAKEN_YET"), ("those in lifeboats alone", "persons[0] in NOT_TAKEN_YET"),
        ("those in excess alone", "persons[1] in NOT_TAKEN_YET"), ("the greater count", "max(persons) in NOT_TAKEN_YET"),
        ("either count", "any(count in NOT_TAKEN_YET for count in persons)"))),
    ("13 is never given", BETWEEN, ""),
    ("13 is given under either rule", BETWEEN, BETWEEN.replace("rule == RULE_OF_2020", "passengers")),
    ("13 is given under the earlier rule", BETWEEN, BETWEEN.replace("rule == RULE_OF_2020", "passengers and rule == EARLIER_RULE")),
    *((f"13 is told as {number}", BETWEEN, BETWEEN.replace("return 13", f"return {number}")) for number in (3, 4, 5, 12, 14)),
    ("13 is judged before 4", OUTSIDE, BETWEEN + OUTSIDE),
    ("13 is judged before 4 where the mark is unknown", OUTSIDE, BETWEEN.replace("==", ">=") + OUTSIDE),
    ("13 is judged before 3", SHORT_HULL, """\
    if passengers and len(frame) == 14 and frame[13] == RULE_OF_2020 and two_bytes(frame, 9) + two_bytes(frame, 11) in NOT_TAKEN_YET:
        return 13
""" + SHORT_HULL),
    *((f"13 is judged after 5: {words}", BETWEEN, BETWEEN.replace(COUNTED, f"{COUNTED} and {keeps}")) for words, keeps in (
        ("the zone count", "1 <= frame[count_at] <= MOST_ZONES"), ("the length", "len(frame) == 13 + 2 * frame[count_at]"),
        ("the bulkheads", f"(lambda places: places == sorted(set(places)))({PLACES})"))),
]

N = "N = in_lifeboats + in_excess"
FIRST, SECOND = "if N < 400:", "if N <= 1_350:"
LAST = """1 - (Fraction("852.5") + Fraction("0.03875") * N) / (N + 5_000)"""
BY_RULE = "passenger_R_of_2020(*persons) if rule == RULE_OF_2020 else passenger_R(L, *persons)"
OF_R = "(required * Fraction(9, 10),)"

WORKED = [
    ("under the rule of 2020 the excess counts twice", N, "N = in_lifeboats + 2 * in_excess"),
    ("under the rule of 2020 the excess does not count", N, "N = in_lifeboats"),
    ("under the rule of 2020 those in lifeboats do not count", N, "N = in_excess"),
    ("400 persons have the flat figure", FIRST, "if N <= 400:"),
    ("399 persons have not the flat figure", FIRST, "if N < 399:"),
    ("no ship has the flat figure", FIRST, "if N < 0:"),
    ("all have the flat figure", FIRST, "if N <= 20_000:"),
    ("1,350 persons have the last form", SECOND, "if N < 1_350:"),
    ("no ship has the second form", SECOND, "if N < 0:"),
    ("the second form goes on above 6,000", SECOND, "if N <= 20_000:"),
    *((f"the flat figure is {figure}", 'Fraction("0.722")', f'Fraction("{figure}")') for figure in ("0.7221", "0.72", "0.277")),
    *((f"a person counts a {count:,}th", "Fraction(N, 7_580)", f"Fraction(N, {count})") for count in (7_581, 7_850, 758)),
    *((f"{figure} stands for 0.66923", '"0.66923"', f'"{figure}"') for figure in ("0.6692", "0.66932", "0.66924")),
    *((f"{figure} stands for 852.5", '"852.5"', f'"{figure}"') for figure in ("852", "853", "8525")),
    *((f"{figure} stands for 0.03875", '"0.03875"', f'"{figure}"') for figure in ("0.0387", "0.0388", "0.3875")),
    *((f"{count:,} stands for 5,000", LAST, LAST.replace("5_000", str(count))) for count in (500, 4_999, 15_225)),
    ("the last form is not taken from one", LAST, LAST.replace("1 - ", "")),
    ("R of 2020 is rounded to five places", "required = " + BY_RULE, "required = round(passenger_R_of_2020(*persons), 5) if rule == RULE_OF_2020 else passenger_R(L, *persons)"),
    ("a ship of 2020 has the earlier rule's R", BY_RULE, "passenger_R(L, *persons)"),
    ("every passenger ship has the R of 2020", BY_RULE, "passenger_R_of_2020(*persons)"),
    ("the rules change places", BY_RULE, BY_RULE.replace("==", "!=")),
    ("the higher R of both rules counts", BY_RULE, BY_RULE.replace("passenger_R_of_2020(*persons) if", "max(passenger_R_of_2020(*persons), passenger_R(L, *persons)) if")),
    ("the lower R of both rules counts", BY_RULE, BY_RULE.replace("passenger_R_of_2020(*persons) if", "min(passenger_R_of_2020(*persons), passenger_R(L, *persons)) if")),
    ("a ship of 2020 has a cargo ship's R", BY_RULE, BY_RULE.replace("passenger_R_of_2020(*persons) if", "R(L) if")),
    *((f"a partial index must reach {words} under the rule of 2020", OF_R, OF_R.replace("Fraction(9, 10)", f"({part} if rule == RULE_OF_2020 else Fraction(9, 10))"))
      for words, part in (("R/2", "Fraction(1, 2)"), ("R", "1"), ("0.9 of the earlier R", "Fraction(9, 10) * passenger_R(L, *persons) / required"))),
]

MET, FAILED = (f"{side} mark * BILLION for end, mark in zip(ends, marks(L, persons, rule)))" for side in ("end.lower >=", "end.upper <"))

ANSWERED = [
    ("the verdict has no eye for the rule", "verdict_of(ends, case.hull.L, case.hull.persons, case.hull.rule)", "verdict_of(ends, case.hull.L, case.hull.persons)"),
    ("a ship meets by the earlier rule", MET, MET.replace("persons, rule", "persons")),
    ("a ship fails by the earlier rule", FAILED, FAILED.replace("persons, rule", "persons")),
    ("a ship meets by the rule of 2020", MET, MET.replace("rule", "1")),
    ("a ship fails by the rule of 2020", FAILED, FAILED.replace("rule", "1")),
]
