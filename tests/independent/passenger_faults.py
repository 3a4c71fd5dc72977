"""The faults of passenger ships, which the tests must find and the corpus alone too: what is wrong, the text as it stands, and the text with the fault."""

TABLE = "        if kind not in lengths or"
BY_TYPE = "LENGTHS if hull.persons is None else PASSENGER_LENGTHS"
SHORT_HULL = "    if len(frame) <= count_at:\n"
LEAST = "(2_000, 400) if passengers else (8_000, 1_000)"
PERSONS = "(two_bytes(frame, 9), two_bytes(frame, 11))"
CROWDED = "all(count <= MOST_PERSONS for count in persons or ())"
STAGES = "stages=tuple(stage_of(frame, 31 + 15 * j) for j in range(3))"
JUDGED = "all(stage_is_within(stage) for stage in row.stages or ())"
NUMBERS = "Stage(four_bytes(frame, at), four_bytes(frame, at + 4), *(two_bytes(frame, at + field) for field in (8, 10, 12)), frame[at + 14])"

READ = [
    # Kinds and lengths
    ("kind 06 is refused", "if frame[0] not in (HULL, PASSENGER_HULL):", "if frame[0] != HULL:"),
    ("kind 07 is refused", "PASSENGER_LENGTHS = {PASSENGER_ROW: 76, END: 3}", "PASSENGER_LENGTHS = {END: 3}"),
    ("kind 07 is let through after a cargo ship's hull", BY_TYPE, "{**LENGTHS, **PASSENGER_LENGTHS} if hull.persons is None else PASSENGER_LENGTHS"),
    *((f"kind {kind:02x} is let through after a passenger ship's hull", BY_TYPE,
       f"LENGTHS if hull.persons is None else {{**PASSENGER_LENGTHS, {kind}: LENGTHS[{kind}]}}") for kind in (2, 3, 5)),
    ("a passenger ship has a cargo ship's rows", BY_TYPE, "LENGTHS"),
    ("kind 08 is let through for kind 07", TABLE, "        kind = PASSENGER_ROW if kind == 8 else kind\n        frame = bytes([kind]) + frame[1:]\n" + TABLE),
    ("a passenger row that is too short is let through", TABLE, "        frame = frame.ljust(76, bytes(1)) if kind == PASSENGER_ROW else frame\n" + TABLE),
    ("a passenger row that is too long is let through", TABLE, "        frame = frame[:76] if kind == PASSENGER_ROW else frame\n" + TABLE),
    ("a passenger row is let through without openings, as dry", TABLE, """\
        if kind == PASSENGER_ROW and len(frame) == 70:
            frame = frame[:7] + b"".join(frame[at:at + 6] + bytes(2) for at in (7, 13, 19)) + frame[25:]
""" + TABLE),
    ("a passenger ship's hull is filled up to 15 bytes", SHORT_HULL, "    frame = frame.ljust(15, bytes(1)) if passengers else frame\n" + SHORT_HULL),
    ("a passenger ship's hull needs 17 bytes", SHORT_HULL, "    if len(frame) <= count_at + 2 * passengers:\n"),
    ("a passenger ship's hull is as long as a cargo ship's", "len(frame) != count_at - 1 + 2 * m:", "len(frame) != 8 + 2 * m:"),
    # Limits of the hull
    *((f"the least length and breadth are {words}", LEAST, changed) for words, changed in (
        ("a cargo ship's", "(8_000, 1_000)"), ("a passenger ship's for both", "(2_000, 400)"),
        ("2,001 and 400", LEAST.replace("2_000", "2_001")), ("1,999 and 400", LEAST.replace("2_000", "1_999")),
        ("2,000 and 402", LEAST.replace("(2_000, 400)", "(2_000, 402)")), ("2,000 and 398", LEAST.replace("(2_000, 400)", "(2_000, 398)")),
        ("a cargo ship's 2,000", LEAST.replace("8_000", "2_000")), ("a cargo ship's 400", LEAST.replace("1_000", "400")))),
    ("10,001 persons are let through", "MOST_PERSONS = 10_000", "MOST_PERSONS = 10_001"),
    ("9,999 persons are the most", "MOST_PERSONS = 10_000", "MOST_PERSONS = 9_999"),
    ("persons are not judged", CROWDED, "True"),
    ("persons in excess are not judged", CROWDED, CROWDED.replace("persons or ()", "(persons or ())[:1]")),
    ("persons in lifeboats are not judged", CROWDED, CROWDED.replace("persons or ()", "(persons or ())[1:]")),
    ("the sum of the persons is judged", CROWDED, "sum(persons or ()) <= MOST_PERSONS"),
    ("a ship with no persons is refused", CROWDED, CROWDED + " and persons != (0, 0)"),
    ("persons are judged after the zones", "    if not within:\n",
     "    if not within and (not passengers or max(persons) <= MOST_PERSONS or 1 <= frame[count_at] <= MOST_ZONES):\n"),
    ("the zone count is read where a cargo ship has it", "m = frame[count_at]", "m = frame[9]"),
    ("persons in lifeboats and in excess change places", PERSONS, "(two_bytes(frame, 11), two_bytes(frame, 9))"),
    ("persons in excess are those in lifeboats", PERSONS, "(two_bytes(frame, 9), two_bytes(frame, 9))"),
    # Limits of a row
    *((f"{name}: {changed}", f"{low}stage.{name} <= {most}", changed) for name, low, most, wrong in (
        ("displacement", "1 <= ", "300_000", ("0 <= {} <= 300_000", "2 <= {} <= 300_000", "1 <= {} <= 300_001", "1 <= {} <= 299_999", "1 <= {}")),
        ("moment", "1 <= ", "2_000_000", ("2 <= {} <= 2_000_000", "1 <= {} <= 2_000_001", "1 <= {} <= 1_999_999", "1 <= {}")),
        ("lever", "", "5_000", ("{} <= 5_001", "{} <= 4_999", "{} <= 9_000", "{} >= 0")), ("reach", "", "9_000", ("{} <= 9_001", "{} <= 8_999", "{} >= 0")),
        ("heel", "", "9_000", ("{} <= 9_001", "{} <= 8_999", "{} >= 0")), ("roro", "", "1", ("{} <= 2", "{} <= 0", "{} >= 0")))
      for changed in (words.format(f"stage.{name}") for words in wrong)),
    ("stages are not judged", JUDGED, "True"),
    *((f"the stage of draught {draught + 1} is not judged", JUDGED,
       f"all(stage_is_within(stage) for at, stage in enumerate(row.stages or ()) if at != {draught})") for draught in range(3)),
    ("the results of a passenger row are not judged", "for results in row.sets for result in results)",
     "for results in row.sets for result in results if row.stages is None)"),
    # Places
    ("the stages come light first", STAGES, STAGES.replace("31 + 15 * j", "61 - 15 * j")),
    ("the deepest stage stands for all", STAGES, STAGES.replace("31 + 15 * j", "31")),
    ("the light stage stands for the partial", STAGES, STAGES.replace("31 + 15 * j", "(31, 61, 61)[j]")),
    ("result and stage stand draught by draught", "    if frame[0] == PASSENGER_ROW:\n", """\
    if frame[0] == PASSENGER_ROW:
        return Row(a, n, b, H, tuple(result_of(frame, 7 + 23 * j) for j in range(3)), None, stages=tuple(stage_of(frame, 15 + 23 * j) for j in range(3)))
    if frame[0] == END:
"""),
    ("displacement and moment change places", NUMBERS, NUMBERS.replace("at)", "at + 40)").replace("at + 4)", "at)").replace("at + 40)", "at + 4)")),
    ("the stage's lever and range change places", NUMBERS, NUMBERS.replace("(8, 10, 12)", "(10, 8, 12)")),
    ("the stage's range and heel change places", NUMBERS, NUMBERS.replace("(8, 10, 12)", "(8, 12, 10)")),
    ("the stage's lever and heel change places", NUMBERS, NUMBERS.replace("(8, 10, 12)", "(12, 10, 8)")),
    ("the stage's numbers stand before the displacement", NUMBERS,
     "Stage(four_bytes(frame, at + 6), four_bytes(frame, at + 10), *(two_bytes(frame, at + field) for field in (0, 2, 4)), frame[at + 14])"),
    ("the ro-ro mark stands first", NUMBERS,
     "Stage(four_bytes(frame, at + 1), four_bytes(frame, at + 5), *(two_bytes(frame, at + field) for field in (9, 11, 13)), frame[at])"),
    ("four bytes are read low half first", "return 65_536 * two_bytes(frame, at) + two_bytes(frame, at + 2)",
     "return two_bytes(frame, at) + 65_536 * two_bytes(frame, at + 2)"),
    ("of four bytes the high half is passed over", "return 65_536 * two_bytes(frame, at) + two_bytes(frame, at + 2)", "return two_bytes(frame, at + 2)"),
    # Order
    ("7 is judged before 3 where a row is of the other ship type", TABLE, """\
        if kind in LENGTHS and kind != END and kind not in lengths and len(frame) == LENGTHS[kind] and not row_is_within(row_of(frame), hull):
            return Refusal(7, number)
""" + TABLE),
    ("8 is judged before 3 where a row is of the other ship type", TABLE, """\
        if rows and kind in LENGTHS and kind != END and kind not in lengths and len(frame) == LENGTHS[kind] and is_out_of_order(row_of(frame), rows[-1], hull):
            return Refusal(8, number)
""" + TABLE),
    ("6 is judged before 3 where row 501 is of the other ship type", TABLE, """\
        if kind == PASSENGER_ROW and len(rows) == MOST_ROWS:
            return Refusal(6, number)
""" + TABLE),
    ("8 is judged before 7 where a stage is outside", "if not row_is_within(row, hull):",
     "if not row_is_within(row, hull) and not (rows and row.stages and is_out_of_order(row, rows[-1], hull)):"),
    ("9 is judged before 7 where a stage is outside", "if not row_is_within(row, hull):",
     "if not row_is_within(row, hull) and not (rows and row.stages and leaves_open(row, rows[-1], hull)):"),
    ("a passenger row is held to no order", "if rows and is_out_of_order(row, rows[-1], hull):",
     "if rows and row.stages is None and is_out_of_order(row, rows[-1], hull):"),
    ("a passenger row may leave the last group open", "if rows and leaves_open(row, rows[-1], hull):",
     "if rows and row.stages is None and leaves_open(row, rows[-1], hull):"),
    ("a passenger ship's last group may be left open", "if rows and not group_is_closed(rows[-1], hull):",
     "if rows and not rows[-1].stages and not group_is_closed(rows[-1], hull):"),
    ("the first row's stages stand for all", "rows.append(placed(row, rows))",
     "rows.append(placed(row._replace(stages=rows[0].stages) if rows else row, rows))"),
]

LESSER = "return min(s_intermediate_fourth(stage), s_final_fourth(result, stage.roro) * s_mom(result.lever, stage) ** 4)"
BETWEEN = "return Fraction(min(stage.lever, 50), 50) * Fraction(min(stage.reach, 700), 700)"
CAPS = "return (200, 2_000) if roro else (120, 1_600)"
BY_CAPS = "Fraction(min(result.lever, most_lever), most_lever) * Fraction(min(result.reach, most_reach), most_reach) * k"
MOMENT = "min(max(Fraction((lever - 40) * stage.displacement, 1_000 * stage.moment), Fraction(0)), Fraction(1))"
MARKS = "Marks(result.lever < most_lever, result.reach < most_reach, result.heel > 700, result.opening < 0)"
PERSONS_COUNT = "(in_lifeboats + 2 * in_excess)"
OF_R = "(required,) + 3 * (required * Fraction(9, 10),)"

WORKED = [
    # s-intermediate
    ("an intermediate heel of 15 degrees loses the ship", "if stage.heel > 1_500:", "if stage.heel >= 1_500:"),
    ("an intermediate heel of 15.01 degrees is let through", "if stage.heel > 1_500:", "if stage.heel > 1_501:"),
    ("an intermediate heel loses no ship", "if stage.heel > 1_500:", "if stage.heel > 9_000:"),
    ("an intermediate heel is held to 7 degrees", "if stage.heel > 1_500:", "if stage.heel > 700:"),
    ("an intermediate heel is held to a cargo ship's 30 degrees", "if stage.heel > 1_500:", "if stage.heel > 3_000:"),
    ("the intermediate lever is not capped", BETWEEN, BETWEEN.replace("min(stage.lever, 50)", "stage.lever")),
    ("the intermediate range is not capped", BETWEEN, BETWEEN.replace("min(stage.reach, 700)", "stage.reach")),
    ("the intermediate lever has the final one's cap", BETWEEN, BETWEEN.replace("min(stage.lever, 50), 50", "min(stage.lever, 120), 120")),
    ("the intermediate range has the final one's cap", BETWEEN, BETWEEN.replace("min(stage.reach, 700), 700", "min(stage.reach, 1_600), 1_600")),
    ("the intermediate lever's cap is 51", BETWEEN, BETWEEN.replace("50", "51")),
    ("the intermediate range's cap is 701", BETWEEN, BETWEEN.replace("700", "701")),
    ("an intermediate heel counts as in the final stage", BETWEEN, BETWEEN + " * min(Fraction(1_500 - stage.heel, 800), 1) ** 2"),
    # s-final
    ("the ro-ro mark is turned round", CAPS, CAPS.replace("if roro", "if not roro")),
    ("the ro-ro mark does not count", CAPS, "return (120, 1_600)"),
    ("every final stage is a ro-ro ship's", CAPS, "return (200, 2_000)"),
    ("the ro-ro mark changes the lever's cap alone", CAPS, CAPS.replace("2_000", "1_600")),
    ("the ro-ro mark changes the range's cap alone", CAPS, CAPS.replace("200,", "120,")),
    ("the ro-ro lever's cap is 201", CAPS, CAPS.replace("200,", "201,")),
    ("the ro-ro range's cap is 1,999", CAPS, CAPS.replace("2_000", "1_999")),
    ("the final lever's cap is 121", CAPS, CAPS.replace("120", "121")),
    ("the final range's cap is 1,599", CAPS, CAPS.replace("1_600", "1_599")),
    ("the final lever is not capped", BY_CAPS, BY_CAPS.replace("min(result.lever, most_lever)", "result.lever")),
    ("the final range is not capped", BY_CAPS, BY_CAPS.replace("min(result.reach, most_reach)", "result.reach")),
    ("the final heel counts from 7.01 degrees", "if result.heel <= 700:", "if result.heel <= 701:"),
    ("the final heel counts from 25 degrees", "if result.heel <= 700:", "if result.heel <= 2_500:"),
    ("a final heel of 14.99 degrees loses the ship", "elif result.heel >= 1_500:", "elif result.heel >= 1_499:"),
    ("k rises again beyond a final heel of 15 degrees", "elif result.heel >= 1_500:", "elif result.heel == 1_500:"),
    ("K² stands for K⁴ in the final stage", "Fraction(1_500 - result.heel, 800) ** 2", "Fraction(1_500 - result.heel, 800)"),
    ("a cargo ship's heels stand in the final stage", "Fraction(1_500 - result.heel, 800) ** 2", "min(Fraction(3_000 - result.heel, 500), 1) ** 2"),
    # s-mom
    ("0.04 m are not taken off the lever", MOMENT, MOMENT.replace("(lever - 40)", "lever")),
    ("41 mm are taken off the lever", MOMENT, MOMENT.replace("40", "41")),
    ("39 mm are taken off the lever", MOMENT, MOMENT.replace("40", "39")),
    ("the lever is capped in s-mom", MOMENT, MOMENT.replace("lever - 40", "min(lever, final_caps(stage.roro)[0]) - 40")),
    ("the lever is capped at 0.12 m in s-mom", MOMENT, MOMENT.replace("lever - 40", "min(lever, 120) - 40")),
    ("the lever of s-mom is the intermediate stage's", MOMENT, MOMENT.replace("lever - 40", "stage.lever - 40")),
    ("s-mom is not held at 1", MOMENT, MOMENT[len("min("):-len(", Fraction(1))")]),
    ("s-mom is not held at 0", MOMENT, MOMENT.replace("max(", "").replace(", Fraction(0))", "")),
    ("the lever of s-mom is in metres alone", MOMENT, MOMENT.replace("1_000 * ", "")),
    ("displacement and moment change places in s-mom", MOMENT,
     MOMENT.replace("stage.displacement, 1_000 * stage.moment", "stage.moment, 1_000 * stage.displacement")),
    ("s-mom is rounded to ten-thousandths", MOMENT, "Fraction(int(%s * 10_000), 10_000)" % MOMENT),
    # s
    ("the higher of the two counts", LESSER, LESSER.replace("min(", "max(")),
    ("s-intermediate does not count", LESSER, "return s_final_fourth(result, stage.roro) * s_mom(result.lever, stage) ** 4"),
    ("s-mom does not count", LESSER, LESSER.replace(" * s_mom(result.lever, stage) ** 4", "")),
    ("s-final does not count", LESSER, LESSER.replace("s_final_fourth(result, stage.roro) * ", "")),
    ("s-mom stands under the root", LESSER, LESSER.replace(" ** 4", "")),
    ("s-mom counts for both", LESSER, "return min(s_intermediate_fourth(stage), s_final_fourth(result, stage.roro)) * s_mom(result.lever, stage) ** 4"),
    ("the least of the three counts", LESSER, "return min(s_intermediate_fourth(stage), s_final_fourth(result, stage.roro), s_mom(result.lever, stage) ** 4)"),
    ("the product of the three counts", LESSER, "return s_intermediate_fourth(stage) * s_final_fourth(result, stage.roro) * s_mom(result.lever, stage) ** 4"),
    ("a passenger ship's opening does not count", "if result.opening < 0:", "if result.opening < -30_000:"),
    ("a passenger ship's opening at zero is immersed", "if result.opening < 0:", "if result.opening <= 0:"),
    # Marks
    ("a passenger ship has a cargo ship's marks", MARKS, "survival_marks(*result)"),
    ("the marks have no eye for the ro-ro mark", MARKS, "Marks(result.lever < 120, result.reach < 1_600, result.heel > 700, result.opening < 0)"),
    ("a passenger ship's lever at its cap is marked", MARKS, MARKS.replace("result.lever <", "result.lever <=")),
    ("a passenger ship's range at its cap is marked", MARKS, MARKS.replace("result.reach <", "result.reach <=")),
    ("a final heel of 7 degrees is marked", MARKS, MARKS.replace("> 700", ">= 700")),
    ("a final heel of 7.01 degrees is not marked", MARKS, MARKS.replace("> 700", "> 701")),
    ("a final heel is marked from 25 degrees", MARKS, MARKS.replace("> 700", "> 2_500")),
    ("a passenger ship's opening is not marked", MARKS, MARKS.replace("result.opening < 0)", "False)")),
    # R
    ("persons in excess count once", PERSONS_COUNT, "(in_lifeboats + in_excess)"),
    ("persons in lifeboats count twice", PERSONS_COUNT, "(2 * in_lifeboats + in_excess)"),
    ("persons in excess do not count", PERSONS_COUNT, "in_lifeboats"),
    ("a person counts 25 m", "= L + 250 * (", "= L + 2_500 * ("),
    ("a person counts 2.49 m", "= L + 250 * (", "= L + 249 * ("),
    ("R of passenger ships has its length in metres", "= L + 250 * (", "= L // 100 + 250 * ("),
    ("a passenger ship has a cargo ship's R", "else passenger_R(L, *persons)", "else R(L)"),
    ("a partial index must reach R/2 in a passenger ship", OF_R, OF_R.replace("Fraction(9, 10)", "Fraction(1, 2)")),
    ("a partial index must reach R in a passenger ship", OF_R, OF_R.replace("Fraction(9, 10)", "Fraction(1)")),
    ("A must reach 0.9 R alone", OF_R, "4 * (required * Fraction(9, 10),)"),
    ("a partial index must reach 0.9 R in a cargo ship", "(R(L), R(L) / 2, ", "(R(L), R(L) * Fraction(9, 10), "),
]

SURVIVAL = "    return Survival(survival_ends(passenger_s_fourth(result, stage)), passenger_marks(result, stage.roro))"
FACTORS = "    from .regulation import s_final_fourth, s_intermediate_fourth, s_mom\n"
TOLD = "passenger_marks(result, stage.roro))"
ONE = "return passenger_survival(row.results[draught], row.stages[draught])"

ANSWERED = [
    ("bottom and top are products of rounded factors", SURVIVAL, FACTORS + """\
    mom = s_mom(result.lever, stage) * 10_000
    early, final, mom = survival_ends(s_intermediate_fourth(stage)), survival_ends(s_final_fourth(result, stage.roro)), (int(mom), -int(-mom))
    ends = (min(early.lower, final.lower * mom[0] // 10_000), min(early.upper, -(-final.upper * mom[1] // 10_000)))
    return Survival(Ends(*ends) if result.opening >= 0 else Ends(0, 0), passenger_marks(result, stage.roro))"""),
    ("a passenger ship has a cargo ship's survival", SURVIVAL, SURVIVAL.replace("passenger_s_fourth(result, stage)", "s_fourth(*result)")),
    ("the marks are those of the intermediate stage", TOLD, "passenger_marks(result._replace(lever=stage.lever, reach=stage.reach, heel=stage.heel), stage.roro))"),
    ("no mark is told where the intermediate stage decides", SURVIVAL, FACTORS + SURVIVAL.replace(
        TOLD, "NO_MARKS if s_intermediate_fourth(stage) < s_final_fourth(result, stage.roro) * s_mom(result.lever, stage) ** 4 else " + TOLD)),
    ("a heeling moment that counts marks the lever", SURVIVAL, FACTORS + SURVIVAL.replace(
        TOLD, "passenger_marks(result._replace(lever=result.lever if s_mom(result.lever, stage) == 1 else 0), stage.roro))")),
    ("a passenger ship has no marks", TOLD, "NO_MARKS)"),
    ("the stage is that of the deepest draught", ONE, ONE.replace("row.stages[draught]", "row.stages[0]")),
    ("the stage is that of the light draught", ONE, ONE.replace("row.stages[draught]", "row.stages[2]")),
    ("the stages' draughts are turned round", ONE, ONE.replace("row.stages[draught]", "row.stages[2 - draught]")),
    ("the result is that of the deepest draught in a passenger ship", ONE, ONE.replace("row.results[draught]", "row.results[0]")),
    ("the ro-ro mark is that of the deepest draught", ONE, ONE.replace("row.stages[draught]", "row.stages[draught]._replace(roro=row.stages[0].roro)")),
    ("one ro-ro mark is one for all draughts", ONE,
     ONE.replace("row.stages[draught]", "row.stages[draught]._replace(roro=max(stage.roro for stage in row.stages))")),
    ("the displacement is that of the deepest draught", ONE,
     ONE.replace("row.stages[draught]", "row.stages[draught]._replace(displacement=row.stages[0].displacement)")),
    ("the moment is that of the deepest draught", ONE, ONE.replace("row.stages[draught]", "row.stages[draught]._replace(moment=row.stages[0].moment)")),
    ("the verdict is a cargo ship's", "verdict_of(ends, case.hull.L, case.hull.persons, case.hull.rule)", "verdict_of(ends, case.hull.L)"),
]
