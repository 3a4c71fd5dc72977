"""A passenger ship's results, as ten numbers each: at every cap and limit, near them, and with heeling moments at which bottom or top changes."""

from fractions import Fraction
from itertools import product
from math import isqrt

from generator.seeded import final_result
from independent import Result, Stage
from independent.answering import passenger_survival
from independent.printing import mark_byte
from independent.regulation import final_caps, s_final_fourth, s_mom
from independent.rounding import survival_ends

MOST = 2**64 - 1
MOST_LEVER, MOST_DISPLACEMENT, MOST_MOMENT = 5_000, 300_000, 2_000_000
LEVERS, RANGES = (0, 1, 39, 40, 41, 119, 120, 121, 199, 200, 201, 5000), (0, 1, 1599, 1600, 1601, 1999, 2000, 2001, 9000, MOST)
HEELS, RORO = (0, 1, 699, 700, 701, 1100, 1499, 1500, 1501, 9000, MOST), (0, 1, 2, 256, MOST)
STAGE_LEVERS, STAGE_RANGES, STAGE_HEELS = (0, 1, 49, 50, 51, 5000, MOST), (0, 1, 699, 700, 701, 9000, MOST), (0, 700, 1499, 1500, 1501, 9000, MOST)
LOADED_LEVERS, DISPLACEMENTS = (0, 39, 40, 41, 540, 4999, 5000, 5001, MOST), (0, 1, 2, 1000, 299999, 300000, 300001, MOST)
MOMENTS = (0, 1, 2, 500, 1488000, 1999999, 2000000, 2000001, MOST)
CALM, BORNE = (50, 700, 1500), (300000, 1)  # a stage, and loads, that take nothing
FINALS = ((5000, 9000, 700), (120, 100, 0), (200, 2000, 1100))
WORDS = "lever %d, range %d, heel %d, opening %d, displacement %d, moment %d, at an intermediate stage lever %d, range %d, heel %d, ro-ro mark %d"


def passenger_expected(lever, reach, heel, opening, displacement, moment, *stage):
    """Bottom, top and byte of the marks by the independent program: zeros where a file could not have such loads; only 1 is a ro-ro mark."""
    if lever > MOST_LEVER or not 1 <= displacement <= MOST_DISPLACEMENT or not 1 <= moment <= MOST_MOMENT:
        return 0, 0, 0
    *stage, roro = stage
    ends, marks = passenger_survival(Result(lever, reach, heel, opening), Stage(displacement, moment, *stage, int(roro == 1)))
    return *ends, mark_byte(marks)


def at_limits(openings):
    """Each of the ten numbers at its caps and limits and next to them, and as large as numbers are."""
    for lever, reach, heel, roro in product(LEVERS, RANGES, HEELS, RORO):
        yield lever, reach, heel, 0, *BORNE, *CALM, roro
    for stage, final, roro in product(product(STAGE_LEVERS, STAGE_RANGES, STAGE_HEELS), FINALS, (0, 1)):
        yield *final, 0, *BORNE, *stage, roro
    for lever, displacement, moment, roro in product(LOADED_LEVERS, DISPLACEMENTS, MOMENTS, (0, 1)):
        yield lever, 1700, 700, 0, displacement, moment, *CALM, roro
    for opening, final, loads, roro in product(openings, FINALS, (BORNE, (1, 1), (0, 1), (1, 0)), RORO):
        yield *final, opening, *loads, *CALM, roro


def whole_finals(roro):
    """Lever, range and heel of which s-final is a whole number of 400ths below one, the lever above 40."""
    most_lever, most_reach = final_caps(roro)
    for heel, part in product(range(700, 1500, 20), range(1, 400)):
        both, rest = divmod(most_lever * most_reach * 640_000 * part**4, 400**4 * (1_500 - heel) ** 2)
        for lever in range(41, most_lever + 1):
            if rest == 0 and both % lever == 0 and both // lever <= most_reach:
                yield lever, both // lever, heel


WHOLE_FINALS = {roro: tuple(whole_finals(roro)) for roro in (0, 1)}


def seeded_final(dice, roro):
    """Lever, range and heel of a final stage: any, of an s-final that is whole in ten-thousandths, or with the lever anywhere above its cap."""
    most_lever, most_reach = final_caps(roro)
    way, above = dice.below(5), dice.between(most_lever, MOST_LEVER)
    if way < 2:
        return final_result(dice)
    if way == 2:
        lever, reach, heel = dice.pick(WHOLE_FINALS[roro])
        return (above if lever == most_lever else lever), reach, heel
    if way == 3:
        return above, dice.between(1, most_reach), dice.between(600, 1499)
    return above, dice.between(most_reach, 9000), dice.between(0, 700)


def seeded_mom(dice, fourth):
    """An s-mom, at most one, that times s-final, its bottom or its top is a whole number of ten-thousandths, or all but one."""
    root = Fraction(isqrt(isqrt(fourth.numerator * 10**48 // fourth.denominator)), 10**8)  # exact where s-final is whole
    known = dice.pick((root, root, *survival_ends(fourth))) or 1
    whole = max(int(known) - dice.below(4), 1) if dice.one_in(8) else dice.between(1, max(int(known), 1))
    return min(Fraction(whole) / known, Fraction(1))


def seeded_loads(dice, lever, fourth):
    """Displacement and moment: any, at their limits, or with an s-mom at one or where bottom or top changes, as near to it as they come, or one off."""
    if lever <= 40 or dice.one_in(8):
        any_moment = dice.between(1, dice.pick((MOST_MOMENT, max(lever - 40, 1) * 300)))
        return dice.pick((1, 2, 299999, 300000, dice.between(1, MOST_DISPLACEMENT))), dice.pick((1, 2, 1999999, 2000000, any_moment))
    mom = Fraction(1) if dice.one_in(8) else seeded_mom(dice, fourth)
    tonnes = 1000 * mom / (lever - 40)  # to a tonne-metre
    most = min(MOST_MOMENT, max(int(MOST_DISPLACEMENT / tonnes), 1))
    near = tonnes.limit_denominator(dice.between(most // 10 + 1, most))
    times = dice.between(1, max(min(MOST_DISPLACEMENT // max(near.numerator, 1), MOST_MOMENT // near.denominator), 1))
    off = dice.pick(((0, 0), (0, 0), (0, 1), (0, -1), (1, 0), (-1, 0)))
    return max(times * near.numerator + off[0], 0), times * near.denominator + off[1]


def seeded_stage(dice, fourth):
    """Lever, range and heel of an intermediate stage: calm, at a cap or a limit, or with an s⁴ next to another."""
    way = dice.below(6)
    if way < 3:
        return dice.pick((50, 5000, dice.between(50, 5000))), dice.pick((700, 9000, dice.between(700, 9000))), dice.pick((0, 1500, dice.between(0, 1500)))
    if way == 3:
        return dice.pick(STAGE_LEVERS + (dice.between(0, 60),)), dice.pick(STAGE_RANGES + (dice.between(0, 800),)), dice.pick(STAGE_HEELS)
    lever = dice.between(1, 50)
    return lever, max(int(35_000 * fourth / lever) + dice.between(-1, 2), 0), dice.between(0, 1500)


def seeded(dice, count, openings):
    """So many of any kind; now and then an opening that is not dry, or a number that no file has."""
    for _ in range(count):
        roro = dice.below(2)
        lever, reach, heel = seeded_final(dice, roro)
        fourth = s_final_fourth(Result(lever, reach, heel, 0), roro)
        loads = seeded_loads(dice, lever, fourth)
        held = fourth * s_mom(lever, Stage(*loads, 0, 0, 0, roro)) ** 4 if loads[1] else fourth
        opening = dice.pick(openings) if dice.one_in(20) else dice.pick((0, 1, 30000, dice.between(0, 30000)))
        asked = [lever, reach, heel, opening, *loads, *seeded_stage(dice, held), roro]
        if dice.one_in(20):
            at, number = dice.pick(((0, 5001), (4, 0), (4, 300001), (5, 0), (5, 2000001), (9, 2), (dice.pick((0, 1, 2, 4, 5, 6, 7, 8, 9)), MOST)))
            asked[at] = number
        yield tuple(asked)
