"""Frames of the case file from their numbers, unjudged, so that tests can write files on both sides of each limit."""


def hull_line(L, B, ds, dl, bulkheads, m=None):
    """The case file: a hull frame; m is the zone count that fits the bulkheads unless another is asked for."""
    count = len(bulkheads) + 1 if m is None else m
    return f"01{L:04x}{B:04x}{ds:04x}{dl:04x}{count:02x}" + "".join(f"{place:04x}" for place in bulkheads)


def passenger_hull_line(L, B, ds, dl, persons, bulkheads, m=None, rule=0):
    """Passenger ships: a hull frame of kind 06, with the persons in lifeboats and those in excess after dl, and then the mark of the rule."""
    cargo = hull_line(L, B, ds, dl, bulkheads, m)
    return "06" + cargo[2:18] + "".join(f"{count:04x}" for count in persons) + f"{rule:02x}" + cargo[18:]


def result_digits(lever, reach, heel, opening):
    """Openings: a result as a row has it, the opening in two's complement."""
    return f"{lever:04x}{reach:04x}{heel:04x}{opening % 65_536:04x}"


def lever_row(a, n, b, H, results):
    """The case file: a row of kind 02 with three results (lever, range, heel, opening)."""
    return f"02{a:02x}{n:02x}{b:04x}{H:04x}" + "".join(result_digits(*result) for result in results)


def two_sets_row(a, n, b, H, first, second):
    """Smaller damage, worse result: a row of kind 05, the three results of the first set and then those of the second."""
    return "05" + lever_row(a, n, b, H, (*first, *second))[2:]


def stage_digits(displacement, moment, lever, reach, heel, roro):
    """Passenger ships: a stage as a row has it."""
    return f"{displacement:08x}{moment:08x}{lever:04x}{reach:04x}{heel:04x}{roro:02x}"


def passenger_row(a, n, b, H, results, stages):
    """Passenger ships: a row of kind 07, the three results and then the three stages (displacement, moment, lever, range, heel, ro-ro mark)."""
    return "07" + lever_row(a, n, b, H, results)[2:] + "".join(stage_digits(*stage) for stage in stages)


def given_row(a, n, b, H, survivals):
    """The case file: a row of kind 03 with three given survivals."""
    return f"03{a:02x}{n:02x}{b:04x}{H:04x}" + "".join(f"{survival:04x}" for survival in survivals)


def end_line(count):
    """The case file: an end frame."""
    return f"0f{count:04x}"


def file_of(lines):
    """The case file: the bytes of its lines, each closed by a line feed."""
    return "".join(line + "\n" for line in lines).encode("ascii")


def whole_file(hull, rows):
    """The case file: a hull line, row lines and the end frame that counts them."""
    return file_of([hull, *rows, end_line(len(rows))])
