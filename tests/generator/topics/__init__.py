"""The topics of the corpus, a module each, in the order of the index."""

from . import bands, damaged, following, hulls, limits, marks, openings, pairs, passengers, refusals, rules, second, sheets, survivals, touching, verdicts, widths

TOPICS = (limits, refusals, pairs, following, sheets, hulls, bands, touching, widths, survivals, marks, openings, second, passengers, rules, verdicts, damaged)
