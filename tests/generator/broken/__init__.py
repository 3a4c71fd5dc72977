"""The rules broken one by one: refusals, shares, the figures made from them, the openings, the second set and the marks."""
