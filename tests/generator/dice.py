"""Seeded choices that come out the same on every Python: whole random bits and nothing else."""

import random


class Dice:
    def __init__(self, seed):
        self.bits = random.Random(seed).getrandbits

    def below(self, count):
        """A whole number from 0 up to but not including count."""
        return self.bits(64) % count

    def between(self, low, high):
        """A whole number from low to high, both included."""
        return low + self.below(high - low + 1)

    def pick(self, values):
        return values[self.below(len(values))]

    def one_in(self, count):
        return self.below(count) == 0

    def some(self, values, count):
        """So many different values, in rising order."""
        left = list(values)
        taken = [left.pop(self.below(len(left))) for _ in range(min(count, len(left)))]
        return sorted(taken)
