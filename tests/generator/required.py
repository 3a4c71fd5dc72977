"""The generator's own reading of R, of the marks and of the verdict: of a cargo ship, and of a passenger ship under either rule, each rule a method that can
be broken."""

BILLION = 10 ** 9


class Required:
    """What the hull of a case must reach, and whether its ends do; every figure is a fraction of two whole numbers."""

    def persons(self):
        """N of a passenger ship under the earlier rule: those in excess of the lifeboats count twice."""
        in_lifeboats, in_excess = self.hull.persons
        return in_lifeboats + 2 * in_excess

    def passenger_required(self):
        """The earlier rule: 1 - 5000/(Ls + 2.5N + 15225), the length in centimetres."""
        under = self.hull.ls + 250 * self.persons() + 1522500
        return under - 500000, under

    def on_board(self):
        """N of a passenger ship under the rule of 2020: every person counts once."""
        return sum(self.hull.persons)

    def flat(self, n):
        """The rule of 2020 below 400 persons: 0.722."""
        return 722, 1000

    def sloping(self, n):
        """The rule of 2020 from 400 to 1,350 persons: N/7580 + 0.66923."""
        return 100000 * n + 7580 * 66923, 7580 * 100000

    def crowded(self, n):
        """The rule of 2020 above 6,000 persons: 1 - (852.5 + 0.03875N)/(N + 5000)."""
        return 100000 * (n + 5000) - 85250000 - 3875 * n, 100000 * (n + 5000)

    def required_of_2020(self):
        n = self.on_board()
        return self.flat(n) if n < 400 else self.sloping(n) if n <= 1350 else self.crowded(n)

    def required_by_rule(self):
        """R of a passenger ship: that of the rule which it is under."""
        return self.required_of_2020() if self.hull.rule == 1 else self.passenger_required()

    def required(self):
        ls = self.hull.ls
        if self.hull.persons is not None:
            return self.required_by_rule()
        if ls > 10000:
            return ls + 2400, ls + 15200
        return ls * (ls + 2400), ls * (ls + 2400) + 128000000

    def marks(self):
        """The marks of A and of the three partials as fractions."""
        over, under = self.required()
        return [(over, under)] + [(over, 2 * under) if self.hull.persons is None else (9 * over, 10 * under)] * 3

    def verdict(self, ends):
        """The verdict on the ends of A and of the three partials."""
        marked = list(zip(ends, self.marks()))
        if all(low * under >= BILLION * over for (low, _), (over, under) in marked):
            return 1
        if any(high * under < BILLION * over for (_, high), (over, under) in marked):
            return 2
        return 3
