"""Makes expressions at random."""
from __future__ import annotations

import random

ARITHMETIC = ("+", "-", "*", "/", "%")
COMPARING = ("<", "<=", ">", ">=", "==", "!=")


class Expressions:
    """Expressions over some variables."""

    def __init__(self, rng: random.Random, names: list[str]):
        self.rng = rng
        self.names = names

    def number(self) -> str:
        rng = self.rng
        kind = rng.randrange(10)
        if kind < 6:
            return str(rng.choice((0, 1, 1, -1, 2, 2, 3, 5, 7, 10, rng.randint(0, 100))))
        if kind == 6:
            return rng.choice(("0x10", "0XfF", "0x7fffffff", "017", "00", "0200"))
        if kind == 7:
            return rng.choice(("'a'", "'\\n'", "'\\0'", "'\\x41'", "'\\''", "'\\101'", "';'", "'('"))
        return rng.choice(("2147483647", "2147483646", "(-2147483647 - 1)", "1000000", "65536", "46341", str(rng.randint(0, 2**31 - 1))))

    def atom(self) -> str:
        return self.rng.choice(self.names) if self.rng.random() < 0.65 else self.number()

    def within(self, text: str) -> str:
        """An operand, which needs no parentheses for C, and has them sometimes: what binds tighter is for the readers to say."""
        return f"({text})" if " " in text and self.rng.random() < 0.5 else text

    def prefixed(self, depth: int) -> str:
        operand = self.value(depth - 1)
        sign = self.rng.choice(("-", "-", "!", "+"))
        return f"{sign}({operand})" if " " in operand or operand[0] in "+-" else f"{sign}{operand}"

    def value(self, depth: int) -> str:
        """An expression whose value is a number."""
        rng = self.rng
        if depth <= 0 or rng.random() < 0.15:
            return self.atom()
        kind = rng.random()
        if kind < 0.12:
            return self.prefixed(depth)
        if kind < 0.2:
            return f"({self.test(depth - 1)})"
        gap = "\n        " if rng.random() < 0.04 else " "
        operator = rng.choices(ARITHMETIC, (8, 7, 6, 2, 2))[0]
        return f"{self.within(self.value(depth - 1))} {operator}{gap}{self.within(self.value(depth - 1))}"

    def test(self, depth: int) -> str:
        """An expression whose value is a truth."""
        rng = self.rng
        kind = rng.random()
        if depth <= 0 or kind < 0.6:
            return f"{self.within(self.value(depth - 1))} {rng.choice(COMPARING)} {self.within(self.value(depth - 1))}"
        if kind < 0.9:
            return f"{self.within(self.test(depth - 1))} {rng.choice(('&&', '||'))} {self.within(self.test(depth - 1))}"
        if kind < 0.95:
            return f"!({self.test(depth - 1)})"
        return self.value(depth)

    def likely(self, name: str) -> str:
        """What is true of most values of a variable."""
        rng = self.rng
        return rng.choice((f"{name} <= {rng.randint(5, 500)}", f"{name} >= -{rng.randint(1, 100)}", f"{name} != {rng.randint(0, 3)}",
                           f"{name} == {name}", f"{name} > -100 && {name} < {rng.randint(50, 1000)}", self.test(2)))
