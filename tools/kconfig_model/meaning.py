"""What Kconfig's expressions and symbols mean, as formulas."""
from __future__ import annotations

import functools
import math
from collections.abc import Callable, Iterator

import kconfiglib

from .formulas import Formula, Literal, Test, all_of, any_of, denied, firsts, is_possible, joined
from .limits import END

COMPARISONS: dict[int, Callable[[int], bool]] = {
    kconfiglib.EQUAL: lambda order: order == 0,
    kconfiglib.UNEQUAL: lambda order: order != 0,
    kconfiglib.LESS: lambda order: order < 0,
    kconfiglib.LESS_EQUAL: lambda order: order <= 0,
    kconfiglib.GREATER: lambda order: order > 0,
    kconfiglib.GREATER_EQUAL: lambda order: order >= 0,
}
MIRRORED = {
    kconfiglib.LESS: kconfiglib.GREATER, kconfiglib.LESS_EQUAL: kconfiglib.GREATER_EQUAL,
    kconfiglib.GREATER: kconfiglib.LESS, kconfiglib.GREATER_EQUAL: kconfiglib.LESS_EQUAL,
}
SWITCHES = (kconfiglib.BOOL, kconfiglib.TRISTATE)
NUMBERS = {kconfiglib.INT: 10, kconfiglib.HEX: 16}


def number(text: str, base: int) -> int | None:
    try:
        return int(text, base)
    except ValueError:
        return None


def parts_of(expression, operator: int) -> list:
    """The operands of nested `&&` or `||`, without recursion, since Kconfig files nest thousands of them."""
    found, left = [], [expression]
    while left:
        top = left.pop()
        if isinstance(top, tuple) and top[0] is operator:
            left += [top[2], top[1]]
        else:
            found.append(top)
    return found


def opened(said: str) -> Literal:
    """A test that a model can't say, which is told."""
    return Literal(Test("open", said=said))


def silent(key: object) -> Literal:
    """A test that is open in Kconfig too, or that costs little."""
    return Literal(Test("open", bound=hash(key)))


class Meaning:
    """What the expressions and symbols of a Kconfig file mean, as formulas over the macros that C sees: a switch is on where its
    symbol is y, and a number has the symbol's value, or 0 where Kconfig leaves the macro undefined or empty."""

    def __init__(self, kconfig: kconfiglib.Kconfig):
        self.kconfig = kconfig
        # without a symbol for modules no symbol is ever m
        self.has_modules = bool(kconfig.modules.nodes)
        self.hulls: dict[str, tuple[float, float]] = {}

    def is_tristate(self, item) -> bool:
        return self.has_modules and item.orig_type == kconfiglib.TRISTATE

    def at_least(self, expression, level: int) -> Formula:
        """Whether an expression has at least this value: 1 is m, and 2 is y."""
        if isinstance(expression, kconfiglib.Choice):
            return self.choice_at_least(expression, level)
        if not isinstance(expression, tuple):
            return self.symbol_at_least(expression, level)
        operator = expression[0]
        if operator in (kconfiglib.AND, kconfiglib.OR):
            return joined(operator is kconfiglib.AND, [self.at_least(part, level) for part in parts_of(expression, operator)])
        if operator is kconfiglib.NOT:
            return denied(self.at_least(expression[1], 3 - level))
        return self.relation(*expression)

    def symbol_at_least(self, symbol, level: int) -> Formula:
        if symbol.is_constant:
            return kconfiglib.STR_TO_TRI.get(symbol.name, 0) >= level
        if not symbol.nodes or symbol.orig_type not in SWITCHES:
            return False
        is_on = Literal(Test("on", (symbol.name,)))
        if level == 1 and self.is_tristate(symbol):
            return any_of(is_on, Literal(Test("module", (symbol.name,))))
        return is_on

    def choice_at_least(self, choice, level: int) -> Formula:
        """The value of a choice is the user's where it is optional or tristate, so that only its bound can be said."""
        bound = self.visible(choice, level if self.is_tristate(choice) else 1)
        if choice.is_optional or self.is_tristate(choice) and level == 2:
            return all_of(bound, silent((id(choice), level)))
        return bound

    @functools.cache
    def visible(self, item, level: int) -> Formula:
        """Whether a prompt of the symbol or choice is visible at this level."""
        return any_of(*[self.at_least(node.prompt[1], level) for node in item.nodes if node.prompt])

    @functools.cache
    def defaults(self, symbol) -> list[Formula]:
        """When each default of a symbol is the one that counts."""
        return firsts([self.at_least(condition, 1) for _, condition in symbol.defaults])

    @functools.cache
    def ranges(self, symbol) -> list[Formula]:
        """When each range of a number is the one that counts."""
        return firsts([self.at_least(condition, 1) for *_, condition in symbol.ranges])

    @functools.cache
    def written(self, symbol) -> Formula:
        """Whether Kconfig defines the macro of a number or a string."""
        if symbol.env_var is not None or symbol is self.kconfig.defconfig_list:
            return False
        return any_of(self.visible(symbol, 1), *[self.at_least(condition, 1) for _, condition in symbol.defaults])

    # -- relations

    def relation(self, operator: int, left, right) -> Formula:
        kinds = [self.kind(left), self.kind(right)]
        if kinds == ["text", "text"]:
            return kconfiglib.expr_value((operator, left, right)) == 2
        if kinds == ["number", "text"]:
            return self.number_to_text(left, operator, right.str_value)
        if kinds == ["text", "number"]:
            return self.number_to_text(right, MIRRORED.get(operator, operator), left.str_value)
        if kinds == ["number", "number"]:
            return self.number_to_number(left, operator, right)
        if "string" in kinds or "number" in kinds:
            return opened(kconfiglib.expr_str((operator, left, right)))
        return self.by_values(operator, left, right)

    def kind(self, symbol) -> str:
        """A constant and an undefined symbol stand for their text."""
        if symbol.orig_type in NUMBERS:
            return "number"
        if symbol.orig_type == kconfiglib.STRING:
            return "string"
        return "switch" if symbol.orig_type in SWITCHES and symbol.nodes else "text"

    def values(self, symbol) -> list[tuple[Formula, int | None, str]]:
        """The values of a switch or a constant: when it has each, the value as a number, and as a text."""
        if not symbol.nodes or symbol.orig_type not in SWITCHES:
            as_number = number(symbol.str_value, 0) if symbol.orig_type not in SWITCHES else symbol.tri_value
            return [(True, as_number, symbol.str_value)]
        is_set, is_on = self.symbol_at_least(symbol, 1), self.symbol_at_least(symbol, 2)
        return [(denied(is_set), 0, "n"), (all_of(is_set, denied(is_on)), 1, "m"), (is_on, 2, "y")]

    def by_values(self, operator: int, left, right) -> Formula:
        cases: list[Formula] = []
        for is_left, left_number, left_text in self.values(left):
            for is_right, right_number, right_text in self.values(right):
                if left_number is None or right_number is None:
                    order = (left_text > right_text) - (left_text < right_text)
                else:
                    order = left_number - right_number
                if COMPARISONS[operator](order):
                    cases.append(all_of(is_left, is_right))
        return any_of(*cases)

    @functools.cache
    def filled(self, symbol) -> Formula:
        """Where it holds, a number's value is not the empty text."""
        base = NUMBERS[symbol.orig_type]
        by_default = [when for (value, _), when in zip(symbol.defaults, self.defaults(symbol))
                      if self.kind(value) == "text" and number(value.str_value, base) is not None]
        by_range = [all_of(when, self.has_no_zero(symbol, low, high)) for (low, high, _), when in zip(symbol.ranges, self.ranges(symbol))]
        return any_of(*by_default, *by_range)

    def has_no_zero(self, symbol, low, high) -> Formula:
        ends = self.ends(symbol, low, high)
        return silent((symbol.name, low.name, high.name)) if ends is None else ends[0] > 0 or ends[1] < 0

    @functools.cache
    def number_to_text(self, symbol, operator: int, text: str) -> Formula:
        """A number against a constant. Kconfig compares a number without a value as the empty text, where C sees 0."""
        bound = number(text, 0)
        if bound is None:
            return opened(f"{symbol.name} {kconfiglib.REL_TO_STR[operator]} {text}")
        test = self.bounded(symbol, operator, bound)
        empty = COMPARISONS[operator]((text < "") - (text > ""))
        zero = COMPARISONS[operator](-bound)
        written, filled = self.written(symbol), self.filled(symbol)
        if empty == zero and not is_possible(all_of(denied(written), filled)):
            return test
        is_zero = self.bounded(symbol, kconfiglib.EQUAL, 0)
        either = opened(f"{symbol.name} {kconfiglib.REL_TO_STR[operator]} {text} where {symbol.name} may have no value")
        return any_of(
            all_of(written, filled, test),
            all_of(written, denied(filled), denied(is_zero), test),
            all_of(written, denied(filled), is_zero, either),
            all_of(denied(written), denied(filled), empty),
            all_of(denied(written), filled, either))

    def bounded(self, symbol, operator: int, bound: int) -> Formula:
        if operator in (kconfiglib.EQUAL, kconfiglib.UNEQUAL):
            equal = self.equal(symbol, bound)
            return equal if operator is kconfiglib.EQUAL else denied(equal)
        if operator in (kconfiglib.LESS, kconfiglib.GREATER_EQUAL):
            least = self.least(symbol, bound)
        else:
            least = self.least(symbol, bound + 1)
        return least if operator in (kconfiglib.GREATER, kconfiglib.GREATER_EQUAL) else denied(least)

    def least(self, symbol, bound: int) -> Formula:
        """Whether a number is at least the bound; a value past the ends of a model is the end."""
        low, high = self.hull(symbol)
        if bound <= low or bound > high:
            return bound <= low
        if max(low, -END) < bound <= min(high, END):
            return Literal(Test("least", (symbol.name,), bound))
        return opened(f"{symbol.name} against {bound}, past {END}")

    def equal(self, symbol, bound: int) -> Formula:
        low, high = self.hull(symbol)
        if not low <= bound <= high or low == high:
            return low == high == bound
        for end in (bound, bound + 1):
            least = self.least(symbol, end)
            if isinstance(least, Literal) and least.test.kind == "open":
                return least
        return Literal(Test("equal", (symbol.name,), bound))

    def number_to_number(self, left, operator: int, right) -> Formula:
        """Two numbers where both surely have values within the ends of a model."""
        said = kconfiglib.expr_str((operator, left, right))
        if any(abs(end) > END for symbol in (left, right) for end in self.hull(symbol)):
            return opened(said)
        names = (left.name, right.name)
        if operator in (kconfiglib.EQUAL, kconfiglib.UNEQUAL):
            test: Formula = Literal(Test("equal", names), operator is kconfiglib.EQUAL)
        elif operator in (kconfiglib.GREATER_EQUAL, kconfiglib.LESS):
            test = Literal(Test("least", names), operator is kconfiglib.GREATER_EQUAL)
        else:
            test = Literal(Test("least", names[::-1]), operator is kconfiglib.LESS_EQUAL)
        have_values = all_of(*[any_of(denied(self.equal(symbol, 0)), all_of(self.written(symbol), self.filled(symbol)))
                               for symbol in (left, right)])
        return any_of(all_of(have_values, test), all_of(denied(have_values), opened(f"{said} where one may have no value")))

    # -- the values of numbers

    def ends(self, symbol, low, high) -> tuple[int, int] | None:
        """The ends of a range of two constants that is not empty."""
        if self.kind(low) != "text" or self.kind(high) != "text":
            return None
        base = NUMBERS[symbol.orig_type]
        ends = number(low.str_value, base), number(high.str_value, base)
        if ends[0] is None or ends[1] is None or ends[0] > ends[1]:
            return None
        return ends[0], ends[1]

    def hull(self, symbol) -> tuple[float, float]:
        """The least and the greatest value that a macro of a number may have, 0 standing for none."""
        if symbol.name not in self.hulls:
            found = list(self.some_values(symbol))
            self.hulls[symbol.name] = (min(found), max(found))
        return self.hulls[symbol.name]

    def some_values(self, symbol) -> Iterator[float]:
        """Values with the least and the greatest among them."""
        written, ranges = self.written(symbol), self.ranges(symbol)
        has_no_range = denied(any_of(*ranges))
        if is_possible(any_of(denied(written), denied(self.filled(symbol)))):
            # (within a range that has it, or without a value)
            yield 0
        for (low, high, _), when in zip(symbol.ranges, ranges):
            if is_possible(all_of(when, written)):
                yield from self.ends(symbol, low, high) or (-math.inf, math.inf)
        if is_possible(all_of(self.visible(symbol, 1), has_no_range)):
            yield from (-math.inf, math.inf)
        for (value, _), when in zip(symbol.defaults, self.defaults(symbol)):
            if is_possible(all_of(when, has_no_range)):
                constant = self.constant(symbol, value)
                yield from (-math.inf, math.inf) if constant is None else (constant,)

    def constant(self, symbol, value) -> int | None:
        return number(value.str_value, NUMBERS[symbol.orig_type]) if self.kind(value) == "text" else None
