"""Formulas over tests of features, made small as they are joined."""
from __future__ import annotations

from collections.abc import Callable, Iterable, Iterator
from dataclasses import dataclass
from typing import Union

# A symbol's name, and whether the feature is the macro of its m, NAME_MODULE.
Feature = tuple[str, bool]


@dataclass(frozen=True)
class Test:
    """What is asked of symbols: whether the macro is `on`, the symbol is m (`module`), a number is at `least` the bound or `equal` to it
    (or to a second number), or of switches at `most` so many are on. An `open` test is one that no
    model can say; `said` tells which, where that is a loss."""
    kind: str
    names: tuple[str, ...] = ()
    bound: int = 0
    said: str = ""

    def features(self) -> list[Feature]:
        """The features that it asks."""
        return [(name, self.kind == "module") for name in self.names]


@dataclass(frozen=True)
class Literal:
    test: Test
    holds: bool = True


@dataclass(frozen=True)
class Joined:
    """A conjunction or a disjunction of at least two parts."""
    is_and: bool
    parts: tuple[Formula, ...]


Formula = Union[bool, Literal, Joined]


def denied(formula: Formula) -> Formula:
    if isinstance(formula, bool):
        return not formula
    if isinstance(formula, Literal):
        return Literal(formula.test, not formula.holds)
    return joined(not formula.is_and, [denied(part) for part in formula.parts])


def flat(is_and: bool, parts: Iterable[Formula]) -> Iterator[Formula]:
    for part in parts:
        if isinstance(part, Joined) and part.is_and == is_and:
            yield from part.parts
        else:
            yield part


def assumed(formula: Formula, literals: set[Formula], value: bool) -> Formula:
    """The formula where these literals have this value."""
    if isinstance(formula, Literal):
        if formula in literals:
            return value
        return not value if denied(formula) in literals else formula
    if isinstance(formula, Joined):
        return joined(formula.is_and, [assumed(part, literals, value) for part in formula.parts])
    return formula


def without_wider(parts: list[Formula]) -> list[Formula]:
    """Without parts that another part makes needless: `A && B && C` beside `A && B`."""
    sets = [set(part.parts) if isinstance(part, Joined) else {part} for part in parts]
    return [part for part, its in zip(parts, sets) if not any(other < its for other in sets)]


def joined(is_and: bool, parts: Iterable[Formula]) -> Formula:
    """The conjunction or disjunction, simplified."""
    known = list(dict.fromkeys(part for part in flat(is_and, parts) if part is not is_and))
    literals: set[Formula] = {part for part in known if isinstance(part, Literal)}
    if any(part is (not is_and) or denied(part) in literals for part in known if not isinstance(part, Joined)):
        return not is_and
    if literals:
        # beside a literal the other parts need not ask its test again
        fresh = [assumed(part, literals, is_and) if isinstance(part, Joined) else part for part in known]
        if fresh != known:
            return joined(is_and, fresh)
    known = without_wider(known)
    if len(known) < 2:
        return known[0] if known else is_and
    return Joined(is_and, tuple(known))


def all_of(*parts: Formula) -> Formula:
    return joined(True, parts)


def any_of(*parts: Formula) -> Formula:
    return joined(False, parts)


def implied(cause: Formula, effect: Formula) -> Formula:
    return any_of(denied(cause), effect)


def tests_of(formula: Formula) -> Iterator[Test]:
    if isinstance(formula, Literal):
        yield formula.test
    elif isinstance(formula, Joined):
        for part in formula.parts:
            yield from tests_of(part)


def weakened(formula: Formula, is_sayable: Callable[[Test], bool]) -> Formula:
    """What is left where a test that can't be said may have either value: this follows from the formula."""
    if isinstance(formula, Literal):
        return formula if is_sayable(formula.test) else True
    if isinstance(formula, Joined):
        return joined(formula.is_and, [weakened(part, is_sayable) for part in formula.parts])
    return formula


def is_possible(formula: Formula) -> bool:
    """False only where no values of the tests make it true; tests are taken as independent, and more than 14 as possible."""
    first = next(tests_of(formula), None)
    if first is None:
        return formula is True
    if len(set(tests_of(formula))) > 14:
        return True
    return any(is_possible(assumed(formula, {Literal(first, holds)}, True)) for holds in (True, False))


def firsts(conditions: list[Formula]) -> list[Formula]:
    """Of conditions that are tried in order: when each is the first that is true."""
    return [all_of(condition, *map(denied, conditions[:at])) for at, condition in enumerate(conditions)]


def split(formula: Formula) -> list[Formula]:
    """Formulas that are together the given one: `!A || B && C` is two."""
    if isinstance(formula, Joined) and formula.is_and:
        return [each for part in formula.parts for each in split(part)]
    if isinstance(formula, Joined):
        inner = [part for part in formula.parts if isinstance(part, Joined)]
        if len(inner) == 1:
            others = [part for part in formula.parts if part is not inner[0]]
            return [any_of(*others, part) for part in inner[0].parts]
    return [formula]
