"""The constraints that a Kconfig file sets on its symbols."""
from __future__ import annotations

import functools
from collections.abc import Callable, Iterator
from dataclasses import dataclass

import kconfiglib

from .formulas import Feature, Formula, Literal, Test, all_of, any_of, denied, implied, split
from .meaning import Meaning, NUMBERS, SWITCHES, opened, parts_of

# So many members of a choice exclude one another by pairs, and more by a sum.
MOST_PAIRED = 6


@dataclass(frozen=True)
class Constraint:
    """What is true in each configuration. Where it `pulls`, it says what a symbol depends on, and asks for the features it names."""
    formula: Formula
    place: str
    pulls: bool = True


class Rules:
    """The constraints that a Kconfig file sets on its symbols."""

    def __init__(self, meaning: Meaning, place: Callable[[object], str], chosen: set[Feature]):
        self.meaning = meaning
        self.place = place
        self.chosen = chosen

    def of(self, symbol) -> list[Constraint]:
        """What a symbol's own definition says of it."""
        if symbol.orig_type in NUMBERS:
            found = [*self.of_number(symbol)]
        elif symbol.orig_type == kconfiglib.STRING:
            is_on, written = Literal(Test("on", (symbol.name,))), self.meaning.written(symbol)
            found = [(implied(is_on, written), True), (implied(written, is_on), True)]
        else:
            found = [*self.of_switch(symbol), *self.of_choice(symbol)]
        return [Constraint(part, self.place(symbol), pulls) for formula, pulls in found for part in split(formula) if part is not True]

    def of_switch(self, symbol) -> Iterator[tuple[Formula, bool]]:
        at_least, meaning = self.meaning.symbol_at_least, self.meaning
        yield implied(at_least(symbol, 1), self.reasons(symbol, 1)), True
        levels = [1]
        if meaning.is_tristate(symbol):
            levels = [1, 2]
            modules = at_least(meaning.kconfig.modules, 2)
            is_module = Literal(Test("module", (symbol.name,)))
            # without modules an m that is reached counts as y
            yield implied(at_least(symbol, 2), any_of(self.reasons(symbol, 2), all_of(self.reasons(symbol, 1), denied(modules)))), True
            yield implied(is_module, all_of(modules, denied(at_least(symbol, 2)))), True
        if symbol.choice:
            return
        for level in levels:
            for cause in self.selected(symbol, level):
                yield implied(cause, at_least(symbol, level)), False
            for cause in self.defaulted(symbol, level):
                yield implied(cause, at_least(symbol, level)), True

    @functools.cache
    def reasons(self, symbol, level: int) -> Formula:
        """What must hold where a symbol has at least this value: it is visible, or has it by a default, an imply or a select."""
        at_least = self.meaning.at_least
        by_default = [all_of(when, at_least(condition, level), at_least(value, level))
                      for (value, condition), when in zip(symbol.defaults, self.meaning.defaults(symbol))]
        reasons = any_of(self.meaning.visible(symbol, level), *by_default, at_least(symbol.rev_dep, level))
        # an imply counts where the dependencies hold, and at y raises an m
        able = any_of(at_least(symbol.direct_dep, 1), self.reasons(symbol, 1) if level == 2 else False)
        return any_of(reasons, all_of(at_least(symbol.weak_rev_dep, level), able))

    def selected(self, symbol, level: int) -> Iterator[Formula]:
        """When a symbol has at least this value by each select."""
        for term in parts_of(symbol.rev_dep, kconfiglib.OR):
            yield self.meaning.at_least(term, level)

    def defaulted(self, symbol, level: int) -> Iterator[Formula]:
        """When a symbol has at least this value since it is hidden: by its default, and by each imply."""
        at_least = self.meaning.at_least
        hidden = denied(self.meaning.visible(symbol, 1))
        for (value, condition), when in zip(symbol.defaults, self.meaning.defaults(symbol)):
            yield all_of(hidden, when, at_least(condition, level), at_least(value, level))
        for term in parts_of(symbol.weak_rev_dep, kconfiglib.OR):
            yield all_of(hidden, at_least(term, level), at_least(symbol.direct_dep, 1))

    def of_choice(self, symbol) -> Iterator[tuple[Formula, bool]]:
        """What the choice of a symbol says of it and of the members before it."""
        choice = symbol.choice
        if not choice:
            return
        members = [member for member in choice.syms if member.orig_type in SWITCHES]
        yield from self.at_most_one([member for member in members if (member.name, False) in self.chosen], symbol)
        if self.meaning.is_tristate(choice):
            yield opened("that a choice has a member at y, where it is tristate and may be at m"), True
        elif not choice.is_optional:
            one = any_of(*[self.meaning.symbol_at_least(member, 2) for member in members])
            # (a member may be visible by a second definition, outside of the choice)
            level = 2 if self.meaning.is_tristate(symbol) else 1
            yield implied(all_of(self.meaning.choice_at_least(choice, 1), self.meaning.visible(symbol, level)), one), True

    def at_most_one(self, members: list, symbol) -> Iterator[tuple[Formula, bool]]:
        """That of these members of a choice one is on at most, told by pairs at the second of each, or of many at the last as a sum."""
        # C's Kconfig lets a select, an imply and a default set a hidden member
        free = {member.name: any_of(*self.selected(member, 1), *self.defaulted(member, 1)) for member in members}
        if len(members) > MOST_PAIRED and not any(free.values()):
            if symbol is members[-1]:
                yield Literal(Test("most", tuple(member.name for member in members), 1)), False
            return
        for other in members[:members.index(symbol)] if symbol in members else []:
            both = [denied(self.meaning.symbol_at_least(member, 2)) for member in (other, symbol)]
            yield any_of(*both, free[other.name], free[symbol.name]), False

    def of_number(self, symbol) -> Iterator[tuple[Formula, bool]]:
        meaning = self.meaning
        written, ranges = meaning.written(symbol), meaning.ranges(symbol)
        yield any_of(written, meaning.equal(symbol, 0)), True
        all_ends = []
        for (low, high, _), when in zip(symbol.ranges, ranges):
            ends = meaning.ends(symbol, low, high)
            all_ends.append(ends)
            if ends is not None:
                inside = all_of(meaning.least(symbol, ends[0]), denied(meaning.least(symbol, ends[1] + 1)))
                yield implied(all_of(written, when), inside), True
            elif meaning.kind(low) == meaning.kind(high) == "text":
                yield implied(all_of(written, when), opened(f"the range {low.str_value} to {high.str_value}")), True
            else:
                yield implied(all_of(written, when), opened(f"a range from {low.name} to {high.name}")), True
        hidden = denied(meaning.visible(symbol, 1))
        for (value, _), when in zip(symbol.defaults, meaning.defaults(symbol)):
            constant = meaning.constant(symbol, value)
            if constant is not None and all(ends and ends[0] <= constant <= ends[1] for ends in all_ends):
                yield implied(all_of(hidden, written, when), meaning.equal(symbol, constant)), True
            else:
                yield implied(all_of(hidden, written, when), opened(f"the default {value.name} of a hidden number")), True
