"""A feature model of the symbols that C files ask for, and its text."""
from __future__ import annotations

import argparse
import json
import os
import re
import sys
from collections.abc import Iterator

import kconfiglib

from .c_files import DEFINED, Use, conditions, thresholds, uses
from .formulas import Feature, Formula, Joined, Literal, Test, denied, is_possible, split, tests_of, weakened
from .limits import BYTES, CONSTRAINTS, END, FEATURES, NAME, NoModel, OPERATORS, TESTS
from .meaning import Meaning, NUMBERS
from .names import Names
from .rules import Constraint, Rules


class Model:
    """A model that grows: the features, and the constraints that can be said of them."""

    def __init__(self, kconfig: kconfiglib.Kconfig, prefixes: list[str], most: int):
        self.kconfig = kconfig
        self.most = most
        self.meaning = Meaning(kconfig)
        self.chosen: set[Feature] = set()
        self.rules = Rules(self.meaning, self.place, self.chosen)
        self.names = Names(self.meaning, prefixes)
        self.told: set[tuple[str, str]] = set()

    def place(self, item) -> str:
        node = item.nodes[0]
        return f"{os.path.normpath(os.path.join(self.kconfig.srctree, node.filename))}:{node.linenr}"

    def warn(self, place: str, text: str) -> None:
        if (place, text) not in self.told:
            self.told.add((place, text))
            print(f"{place}: warning: {text}", file=sys.stderr)

    # -- features

    def take(self, files: list[str]) -> None:
        """Makes features of the symbols that the files name."""
        unknown = set()
        for use in [use for file in files for use in uses(file)]:
            feature = self.names.take(use.name)
            if feature is not None:
                self.chosen.add(feature)
                self.tell(self.kconfig.syms[feature[0]], use)
            elif use.name not in unknown:
                unknown.add(use.name)
                self.warn(use.place, f"{use.name} is the macro of no symbol, and no feature: it counts as 0")
        count = sum(len(names) for names in self.names.used.values())
        if not count:
            raise NoModel("no condition of the files names a symbol of the Kconfig file")
        if count > FEATURES:
            raise NoModel(f"the conditions name {count} symbols, and a model has at most {FEATURES} features: make one of fewer files")

    def tell(self, symbol, use: Use) -> None:
        """Says how a named symbol is treated that is not exactly a switch or a number."""
        place, name = self.place(symbol), use.name
        if symbol.orig_type == kconfiglib.STRING:
            self.warn(place, f"{name} is a string: a switch, which is on where Kconfig defines the macro; its text is not in the model")
        elif self.meaning.is_tristate(symbol):
            self.warn(place, f"{symbol.name} is tristate: its macro is on at y, and at m the macro with _MODULE behind it")
        elif symbol.orig_type in NUMBERS:
            if self.is_wide(symbol):
                self.warn(place, f"{name} has no range from {-END} to {END} that always holds: "
                          "a value past these ends counts as the end")
            if use.asks_defined and is_possible(denied(self.meaning.written(symbol))):
                self.warn(use.place, f"Kconfig may leave {name} undefined, and in a model a number is always defined: it is 0 then")

    def is_wide(self, symbol) -> bool:
        return any(abs(end) > END for end in self.meaning.hull(symbol))

    def can_be(self, test: Test) -> bool:
        """Whether a model could have what this test asks."""
        symbols = [self.kconfig.syms[name] for name in test.names]
        return test.kind != "open" and all(
            (symbol.name, False) in self.chosen or symbol.orig_type not in NUMBERS or not self.is_wide(symbol) for symbol in symbols)

    def asked(self, constraint: Constraint) -> Formula:
        """A constraint without what no model can say, which is told."""
        for test in tests_of(constraint.formula):
            if test.kind == "open" and test.said:
                self.warn(constraint.place, f"left out: {test.said}")
            elif not self.can_be(test):
                for name in test.names:
                    self.warn(constraint.place, f"left out: conditions on {name}, a number without a range within {-END} to {END}")
        return weakened(constraint.formula, self.can_be)

    def lacking(self, formula: Formula) -> list[Feature]:
        return list(dict.fromkeys(
            feature for test in tests_of(formula) for feature in test.features() if feature not in self.chosen))

    def grow(self) -> None:
        """Adds what the features depend on; of the constraints that lack features the one that lacks the fewest goes first."""
        seen: set[str] = set()
        waiting: list[tuple[object, Formula]] = []
        while True:
            for symbol in self.symbols():
                if symbol.name not in seen:
                    seen.add(symbol.name)
                    waiting += [(symbol, self.asked(it)) for it in self.rules_of(symbol) if it.pulls]
            waiting = [it for it in waiting if self.lacking(it[1])]
            pulling = [(symbol, self.lacking(formula)) for symbol, formula in waiting if not self.is_of_lacking_m(symbol, formula)]
            if not pulling:
                return
            fewest = min((lacking for _, lacking in pulling), key=len)
            if self.count() + len(fewest) > self.most:
                break
            self.chosen.update(fewest)
        for symbol, lacking in pulling:
            names = [self.names.of(feature) for feature in lacking]
            more = f" and {len(names) - 3} more" if len(names) > 3 else ""
            self.warn(self.place(symbol), f"left out: a constraint with {', '.join(names[:3])}{more}, past {self.most} features")

    def rules_of(self, symbol) -> list[Constraint]:
        for name in undefined(symbol):
            self.warn(self.place(symbol), f"{name} is defined nowhere in the Kconfig file: it counts as n, as for Kconfig")
        return self.rules.of(symbol)

    def is_of_lacking_m(self, symbol, formula: Formula) -> bool:
        """Whether a constraint of a symbol says what its m needs, which is no feature."""
        parts = formula.parts if isinstance(formula, Joined) else (formula,)
        return (symbol.name, True) not in self.chosen and Literal(Test("module", (symbol.name,)), False) in parts

    def count(self) -> int:
        return sum(len(self.names.used.get(feature, [""])) for feature in self.chosen)

    def symbols(self) -> list:
        """The symbols of the features, in the order of the Kconfig file."""
        chosen = {name for name, _ in self.chosen}
        return [symbol for symbol in self.kconfig.unique_defined_syms if symbol.name in chosen]

    def features(self) -> Iterator[dict]:
        for symbol in self.symbols():
            for feature in [(symbol.name, False), (symbol.name, True)]:
                if feature in self.chosen:
                    for name in self.names.used.get(feature) or [self.names.of(feature)]:
                        yield {"name": name, **self.ends(symbol)}

    def ends(self, symbol) -> dict[str, int]:
        if symbol.orig_type not in NUMBERS:
            return {}
        low, high = (max(-END, min(END, end)) for end in self.meaning.hull(symbol))
        return {"min": int(low), "max": int(high)}

    # -- constraints

    def text(self, formula: Formula, is_inner: bool = False) -> str:
        if isinstance(formula, Joined):
            texts = [self.text(part, formula.is_and) for part in formula.parts]
            inner = (" && " if formula.is_and else " || ").join(texts)
            return f"({inner})" if is_inner and not formula.is_and else inner
        assert isinstance(formula, Literal)
        test, holds = formula.test, formula.holds
        names = [self.names.of(feature) for feature in test.features()]
        if test.kind in ("on", "module"):
            return names[0] if holds else "!" + names[0]
        if test.kind == "most":
            return f"{' + '.join(names)} {'<=' if holds else '>'} {test.bound}"
        if test.kind == "equal":
            return f"{names[0]} {'==' if holds else '!='} {names[1] if names[1:] else test.bound}"
        if names[1:]:
            return f"{names[0]} {'>=' if holds else '<'} {names[1]}"
        return f"{names[0]} >= {test.bound}" if holds else f"{names[0]} <= {test.bound - 1}"

    def is_chosen(self, test: Test) -> bool:
        return test.kind != "open" and all(feature in self.chosen for feature in test.features())

    def constraints(self, files: list[str]) -> list[str]:
        """The constraints as far as the limits go, each told where it does not."""
        by_file = [set(self.asked_by(file)) for file in files]
        tests = {(pair, bound) for pair in self.pairs() for bound in (0, 1)}
        found: dict[str, None] = dict.fromkeys(self.equalities())
        for it in [it for symbol in self.symbols() for it in self.rules.of(symbol)]:
            for formula in split(weakened(it.formula, self.is_chosen)):
                if formula is True or self.text(formula) in found:
                    continue
                text = self.text(formula)
                more = tests.union(*map(self.tests_of, tests_of(formula)))
                limit = (f"{CONSTRAINTS} constraints" if len(found) >= CONSTRAINTS else
                         f"{OPERATORS} operators of a condition" if operators(text) > OPERATORS else
                         f"{TESTS} tests of the model and a file" if any(len(more | its) > TESTS for its in by_file) else None)
                if limit is None:
                    found[text] = None
                    tests = more
                else:
                    self.warn(it.place, f"left out: {text[:60]}{'..' if text[60:] else ''}, past {limit}")
        return list(found)

    def pairs(self) -> Iterator[tuple[str, str]]:
        """Each two names of one symbol."""
        for first, *others in self.names.used.values():
            yield from ((first, other) for other in others)

    def equalities(self) -> Iterator[str]:
        for first, other in self.pairs():
            if self.kconfig.syms[self.names.features[first][0]].orig_type in NUMBERS:
                yield f"{first} == {other}"
            else:
                yield from (f"!{first} || {other}", f"!{other} || {first}")

    def tests_of(self, test: Test) -> list[tuple]:
        """What a test takes of the tests that a model may have: `==` takes two."""
        names = tuple(self.names.of(feature) for feature in test.features())
        return [(names, bound) for bound in ([test.bound, test.bound + 1] if test.kind == "equal" else [test.bound])]

    def asked_by(self, file: str) -> Iterator[tuple]:
        """The tests that the conditions of a file ask, at most."""
        for _, word, condition in conditions(file):
            for found in NAME.finditer(condition):
                feature = self.names.features.get(found[0])
                if feature is None:
                    continue
                if self.kconfig.syms[feature[0]].orig_type not in NUMBERS:
                    yield (found[0],), 0
                elif word in ("if", "elif") and not DEFINED.search(condition[:found.start()]):
                    yield from (((found[0],), bound) for bound in thresholds(condition, found))


def undefined(symbol) -> list[str]:
    """The names in the conditions of a symbol's own properties that no symbol has; in comparisons Kconfig takes them as texts."""
    conditions_of = [node.prompt[1] for node in symbol.nodes if node.prompt]
    conditions_of += [condition for *_, condition in (*symbol.defaults, *symbol.ranges)]
    items = {item for condition in conditions_of for item in kconfiglib.expr_items(condition)}
    return sorted(item.name for item in items if isinstance(item, kconfiglib.Symbol) and not item.is_constant and not item.nodes
                  and re.fullmatch("[A-Z][A-Z0-9_]*", item.name))


def operators(text: str) -> int:
    return len(re.findall(r"&&|\|\||[<>=!]=|[-+!<>(]", text))


def json_of(features: list[dict], constraints: list[str]) -> str:
    def lines(items: list) -> str:
        return "".join(f"\n    {json.dumps(item)}," for item in items).removesuffix(",") + ("\n  " if items else "")
    return f'{{\n  "features": [{lines(features)}],\n  "constraints": [{lines(constraints)}]\n}}\n'


def read(kconfig: str) -> kconfiglib.Kconfig:
    folder = os.environ.setdefault("srctree", os.path.dirname(kconfig) or ".")
    try:
        return kconfiglib.Kconfig(os.path.relpath(kconfig, folder), warn_to_stderr=False)
    except (kconfiglib.KconfigError, OSError, UnicodeDecodeError) as fault:
        raise NoModel(" ".join(str(fault).split())) from fault


def made(words: argparse.Namespace) -> str:
    model = Model(read(words.kconfig), words.prefix or ["CONFIG_", ""], words.features)
    model.take(words.files)
    model.grow()
    features, constraints = list(model.features()), model.constraints(words.files)
    text = json_of(features, constraints)
    while len(text) > BYTES and constraints:
        model.warn(words.kconfig, f"left out: {constraints.pop()[:60]}.., past {BYTES} bytes")
        text = json_of(features, constraints)
    return text
