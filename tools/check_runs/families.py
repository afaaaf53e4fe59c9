"""Families of C programs, with their models and configurations."""
from __future__ import annotations

import itertools
import json
import random
import re
from collections.abc import Iterator
from dataclasses import dataclass
from pathlib import Path

from .outcomes import code_of, has_any_value

NO_FEATURES = '{"features": []}\n'

Configuration = dict[str, int]

DIRECTIVE = re.compile(r"^[ \t]*#[^\n]*", re.MULTILINE)


@dataclass(frozen=True)
class Family:
    """A model and a file, as texts. A made one must be accepted."""
    name: str
    model: str
    file: str
    is_made: bool

    def ranges(self) -> dict[str, tuple[int, int]]:
        """The features, each with its least and its greatest value."""
        return {it["name"]: (it.get("min", 0), it.get("max", 1)) for it in json.loads(self.model)["features"]}

    def switches(self) -> set[str]:
        return {it["name"] for it in json.loads(self.model)["features"] if "min" not in it}

    def constraints(self) -> list[str]:
        return json.loads(self.model).get("constraints", [])

    def valued(self) -> list[str]:
        """The number features that stand in the code, in whatever group: each is a constant of every variant."""
        words = set(re.findall(r"\w+", DIRECTIVE.sub("", code_of(self.file))))
        return [name for name in self.ranges() if name in words and name not in self.switches()]

    def settings(self, values: Configuration) -> list[str]:
        """The words of a configuration. A switch that is off has none."""
        return [f"{name}={value}" for name, value in values.items() if value or name not in self.switches()]

    def macros(self, values: Configuration) -> Configuration:
        """The macros of a configuration: a switch that is off is not defined."""
        return {name: value for name, value in values.items() if value or name not in self.switches()}

    def candidates(self, rng: random.Random, count: int) -> Iterator[Configuration]:
        """Configurations that may be valid, each once: all in a random order where they are few, and else some at random."""
        ranges = self.ranges()
        size = 1
        for low, high in ranges.values():
            size *= high - low + 1
        if size <= 4 * count:
            every = list(itertools.product(*(range(low, high + 1) for low, high in ranges.values())))
            rng.shuffle(every)
            yield from (dict(zip(ranges, values)) for values in every)
            return
        known = set()
        for _ in range(20 * count):
            values = tuple(rng.choice((low, high, rng.randint(low, high), rng.randint(low, high))) for low, high in ranges.values())
            if values not in known:
                known.add(values)
                yield dict(zip(ranges, values))


def examples(top: Path) -> Iterator[Family]:
    """The examples beside the program, but those with variables of any value: a file without a model has no features."""
    for folder in ("examples/families", "examples/programs", "examples"):
        for path in sorted((top / folder).glob("*.c")):
            model = path.with_suffix(".json")
            text = model.read_text() if model.exists() else NO_FEATURES
            if not has_any_value(path.read_text()):
                yield Family(str(path.relative_to(top)), text, path.read_text(), is_made=False)


# What tells most of a run: small numbers, and the ends of int.
LIMITS = (2147483647, -2147483648, 2147483646, -2147483647, 65536, 46341, -46341, 1073741824)


def inputs_of(rng: random.Random, most: int) -> list[int]:
    """What `input()` is to give, one after another."""
    kinds = (lambda: rng.randint(-3, 3), lambda: rng.randint(0, 40), lambda: rng.choice(LIMITS), lambda: rng.randint(-2**31, 2**31 - 1))
    return [rng.choices(kinds, (5, 4, 2, 1))[0]() for _ in range(rng.randint(0, most))]
