"""Compares the runs of a family's variants by famlint with those of what clang compiles."""
from __future__ import annotations

import random
from collections import Counter
from collections.abc import Iterator
from dataclasses import dataclass, field
from pathlib import Path

from .clang import MODES, Clang, NotCompiled
from .famlint import NOT_VALID, Famlint, Refused
from .families import Configuration, Family, inputs_of
from .outcomes import RUNNING, STOPPED, Outcome, is_same

MOST_INPUTS = 12


@dataclass
class Counts:
    """What was compared: families, configurations, texts compiled, runs by how they end, and what was left out."""
    families: int = 0
    refused: int = 0
    configurations: int = 0
    texts: int = 0
    runs: Counter = field(default_factory=Counter)
    beyond: int = 0

    def add(self, other: Counts) -> None:
        self.families += other.families
        self.refused += other.refused
        self.configurations += other.configurations
        self.texts += other.texts
        self.runs += other.runs
        self.beyond += other.beyond

    def __str__(self) -> str:
        ways = ", ".join(f"{count} {way}" for way, count in sorted(self.runs.items()))
        return (f"{self.families} families, {self.configurations} configurations, {self.texts} programs compiled, "
                f"{sum(self.runs.values())} runs of them compared ({ways}), {self.beyond} left out for the limit of steps, "
                f"{self.refused} files that are not analysed")


@dataclass
class Comparison:
    """How each family is looked at, and by which programs."""
    famlint: Famlint
    clang: Clang
    folder: Path
    seed: int
    configurations: int
    runs: int
    steps: int

    def compare(self, number: int, family: Family) -> tuple[Counts, list[str]]:
        """What was compared of a family, with a line for each disagreement."""
        counts = Counts()
        name = f"{number:04}"
        model, file = self.folder / f"{name}.json", self.folder / f"{name}.given.c"
        model.write_text(family.model)
        file.write_text(family.file)
        try:
            self.famlint.analyse(model, file)
        except Refused as fault:
            counts.refused += 1
            return counts, [f"{family.name}: is made within the language, and refused: {fault}"] if family.is_made else []
        counts.families += 1
        rng = random.Random(f"{self.seed} {family.name}")
        wrong = []
        try:
            for values in self.valid(family, model, file, rng):
                counts.configurations += 1
                wrong += self.variant(family, values, name, (model, file), rng, counts)
        except Refused as fault:
            wrong.append(f"{family.name}: famlint answers nothing: {fault}")
        return counts, wrong

    def valid(self, family: Family, model: Path, file: Path, rng: random.Random) -> Iterator[Configuration]:
        """Some valid configurations. That they are is famlint's word, and clang looks at each constraint again."""
        found = 0
        for values in family.candidates(rng, self.configurations):
            try:
                self.famlint.project(model, file, family.settings(values))
            except Refused as fault:
                if fault.status != NOT_VALID:
                    raise
                continue
            yield values
            found += 1
            if found == self.configurations:
                return

    def variant(self, family: Family, values: Configuration, name: str, paths: tuple[Path, Path], rng: random.Random,
                counts: Counts) -> list[str]:
        """A line for each disagreement about one variant, compiled from the file itself and from what `project` prints of it."""
        settings = family.settings(values)
        features = family.valued()
        # (what `project` prints has no conditions, but still the features of the code)
        defined = {name: values[name] for name in features}
        projected = self.famlint.project(*paths, settings)
        texts = {"file": (family.file, family.macros(values), family.constraints()), "project": (projected, defined, [])}
        inputs = [[], *(inputs_of(rng, MOST_INPUTS) for _ in range(self.runs - 1))]
        wrong = []
        for mode in MODES:
            by_famlint = [self.famlint.run(*paths, settings, mode, self.steps, given) for given in inputs]
            alarms = self.famlint.variant(*paths, settings, mode)
            wrong += [f"{family.name}, {' '.join(settings)}, {mode}, inputs {given}: {run}, which `variant` does not tell"
                      for given, run in zip(inputs, by_famlint) if run.how == STOPPED and str(run) not in alarms]
            for role, (text, macros, constraints) in texts.items():
                of = f"{family.name}, {' '.join(settings) or 'no setting'}, {mode}, {role}"
                try:
                    program = self.clang.compiled(f"{name}-{role}", text, macros, features, constraints, mode)
                except NotCompiled as fault:
                    wrong.append(f"{of}: clang refuses it: {fault}")
                    continue
                counts.texts += 1
                for given, famlint in zip(inputs, by_famlint):
                    wrong += self.run(of, text, given, famlint, program.run, counts)
        return wrong

    @staticmethod
    def run(of: str, text: str, given: list[int], famlint: Outcome, program, counts: Counts) -> list[str]:
        if famlint.how == RUNNING:
            counts.beyond += 1
            return []
        clang = program(given)
        counts.runs[famlint.kind if famlint.how == STOPPED else famlint.how] += 1
        if is_same(text, famlint, clang):
            return []
        return [f"{of}, inputs {','.join(map(str, given)) or 'none'}: famlint: {famlint}; clang: {clang}"]
