"""What --check looks at: the cases by hand, and whether outcomes that differ are told."""
from __future__ import annotations

from collections.abc import Iterator
from pathlib import Path

from .cases import CASES, COMPARED, OUTCOMES, Case
from .clang import MODES, Clang, NotCompiled
from .comparing import Comparison, Counts
from .famlint import Famlint, Refused
from .families import Family
from .outcomes import OTHER, RUNNING, STOPPED, Outcome, is_same, seen, told

STEPS = 1000


def short(outcome: Outcome) -> str:
    """An outcome as a case has it."""
    if outcome.how == STOPPED:
        return f"{outcome.line} {outcome.kind}"
    return str(outcome)


def by_clang(clang: Clang, name: str, case: Case, mode: str) -> Outcome:
    family = Family(case.name, case.model, case.text, is_made=False)
    values = {it.split("=")[0]: int(it.split("=")[1]) for it in case.settings}
    try:
        return clang.compiled(name, case.text, values, family.valued(), family.constraints(), mode).run(list(case.inputs))
    except NotCompiled as fault:
        return Outcome(OTHER, text=str(fault))


def by_famlint(famlint: Famlint, folder: Path, case: Case, mode: str) -> Outcome:
    model, file = folder / "case.json", folder / "case.given.c"
    model.write_text(case.model)
    file.write_text(case.text)
    try:
        return famlint.run(model, file, list(case.settings), mode, STEPS, list(case.inputs))
    except Refused as fault:
        return Outcome(OTHER, text=str(fault))


def wrong_cases(clang: Clang, famlint: Famlint | None, folder: Path) -> Iterator[str]:
    """A line for each case whose outcome is another. Of a stop clang tells where the operator stands, so the statement is looked at too, and
    of values only those of names that the variant declares."""
    for number, case in enumerate(CASES):
        for mode in MODES:
            wanted = case.stop if mode == "stop" else case.wrap
            outcomes = {"clang": by_clang(clang, f"case{number}", case, mode)}
            if famlint:
                outcomes["famlint"] = by_famlint(famlint, folder, case, mode)
                if not is_same(case.text, outcomes["famlint"], outcomes["clang"]):
                    yield f"{case.name}, {mode}: famlint: {outcomes['famlint']}; clang: {outcomes['clang']}"
            for who, outcome in outcomes.items():
                # (of a statement of several lines clang has the line of the operator, or the last one)
                if short(outcome) != wanted and not (who == "clang" and is_same(case.text, by_hand(wanted), outcome)):
                    yield f"{case.name}, {mode}: by hand: {wanted}; {who}: {short(outcome)}"


def by_hand(wanted: str) -> Outcome:
    """The outcome of a case: a stop is at the first column of its line."""
    line, _, kind = wanted.partition(" ")
    return Outcome(STOPPED, int(line), 1, kind) if line.isdigit() else told(f"{wanted}\n")


def wrong_outcomes() -> Iterator[str]:
    """A line for each two outcomes that are not told to be the same or to differ as they are."""
    for output, written, errors, is_wanted in OUTCOMES:
        counts = Counts()
        lines = Comparison.run("a run", COMPARED, [], told(output), lambda given: seen(written, errors), counts)
        if is_wanted != (not lines) or counts.beyond or sum(counts.runs.values()) != 1:
            yield f"{output!r} and {written!r}, {errors!r}: {lines or 'taken for the same'}"
    counts = Counts()
    if Comparison.run("a run", COMPARED, [], told("at 3:5 x=0 y=0\n"), seen, counts) or counts.beyond != 1 or counts.runs:
        yield f"a run that is not done is not left out: {RUNNING}"


def checked(clang: Clang, famlint: Famlint | None, folder: Path) -> int:
    """Looks at all, and prints what is wrong and one line; the status."""
    wrong = [*wrong_cases(clang, famlint, folder), *wrong_outcomes()]
    for line in wrong:
        print(line)
    by = "clang and famlint" if famlint else "clang alone, since there is no program"
    print(f"{len(CASES)} cases in both modes by {by}, {len(OUTCOMES)} pairs of outcomes: {len(wrong)} wrong")
    return 1 if wrong else 0
