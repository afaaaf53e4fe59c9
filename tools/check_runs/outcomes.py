"""How a run ends: as famlint tells it, as a program tells it that clang compiled, and whether both tell the same."""
from __future__ import annotations

import re
from dataclasses import dataclass, field

ENDED, WAITING, STOPPED, RUNNING, OTHER = "ended", "waiting", "stopped", "running", "other"
OVERFLOW, ZERO_DIVISOR, ASSERTION = "overflow", "zero-divisor", "assertion"


@dataclass(frozen=True)
class Outcome:
    """How a run ends. A stop has a kind and a line, and a column where it is known; the end of a run, and a wait for an input, have the
    values of the variables."""
    how: str
    line: int = 0
    column: int = 0
    kind: str = ""
    values: dict[str, int] = field(default_factory=dict)
    text: str = ""

    def __str__(self) -> str:
        if self.how == STOPPED:
            return f"stopped {self.line}{f':{self.column}' if self.column else ''} {self.kind}"
        return self.text or " ".join([self.how, *(f"{name}={value}" for name, value in self.values.items())])


def values_of(words: list[str]) -> dict[str, int]:
    return {name: int(value) for name, _, value in (word.partition("=") for word in words)}


TOLD_STOP = re.compile(r"stopped (\d+):(\d+) ([a-z-]+)\n")
TOLD_PLACE = re.compile(r"(at|waiting) \d+:\d+((?: \w+=-?\d+)*)\n")
ENDING = re.compile(r"(ended|waiting)((?: \w+=-?\d+)*)\n")


def told(output: str) -> Outcome:
    """What a line of `famlint run` says."""
    stop = TOLD_STOP.fullmatch(output)
    if stop:
        return Outcome(STOPPED, int(stop[1]), int(stop[2]), stop[3])
    stands = TOLD_PLACE.fullmatch(output) or ENDING.fullmatch(output)
    if stands:
        return Outcome(RUNNING if stands[1] == "at" else stands[1], values=values_of(stands[2].split()))
    return Outcome(OTHER, text=repr(output))


# What UBSan and `assert` of the C library write, and which kind of stop it is. The quotient of the least int by -1, and its remainder,
# are overflows.
REPORTED = re.compile(r"\S+:(\d+):(\d+): runtime error: (signed integer overflow|negation of|division of|division by zero)")
KINDS = {"signed integer overflow": OVERFLOW, "negation of": OVERFLOW, "division of": OVERFLOW, "division by zero": ZERO_DIVISOR}
FAILED = re.compile(r"\S+: \S+:(\d+): .*Assertion `.*' failed\.", re.DOTALL)


def seen(output: str, errors: str) -> Outcome:
    """What a compiled program wrote."""
    stands = ENDING.fullmatch(output)
    if stands and not errors:
        return Outcome(stands[1], values=values_of(stands[2].split()))
    stop = REPORTED.match(errors)
    if stop and not output:
        return Outcome(STOPPED, int(stop[1]), int(stop[2]), KINDS[stop[3]])
    failure = FAILED.match(errors)
    if failure and not output:
        return Outcome(STOPPED, int(failure[1]), 0, ASSERTION)
    return Outcome(OTHER, text=f"{output!r} {errors[:200]!r}")


# What is no code: comments and character constants. Each becomes spaces, so that all places stay.
NO_CODE = re.compile(r"/\*.*?\*/|//[^\n]*|'(?:\\[^\n]|[^'\\\n])[^'\n]*'", re.DOTALL)


def code_of(text: str) -> str:
    return NO_CODE.sub(lambda found: re.sub(r"[^\n]", " ", found[0]), text)


def offset(text: str, line: int, column: int) -> int:
    """Where a place stands in a text of ASCII."""
    begin = 0
    for _ in range(line - 1):
        begin = text.index("\n", begin) + 1
    return begin + column - 1


def stands_in(text: str, statement: Outcome, operator: Outcome) -> bool:
    """Whether an operator belongs to the expression of the statement, of the part of a `for`, or of the test of a `do`, that begins at a place:
    no statement ends or begins between them, and neither do the parentheses of the loop; what follows an `if` or a `while` is within its own,
    and the word `do` has no expression."""
    code = code_of(text)
    begin, at = offset(code, statement.line, statement.column), offset(code, operator.line, operator.column)
    between = code[begin:at]
    if begin > at or re.search(r"[;{}]|\bdo\b", between):
        return False
    least, depth = (1 if re.match(r"(if|while)\b", code[begin:]) else 0), 0
    for it in between:
        depth += (it == "(") - (it == ")")
        if it == ")" and depth < least:
            return False
    return depth >= least


def closing_line(text: str, statement: Outcome) -> int:
    """The line of the parenthesis that closes the first one behind the place of a statement; 0 where there is none."""
    code, depth = code_of(text), 0
    for at in range(offset(code, statement.line, statement.column), len(code)):
        depth += (code[at] == "(") - (code[at] == ")")
        if code[at] == ")" and not depth:
            return code.count("\n", 0, at) + 1
    return 0


TYPE = r"(?:int32_t|signed\s+int|int\s+signed|signed|int)"
MAIN = re.compile(rf"{TYPE}\s+main\s*\(")
IN_MAIN = re.compile(rf"\b{TYPE}(?:\s+const)?\s+(\w[^;]*);")
STATIC = re.compile(r"\bstatic\b[^;]*;")


def declarators(text: str) -> list[str]:
    """The declarators of `main`. A comma stands there in declarations alone."""
    return declarators_in(MAIN.split(code_of(text))[-1])


def declarators_in(body: str) -> list[str]:
    return [it for declaration in IN_MAIN.findall(body) for it in declaration.split(",")]


def statics(text: str) -> list[str]:
    """The declarators of the `static` variables of `main`."""
    return declarators_in("".join(STATIC.findall(MAIN.split(code_of(text))[-1])))


def declared_in_main(text: str) -> set[str]:
    return {it.split("=")[0].strip() for it in declarators(text)}


def has_any_value(text: str) -> bool:
    """Whether `main` declares a variable without an initialiser that is not `static`: its value may be any, and clang need not take it from the
    inputs."""
    return any("=" not in it for it in declarators_in(STATIC.sub("", MAIN.split(code_of(text))[-1])))


def is_same(text: str, famlint: Outcome, clang: Outcome) -> bool:
    """Whether both tell of one run of this text. Of an assertion clang tells the line alone in which it ends, where a run waits no
    place, and nothing of the variables of `main`."""
    if famlint.how != clang.how or famlint.how == OTHER:
        return False
    if famlint.how != STOPPED:
        # (famlint tells all names of the family: a variable or constant that this variant does not declare stays 0)
        names = {*famlint.values, *clang.values} - declared_in_main(text)
        return all(famlint.values.get(name, 0) == clang.values.get(name, 0) for name in names)
    if famlint.kind != clang.kind:
        return False
    return closing_line(text, famlint) == clang.line if famlint.kind == ASSERTION else stands_in(text, famlint, clang)
