"""What the conditions of C files ask."""
from __future__ import annotations

import re
from collections.abc import Iterator
from dataclasses import dataclass
from pathlib import Path

from .limits import NAME, NoModel


@dataclass(frozen=True)
class Use:
    """A name of a condition: where it stands, and whether the condition asks whether it is defined."""
    name: str
    place: str
    asks_defined: bool


HIDDEN = re.compile(r"//[^\n]*|/\*.*?\*/|\"(?:\\.|[^\"\\\n])*\"|'(?:\\.|[^'\\\n])*'", re.DOTALL)
DIRECTIVE = re.compile(r"\s*#\s*(if|ifdef|ifndef|elif|elifdef|elifndef)(?!\w)(.*)")
DEFINED = re.compile(r"(?<!\w)defined\s*\(?\s*$")


def conditions(file: str) -> Iterator[tuple[int, str, str]]:
    """The conditions of a C file: the line, the word of the directive, and what stands behind it, without comments."""
    try:
        text = Path(file).read_text(encoding="utf-8", errors="replace")
    except OSError as fault:
        raise NoModel(f"{file}: {fault.strerror}") from fault
    # a line that goes on counts as one, and so does one with a comment of several lines
    text = re.sub(r"\\\r?\n", "\0", text)
    text = HIDDEN.sub(lambda found: " " + re.sub(r"[^\n\0]", "", found[0]).replace("\n", "\0"), text)
    at = 1
    for line in text.split("\n"):
        found = DIRECTIVE.match(line.replace("\0", " "))
        if found:
            yield at, found[1], found[2]
        at += 1 + line.count("\0")


def uses(file: str) -> Iterator[Use]:
    for line, word, condition in conditions(file):
        for found in NAME.finditer(condition):
            asks = word not in ("if", "elif") or bool(DEFINED.search(condition[:found.start()]))
            if found[0] != "defined":
                yield Use(found[0], f"{file}:{line}", asks)
            if word not in ("if", "elif"):
                break


COMPARED = re.compile(r"\s*([<>=!]=?)\s*(-?\s*\d+)\s*(?=[)&|]|$)")
COMPARING = re.compile(r"(?:^|[(&|])\s*(-?\d+)\s*([<>=!]=?)\s*$")
ALONE = re.compile(r"\s*(?:[)&|]|$)")
TURNED = {"<": ">", ">": "<", "<=": ">=", ">=": "<="}


def thresholds(condition: str, found: re.Match) -> list:
    """The bounds of the tests that a condition asks of a number where its name is found, or two of its own where that is not plain."""
    behind, before = COMPARED.match(condition[found.end():]), COMPARING.search(condition[:found.start()])
    if behind and not before:
        operator, bound = behind[1], int(behind[2].replace(" ", ""))
    elif before and ALONE.match(condition[found.end():]):
        operator, bound = TURNED.get(before[2], before[2]), int(before[1])
    else:
        return [(condition, found.start()), (condition, found.end())]
    return [bound, bound + 1] if operator in ("==", "!=") else [bound + (operator in (">", "<="))]
