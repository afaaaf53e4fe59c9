"""The sentence that explains a code of a refusal, from famlint itself or else from docs/CODES.md."""
import functools
import re
from pathlib import Path
from typing import NamedTuple

from .program import NoProgram, folders_of

LINK = re.compile(r" ?\(\[[^\]]*\]\([^)]*\)\)")
FILE = re.compile(r"\[([A-Z]+\.md)\]\([^)]*\)")
ELSEWHERE = ("what its C code says", "see below", "see that table")
EXPLAINED = re.compile(r"\w+: .*? Cause: (.*?)\.? What to do: (.*?)\.?")
PLACE = re.compile(r"; at [^;.]*$")

# What to do with famlint-check itself, where CODES.md speaks of the commands of famlint.
TO_DO_HERE = {"F21": "give the model, --model=MODEL, or write out the text of one variant"}


class Sentence(NamedTuple):
    """What a code means, and what to do; either may be empty."""

    code: str
    cause: str
    to_do: str

    def says(self):
        return f"{self.code}: {self.cause}" if self.cause else self.code


def sentence_of(code, causes, advice):
    """The sentence from the causes of a code and what to do, one of each for each case; a caret says the place already."""
    causes = [PLACE.sub("", cause.replace("`", "").removeprefix("also: ")) for cause in causes]
    advice = [to_do.replace("`", "") for to_do in dict.fromkeys(advice) if to_do not in ELSEWHERE]
    return Sentence(code, "; or: ".join(causes), TO_DO_HERE.get(code, "; or: ".join(advice)))


def rows(text):
    """The rows of all tables of a document that have a column `Code`, each from the names of its columns to its cells."""
    names = []
    for line in text.splitlines():
        cells = [cell.strip().replace("\\|", "|") for cell in re.split(r"(?<!\\)\|", line)[1:-1]] if line.startswith("|") else []
        if not cells:
            names = []
        elif not names:
            names = [name.split(",")[0] for name in cells]
        elif "Code" in names and set(cells[0]) != {"-"}:
            yield dict(zip(names, cells))


def sentences(text):
    """The sentence of each code of CODES.md. Several rows of a code are one sentence."""
    found = {}
    for row in rows(text):
        parts = [FILE.sub(r"docs/\1", LINK.sub("", row.get(name, ""))) for name in ("Cause", "What to do")]
        found.setdefault(row["Code"], []).append(parts)
    return {code: sentence_of(code, *zip(*parts)) for code, parts in found.items()}


def explained_by(code, text):
    """The sentence from what `famlint explain CODE` prints, or nothing where that has another form."""
    found = EXPLAINED.fullmatch(" ".join(text.split()))
    return sentence_of(code, found[1].split(". Or: "), found[2].split(". Or: ")) if found else None


@functools.lru_cache(maxsize=None)
def document(script):
    """The sentences of the CODES.md that stands with the script, in a checkout or in an installed tree."""
    for folder in folders_of(script):
        for path in (folder.parent / "docs", folder.parent / "share/doc/famlint", folder / "share/doc/famlint"):
            try:
                return sentences(Path(path / "CODES.md").read_text(encoding="utf-8"))
            except (OSError, UnicodeDecodeError):
                continue
    return {}


@functools.lru_cache(maxsize=None)
def sentence(code, program, script):
    """The sentence of a code, as `F8` or `C2`: that of `famlint explain CODE`, or else that of CODES.md, or else the code alone."""
    told = None
    if not program.compiles:
        try:
            ran = program.run(["explain", code], lambda line: None)
            told = explained_by(code, ran.output) if ran.status == 0 else None
        except NoProgram:
            pass
    return told or document(script).get(code) or sentence_of(code, [], [])


def explained(codes, program, script):
    """The sentences of all codes of a refusal, as `F8 C2`."""
    return [sentence(code, program, script) for code in codes.split()]
