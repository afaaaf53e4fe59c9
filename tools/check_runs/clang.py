"""Compiles the text of a family, or of a variant, by clang with its checks of undefined behaviour, and runs it."""
from __future__ import annotations

import re
import shutil
import subprocess
from dataclasses import dataclass
from pathlib import Path

from .outcomes import MAIN, RUNNING, TYPE, Outcome, code_of, seen

SECONDS = 20
CHECKS = ["-fsanitize=signed-integer-overflow,integer-divide-by-zero", "-fno-sanitize-recover=all"]
# In both modes the least int divided by -1 stops: clang looks at it under -fwrapv too, and at no other overflow.
MODES = {"stop": [], "wrap": ["-fwrapv"]}

# What stands beside the text: `input`, which takes the words of the command one after another, and at the end of a run, or where no word
# is left, the values of the variables. The names of the text can hide none of its own, since it is compiled apart.
BESIDE = r"""
#include <stdio.h>
#include <stdlib.h>
#include <unistd.h>

extern const char *const check_runs_names[];
extern const int *const check_runs_places[];

static char **words;

static void tell(const char *how)
{
    printf("%s", how);
    for (int k = 0; check_runs_names[k]; k++)
        printf(" %s=%d", check_runs_names[k], *check_runs_places[k]);
    printf("\n");
    fflush(stdout);
}

int input(void)
{
    if (!*words) {
        tell("waiting");
        _exit(0);
    }
    return (int)strtol(*words++, NULL, 10);
}

static void end(void)
{
    tell("ended");
}

__attribute__((constructor)) static void begin(int count, char **all)
{
    (void)count;
    words = all + 1;
    atexit(end);
}
"""

DECLARATION = re.compile(rf"\s*(?:static\s+)?(?:const\s+{TYPE}|{TYPE}\s+const|{TYPE})\s+([^()]+)", re.DOTALL)
PROTOTYPE = re.compile(rf"\b({TYPE}|void)\s+(\w+)\s*\(\s*(?:void)?\s*\)\s*;")
ENUMERATION = re.compile(r"\s*enum\s*\{([^{}]*)\}\s*", re.DOTALL)
DEFINITION = re.compile(r"^[ \t]*#[ \t]*define[ \t]+(\w+)", re.MULTILINE)


class NotCompiled(Exception):
    """What clang says of a text that it refuses."""


def named(listed: str) -> list[str]:
    """The names of a list of declarators or of enumerators."""
    return [name for it in listed.split(",") if (name := it.split("=")[0].strip())]


def declared(text: str, preprocessed: str) -> tuple[list[str], list[str]]:
    """The variables and constants of a text, of which the preprocessor keeps its definitions too: what its declarations before `main` make;
    and those that `enum` and `#define` make, which are no objects. A macro of a header is none of them."""
    before = MAIN.split(re.sub(r"^#.*", "", preprocessed, flags=re.MULTILINE))[0]
    standing = set(DEFINITION.findall(preprocessed))
    names, no_objects = [], [it for it in dict.fromkeys(DEFINITION.findall(code_of(text))) if it in standing]
    for piece in before.split(";"):
        if it := DECLARATION.fullmatch(piece):
            names += named(it[1])
        elif it := ENUMERATION.fullmatch(piece):
            no_objects += named(it[1])
    return names, no_objects


def outside(preprocessed: str) -> str:
    """Definitions of the functions that a text declares: each takes the next input, or does nothing. So no text may drop the value of one
    that has a value, since famlint takes no input for it."""
    made = {name: kind for kind, name in PROTOTYPE.findall(preprocessed) if name != "input"}
    bodies = {name: "{ }" if kind == "void" else "{ return input(); }" for name, kind in made.items()}
    return "int input(void);\n" + "".join(f"{made[name]} {name}(void) {body}\n" for name, body in bodies.items())


@dataclass(frozen=True)
class Program:
    path: Path

    def run(self, inputs: list[int]) -> Outcome:
        words = [str(self.path), *map(str, inputs)]
        try:
            ran = subprocess.run(words, stdin=subprocess.DEVNULL, capture_output=True, timeout=SECONDS, check=False)
        except subprocess.TimeoutExpired:
            return Outcome(RUNNING, text=f"still running after {SECONDS} seconds")
        return seen(ran.stdout.decode(), ran.stderr.decode(errors="replace"))


class Clang:
    """A clang, which compiles into a folder."""

    def __init__(self, name: str, folder: Path):
        self.path = shutil.which(name)
        if not self.path:
            raise NotCompiled(f"there is no {name}: the package clang of Debian")
        self.folder = folder
        (folder / "beside.c").write_text(BESIDE)
        self.called("-O1", "-c", "beside.c", "-o", "beside.o")
        (folder / "empty.c").write_text("int main(void) { }\n")
        try:
            self.called(*CHECKS, "empty.c", "-o", "empty")
        except NotCompiled as fault:
            raise NotCompiled(f"the checks can't be linked: the package libclang-rt-14-dev of Debian, for clang 14\n{fault}") from None

    def called(self, *words: str) -> str:
        ran = subprocess.run([self.path, *words], cwd=self.folder, stdin=subprocess.DEVNULL, capture_output=True, check=False)
        if ran.returncode:
            raise NotCompiled(ran.stderr.decode(errors="replace"))
        return ran.stdout.decode(errors="replace")

    def compiled(self, name: str, text: str, macros: dict[str, int], features: list[str], constraints: list[str], mode: str) -> Program:
        """A program of a text with these macros, in which each constraint of its model must be true, and which tells the values of these
        features too. What a file need not include, and famlint knows, is included before it."""
        (self.folder / f"{name}.c").write_text(text)
        given = ["-w", "-std=c11", *(f"-D{macro}={value}" for macro, value in macros.items())]
        for header, word in (("assert.h", "assert"), ("stdint.h", "int32_t")):
            given += ["-include", header] if re.search(rf"\b{word}\b", text) else []
        preprocessed = self.called(*given, "-E", "-P", "-dD", f"{name}.c")
        names, no_objects = declared(text, preprocessed)
        no_objects += features
        objects = "".join(f"static const int check_runs_{it} = {it};\n" for it in no_objects)
        places = [*names, *(f"check_runs_{it}" for it in no_objects)]
        listed = "".join(f'"{it}", ' for it in names + no_objects), "".join(f"&{it}, " for it in places)
        wrong = "".join(f'#if !({it})\n#error "a constraint is false"\n#endif\n' for it in constraints)
        (self.folder / f"{name}-{mode}.c").write_text(
            f'{wrong}#include "{name}.c"\n{objects}{outside(preprocessed)}'
            f"const char *const check_runs_names[] = {{{listed[0]}0}};\n"
            f"const int *const check_runs_places[] = {{{listed[1]}0}};\n")
        # (hidden, so that a variable with the name of a function of the C library does not take its place)
        self.called("-O0", "-fvisibility=hidden", *MODES[mode], *CHECKS, *given, f"{name}-{mode}.c", "beside.o", "-o", f"{name}-{mode}")
        return Program(self.folder / f"{name}-{mode}")
