"""Calls famlint on a family."""
from __future__ import annotations

import re
import subprocess
from dataclasses import dataclass
from pathlib import Path

from .outcomes import STOPPED, Outcome, told

SECONDS = 120
DONE, ALARMS, NOT_VALID = 0, 1, 5


ALARM = re.compile(r"(\d+):(\d+): ([a-z-]+)\n")


class Refused(Exception):
    """What famlint says of words that it does not answer, with its status."""

    def __init__(self, status: int, text: str):
        super().__init__(f"status {status}, {text.strip() or 'no line'}")
        self.status = status


@dataclass(frozen=True)
class Famlint:
    """A famlint. Each call has the paths of a model and a file."""
    path: Path

    def called(self, *words: str) -> str:
        try:
            ran = subprocess.run([str(self.path), *words], stdin=subprocess.DEVNULL, capture_output=True, timeout=SECONDS, check=False)
        except subprocess.TimeoutExpired:
            raise Refused(-1, f"still running after {SECONDS} seconds") from None
        if ran.returncode not in (DONE, ALARMS):
            raise Refused(ran.returncode, ran.stderr.decode(errors="replace"))
        return ran.stdout.decode()

    def analyse(self, model: Path, file: Path) -> str:
        return self.called("analyse", str(model), str(file))

    def project(self, model: Path, file: Path, settings: list[str]) -> str:
        return self.called("project", str(model), str(file), *settings)

    def variant(self, model: Path, file: Path, settings: list[str], mode: str) -> set[str]:
        """The alarms of a variant, as the stops that may be met."""
        output = self.called("variant", f"--overflow={mode}", str(model), str(file), *settings)
        return {str(Outcome(STOPPED, int(line), int(column), kind)) for line, column, kind in ALARM.findall(output)}

    def run(self, model: Path, file: Path, settings: list[str], mode: str, steps: int, inputs: list[int]) -> Outcome:
        # (one word for each option, since a number may begin with a minus)
        options = [f"--overflow={mode}", f"--steps={steps}", *([f"--inputs={','.join(map(str, inputs))}"] if inputs else [])]
        return told(self.called("run", *options, str(model), str(file), *settings))
