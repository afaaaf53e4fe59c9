"""What famlint prints, read: alarms, refusals, failures, and lines that are none of these."""
import re
from dataclasses import dataclass
from typing import NamedTuple, Optional


class Place(NamedTuple):
    """A line and a column, both from 1; columns in bytes."""

    line: int
    column: int


@dataclass(frozen=True)
class Alarm:
    """A line of a report. Without a model it has no region and no example."""

    path: str
    place: Place
    kind: str
    region: Optional[str] = None
    example: Optional[str] = None

    def says(self):
        return self.kind if self.region is None else f"{self.kind} if {self.region}"


@dataclass(frozen=True)
class Refusal:
    """A file or a model that famlint refuses: the code (`F8 C2`), what stands behind it (`at constraint 2`), and where."""

    path: str
    place: Place
    code: str
    detail: str = ""
    example: Optional[str] = None
    note: str = ""

    def says(self):
        return f"{self.code} {self.detail}".rstrip()


@dataclass(frozen=True)
class Failure:
    """What failed without a place: a load, a write, or want of memory. The note says more, for people."""

    path: str
    message: str
    note: str = ""


class Report(NamedTuple):
    """What the output of a run says: its alarms, and whether it is a whole report."""

    alarms: list
    is_whole: bool


ALARM = re.compile(r"(\d+):(\d+): ([^ ;]+)(?: if ([^;]*))?(?:; example (.*))?")
FILE_FAULT = re.compile(r"file: (.+?) at (\d+):(\d+)(?:; example (.*))?")
MODEL_FAULT = re.compile(r"model: (M\d+(?: C\d+)?)(?: (at (feature|constraint) (\d+)))?")
TOLD = re.compile(r"(usage|model|file|configuration|certificate|read fault): |(write fault|want of memory)$")


def report_of(path, output):
    """The report on a file. It is whole where each line is an alarm, and the last one has their number."""
    lines = output.splitlines()
    alarms = []
    for line in lines[:-1]:
        found = ALARM.fullmatch(line)
        if found is None:
            return Report(alarms, False)
        alarms.append(Alarm(path, Place(int(found[1]), int(found[2])), found[3], found[4], found[5]))
    return Report(alarms, lines[-1:] == [f"alarms: {len(alarms)}"])


def is_told(line):
    """Whether a line of the error stream is one of famlint's own, and no notice of what runs it."""
    return TOLD.match(line) is not None
