"""Runs famlint on each file, and hands what it finds to a format."""
import os
import sys
from dataclasses import dataclass

from . import baseline, codes, words
from .as_lines import Gcc, Json
from .as_sarif import Sarif
from .as_text import Text
from .findings import FILE_FAULT, MODEL_FAULT, Failure, Place, Refusal, report_of
from .model_places import fault_in
from .program import NOT_RUN, NoProgram, find
from .sources import Source

NOT_UNICODE = 10


@dataclass
class Tally:
    """What a check came to."""

    status: int = 0
    alarms: int = 0
    known: int = 0
    mended: int = 0
    errors: int = 0

    def others(self):
        return (("known", self.known), ("known and mended", self.mended), ("errors", self.errors))

    def meets(self, status):
        self.status = max(self.status, status)


def why_not_loaded(path):
    """Why a path can't be loaded, as far as it can be seen."""
    if not os.path.lexists(path):
        return "nothing stands there"
    if os.path.isdir(path):
        return "it is a folder"
    if not os.path.exists(path):
        return "it is a link to nothing"
    return "" if os.access(path, os.R_OK) else "it may not be read"


class Check:
    """One check of all files."""

    def __init__(self, request, program, script, form):
        self.request = request
        self.program = program
        self.script = script
        self.form = form
        self.tally = Tally()
        self.noticed = set()
        self.found = []
        self.reported = []
        self.known = baseline.Known(request.own["baseline"]) if "baseline" in request.own else None
        self.is_quiet = "write-baseline" in request.own and self.known is None

    def notice(self, line):
        """Passes on, once, what is not famlint's own."""
        if line not in self.noticed:
            self.noticed.add(line)
            print(line, file=sys.stderr, flush=True)

    def all(self):
        """Looks at each file, up to a fault that each other file would have too."""
        for file in self.request.files:
            ran = self.program.run(self.request.command(file), self.notice)
            if ran.status <= 1:
                self.report(file, ran)
            else:
                self.tally.meets(ran.status)
                if self.is_of_all(file, ran):
                    break
        if self.known:
            self.tally.mended = self.known.mended(self.reported)

    def report(self, file, ran):
        """The alarms of a file."""
        report = report_of(file, ran.output)
        if not report.is_whole or ran.status != bool(report.alarms):
            self.fail(Failure(file, f"{self.program.path} prints no report", "is it famlint?"), NOT_RUN)
            return
        self.reported.append(file)
        source = Source(file)
        for alarm in report.alarms:
            self.found.append((alarm, source))
            if self.is_quiet or self.known and self.known.takes(alarm, source):
                self.tally.known += 1
                continue
            self.tally.meets(1)
            self.tally.alarms += 1
            self.form.alarm(alarm, source)

    def fail(self, failure, status):
        self.tally.meets(status)
        self.tally.errors += 1
        self.form.failure(failure)

    def refuse(self, refusal, source):
        self.tally.errors += 1
        self.form.refusal(refusal, source, codes.explained(refusal.code, self.program, self.script))

    def is_of_all(self, file, ran):
        """Tells why a run has no report, and says whether that is so for each file."""
        if any(line.startswith("usage: ") for line in ran.told):
            raise words.BadWords(words.refused_by_famlint(self.request))
        for line in ran.told:
            in_file, in_model = FILE_FAULT.fullmatch(line), MODEL_FAULT.fullmatch(line)
            if in_file:
                self.refuse_file(file, in_file)
                return False
            if in_model:
                self.refuse_model(in_model)
                return True
            if line.startswith("read fault: "):
                is_model = line == "read fault: model"
                path = self.request.model() if is_model else file
                self.fail(Failure(path, "cannot be read", why_not_loaded(path)), ran.status)
                return is_model
        self.fail(Failure(file, *told_of(ran)), ran.status)
        return ran.status >= NOT_RUN

    def refuse_file(self, file, told):
        """Tells a fault of a file."""
        source = Source(file)
        place = Place(int(told[2]), int(told[3]))
        self.refuse(Refusal(file, place, told[1], example=told[4], note=note_at(source, place, told[1])), source)

    def refuse_model(self, told):
        """Tells a fault of the model at its place in the text."""
        model = self.request.model()
        source = Source(model)
        place, note = fault_in(source.text, told[1], int(told[4] or 0))
        if told[1] == "M1" and is_swapped(model, self.request.files):
            note = "this is the model, and a FILE has the name of one: are they swapped?"
        self.refuse(Refusal(model, place, told[1], told[2] or "", note=note), source)


def note_at(source, place, code):
    """What else is to be seen at the place of a fault of a file."""
    if source.text.startswith(b"\xef\xbb\xbf"):
        return "the file begins with a byte order mark; save it without one"
    line = source.open_line(place) if code == "F12" else None
    return f"is a ; missing at the end of line {line}?" if line else ""


def is_swapped(model, files):
    return not model.endswith(".json") and any(file.endswith(".json") for file in files)


def told_of(ran):
    """What to tell of a run that ended without a report, and more of it."""
    if ran.told:
        return ran.told[0], ""
    if ran.status == NOT_UNICODE:
        return "famlint does not get the words", "is the name of the file, or of the model, no UTF-8?"
    return f"famlint ended with {ran.status}, and said nothing", ""


def form_of(name):
    """The format of this name; by default that for people at a terminal, and else that of compilers."""
    if name is None:
        name = "text" if sys.stdout.isatty() else "gcc"
    if name == "sarif":
        return Sarif(sys.stdout)
    if name == "json":
        return Json(sys.stdout)
    return (Text if name == "text" else Gcc)(sys.stdout, sys.stderr)


def write_known(check):
    """Writes the baseline, if one is asked for and no file was refused."""
    path = check.request.own.get("write-baseline")
    if path is None:
        return
    if check.tally.status > 1:
        print(f"{path}: error: the baseline is not written, since not all files have a report", file=sys.stderr)
        return
    folder = baseline.folder_of(path)
    baseline.write(path, [baseline.key_of(alarm, source, folder) for alarm, source in check.found])
    print(f"{path}: alarms written: {len(check.found)}", file=sys.stderr)


def run(request, script):
    """Checks all files, and answers the status."""
    try:
        check = Check(request, find(script), script, form_of(request.own.get("format")))
        check.all()
        check.form.end(check.tally)
        write_known(check)
    except NoProgram as fault:
        print(f"famlint-check: error: {fault}", file=sys.stderr)
        return fault.status
    except baseline.NoBaseline as fault:
        print(fault, file=sys.stderr)
        return fault.status
    return check.tally.status
