"""The formats of one line for each finding: `gcc`, as compilers print, and `json`, an object a line."""
import json


class Gcc:
    """Alarms on the output, and errors on the error stream."""

    def __init__(self, out, errors):
        self.out = out
        self.errors = errors

    def alarm(self, alarm, source):
        example = "" if alarm.example is None else f" [example {alarm.example}]"
        print(f"{alarm.path}:{alarm.place.line}:{alarm.place.column}: warning: {alarm.says()}{example}", file=self.out)

    def refusal(self, refusal, source, explained):
        self.out.flush()
        example = "" if refusal.example is None else f" [example {refusal.example}]"
        place = refusal.place
        print(f"{refusal.path}:{place.line}:{place.column}: error: {refusal.says()}{example}", file=self.errors)

    def failure(self, failure):
        self.out.flush()
        print(f"{failure.path}: error: {failure.message}", file=self.errors)

    def end(self, tally):
        self.out.flush()


def text_of(text):
    """The text, with what was no UTF-8 in the name of a file marked, so that it can be told."""
    return text.encode("utf-8", "surrogateescape").decode("utf-8", "replace")


class Json:
    """Alarms and errors on the output. Columns are in bytes."""

    def __init__(self, out):
        self.out = out

    def tell(self, level, finding, **members):
        place = getattr(finding, "place", None)
        where = {} if place is None else {"line": place.line, "column": place.column}
        made = {"level": level, "file": text_of(finding.path), **where, **members}
        print(json.dumps({name: value for name, value in made.items() if value not in (None, "", [])}), file=self.out)

    def alarm(self, alarm, source):
        self.tell(
            "warning", alarm, kind=alarm.kind, region=alarm.region, example=alarm.example, source=source.words(alarm.place))

    def refusal(self, refusal, source, explained):
        self.tell(
            "error", refusal, code=refusal.code, detail=refusal.detail, example=refusal.example, note=refusal.note,
            token=source.token(refusal.place).decode("utf-8", "replace"), source=source.words(refusal.place),
            explanation=[sentence.says() for sentence in explained], to_do=[sentence.to_do for sentence in explained if sentence.to_do])

    def failure(self, failure):
        self.tell("error", failure, message=failure.message, note=failure.note)

    def end(self, tally):
        self.out.flush()
