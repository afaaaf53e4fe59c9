"""The format `sarif`: one log of SARIF 2.1.0 (OASIS Standard, 27 March 2020) on the output, behind all runs."""
import hashlib
import json
import os
import urllib.parse
from collections import Counter
from pathlib import Path

from .as_lines import text_of
from .tables import VERSION, kind_of

SCHEMA = "https://docs.oasis-open.org/sarif/sarif/v2.1.0/os/schemas/sarif-schema-2.1.0.json"


def uri_of(path):
    """The reference to a file: relative where the path is, so that a log may be read in another checkout."""
    if os.path.isabs(path):
        return Path(path).as_uri()
    return urllib.parse.quote(os.path.normpath(path), errors="surrogateescape")


def without_nothing(members):
    return {name: value for name, value in members.items() if value is not None}


def rule(name, level, short, full, to_do):
    """A rule, which each result of its kind or code points at. Each text must say something."""
    return {
        "id": name,
        "shortDescription": {"text": short or name},
        "fullDescription": {"text": full or short or name},
        "help": {"text": to_do or full or short or name},
        "defaultConfiguration": {"level": level},
    }


class Sarif:
    """Keeps all findings, and writes them at the end."""

    def __init__(self, out):
        self.out = out
        self.rules = {}
        self.results = []
        self.notifications = []
        self.met = Counter()

    def fingerprint(self, path, name, region, words):
        """What stays the same where lines move; of equal ones each has its number."""
        key = (uri_of(path), name, region or "", words)
        self.met[key] += 1
        return hashlib.sha256(json.dumps([*key, self.met[key]]).encode()).hexdigest()

    def result(self, finding, source, name, region, level, message, properties):
        place = finding.place
        self.results.append({
            "ruleId": name,
            "ruleIndex": list(self.rules).index(name),
            "level": level,
            "message": {"text": message},
            "locations": [{"physicalLocation": {
                "artifactLocation": {"uri": uri_of(finding.path)},
                "region": {"startLine": place.line, "startColumn": source.column_of_character(place)},
            }}],
            "partialFingerprints": {"famlint/v1": self.fingerprint(finding.path, name, region, source.words(place))},
            "properties": without_nothing(properties),
        })

    def alarm(self, alarm, source):
        kind = kind_of(alarm.kind)
        self.rules.setdefault(alarm.kind, rule(alarm.kind, "warning", kind.short, kind.full, kind.help))
        message = alarm.says() + ("" if alarm.example is None else f"; example {alarm.example}")
        self.result(
            alarm, source, alarm.kind, alarm.region, "warning", message, {"region": alarm.region, "example": alarm.example})

    def refusal(self, refusal, source, explained):
        name = refusal.code.replace(" ", "/")
        text = "; ".join(sentence.says() for sentence in explained)
        to_do = "; ".join(sentence.to_do for sentence in explained if sentence.to_do)
        self.rules.setdefault(name, rule(name, "error", explained[-1].cause, text, to_do))
        message = ": ".join(part for part in (refusal.says(), refusal.note, explained[-1].cause) if part)
        message += "" if refusal.example is None else f"; example {refusal.example}"
        self.result(refusal, source, name, None, "error", message, {"example": refusal.example})

    def failure(self, failure):
        text = f"{failure.message}; {failure.note}" if failure.note else failure.message
        self.notifications.append({
            "level": "error",
            "message": {"text": f"{text_of(failure.path)}: {text}"},
            "locations": [{"physicalLocation": {"artifactLocation": {"uri": uri_of(failure.path)}}}],
        })

    def end(self, tally):
        run = {
            "tool": {"driver": {"name": "famlint", "version": VERSION, "rules": list(self.rules.values())}},
            "columnKind": "unicodeCodePoints",
            "invocations": [{
                "executionSuccessful": tally.status <= 1,
                "exitCode": tally.status,
                "toolExecutionNotifications": self.notifications,
            }],
            "results": self.results,
        }
        json.dump({"$schema": SCHEMA, "version": "2.1.0", "runs": [run]}, self.out, indent=2)
        print(file=self.out)
        self.out.flush()
