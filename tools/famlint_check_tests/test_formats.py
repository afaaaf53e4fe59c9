"""The formats: what people see, with and without colours, and what programs read."""
import json
import os
import pty
import subprocess

from famlint_check import as_sarif
from famlint_check.sources import marked

from .sarif_rules import judged
from .support import MODEL, SCRIPT, TICKS, InFolder

TEXT = """\
tick.c:5:9: warning: overflow if FAST
    5 |     tick++;
      |         ^
  overflow: a result may not fit int
  example: FAST=1 SIZE=4
"""


class Text(InFolder):
    def setUp(self):
        super().setUp()
        self.write("tick.c", TICKS)
        self.write("model.json", MODEL)

    def test_an_alarm(self):
        self.has(self.run_script("--format=text", "--model=model.json", "tick.c"), 1, TEXT + "alarms: 1\n")

    def test_a_kind_is_explained_once(self):
        self.write("twice.c", "int a;\nint main(void)\n{\n\ta++;\n\ta++;\n}\n")
        self.has(self.run_script("--format=text", "twice.c"), 1, (
            "twice.c:4:3: warning: overflow\n    4 | \ta++;\n      | \t ^\n  overflow: a result may not fit int\n"
            "twice.c:5:3: warning: overflow\n    5 | \ta++;\n      | \t ^\n"
            "alarms: 2\n"))

    def test_a_refusal(self):
        self.write("at.c", "int main(void)\n{\n    /* \u00e4 */ @@\n}\n")
        ended = self.run_script("--format=text", "at.c")
        self.has(ended, 4, "alarms: 0; errors: 1\n", (
            "at.c:3:14: error: F10 at '@'\n    3 |     /* \u00e4 */ @@\n      |             ^\n"
            "  F10: a byte that begins no token\n"
            "  to do: leave out strings, [, ?, :, a lone &, ., and bytes that are not ASCII\n"))

    def test_a_failed_load(self):
        os.symlink("nowhere", self.folder / "link.c")
        (self.folder / "folder").mkdir()
        self.has(self.run_script("--format=text", "none.c", "folder", "link.c"), 6, "alarms: 0; errors: 3\n", (
            "none.c: error: cannot be read\n  nothing stands there\n"
            "folder: error: cannot be read\n  it is a folder\n"
            "link.c: error: cannot be read\n  it is a link to nothing\n"))

    def at_terminal(self, **environment):
        """What a terminal gets."""
        terminal, its_end = pty.openpty()
        process = subprocess.Popen(
            [str(SCRIPT), "--model=model.json", "tick.c"], cwd=self.folder, env={**self.environment, "TERM": "xterm", **environment},
            stdin=subprocess.DEVNULL, stdout=its_end, stderr=its_end)
        os.close(its_end)
        got = b""
        try:
            while True:
                part = os.read(terminal, 4096)
                if not part:
                    break
                got += part
        except OSError:
            pass  # the other end is closed
        os.close(terminal)
        self.assertEqual(process.wait(timeout=300), 1)
        return got.decode().replace("\r\n", "\n")

    def test_colours(self):
        self.assertEqual(self.at_terminal(), (
            "\033[1mtick.c:5:9:\033[0m \033[1;35mwarning:\033[0m overflow if FAST\n"
            "    5 |     tick++;\n      | \033[32m        ^\033[0m\n"
            "  overflow: a result may not fit int\n  example: FAST=1 SIZE=4\nalarms: 1\n"))

    def test_no_colours(self):
        self.assertEqual(self.at_terminal(NO_COLOR="1"), TEXT + "alarms: 1\n")
        self.assertEqual(self.at_terminal(TERM="dumb"), TEXT + "alarms: 1\n")


class Carets(InFolder):
    def test_wide_characters_take_two_columns(self):
        self.assertEqual(marked("/* \u6c34 */ x".encode(), 11, 1), ("/* \u6c34 */ x", " " * 9 + "^"))

    def test_what_a_terminal_would_obey_is_marked(self):
        self.assertEqual(marked(b"/*\x1b[2J*/ \xff", 1, 2), ("/*\ufffd[2J*/ \ufffd", "^~"))

    def test_a_long_line_is_cut(self):
        shown, under = marked(b"a" * 200 + b"@" + b"b" * 200, 201, 1)
        self.assertEqual(shown, "..." + "a" * 60 + "@" + "b" * 99 + "...")
        self.assertEqual(under, " " * 63 + "^")


class ForPrograms(InFolder):
    def setUp(self):
        super().setUp()
        self.write("tick.c", TICKS)
        self.write("model.json", MODEL)

    def log(self, *words):
        ended = self.run_script("--format=sarif", *words)
        self.assertEqual(ended.errors, "")
        log = json.loads(ended.out)
        self.assertEqual(judged(log), [])
        self.assertEqual(log["runs"][0]["invocations"][0]["exitCode"], ended.status)
        return log["runs"][0]

    def fingerprints(self):
        return [result["partialFingerprints"]["famlint/v1"] for result in self.log("--model=model.json", "tick.c")["results"]]

    def test_json(self):
        self.write("at.c", "int main(void)\n{\n    @\n}\n")
        ended = self.run_script("--format=json", "--model=model.json", "tick.c", "at.c", "none.c")
        self.assertEqual((ended.status, ended.errors), (6, ""))
        alarm, refusal, failure = [json.loads(line) for line in ended.out.splitlines()]
        self.assertEqual(alarm, {
            "level": "warning", "file": "tick.c", "line": 5, "column": 9, "kind": "overflow", "region": "FAST",
            "example": "FAST=1 SIZE=4", "source": "tick++;"})
        self.assertEqual([refusal[name] for name in ("level", "file", "line", "column", "code", "token", "source")], [
            "error", "at.c", 3, 5, "F10", "@", "@"])
        self.assertEqual(refusal["explanation"], ["F10: a byte that begins no token"])
        self.assertEqual(failure, {"level": "error", "file": "none.c", "message": "cannot be read", "note": "nothing stands there"})

    def test_sarif(self):
        run = self.log("--model=model.json", "tick.c")
        result = run["results"][0]
        self.assertEqual((result["ruleId"], result["level"]), ("overflow", "warning"))
        self.assertEqual(result["message"]["text"], "overflow if FAST; example FAST=1 SIZE=4")
        self.assertEqual(result["properties"], {"region": "FAST", "example": "FAST=1 SIZE=4"})
        self.assertEqual(result["locations"], [{"physicalLocation": {
            "artifactLocation": {"uri": "tick.c"}, "region": {"startLine": 5, "startColumn": 9}}}])
        self.assertEqual(run["tool"]["driver"]["rules"][0]["shortDescription"]["text"], "a result may not fit int")

    def test_sarif_without_alarms(self):
        self.write("quiet.c", "int main(void)\n{\n}\n")
        run = self.log("quiet.c")
        self.assertEqual((run["results"], run["invocations"][0]["executionSuccessful"]), ([], True))

    def test_sarif_of_refusals_and_failures(self):
        self.write("at.c", "int main(void)\n{\n    /* \u00e4 */ @\n}\n")
        run = self.log("at.c", "none.c")
        result, notification = run["results"][0], run["invocations"][0]["toolExecutionNotifications"][0]
        self.assertEqual((result["ruleId"], result["level"]), ("F10", "error"))
        # columns count characters here, and bytes elsewhere
        self.assertEqual(result["locations"][0]["physicalLocation"]["region"], {"startLine": 3, "startColumn": 13})
        self.assertEqual(notification["message"]["text"], "none.c: cannot be read; nothing stands there")
        self.assertFalse(run["invocations"][0]["executionSuccessful"])

    def test_fingerprints_stay_where_lines_move(self):
        before = self.fingerprints()
        self.write("tick.c", TICKS.replace("int tick;\n", "/* more */\n\nint tick;\n").replace("    tick++", "\ttick++"))
        self.assertEqual(self.fingerprints(), before)

    def test_equal_lines_have_fingerprints_of_their_own(self):
        one = self.fingerprints()
        self.write("tick.c", TICKS.replace("tick++;\n", "tick++;\n    tick++;\n"))
        two = self.fingerprints()
        self.assertEqual(two[:1], one)
        self.assertNotEqual(two[0], two[1])

    def test_references(self):
        self.assertEqual(as_sarif.uri_of("./a b/\u00e4:1.c"), "a%20b/%C3%A4%3A1.c")
        self.assertEqual(as_sarif.uri_of("/src/a.c"), "file:///src/a.c")

    def test_the_validator_sees_faults(self):
        log = json.loads(self.run_script("--format=sarif", "tick.c").out)
        log["runs"][0]["results"][0]["level"] = "loud"
        del log["runs"][0]["tool"]["driver"]["name"]
        log["runs"][0]["results"][0]["locations"][0]["physicalLocation"]["region"]["startLine"] = 0
        told = " ".join(judged(log))
        for place in ("level", "name", "startLine"):
            self.assertIn(place, told)
