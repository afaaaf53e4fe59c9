"""Known alarms: they stay known where lines move, are no fault where they are mended, and new ones count."""
import json
import os

from .support import MODEL, TICKS, InFolder

MASK = os.umask(0o022)
os.umask(MASK)


class Baselines(InFolder):
    def setUp(self):
        super().setUp()
        self.write("tick.c", TICKS)
        self.has(self.run_script("--write-baseline=known.json", "tick.c"), 0, "", "known.json: alarms written: 1\n")

    def test_what_is_written(self):
        self.assertEqual(json.loads((self.folder / "known.json").read_text()), {
            "format": "famlint-check baseline 1",
            "alarms": [{"file": "tick.c", "kind": "overflow", "region": "", "source": "tick++;"}]})
        self.assertEqual((self.folder / "known.json").stat().st_mode & 0o777, 0o666 & ~MASK)

    def test_known(self):
        self.has(self.run_script("--baseline", "known.json", "tick.c"), 0)

    def test_known_where_lines_move(self):
        self.write("tick.c", "/* more */\n\n" + TICKS.replace("    tick++", "\t\ttick++"))
        self.has(self.run_script("--baseline=known.json", "tick.c"), 0)

    def test_known_from_another_folder(self):
        (self.folder / "deep").mkdir()
        self.has(self.run_script("--baseline=../known.json", "../tick.c", folder=self.folder / "deep"), 0)
        self.has(self.run_script("--baseline=../known.json", str(self.folder / "tick.c"), folder=self.folder / "deep"), 0)

    def test_new(self):
        self.write("tick.c", TICKS.replace("tick++;\n", "tick++;\n    other++;\n"))
        self.has(self.run_script("--baseline=known.json", "tick.c"), 1, "tick.c:6:10: warning: overflow\n")

    def test_one_more_of_the_same_is_new(self):
        self.write("tick.c", TICKS.replace("tick++;\n", "tick++;\n    tick++;\n"))
        self.has(self.run_script("--baseline=known.json", "tick.c"), 1, "tick.c:6:9: warning: overflow\n")

    def test_another_region_is_new(self):
        self.write("model.json", MODEL)
        self.has(
            self.run_script("--baseline=known.json", "--model=model.json", "tick.c"), 1,
            "tick.c:5:9: warning: overflow if FAST [example FAST=1 SIZE=4]\n")

    def test_in_another_file_it_is_new(self):
        self.write("tock.c", TICKS)
        self.has(self.run_script("--baseline=known.json", "tick.c", "tock.c"), 1, "tock.c:5:9: warning: overflow\n")

    def test_mended(self):
        self.write("tick.c", "int main(void)\n{\n}\n")
        self.has(self.run_script("--baseline=known.json", "tick.c"), 0)
        self.has(self.run_script("--baseline=known.json", "--format=text", "tick.c"), 0, "alarms: 0; known and mended: 1\n")

    def test_of_a_refused_file_nothing_is_mended(self):
        self.write("tick.c", "@\n")
        self.assertEqual(self.run_script("--baseline=known.json", "--format=text", "tick.c").out, "alarms: 0; errors: 1\n")

    def test_counts(self):
        self.has(self.run_script("--baseline=known.json", "--format=text", "tick.c"), 0, "alarms: 0; known: 1\n")

    def test_new_ones_beside_a_refusal(self):
        self.write("at.c", "@\n")
        self.has(self.run_script("--baseline=known.json", "tick.c", "at.c"), 4, "", "at.c:1:1: error: F10\n")

    def test_brought_up_to_date(self):
        self.write("tick.c", TICKS.replace("tick++;\n", "tick++;\n    other++;\n"))
        self.has(
            self.run_script("--baseline=known.json", "--write-baseline=known.json", "tick.c"), 1, "tick.c:6:10: warning: overflow\n",
            "known.json: alarms written: 2\n")
        self.has(self.run_script("--baseline=known.json", "tick.c"), 0)


class Faults(InFolder):
    def setUp(self):
        super().setUp()
        self.write("tick.c", TICKS)

    def test_missing(self):
        self.has(self.run_script("--baseline=none.json", "tick.c"), 2, "", (
            "none.json: error: the baseline cannot be read: No such file or directory; --write-baseline=none.json writes one\n"))

    def test_no_baseline(self):
        self.write("bad.json", '{"format": "famlint-check baseline 1",\n "alarms": [}\n')
        self.has(self.run_script("--baseline=bad.json", "tick.c"), 2, "", (
            "bad.json:2:13: error: this is no baseline of famlint-check\n"))
        for text in ("[]", '{"format": "other", "alarms": []}', '{"format": "famlint-check baseline 1", "alarms": [{"file": "tick.c"}]}'):
            self.write("bad.json", text)
            self.has(self.run_script("--baseline=bad.json", "tick.c"), 2, "", (
                "bad.json: error: this is no baseline of famlint-check\n"))

    def test_not_written(self):
        told = "none/known.json: error: the baseline cannot be written: No such file or directory\n"
        self.has(self.run_script("--write-baseline=none/known.json", "tick.c"), 7, "", told)
        self.has(self.run_script("--write-baseline=/dev/null", "tick.c"), 7, "", (
            "/dev/null: error: the baseline cannot be written: it is no file\n"))

    def test_not_written_of_a_part(self):
        self.write("at.c", "@\n")
        self.has(self.run_script("--write-baseline=known.json", "tick.c", "at.c"), 4, "", (
            "at.c:1:1: error: F10\nknown.json: error: the baseline is not written, since not all files have a report\n"))
        self.assertFalse((self.folder / "known.json").exists())
