"""Which famlint runs, and what is told where it can't run or ends without a report."""
import os
import shutil
import sys

from .support import MODEL, QUIET, SCRIPT, TICKS, TOOLS, TOY, InFolder

NOTICE = "famlint.sh: an unproved quick run"


class Finding(InFolder):
    def setUp(self):
        super().setUp()
        self.write("tick.c", TICKS)

    def told(self, status, told):
        self.has(self.run_script("tick.c"), status, "", f"famlint-check: error: {told}\n")

    def with_copy(self, name):
        """A copy of the script with its modules, in a folder of this name."""
        folder = self.folder / name
        folder.mkdir(parents=True)
        shutil.copy(SCRIPT, folder)
        shutil.copytree(TOOLS / "famlint_check", folder / "famlint_check")
        return folder / "famlint-check"

    def without_famlint(self):
        """The environment with nothing but Python on the path."""
        del self.environment["FAMLINT"]
        (self.folder / "path").mkdir()
        os.symlink(sys.executable, self.folder / "path/python3")
        self.environment["PATH"] = str(self.folder / "path")

    def test_given_and_not_there(self):
        self.environment["FAMLINT"] = "/nowhere/famlint"
        self.told(127, "$FAMLINT is /nowhere/famlint, and nothing stands there")

    def test_given_and_no_program(self):
        file = self.write("famlint", "text")
        self.environment["FAMLINT"] = str(file)
        self.told(126, f"$FAMLINT is {file}, which may not be run")
        file.chmod(0o755)
        self.told(126, f"{file} can't be run: Exec format error")

    def test_given_and_a_folder(self):
        self.environment["FAMLINT"] = str(self.folder)
        self.told(126, f"$FAMLINT is {self.folder}, a folder")

    def test_given_and_another_program(self):
        self.environment["FAMLINT"] = "true"
        self.has(
            self.run_script("tick.c"), 126, "", f"tick.c: error: {shutil.which('true')} prints no report\n")

    def test_beside_the_script(self):
        self.without_famlint()
        script = self.with_copy("bin")
        shutil.copy(TOY, script.parent / "famlint")
        self.has(self.run_script("tick.c", script=script), 1, "tick.c:5:9: warning: overflow\n")
        link = self.folder / "path/famlint-check"
        os.symlink(script, link)
        self.has(self.run_script("tick.c", script=link), 1, "tick.c:5:9: warning: overflow\n")

    def test_on_the_path(self):
        self.without_famlint()
        script = self.with_copy("bin")
        shutil.copy(TOY, self.folder / "path/famlint")
        self.has(self.run_script("tick.c", script=script), 1, "tick.c:5:9: warning: overflow\n")

    def test_of_the_checkout(self):
        self.without_famlint()
        script = self.with_copy("top/tools")
        shutil.copy(TOY, self.folder / "top/famlint.sh")
        self.has(self.run_script("tick.c", script=script), 1, "tick.c:5:9: warning: overflow\n")

    def test_nowhere(self):
        self.without_famlint()
        script = self.with_copy("top/tools")
        top = self.folder / "top"
        self.has(
            self.run_script("tick.c", script=script), 127, "",
            f"famlint-check: error: there is no famlint: it is not at {top}/tools/famlint, not on the path, and there is no "
            f"{top}/famlint.sh; set FAMLINT to where it is\n")

    def test_without_its_modules(self):
        (self.folder / "lone").mkdir()
        script = self.folder / "lone/famlint-check"
        shutil.copy(SCRIPT, script)
        ended = self.run_script("tick.c", script=script)
        self.assertEqual(ended.status, 127)
        self.assertEqual(
            ended.errors, f"famlint-check: error: its modules are not at {self.folder}/lone/famlint_check nor at "
            f"{self.folder}/share/famlint\n")


class Ending(InFolder):
    def setUp(self):
        super().setUp()
        self.write("tick.c", TICKS)
        self.write("quiet.c", QUIET)
        self.write("model.json", MODEL)

    def test_a_notice_is_passed_on_once(self):
        self.environment["TOY_NOTICE"] = NOTICE
        self.has(self.run_script("quiet.c", "tick.c"), 1, "tick.c:5:9: warning: overflow\n", f"{NOTICE}\n")

    def test_failed_loads(self):
        self.has(self.run_script("none.c", "tick.c"), 6, "tick.c:5:9: warning: overflow\n", "none.c: error: cannot be read\n")
        self.has(self.run_script("--model=none.json", "tick.c", "quiet.c"), 6, "", "none.json: error: cannot be read\n")
        self.has(self.run_script("--model=model.json", "."), 6, "", ".: error: cannot be read\n")

    def test_want_of_memory(self):
        self.write("large.c", "// toy: memory\n")
        self.has(self.run_script("large.c", "tick.c"), 8, "tick.c:5:9: warning: overflow\n", "large.c: error: want of memory\n")

    def test_a_write_that_fails(self):
        self.write("half.c", "// toy: half\n")
        self.has(self.run_script("half.c"), 7, "", "half.c: error: write fault\n")

    def test_a_signal(self):
        self.write("killed.c", "// toy: killed\n")
        self.has(self.run_script("killed.c"), 137, "", "killed.c: error: famlint ended with 137, and said nothing\n")

    def test_words_that_are_not_given(self):
        self.write("words.c", "// toy: words\n")
        self.has(self.run_script("words.c"), 10, "", "words.c: error: famlint does not get the words\n")

    def test_silence_is_no_report(self):
        self.write("silence.c", "// toy: silence\n")
        self.has(self.run_script("silence.c"), 126, "", f"silence.c: error: {TOY} prints no report\n")

    def test_a_model_that_is_refused_is_told_once(self):
        self.write("bad.json", '{"features": [{"name": "M5"},\n  {"name": "SIZE", "min": 4, "max": 2}]}\n')
        self.has(
            self.run_script("--model=bad.json", "tick.c", "quiet.c"), 3, "", "bad.json:2:27: error: M5 at feature 2\n")

    def test_the_greatest_status_counts(self):
        self.write("at.c", "int main(void)\n{\n    @\n}\n")
        self.has(
            self.run_script("tick.c", "at.c", "quiet.c"), 4, "tick.c:5:9: warning: overflow\n", "at.c:3:5: error: F10\n")

    def test_an_output_that_is_full(self):
        if not os.path.exists("/dev/full"):
            self.skipTest("there is no /dev/full")
        words = ["bash", "-c", f"{SCRIPT} tick.c >/dev/full"]
        ended = self.run_script(*words[1:], script=words[0])
        self.has(ended, 7, "", "famlint-check: error: write fault: No space left on device\n")
