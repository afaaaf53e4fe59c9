"""The words of famlint-check: which are taken, and what each wrong one is told."""
from .support import MODEL, QUIET, TICKS, InFolder

USAGE = "usage: famlint-check [--model=MODEL] [OPTION..] FILE..; --help tells more\n"


class Words(InFolder):
    def setUp(self):
        super().setUp()
        self.write("tick.c", TICKS)
        self.write("quiet.c", QUIET)
        self.write("model.json", MODEL)

    def refused(self, told, *words):
        self.has(self.run_script(*words), 2, "", f"famlint-check: error: {told}\n{USAGE}")

    def test_none(self):
        self.refused("no FILE is given")

    def test_one_file(self):
        self.has(self.run_script("tick.c"), 1, "tick.c:5:9: warning: overflow\n")

    def test_no_alarm(self):
        self.has(self.run_script("quiet.c"), 0)

    def test_a_family(self):
        out = "tick.c:5:9: warning: overflow if FAST [example FAST=1 SIZE=4]\n"
        self.has(self.run_script("--model=model.json", "tick.c"), 1, out)
        self.has(self.run_script("tick.c", "--model", "model.json"), 1, out)

    def test_value_in_the_next_word(self):
        self.has(self.run_script("--domain", "octagon", "quiet.c"), 0)

    def test_an_option_that_only_famlint_knows(self):
        self.has(self.run_script("--later=1", "quiet.c"), 0)

    def test_behind_two_hyphens(self):
        self.write("-tick.c", TICKS)
        self.has(self.run_script("--", "-tick.c"), 1, "-tick.c:5:9: warning: overflow\n")

    def test_a_file_given_twice_is_checked_once(self):
        self.has(self.run_script("tick.c", "tick.c"), 1, "tick.c:5:9: warning: overflow\n")

    def test_empty_model(self):
        self.refused("--model is given without its value", "--model=", "quiet.c")

    def test_empty_file(self):
        self.refused("the name of a file is empty", "")

    def test_model_twice(self):
        self.refused("--model is given twice", "--model=model.json", "--model=model.json", "quiet.c")

    def test_value_missing_at_the_end(self):
        self.refused("--baseline is given without its value", "quiet.c", "--baseline")

    def test_unknown_format(self):
        self.refused("--format=xml: the formats are text, gcc, sarif, json", "--format=xml", "quiet.c")

    def test_unknown_option(self):
        self.refused("there is no option --fast", "--fast", "quiet.c")
        self.refused("there is no option -q", "-q", "quiet.c")

    def test_misspelled_option(self):
        self.refused("there is no option --modle; is --model meant?", "--modle", "model.json", "quiet.c")
        self.refused("famlint has no option --dommain; is --domain meant?", "--dommain=octagon", "quiet.c")

    def test_value_that_famlint_refuses(self):
        self.refused("--domain=polyhedra: the values are interval, octagon, stride, sharp", "--domain=polyhedra", "quiet.c")
        self.refused("--delay=17: the values are 0 to 16", "--delay=17", "quiet.c")

    def test_option_of_famlint_twice(self):
        # the toy does not mind
        self.has(self.run_script("--delay=2", "--delay=2", "quiet.c"), 0)
        self.refused("--narrow is given twice", "--narrow=1", "--narrow=1", "quiet.c")

    def test_a_command(self):
        told = "is no file; famlint-check takes no command, only --model=MODEL and files"
        self.refused(f"analyse {told}", "analyse", "model.json", "tick.c")
        self.refused(f"analyze {told}", "analyze", "model.json", "tick.c")

    def test_a_file_with_the_name_of_a_command(self):
        self.write("plain", TICKS)
        self.has(self.run_script("plain"), 1, "plain:5:9: warning: overflow\n")

    def test_a_setting(self):
        self.refused(
            "SIZE=8 is no file; famlint-check looks at all configurations, and takes no setting: use famlint variant",
            "--model=model.json", "quiet.c", "SIZE=8")

    def test_help_and_version(self):
        helped = self.run_script("--help")
        self.assertEqual((helped.status, helped.errors), (0, ""))
        self.assertIn("--write-baseline=FILE", helped.out)
        self.assertRegex(self.run_script("--version").out, r"\Afamlint-check \d+\.\d+\.\d+\n\Z")
