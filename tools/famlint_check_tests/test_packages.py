"""What tools/package is made of: manual pages and completions, and the package itself where there is a dpkg-deb."""
import shutil
import subprocess
import unittest

from famlint_package import completions, man_pages

from .support import TOOLS, InFolder

TRY = """\
compopt() { :; }
. ./completions
COMP_WORDS=("${@:2}")
COMP_CWORD=$((${#COMP_WORDS[@]} - 1))
"$1"
echo "${COMPREPLY[*]}"
"""


class Completions(InFolder):
    def completed(self, function, *words):
        self.write("completions", completions.for_bash())
        self.write("ring.c", "")
        return subprocess.run(
            ["bash", "-c", TRY, "bash", function, *words], cwd=self.folder, capture_output=True, text=True, check=True).stdout.rstrip("\n")

    def test_of_famlint(self):
        self.assertEqual(self.completed("_famlint", "famlint", "an"), "analyse")
        self.assertEqual(self.completed("_famlint", "famlint", "analyse", "--do"), "--domain=")
        self.assertEqual(self.completed("_famlint", "famlint", "run", "--st"), "--steps=")
        # bash has three words for `--domain=s`
        self.assertEqual(self.completed("_famlint", "famlint", "analyse", "--domain", "=", "s"), "stride sharp")
        self.assertEqual(self.completed("_famlint", "famlint", "analyse", "--domain", "="), "interval octagon stride sharp")
        self.assertEqual(self.completed("_famlint", "famlint", "plain", "ri"), "ring.c")

    def test_of_famlint_check(self):
        self.assertEqual(self.completed("_famlint_check", "famlint-check", "--format", "="), "text gcc sarif json")
        self.assertEqual(self.completed("_famlint_check", "famlint-check", "--write"), "--write-baseline=")
        self.assertEqual(self.completed("_famlint_check", "famlint-check", "--model", "=", "ri"), "ring.c")
        self.assertEqual(self.completed("_famlint_check", "famlint-check", "ri"), "ring.c")


class ManualPages(unittest.TestCase):
    def test_of_a_help_text(self):
        self.assertEqual(man_pages.of_help("usage: famlint\n\n  plain FILE   one file\n    more\n\n.dots and -dashes\n"), [
            ".PP", "usage: famlint", ".PP", ".RS 4", ".nf", "plain FILE   one file", "  more", ".fi", ".RE",
            ".PP", "\\&.dots and \\-dashes"])

    def test_of_a_document(self):
        text = (
            "# Guide\n\nThe [words](X.md) of `--x` may *not* be **bold**.\n\n## `run FILE`\n\n- one\n  item\n- two\n\n"
            "| Name | What | Of |\n|---|---|---|\n| `a` | b | c |\n\n    $ a\\b\n")
        self.assertEqual(man_pages.of_markdown(text), [
            ".SH DESCRIPTION",
            ".PP", "The words of \\fB\\-\\-x\\fR may \\fInot\\fR be \\fBbold\\fR.",
            ".SH run FILE",
            ".IP \\(bu 2", "one item", ".IP \\(bu 2", "two",
            ".TP", "\\fBa\\fR", "What: b\n.br\nOf: c",
            ".PP", ".RS 4", ".nf", "$ a\\eb", ".fi", ".RE"])


class Package(InFolder):
    def test_contents(self):
        if shutil.which("dpkg-deb") is None:
            self.skipTest("there is no dpkg-deb")
        made = self.run_script("out", script=TOOLS / "package")
        self.assertEqual((made.status, made.errors), (0, ""))
        package = self.folder / "out" / made.out.split("/")[-1].strip()
        control = subprocess.run(["dpkg-deb", "--field", package], capture_output=True, text=True, check=True).stdout
        self.assertIn("Package: famlint\n", control)
        self.assertIn("Depends: python3 (>= 3.9)\n", control)
        listed = subprocess.run(["dpkg-deb", "--contents", package], capture_output=True, text=True, check=True).stdout
        for line in ("-rwxr-xr-x root/root", " ./usr/bin/famlint\n", " ./usr/share/man/man1/famlint-check.1.gz\n"):
            self.assertIn(line, listed)
        self.assertNotIn("__pycache__", listed)
