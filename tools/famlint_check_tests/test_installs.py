"""tools/install and tools/uninstall, in a checkout of the test with the toy as its program."""
import shutil
import subprocess

from .support import TICKS, TOOLS, TOY, Ended, InFolder

DOCUMENTS = ("GUIDE", "LANGUAGE", "MODELS", "CODES", "MISTAKES", "EDITORS", "GLOSSARY")


class Installs(InFolder):
    def setUp(self):
        super().setUp()
        top = self.folder / "top"
        (top / "tools").mkdir(parents=True)
        (top / "docs").mkdir()
        (top / "crates/famlint/out").mkdir(parents=True)
        for name in ("install", "uninstall", "famlint-check"):
            shutil.copy(TOOLS / name, top / "tools")
        shutil.copytree(TOOLS / "famlint_check", top / "tools/famlint_check")
        for name in DOCUMENTS:
            shutil.copy(TOOLS.parent / "docs" / f"{name}.md", top / "docs")
        shutil.copy(TOY, top / "crates/famlint/out/famlint")
        del self.environment["FAMLINT"]

    def tool(self, name, *words):
        ended = subprocess.run(
            [str(self.folder / "top/tools" / name), *words], cwd=self.folder, env=self.environment, stdin=subprocess.DEVNULL,
            capture_output=True, text=True, timeout=300, check=False)
        return Ended(ended.returncode, ended.stdout, ended.stderr)

    def standing(self, folder):
        """What stands below a folder."""
        return sorted(str(path.relative_to(self.folder / folder)) for path in (self.folder / folder).rglob("*"))

    def test_there_and_back(self):
        folder = self.folder / "tree/bin"
        self.has(self.tool("install", str(folder)), 0, f"famlint and famlint-check are in {folder}\n")
        standing = self.standing("tree")
        for name in ("bin/famlint", "bin/famlint-check", "share/famlint/famlint_check/check.py", "share/doc/famlint/CODES.md"):
            self.assertIn(name, standing)
        self.write("tick.c", TICKS)
        self.write("at.c", "@\n")
        self.has(self.run_script("tick.c", script=folder / "famlint-check"), 1, "tick.c:5:9: warning: overflow\n")
        told = self.run_script("--format=text", "at.c", script=folder / "famlint-check").errors
        self.assertIn("F10: a byte that begins no token", told)
        self.has(self.tool("uninstall", str(folder)), 0, f"famlint and famlint-check are gone from {folder}\n")
        self.assertEqual(self.standing("tree"), ["bin"])

    def test_what_else_stands_there_stays(self):
        self.write("tree/bin/other", "other")
        self.write("tree/share/other/file", "other")
        self.write("tree/share/doc/famlint/NOTES", "notes")
        before = self.standing("tree")
        self.tool("install", "tree/bin")
        self.tool("install", "tree/bin")
        self.tool("uninstall", "tree/bin")
        self.assertEqual(self.standing("tree"), before)

    def test_a_folder_of_another_name(self):
        self.has(self.tool("install", "tree"), 0, f"famlint and famlint-check are in {self.folder}/tree\n")
        self.write("tick.c", TICKS)
        self.has(self.run_script("tick.c", script=self.folder / "tree/famlint-check"), 1, "tick.c:5:9: warning: overflow\n")
        self.tool("uninstall", "tree")
        self.assertEqual(self.standing("tree"), [])

    def test_by_default_the_programs_of_the_user(self):
        self.has(self.tool("install"), 0, f"famlint and famlint-check are in {self.folder}/.local/bin\n")
        self.has(self.tool("uninstall"), 0, f"famlint and famlint-check are gone from {self.folder}/.local/bin\n")

    def test_help(self):
        for name in ("install", "uninstall"):
            ended = self.tool(name, "--help")
            self.assertEqual((ended.status, ended.errors), (0, ""))
            self.assertIn(f"tools/{name} [FOLDER]", ended.out)

    def test_refusals(self):
        self.has(self.tool("install", "--force"), 2, "", "install: there is no option --force; tools/install --help tells more\n")
        self.has(self.tool("install", "a", "b"), 2, "", "install: more than one folder; tools/install --help tells more\n")
        self.has(self.tool("uninstall", "none"), 1, "", "uninstall: there is no folder none\n")
        (self.folder / "tree/bin").mkdir(parents=True)
        self.has(self.tool("uninstall", "tree/bin"), 1, "", (
            f"uninstall: tools/install copied nothing to {self.folder}/tree/bin: there is no {self.folder}/tree/share/famlint/installed\n"))
        self.write("tree/share/famlint/installed", "file bin/../../tick.c\n")
        self.has(self.tool("uninstall", "tree/bin"), 1, "", (
            f"uninstall: {self.folder}/tree/share/famlint/installed is not as tools/install writes it\n"))
        (self.folder / "top/crates/famlint/out/famlint").unlink()
        top = self.folder / "top"
        self.has(self.tool("install", "tree"), 1, "", (
            f"install: the proved program is not built: cd {top}/crates/famlint && rt run -- plain {top}/examples/quiet.c\n"))
