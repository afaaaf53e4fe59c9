"""What the tests of famlint-check share: a folder for each test, and runs of the script over the toy famlint."""
import os
import subprocess
import sys
import tempfile
import unittest
from pathlib import Path
from typing import NamedTuple

TOOLS = Path(__file__).resolve().parent.parent
SCRIPT = TOOLS / "famlint-check"
TOY = TOOLS / "famlint_check_tests/toy_famlint"

MODEL = '{"features": [{"name": "FAST"}, {"name": "SIZE", "min": 4, "max": 8}]}\n'
TICKS = "int tick;\n\nint main(void)\n{\n    tick++;\n}\n"
QUIET = "int main(void)\n{\n}\n"


class Ended(NamedTuple):
    """What a run came to."""

    status: int
    out: str
    errors: str


class InFolder(unittest.TestCase):
    """A test with a folder of its own, in which the script runs."""

    maxDiff = None

    def setUp(self):
        folder = tempfile.TemporaryDirectory(prefix="famlint-check-test-")
        self.addCleanup(folder.cleanup)
        self.folder = Path(folder.name).resolve()
        path = f"{Path(sys.executable).parent}:{os.environ['PATH']}"
        self.environment = {"PATH": path, "FAMLINT": str(TOY), "LC_ALL": "C.UTF-8", "HOME": str(self.folder)}

    def write(self, name, text):
        path = self.folder / name
        path.parent.mkdir(parents=True, exist_ok=True)
        path.write_bytes(text if isinstance(text, bytes) else text.encode())
        return path

    def run_script(self, *words, script=SCRIPT, folder=None):
        ended = subprocess.run(
            [str(script), *words], cwd=folder or self.folder, env=self.environment, stdin=subprocess.DEVNULL, capture_output=True,
            timeout=300, check=False)
        return Ended(ended.returncode, ended.stdout.decode("utf-8", "surrogateescape"), ended.stderr.decode("utf-8", "surrogateescape"))

    def has(self, ended, status, out="", errors=""):
        self.assertEqual(ended, Ended(status, out, errors))
