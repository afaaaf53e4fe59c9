"""Behind which lines a semicolon may be missing."""
import tempfile
import unittest
from pathlib import Path

from famlint_check.findings import Place
from famlint_check.sources import Source

OPEN = ("    level++", "    level = 4", "    log()", "    forward = 1", "    int level")
WHOLE = ("    level = 4;", "    {", "    }", "#endif", "    else", "int main(void)", "    if (level)", "    while (level > 0)",
         "    for (i = 0; i < 8; i++)", "    for (;;)")


class OpenLines(unittest.TestCase):
    def test_each_line(self):
        with tempfile.TemporaryDirectory() as folder:
            path = Path(folder) / "file.c"
            for line in OPEN + WHOLE:
                with self.subTest(line=line):
                    path.write_text(f"{line}\n\n    switch\n", encoding="utf-8")
                    self.assertEqual(Source(str(path)).open_line(Place(3, 5)), 1 if line in OPEN else None)
