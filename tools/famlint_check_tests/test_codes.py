"""The sentence of each code: the same whether `famlint explain` tells it or docs/CODES.md."""
import importlib.machinery
import importlib.util
import unittest

from famlint_check import codes

from .support import TOOLS, InFolder

DOCUMENT = (TOOLS.parent / "docs/CODES.md").read_text(encoding="utf-8")


def texts_of_explain():
    """What `famlint explain` prints of each code, by the script that writes these texts."""
    loader = importlib.machinery.SourceFileLoader("guide_texts", str(TOOLS / "guide-texts"))
    module = importlib.util.module_from_spec(importlib.util.spec_from_loader("guide_texts", loader))
    loader.exec_module(module)
    return dict(module.of_codes())


class Sentences(unittest.TestCase):
    def test_both_say_the_same(self):
        texts, found = texts_of_explain(), codes.sentences(DOCUMENT)
        self.assertEqual(set(texts), set(found))
        self.assertGreater(len(texts), 40)
        for code, text in texts.items():
            with self.subTest(code=code):
                self.assertEqual(codes.explained_by(code, text), found[code])

    def test_some(self):
        found = codes.sentences(DOCUMENT)
        self.assertEqual(found["F6"], codes.Sentence("F6", "a section without its end", "end it"))
        self.assertEqual(found["F14"], codes.Sentence(
            "F14", "the second declaration of a name where one of it is in scope, or of a name of main where one of the two is static; "
            "or: a declaration that some valid configuration keeps where an earlier one is in scope; with the least such configuration", "keep one; or: keep one for each configuration"))
        self.assertEqual(found["C4"], codes.Sentence("C4", "a name begins with two underscores", "a feature of the model"))
        self.assertEqual(found["M7"].to_do, "")

    def test_another_text(self):
        self.assertIsNone(codes.explained_by("F6", "usage: famlint plain FILE\n"))


class Explaining(InFolder):
    """A famlint that explains comes before the document, and one that does not is no fault."""

    def refusing(self, explain):
        program = self.write("famlint", f"#!/bin/sh\nif [ \"$1\" = explain ]; then {explain}; fi\necho 'file: F10 at 1:1' >&2\nexit 4\n")
        program.chmod(0o755)
        self.environment["FAMLINT"] = str(program)
        self.write("at.c", "@\n")
        return self.run_script("--format=text", "at.c").errors.splitlines()[3:]

    def test_by_famlint(self):
        self.assertEqual(
            self.refusing("printf 'F10: A file is refused.\\nCause: a `byte`\\nof ours; at it.\\nWhat to do: mend\\nit.\\n'; exit 0"),
            ["  F10: a byte of ours", "  to do: mend it"])

    def test_by_the_document(self):
        for explain in ("exit 2", "echo words; exit 0", "exit 0"):
            self.assertEqual(self.refusing(explain)[0], "  F10: a byte that begins no token")
