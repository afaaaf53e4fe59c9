"""Where a model has its fault. Each case is a text with `^` directly before the place; the `^` is no part of the text."""
import unittest

from famlint_check import json_places
from famlint_check.findings import Place
from famlint_check.model_places import fault_in, place_at

CASES = (
    # the code, its number, and the text
    ("M1", 0, '{"features": [^}'),
    ("M1", 0, '{"features": [{"name": "FAST"},^]}'),
    ("M1", 0, '{"features": [{"name": "FAST",^}]}'),
    ("M1", 0, '{"features": [{"name" ^"FAST"}]}'),
    ("M1", 0, '{"features": [{^name: "FAST"}]}'),
    ("M1", 0, '{"features": [{"name": "FAST"}\n ^{"name": "SAFE"}]}'),
    ("M1", 0, '{"features": [{"name": "FAST^\n"}]}'),
    ("M1", 0, '{"features": [{"name": "FA^\\x"}]}'),
    ("M1", 0, '{"features": [{"name": "^\\ud83d"}]}'),
    ("M1", 0, '{"features": [{"name": "SIZE", "min": 0^1, "max": 2}]}'),
    ("M1", 0, '{"features": [{"name": "SIZE", "min": ^1e999, "max": 2}]}'),
    ("M1", 0, '{"features": []} ^x'),
    ("M1", 0, '{"features": []^'),
    ("M1", 0, "^"),
    ("M1", 0, '^\ufeff{"features": []}'),
    ("M1", 0, "[" * 127 + "^[" + "]" * 128),
    ("M2", 0, "^[]"),
    ("M2", 0, '^{"constraints": []}'),
    ("M2", 0, '{"features": [], ^"options": []}'),
    ("M2", 0, '{"features": ^{}}'),
    ("M2", 0, '{"features": [\n  {"name": "FAST"},\n  ^"SAFE"]}'),
    ("M2", 0, '{"features": [{"name": "SIZE", ^"min": 1}]}'),
    ("M2", 0, '{"features": [{"name": "SIZE", "min": ^1.5, "max": 2}]}'),
    ("M2", 0, '{"features": [{"name": "SIZE", "min": ^"1", "max": 2}]}'),
    ("M2", 0, '{"features": [{"name": "FAST", ^"default": true}]}'),
    ("M2", 0, '{"features": [^{"min": 1, "max": 2}]}'),
    ("M2", 0, '{"features": [{"name": ^7}]}'),
    ("M2", 0, '{"features": [], "constraints": ["FAST", ^false]}'),
    ("M3", 2, '{"features": [{"name": "FAST"}, {"name": ^"int"}]}'),
    ("M4", 2, '{"features": [{"name": "FAST"},\n{"name": ^"FAST"}]}'),
    ("M5", 1, '{"features": [{"name": "SIZE", "min": ^16, "max": 1}]}'),
    ("M5", 1, '{"features": [{"name": "SIZE", "max": ^2000000, "min": 1}]}'),
    ("M6", 0, '{"features": [' + '{"name": "A"},' * 32 + '^{"name": "A"}]}'),
    ("M6", 0, '{"features": [], "constraints": [' + '"A",' * 256 + '^"A"]}'),
    ("M7 C1", 2, '{"features": [], "constraints": ["FAST",\n\t^"SIZE >"]}'),
    ("M8", 0, "^" + " " * 70000),
    ("M9", 0, '{"features": [], "constraints": ^["0"]}'),
    ("M10", 0, '{"features": [], "constraints": ^["0"]}'),
    # a member that stands twice: the last one counts
    ("M3", 1, '{"features": [], "features": [{"name": "A", "name": ^"int"}]}'),
    # the model was changed since: the first place
    ("M3", 7, '^{"features": []}'),
    ("M7 C2", 1, '^{"features": []}'),
    ("M2", 0, '^{"features": ['),
)


class Places(unittest.TestCase):
    def test_each_case(self):
        for code, number, marked in CASES:
            with self.subTest(code=code, text=marked[:80]):
                before, text = marked.split("^", 1)[0], marked.replace("^", "", 1)
                lines = before.encode().split(b"\n")
                self.assertEqual(fault_in(text.encode(), code, number)[0], Place(len(lines), len(lines[-1]) + 1))

    def test_bytes_that_are_no_utf_8(self):
        self.assertEqual(fault_in(b'{"features": [{"name": "\xff"}]}', "M1", 0), (Place(1, 25), "this byte is no UTF-8"))

    def test_columns_are_bytes(self):
        self.assertEqual(place_at("é x".encode(), 3), Place(1, 4))

    def test_values(self):
        value = json_places.read(b' {"a": [1, -2.5, true, null, "\\u00e9\\n\\ud83d\\ude00"]} ')
        items = value.content["a"].value.content
        self.assertEqual([item.content for item in items], [1, -2.5, True, None, "é\n\U0001f600"])
        self.assertEqual([item.at for item in items], [8, 11, 17, 23, 29])
