"""The text of a file at a place: its line, the token that stands there, and columns as people count them."""
import os
import re
import unicodedata

TOKEN = re.compile(
    rb"[A-Za-z0-9_]+|#[ \t]*[A-Za-z]*|/\*|//|\+\+|--|[-+*/%<>=!]=|&&|\|\||\"(?:\\.|[^\"\n])*\"?|'(?:\\.|[^'\\\n])*'?|[\x21-\x7e]|[\x80-\xff]+")
OPEN = re.compile(rb"(?!\s*(?:#|if\b|while\b|for\b|else\b|int\s+main\b)).*(?:\w|\)|\+\+|--)\s*")
WIDEST = 160
BESIDE = 60


class Source:
    """The bytes of a file, or none where they can't be read again, as those of a pipe."""

    def __init__(self, path):
        self.text = b""
        self.is_read = False
        try:
            if os.path.isfile(path):
                with open(path, "rb") as file:
                    self.text = file.read()
                self.is_read = True
        except OSError:
            pass
        self.lines = self.text.split(b"\n")

    def line(self, place):
        """The bytes of the line; empty behind the end of the file."""
        return self.lines[place.line - 1].rstrip(b"\r") if place.line <= len(self.lines) else b""

    def words(self, place):
        """The text of the line without its indentation, each white space as one blank: what stays where lines move."""
        return " ".join(readable(self.line(place)).split())

    def token(self, place):
        """The bytes of the token that stands at the place; empty at the end of the file or of a line."""
        found = TOKEN.match(self.line(place), place.column - 1)
        return found[0] if found else b""

    def is_end(self, place):
        """Whether nothing but white space stands at the place and behind it."""
        line = self.line(place)[place.column - 1:]
        return not line.strip() and not b"".join(self.lines[place.line:]).strip()

    def open_line(self, place):
        """The number of the line before, where the place is the first of its line and a statement there seems to lack its end."""
        if self.line(place)[:place.column - 1].strip():
            return None
        filled = [number for number in range(1, place.line) if self.lines[number - 1].strip()]
        return filled[-1] if filled and OPEN.fullmatch(self.lines[filled[-1] - 1]) else None

    def column_of_character(self, place):
        """The column, counted in characters."""
        return len(self.line(place)[:place.column - 1].decode("utf-8", "replace")) + 1


def readable(line):
    """The bytes as text that a terminal may be given: what is no UTF-8, and what is no character but a tab, is marked."""
    text = line.decode("utf-8", "replace")
    return "".join(each if each == "\t" or unicodedata.category(each)[0] != "C" else "\ufffd" for each in text)


def width(text):
    """How many columns a text takes in a terminal, tabs aside."""
    wide = sum(unicodedata.east_asian_width(each) in "WF" for each in text)
    return len(text) + wide - sum(unicodedata.combining(each) != 0 for each in text)


def marked(line, column, length):
    """The line, cut where it is long, and a line with a caret under the column and the bytes from there on."""
    before, under = line[:column - 1], line[column - 1:column - 1 + length]
    shown, before, under = readable(line), readable(before), readable(under)
    if len(shown) > WIDEST:
        start = max(0, len(before) - BESIDE)
        cut = shown[start:start + WIDEST]
        shown = ("..." if start else "") + cut + ("..." if start + WIDEST < len(shown) else "")
        before = ("..." if start else "") + before[start:]
    blanks = "".join("\t" if each == "\t" else " " * width(each) for each in before)
    return shown, blanks + "^" + "~" * (width(under) - 1)
