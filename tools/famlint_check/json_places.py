"""A reader of JSON (RFC 8259) that keeps where each value stands, and says where a text is none."""
import re
from dataclasses import dataclass

SPACE = re.compile(rb"[ \t\r\n]*")
NUMBER = re.compile(rb"-?(?:0|[1-9][0-9]*)(\.[0-9]+)?([eE][-+]?[0-9]+)?")
PLAIN = re.compile(rb'[^"\\\x00-\x1f]+')
UNIT = re.compile(rb"\\u([0-9A-Fa-f]{4})")
LOW_UNIT = re.compile(rb"\\u([dD][c-fC-F][0-9A-Fa-f]{2})")
ESCAPES = {b'"': '"', b"\\": "\\", b"/": "/", b"b": "\b", b"f": "\f", b"n": "\n", b"r": "\r", b"t": "\t"}
WORDS = {b"true": True, b"false": False, b"null": None}
DEEPEST = 127


class NotJson(Exception):
    """The text is no JSON: at which byte, and why."""

    def __init__(self, at, why):
        super().__init__(why)
        self.at = at
        self.why = why


@dataclass(frozen=True)
class Value:
    """A value and the byte at which it begins. Of an object the content is a dictionary from names to members."""

    at: int
    content: object


@dataclass(frozen=True)
class Member:
    """A member of an object: the byte at which its name begins, and its value."""

    at: int
    value: Value


class Reader:
    """Reads one text."""

    def __init__(self, text):
        self.text = text
        self.at = 0

    def whole(self):
        """The one value of the text."""
        if self.text.startswith(b"\xef\xbb\xbf"):
            raise NotJson(0, "the text begins with a byte order mark; save it without one")
        value = self.value(0)
        self.skip()
        if self.at < len(self.text):
            raise NotJson(self.at, "the value ends before this")
        return value

    def skip(self):
        self.at = SPACE.match(self.text, self.at).end()

    def next(self):
        """The byte behind white space, or nothing at the end."""
        self.skip()
        return self.text[self.at:self.at + 1]

    def fail(self, expected):
        raise NotJson(self.at, f"{expected} must stand here")

    def value(self, depth):
        first = self.next()
        if first in (b"{", b"["):
            if depth == DEEPEST:
                raise NotJson(self.at, "nested too deep")
            return self.object(depth + 1) if first == b"{" else self.array(depth + 1)
        if first == b'"':
            return Value(self.at, self.string())
        for word, content in WORDS.items():
            if self.text.startswith(word, self.at):
                self.at += len(word)
                return Value(self.at - len(word), content)
        return self.number()

    def number(self):
        found = NUMBER.match(self.text, self.at)
        if found is None:
            self.fail("a value")
        start, self.at = self.at, found.end()
        size = float(found[0])
        if size in (float("inf"), float("-inf")):
            raise NotJson(start, "the number is too large")
        is_whole = found[1] is None and found[2] is None and found[0] != b"-0"
        return Value(start, int(found[0]) if is_whole else size)

    def array(self, depth):
        start = self.at
        self.at += 1
        items = []
        if self.next() == b"]":
            self.at += 1
            return Value(start, items)
        while True:
            items.append(self.value(depth))
            if self.ends(b"]"):
                return Value(start, items)

    def object(self, depth):
        start = self.at
        self.at += 1
        members = {}
        if self.next() == b"}":
            self.at += 1
            return Value(start, members)
        while True:
            if self.next() != b'"':
                self.fail("a name in quotes")
            at = self.at
            name = self.string()
            if self.next() != b":":
                self.fail("a colon")
            self.at += 1
            members[name] = Member(at, self.value(depth))
            if self.ends(b"}"):
                return Value(start, members)

    def ends(self, last):
        """Whether an array or an object ends here; else a comma goes on, with something behind it."""
        mark = self.next()
        if mark not in (b",", last):
            self.fail(f"a comma or {last.decode()}")
        self.at += 1
        if mark == b"," and self.next() == last:
            raise NotJson(self.at, "the comma before this has nothing behind it")
        return mark == last

    def string(self):
        parts = []
        self.at += 1
        while True:
            found = PLAIN.match(self.text, self.at)
            if found:
                parts.append(self.decoded(found))
            mark = self.text[self.at:self.at + 1]
            if mark == b'"':
                self.at += 1
                return "".join(parts)
            if mark != b"\\":
                self.fail('a character of the text, or "')
            parts.append(self.escape())

    def decoded(self, found):
        try:
            text = found[0].decode("utf-8")
        except UnicodeDecodeError as fault:
            raise NotJson(found.start() + fault.start, "this byte is no UTF-8") from None
        self.at = found.end()
        return text

    def escape(self):
        """The character of an escape, which begins here; that of two surrogates is one."""
        found = UNIT.match(self.text, self.at)
        if found is None:
            text = ESCAPES.get(self.text[self.at + 1:self.at + 2])
            if text is None:
                raise NotJson(self.at, "no escape of JSON")
            self.at += 2
            return text
        unit = int(found[1], 16)
        more = LOW_UNIT.match(self.text, found.end())
        if not 0xD800 <= unit <= 0xDFFF:
            self.at = found.end()
            return chr(unit)
        if unit >= 0xDC00 or more is None:
            raise NotJson(self.at, "half of a character")
        self.at = more.end()
        return chr(0x10000 + ((unit - 0xD800) << 10) + int(more[1], 16) - 0xDC00)


def read(text):
    """The value that the bytes spell, or NotJson."""
    return Reader(text).whole()
