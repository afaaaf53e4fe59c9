"""The format `text`, for people: each finding with its line, a caret under the place, and what it means."""
import os
import textwrap

from .sources import marked, readable
from .tables import kind_of

COLUMNS = 100
LONGEST = 40
BOLD, RED, MAGENTA, GREEN, END = "\033[1m", "\033[1;31m", "\033[1;35m", "\033[32m", "\033[0m"


def has_colours(stream):
    return stream.isatty() and "NO_COLOR" not in os.environ and os.environ.get("TERM") != "dumb"


class Pen:
    """Writes to a stream, in colours where it is a terminal."""

    def __init__(self, stream):
        self.stream = stream
        self.has_colours = has_colours(stream)

    def coloured(self, colour, text):
        return f"{colour}{text}{END}" if self.has_colours else text

    def headline(self, where, level, text):
        colour = RED if level == "error" else MAGENTA
        print(f"{self.coloured(BOLD, where + ':')} {self.coloured(colour, level + ':')} {text}", file=self.stream)

    def line(self, source, place, length):
        """The line of the place, with a caret."""
        if source.is_read:
            shown, under = marked(source.line(place), place.column, length)
            print(f"{place.line:5} | {shown}".rstrip(), file=self.stream)
            print(f"      | {self.coloured(GREEN, under)}", file=self.stream)

    def note(self, text):
        """A line behind a finding; a long one is broken where words are."""
        lines = textwrap.wrap(
            text, COLUMNS, initial_indent="  ", subsequent_indent="    ", break_long_words=False, break_on_hyphens=False)
        print("\n".join(lines), file=self.stream)


def token_text(source, place):
    """The token at the place, as a headline tells it."""
    token = source.token(place)
    if token:
        text = readable(token) if is_utf8(token) else "".join(f"\\x{byte:02X}" for byte in token)
        return f"'{text if len(text) <= LONGEST else text[:LONGEST] + '...'}'"
    return "the end of the file" if source.is_end(place) else "the end of the line"


def is_utf8(token):
    try:
        return token.decode("utf-8") != "\ufeff"
    except UnicodeDecodeError:
        return False


class Text:
    """Alarms on the output, and errors on the error stream."""

    def __init__(self, out, errors):
        self.out = Pen(out)
        self.errors = Pen(errors)
        self.explained = set()

    def alarm(self, alarm, source):
        place = alarm.place
        everywhere = f"{alarm.kind} in all configurations" if alarm.region == "1" else alarm.says()
        self.out.headline(f"{alarm.path}:{place.line}:{place.column}", "warning", everywhere)
        self.out.line(source, place, 1)
        if alarm.kind not in self.explained:
            self.explained.add(alarm.kind)
            self.out.note(f"{alarm.kind}: {kind_of(alarm.kind).short}")
        if alarm.example is not None:
            self.out.note(f"example: {alarm.example}")

    def refusal(self, refusal, source, explained):
        self.out.stream.flush()
        place = refusal.place
        at = f" at {token_text(source, place)}" if source.is_read else ""
        self.errors.headline(f"{refusal.path}:{place.line}:{place.column}", "error", refusal.says() + at)
        self.errors.line(source, place, max(1, len(source.token(place))))
        if refusal.note:
            self.errors.note(refusal.note)
        for sentence in explained:
            if sentence.cause:
                self.errors.note(sentence.says())
            if sentence.to_do:
                self.errors.note(f"to do: {sentence.to_do}")
        if refusal.example is not None:
            self.errors.note(f"example: {refusal.example}")

    def failure(self, failure):
        self.out.stream.flush()
        self.errors.headline(failure.path, "error", failure.message)
        if failure.note:
            self.errors.note(failure.note)

    def end(self, tally):
        parts = [f"alarms: {tally.alarms}"]
        parts += [f"{name}: {number}" for name, number in tally.others() if number]
        print("; ".join(parts), file=self.out.stream)
        self.out.stream.flush()
