"""What famlint-check knows of famlint: its options with their defaults here, its commands, and the kinds of its alarms."""
from dataclasses import dataclass

VERSION = "0.1.0"


@dataclass(frozen=True)
class Option:
    """An option of famlint: its values, or the bounds of its numbers; what is given where the words do not; whether it needs a model."""

    name: str
    values: tuple
    default: str = ""
    needs_model: bool = False

    def takes(self, value):
        if isinstance(self.values[0], int):
            low, high = self.values
            return value.isdecimal() and low <= int(value) <= high
        return value in self.values

    def says(self):
        """The values, as a message tells them."""
        if isinstance(self.values[0], int):
            return f"{self.values[0]} to {self.values[1]}"
        return ", ".join(self.values)


# One line for each option of `analyse` and `plain`, and the one place for a new one. An option with a default is given to famlint in each
# run, unless the words have it; an older famlint, which does not have the option, then refuses all words, with status 2.
OPTIONS = (
    Option("domain", ("interval", "octagon", "stride", "sharp")),
    Option("delay", (0, 16)),
    Option("narrow", (0, 8)),
    Option("overflow", ("stop", "wrap")),
    Option("widening", ("type", "thresholds"), default="thresholds"),
    Option("regions", ("paths", "merged"), default="merged", needs_model=True),
    Option("unknown", ("zero", "refuse"), default="refuse", needs_model=True),
    Option("includes", ("assert", "skip")),
)

# The commands of famlint. famlint-check takes none, but one is often written in front of the files.
COMMANDS = (
    "analyse", "invariants", "page", "certify", "check", "plain", "project", "variant", "run", "advise", "features", "generate", "explain", "help")


@dataclass(frozen=True)
class Kind:
    """A kind of alarm, in words."""

    short: str
    full: str
    help: str


TELL_MORE = (
    "Look at the place. Where no run stops there, tell the analysis more by an `if` before the statement, or try --domain=octagon, --delay "
    "and --narrow.")

KINDS = {
    "overflow": Kind(
        "a result may not fit int",
        "Some run may come to this statement with a result that does not fit `int`, of 32 bits (not with --overflow=wrap), or divides the "
        "least `int` by -1 (ISO/IEC 9899:2011, 6.5, paragraph 5, and 6.5.5, paragraph 6).",
        TELL_MORE),
    "zero-divisor": Kind(
        "the right side of / or % may be 0",
        "Some run may come to this statement with 0 at the right side of `/` or `%` (ISO/IEC 9899:2011, 6.5.5, paragraph 5).",
        TELL_MORE),
    "assertion": Kind(
        "the assertion may fail",
        "Some run may come to this `assert(e)` with `e` equal to 0 (ISO/IEC 9899:2011, 7.2.1.1).",
        TELL_MORE),
}


def kind_of(name):
    """The kind in words; one that is not known here says its name alone."""
    return KINDS.get(name, Kind(name, f"famlint has an alarm of the kind {name}.", TELL_MORE))
