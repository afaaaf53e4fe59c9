"""Reads the words of the command line."""
import difflib
import os
import re
from dataclasses import dataclass, field

from .tables import COMMANDS, OPTIONS

FORMATS = ("text", "gcc", "sarif", "json")
OWN = ("model", "format", "baseline", "write-baseline")
# How like two words are, from 0 to 1, where one may be the other misspelled.
LIKE = 0.75
SETTING = re.compile(r"[A-Za-z_][A-Za-z0-9_]*=-?[0-9]+")


class BadWords(Exception):
    """The words are refused: status 2."""


@dataclass
class Request:
    """What the words ask for. `passed` are the options for famlint, in their order, each a name and a value."""

    files: list = field(default_factory=list)
    own: dict = field(default_factory=dict)
    passed: list = field(default_factory=list)

    def model(self):
        return self.own.get("model")

    def command(self, file):
        """The words for famlint."""
        named = {name for name, _ in self.passed}
        defaults = [
            (option.name, option.default) for option in OPTIONS
            if option.default and option.name not in named and (self.model() or not option.needs_model)]
        options = [f"--{name}={value}" for name, value in [*self.passed, *defaults]]
        return ["analyse", *options, "--", self.model(), file] if self.model() else ["plain", *options, "--", file]


def like(name):
    """A question that offers the option that is written most like this one."""
    names = [*OWN, *(option.name for option in OPTIONS), "help", "version"]
    found = difflib.get_close_matches(name, names, 1, LIKE)
    return f"; is --{found[0]} meant?" if found else ""


def add(request, name, value):
    """Adds an option with its value."""
    if name not in OWN:
        request.passed.append((name, value))
        return
    if name in request.own:
        raise BadWords(f"--{name} is given twice")
    if not value:
        raise BadWords(f"--{name} is given without its value")
    if name == "format" and value not in FORMATS:
        raise BadWords(f"--format={value}: the formats are {', '.join(FORMATS)}")
    request.own[name] = value


def takes_value(name):
    return name in OWN or any(option.name == name for option in OPTIONS)


def read(words):
    """What the words ask for, or BadWords."""
    request = Request()
    left = list(words)
    while left:
        word = left.pop(0)
        if word == "--":
            request.files += left
            break
        if not word.startswith("-") or word == "-":
            request.files.append(word)
            continue
        name, equals, value = word[2:].partition("=")
        if not word.startswith("--") or not equals and not takes_value(name):
            raise BadWords(f"there is no option {word}{like(word.lstrip('-'))}")
        if not equals and not left:
            raise BadWords(f"--{name} is given without its value")
        add(request, name, value if equals else left.pop(0))
    request.files = list(dict.fromkeys(request.files))
    look_at_files(request)
    return request


def look_at_files(request):
    """Refuses what is meant as something else than a file."""
    if not request.files:
        raise BadWords("no FILE is given")
    for file in request.files:
        if not file:
            raise BadWords("the name of a file is empty")
        if os.path.lexists(file):
            continue
        if file is request.files[0] and difflib.get_close_matches(file, COMMANDS, 1, LIKE):
            raise BadWords(f"{file} is no file; famlint-check takes no command, only --model=MODEL and files")
        if SETTING.fullmatch(file):
            raise BadWords(f"{file} is no file; famlint-check looks at all configurations, and takes no setting: use famlint variant")


def refused_by_famlint(request):
    """What famlint refuses, as far as it can be told from the table of its options."""
    options = {option.name: option for option in OPTIONS}
    names = [name for name, _ in request.passed]
    for name, value in request.passed:
        option = options.get(name)
        if option is None:
            return f"famlint has no option --{name}{like(name)}"
        if names.count(name) > 1:
            return f"--{name} is given twice"
        if option.needs_model and not request.model():
            return f"--{name} is for families: it needs --model=MODEL"
        if not option.takes(value):
            return f"--{name}={value}: the values are {option.says()}"
    return "famlint refuses the words: " + " ".join(request.command(request.files[0]))
