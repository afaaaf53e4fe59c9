"""Makes families at random, by a seed, within the C that famlint reads: groups, loops by `while`, `for` and `do`, with `break`, `continue` and
`return`, assertions, the short forms of assignments, constants, number features as values, functions outside, and variables of `main`, in
which overflows, zero divisors and failed assertions do occur."""
from __future__ import annotations

import json
import random
import re
from collections.abc import Callable, Iterable, Iterator

from .expressions import COMPARING, Expressions
from .families import Family
from .outcomes import MAIN, TYPE, code_of, declarators, statics

SWITCHES = ("FAST", "SAFE", "LOG")
CONSTANTS = ("BASE", "STEP", "TOP", "LAST")
NAMES = ("level", "count", "load", "rate", "head", "limit", "phase", "gain")
LOCALS = ("part", "rest", "share", "half", "odd")
STATICS = ("total", "seen", "last_one")
FUNCTIONS = ("sample", "reading")
TYPES = ("int", "int", "int", "int", "signed", "signed int", "int signed", "int32_t")
# The least values of number features: mostly about 0, so that divisors by them may be 0, and the ends of what a model takes.
LOWS = (-2, -2, 0, 0, 1, 1, -7, 1048560, -1048576)
DEPTH = 3

# Parts of `for` loops that end: how they start, what they test and how they step, with their counter `{i}`, a bound `{n}` and an input
# `{call}`. An absent start has the counter as the loop before left it, and with an absent step the body counts up.
UP = (
    ("{i} = 0", "{i} = 0", "{i} = 0", "", "{i} = -2", "{i} = {n} - 5", "{i} *= 0", "{i} %= 3", "{i} -= 4", "{i}--", "++{i}"),
    ("{i} < {n}", "{i} < {n}", "{i} <= {n}", "{n} > {i}", "!({i} >= {n})"),
    ("{i}++", "{i}++", "{i}++", "++{i}", "{i} += 2", "{i} = {i} + 3", ""),
)
DOWN = (
    ("{i} = {n}", "{i} = 9", "{i} += 6", "{i} = 2 * {n} + 1"),
    ("{i} > 0", "{i} >= 1", "0 < {i}"),
    ("{i}--", "--{i}", "{i} -= 2", "{i} /= 2", "{i} = {i} - 1"),
)
TO_ZERO = (
    ("", "{i} = {call}", "{i} = {call}", "{i} += {n}"),
    ("{i}", "{i} != 0", "{i} / 3"),
    ("{i} /= 2", "{i} = {i} / 3", "{i} = {call}"),
)


# What made families are counted by.
HELD: dict[str, Callable[[Family], object]] = {
    "a `#define`": lambda family: re.search(r"#\s*define\b", code_of(family.file)),
    "a number feature in the code": Family.valued,
    "a `for`": lambda family: re.search(r"\bfor\b", code_of(family.file)),
    "one that declares": lambda family: re.search(rf"\bfor\s*\(\s*(const\s+)?{TYPE}\b", code_of(family.file)),
    "a `do`": lambda family: re.search(r"\bdo\b", code_of(family.file)),
    "a `break`": lambda family: re.search(r"\bbreak\b", code_of(family.file)),
    "a `continue`": lambda family: re.search(r"\bcontinue\b", code_of(family.file)),
    "a `return` before the end": lambda family: re.search(r"\breturn\b[^;]*;(?!\s*\}\s*\Z)", code_of(family.file)),
    "variables of `main`": lambda family: declarators(family.file),
    "a `static` one of these": lambda family: statics(family.file),
    "one name in several blocks": lambda family: has_twins([it.split("=")[0].strip() for it in declarators(family.file)]),
    "a call of a function outside": lambda family: re.search(rf"\b({'|'.join(FUNCTIONS)}|note)\(", MAIN.split(code_of(family.file))[-1]),
}


def has_twins(names: list[str]) -> bool:
    return len(set(names)) < len(names)


def held(families: list[Family]) -> str:
    """How many of these made families have what."""
    return ", ".join(f"{sum(bool(has(it)) for it in families)} with {name}" for name, has in HELD.items())


def laid_out(lines: Iterable[str]) -> Iterator[str]:
    """Lines with the indents of their blocks. A directive stands at the margin."""
    depth = 0
    for line in lines:
        code = code_of(line)
        yield line if line.startswith("#") else "    " * (depth - code.startswith("}")) + line
        depth += code.count("{") - code.count("}")


class Maker:
    """A family in the making. `free` are the variables that every configuration declares, `some` those of one switch each, `constants`
    what every configuration declares by `const`, `enum` or `#define`, with the number features that stand in the code, `other` the
    constants of one switch each, `functions` the functions outside with a value, `locals` names for variables of `main` and `statics` for `static` ones. `counters`
    are variables that loops alone change, and `counting` those of the loops around a statement. So many loops are around it as `inside` says."""

    def __init__(self, rng: random.Random):
        self.rng = rng
        self.switches = list(SWITCHES[:rng.randint(1, len(SWITCHES))])
        self.numbers = [self.number(name, most) for name, most, share in (("SIZE", 12, 0.7), ("WIDTH", 3, 0.3)) if rng.random() < share]
        self.counters: list[str] = []
        self.counting: list[str] = []
        self.inside = 0
        self.free: list[str] = []
        self.some: dict[str, str] = {}
        self.constants: list[str] = []
        self.other: dict[str, str] = {}
        self.functions = ["input"]
        self.locals = self.rng.sample(LOCALS, self.rng.randint(0, len(LOCALS)))
        self.statics = self.rng.sample(STATICS, self.rng.randint(0, len(STATICS)))
        self.declarations: list[str] = []
        self.declare()

    # ---- the model

    def number(self, name: str, most: int) -> dict[str, str | int]:
        """A number feature with so many values above its least at most."""
        low = self.rng.choice(LOWS)
        return {"name": name, "min": low, "max": low + self.rng.randint(1, most)}

    def model(self) -> str:
        features = [{"name": name} for name in self.switches] + self.numbers
        constraints = []
        if len(self.switches) > 1 and self.rng.random() < 0.4:
            constraints.append(self.rng.choice(("!FAST || !SAFE", "SAFE || FAST", "!SAFE || defined(FAST)")))
        if self.numbers and self.rng.random() < 0.4:
            number = self.rng.choice(self.numbers)
            constraints.append(f"!FAST || {number['name']} <= {number['max'] - 1}")
        return json.dumps({"features": features, "constraints": constraints}) + "\n"

    def condition(self) -> str:
        """A condition of a group, behind `#if`."""
        rng = self.rng
        literals = []
        for _ in range(rng.choice((1, 1, 2, 3))):
            name = rng.choice(self.switches)
            forms = [name, f"!{name}", f"defined({name})", f"!defined {name}", f"{name} == {rng.randint(0, 1)}"]
            if self.numbers:
                number = rng.choice(self.numbers)
                size, bound = number["name"], rng.randint(number["min"] - 1, number["max"] + 1)
                forms += [f"{size} {rng.choice(COMPARING)} {bound}", f"2 * {size} - {name} >= {bound}", f"({bound} <= {size} + 3 * {name})",
                          size, f"{size} {rng.choice(COMPARING)} {rng.choice(('0x9', '0XbL', '07ll', '3l', '011'))}"]
            literals.append(rng.choice(forms))
        text = literals[0]
        for it in literals[1:]:
            text += f" {rng.choice(('&&', '||'))} {it}"
        return text

    def section(self, part: Callable[[], list[str]]) -> list[str]:
        """A group with perhaps others behind it, and a part in each."""
        rng = self.rng
        name = rng.choice(self.switches)
        lines = [rng.choice((f"#if {self.condition()}", f"#ifdef {name}", f"#ifndef {name}", f"# if {self.condition()} /* for some */"))]
        lines += part()
        while rng.random() < 0.25:
            lines += [f"#elif {self.condition()}", *part()]
        if rng.random() < 0.5:
            lines += ["#else", *part()]
        return [*lines, "#endif"]

    # ---- the variables

    def start(self) -> str:
        rng = self.rng
        return rng.choice(("", "", f" = {rng.randint(0, 9)}", f" = -{rng.randint(1, 9)}", " = 0x10", " = 'a'", " = 2147483647", " = - 2147483647"))

    def declared(self, name: str) -> str:
        return f"{self.rng.choice(('', '', 'static '))}{self.rng.choice(TYPES)} {name}{self.start()};"

    def defined(self, name: str) -> str:
        """A constant by `#define`."""
        rng = self.rng
        small = (str(rng.randint(0, 9)), f"-{rng.randint(1, 9)}", f"- {rng.randint(1, 9)}", "0x10", "-017", "'a'")
        value = rng.choice(small if rng.random() < 0.9 else ("2147483647", "-2147483647", "65536"))
        form = rng.choice(("{}", "{}", "({})", "( {} )"))
        word = rng.choice(("#define", "#define", "# define", "#define\t"))
        return f"{word} {name} {form.format(value)}{rng.choice(('', '', ' ', ' /* a note */', ' // a note; and more'))}"

    def fixed(self, names: list[str]) -> list[str]:
        """Declarations of constants, or of variables that nothing changes."""
        rng = self.rng
        kind = rng.choices(("define", "const", "enum", "variable"), (5, 2, 2, 1))[0]
        if kind == "define":
            return [self.defined(name) for name in names]
        if kind == "variable":
            return [self.declared(name) for name in names]
        if kind == "const":
            word = rng.choice(("const int", "int const", "static const int32_t", "const signed"))
            return [f"{word} {', '.join(f'{name} = {rng.randint(-9, 9)}' for name in names)};"]
        listed = ", ".join(name + rng.choice(("", "", f" = {rng.randint(-9, 9)}", " = 0x10", " = 'a'")) for name in names)
        return [f"enum {{ {listed}{rng.choice(('', ','))} }};"]

    def parts(self, names: list[str]) -> list[str]:
        """A group whose parts declare constants, each all of them."""
        lines = [f"#if {self.condition()}", *self.fixed(names)]
        while self.rng.random() < 0.25:
            lines += [f"#elif {self.condition()}", *self.fixed(names)]
        return [*lines, "#else", *(self.parts(names) if self.rng.random() < 0.2 else self.fixed(names)), "#endif"]

    def declare_constants(self) -> None:
        rng = self.rng
        names = rng.sample(CONSTANTS, rng.randint(1, len(CONSTANTS)))
        if len(names) > 1 and rng.random() < 0.3:
            name, switch = names.pop(), rng.choice(self.switches)
            self.other[name] = switch
            self.declarations += [f"#ifdef {switch}", *self.fixed([name]), "#endif"]
        self.constants += names
        if rng.random() < 0.3:
            # (a name without a definition above is unknown, as in C)
            guarded = names.pop()
            self.declarations += [f"#ifndef {guarded}", self.defined(guarded), "#endif"]
        if names:
            self.declarations += self.parts(names) if rng.random() < 0.6 else self.fixed(names)

    def declare(self) -> None:
        rng = self.rng
        names = rng.sample(NAMES, rng.randint(3, 6))
        if rng.random() < 0.5:
            name, switch = names.pop(), rng.choice(self.switches)
            self.some[name] = switch
            self.declarations += [f"#ifdef {switch}", self.declared(name), "#endif"]
        if rng.random() < 0.5:
            name = names.pop()
            self.free.append(name)
            self.declarations += [f"#if {self.condition()}", self.declared(name), "#else", self.declared(name), "#endif"]
        if rng.random() < 0.5:
            self.declarations.append(f"{rng.choice(TYPES)} {', '.join(name + self.start() for name in names)};")
        else:
            self.declarations += [self.declared(name) for name in names]
        self.free += names
        if rng.random() < 0.7:
            self.declare_constants()
        self.constants += [it["name"] for it in self.numbers if rng.random() < 0.8]
        self.counters = ["i", "j"]
        self.declarations.append("static int i, j;")
        if rng.random() < 0.4:
            self.declare_functions()
        if rng.random() < 0.4:
            self.declarations.insert(0, rng.choice(("extern int input(void);", "#include <assert.h>", "int input();")))

    def declare_functions(self) -> None:
        """Some functions outside with a value, and perhaps `note` without one."""
        rng = self.rng
        names = rng.sample(FUNCTIONS, rng.randint(1, len(FUNCTIONS)))
        self.functions += names
        for name in names:
            self.declarations.insert(0, f"{rng.choice(('', 'extern '))}{rng.choice(TYPES)} {name}({rng.choice(('void', ''))});")
        if rng.random() < 0.5:
            self.functions.append("note")
            self.declarations.insert(0, rng.choice(("void note(void);", "extern void note();")))

    # ---- the statements

    def taken(self) -> str:
        """A call whose value is an input."""
        return f"{self.rng.choice([it for it in self.functions if it != 'note'])}()"

    def over(self, scope: list[str]) -> Expressions:
        """Expressions over what may be read where these variables may be changed."""
        return Expressions(self.rng, scope + self.counters + self.constants)

    def local(self, scope: list[str]) -> tuple[list[str], list[str]]:
        """A declaration in a list of `main`, and the variables that what follows it there may change. Without an initialiser a value would be
        any, and clang need not take it from the inputs."""
        rng = self.rng
        of = self.over(scope)
        names = [self.locals.pop() for _ in range(min(len(self.locals), rng.choice((1, 1, 2))))]
        listed = ", ".join(f"{name} = {self.taken() if rng.random() < 0.3 else of.value(rng.choice((0, 1, 2)))}" for name in names)
        if rng.random() < 0.25:
            return [f"{rng.choice(('const int', 'int const', 'const signed'))} {listed};"], []
        return [f"{rng.choice(TYPES)} {listed};"], names

    def static(self) -> tuple[list[str], list[str]]:
        """The same of a `static` variable, which is the only one of its name in `main`."""
        rng = self.rng
        name = self.statics.pop()
        return [f"static {rng.choice(TYPES)} {name}{self.start()};"], [name]

    def change(self, scope: list[str]) -> str:
        """A change of a variable, as a statement has it before its semicolon, and a `for` in its parentheses."""
        rng = self.rng
        of = self.over(scope)
        kind = rng.choices(("set", "take", "update", "count"), (6, 5, 5, 3))[0]
        name = rng.choice(scope)
        if kind == "set":
            return f"{name} = {of.value(rng.choice((1, 2, 3)))}"
        if kind == "take":
            return f"{name} = {self.taken()}"
        if kind == "update":
            operator = rng.choices(("+=", "-=", "*=", "/=", "%="), (4, 4, 4, 1, 1))[0]
            return f"{name} {operator} {of.value(rng.choice((0, 0, 1, 2)))}"
        return rng.choice((f"{name}++", f"{name}--", f"++{name}", f"--{name}"))

    def simple(self, scope: list[str]) -> str:
        """A statement that holds no other."""
        rng = self.rng
        kind = rng.choices(("change", "assert", "nothing"), (19, 3, 0.5))[0]
        if kind == "change":
            return f"{self.change(scope)};"
        if kind == "assert":
            return f"assert({self.over(scope).likely(rng.choice(scope))});"
        return rng.choice(("note();", "(void)note();")) if "note" in self.functions else ";"

    def jump(self, scope: list[str]) -> str:
        """A jump; outside loops it ends the program."""
        rng = self.rng
        word = rng.choices(("break", "continue", "return"), (5, 5, 1) if self.inside else (0, 0, 1))[0]
        return f"return {self.over(scope).value(rng.choice((0, 0, 1, 2)))};" if word == "return" else f"{word};"

    def leaving(self, scope: list[str]) -> list[str]:
        """A jump, mostly by a test."""
        jump = self.jump(scope)
        return [f"if ({self.over(scope).test(1)})", f"    {jump}"] if self.rng.random() < 0.85 else [jump]

    def in_loop(self, make: Callable[[], list[str]]) -> list[str]:
        """What a loop has as its body."""
        self.inside += 1
        lines = make()
        self.inside -= 1
        return lines

    def block(self, scope: list[str], depth: int, *first: str) -> list[str]:
        """Statements in braces. What they declare is out of scope behind them, so that a later block may declare it too."""
        free = list(self.locals)
        lines = ["{", *first, *self.statements(scope, depth), "}"]
        self.locals = free
        return lines

    def header(self, start: str, test: str, step: str) -> str:
        """The parentheses of a `for`, perhaps in several lines."""
        gap = self.rng.choices((" ", "", "\n        ", " /* a note; and more) */ "), (12, 2, 1, 1))[0]
        return f"for ({start};{gap}{test};{gap}{step})"

    def bound(self) -> str:
        """What a counter is compared with."""
        # (a feature of great values would leave out most runs for their length)
        great = [it["name"] for it in self.numbers if it["min"] > 100]
        return self.rng.choice((*(it for it in self.constants if it not in great), *[str(self.rng.randint(1, 12))] * 4))

    def counted(self, counter: str, scope: list[str], depth: int, declares: bool = False) -> list[str]:
        """A `for` that its counter ends, which it perhaps declares."""
        rng = self.rng
        form = rng.choices((UP, DOWN, TO_ZERO), (7, 2, 1))[0]
        bound = self.bound()
        starts = [it for it in form[0] if it.startswith("{i} = ")] if declares else form[0]
        start, test, step = (rng.choice(it).format(i=counter, n=bound, call=self.taken()) for it in (starts, *form[1:]))
        if declares:
            start = f"{rng.choice(TYPES)} {start}"
        if form is UP and rng.random() < 0.15:
            test = f"{test} && ({self.over(scope).test(1)})"
        held = self.in_loop(lambda: self.body(scope, depth) if step else self.block(scope, depth - 1, f"{counter}++;"))
        return [self.header(start, test, step), *held]

    def declaring(self, scope: list[str], depth: int) -> list[str]:
        """A `for` that declares its counter, which is out of scope behind it."""
        counter = self.locals.pop()
        self.counters.append(counter)
        self.counting.append(counter)
        lines = self.counted(counter, scope, depth, declares=True)
        self.counting.pop()
        self.counters.remove(counter)
        self.locals.append(counter)
        return lines

    def any_loop(self, scope: list[str], depth: int) -> list[str]:
        """A loop that need not end."""
        rng = self.rng
        test = self.over(scope).test(2)
        held = self.in_loop(lambda: self.body(scope, depth))
        form = rng.choices(("while", "for", "do"), (4, 5, 3))[0]
        if form == "while":
            return [f"while ({test})", *held]
        if form == "do":
            return self.last_tested(test, held)
        start, step = (self.change(scope) if rng.random() < 0.8 else "" for _ in range(2))
        return [self.header(start, test, step), *held]

    def last_tested(self, test: str, held: list[str]) -> list[str]:
        """A `do`, perhaps with its test in several lines."""
        gap = self.rng.choices(("", "\n        ", " /* a note; and more) */ "), (12, 2, 1))[0]
        return ["do", *held, f"while ({gap}{test});"]

    def loop(self, scope: list[str], depth: int, is_one: bool = False) -> list[str]:
        """A loop, mostly one that a counter of its own ends; or one that is a single statement."""
        rng = self.rng
        if rng.random() < 0.25:
            return self.any_loop(scope, depth)
        if self.locals and rng.random() < 0.3:
            return self.declaring(scope, depth)
        left = [it for it in self.counters if it not in self.counting]
        if not left:
            return [self.simple(scope)]
        self.counting.append(left[-1])
        if is_one or rng.random() < 0.6:
            lines = self.counted(left[-1], scope, depth)
        else:
            test = f"{left[-1]} < {self.bound()}"
            held = self.in_loop(lambda: self.block(scope, depth - 1, f"{left[-1]}++;"))
            lines = [f"{left[-1]} = 0;", *([f"while ({test})", *held] if rng.random() < 0.5 else self.last_tested(test, held))]
        self.counting.pop()
        return lines

    def endless(self) -> list[str]:
        """A loop without a test, as the last statement of `main`, since it is mostly left by a stop or a wait for an input."""
        held = self.in_loop(lambda: self.block(self.free, DEPTH - 1, f"{self.rng.choice(self.free)} = {self.taken()};"))
        if self.rng.random() < 0.3:
            return self.last_tested("1", held)
        start, step = (self.change(self.free) if self.rng.random() < 0.3 else "" for _ in range(2))
        return [self.header(start, "", step), *held]

    def body(self, scope: list[str], depth: int) -> list[str]:
        """What an `if` or a loop holds: one statement, perhaps an `if` or a loop again, or a block."""
        rng = self.rng
        if self.inside and rng.random() < 0.08:
            return [f"    {self.jump(scope)}"]
        if depth > 0 and rng.random() < 0.4:
            return self.choice(scope, depth - 1) if rng.random() < 0.7 else self.loop(scope, depth - 1, is_one=True)
        if rng.random() < 0.4:
            return [f"    {self.simple(scope)}"]
        return self.block(scope, depth - 1)

    def choice(self, scope: list[str], depth: int) -> list[str]:
        lines = [f"if ({self.over(scope).test(2)})", *self.body(scope, depth)]
        return lines + (["else", *self.body(scope, depth)] if self.rng.random() < 0.5 else [])

    def group(self, scope: list[str], depth: int) -> list[str]:
        if self.some and self.rng.random() < 0.5:
            (name, switch), = self.some.items()
            return [f"#ifdef {switch}", *self.statements([*scope, name], depth - 1), "#endif"]
        if self.other and self.rng.random() < 0.5:
            (name, switch), = self.other.items()
            self.constants.append(name)
            lines = [f"#ifdef {switch}", *self.statements(scope, depth - 1), "#endif"]
            self.constants.pop()
            return lines
        return self.section(lambda: self.statements(scope, depth - 1))

    def statements(self, scope: list[str], depth: int) -> list[str]:
        rng = self.rng
        lines = []
        for _ in range(rng.randint(1, 4) if depth > 0 else rng.randint(0, 2)):
            if self.locals and rng.random() < 0.15:
                declaration, names = self.local(scope)
                lines += declaration
                scope = scope + names
            if self.statics and rng.random() < 0.1:
                declaration, names = self.static()
                lines += declaration
                scope = scope + names
            kind = rng.choices(("simple", "choice", "loop", "group", "block", "line"), (6, 3, 2, 3, 0.3, 0.7))[0] if depth > 0 else "simple"
            if rng.random() < (0.12 if self.inside else 0.015):
                lines += self.leaving(scope)
            if kind == "simple":
                lines.append(self.simple(scope) + rng.choice(("", "", "", " // a note; and more", " /* if (0) { */")))
            elif kind == "line":
                lines.append(f"{self.simple(scope)} {self.simple(scope)}")
            elif kind == "block":
                lines += self.block(scope, depth - 1)
            else:
                make = {"choice": self.choice, "loop": self.loop, "group": self.group}[kind]
                lines += make(scope, depth)
        return lines

    def file(self) -> str:
        rng = self.rng
        body = [line for _ in range(rng.randint(2, 4)) for line in self.statements(self.free, DEPTH)]
        body += self.endless() if rng.random() < 0.1 else []
        head = rng.choice(("int main(void)", "int main()", "signed main(void)"))
        last = rng.choice(([], ["return 0;"], ["return 3;"], [f"return {self.over(self.free).value(1)};"]))
        return "\n".join(laid_out([*self.declarations, f"{head} {{", *body, *last, "}", ""]))


def made(seed: int, number: int) -> Family:
    """The family with this number, of a seed."""
    maker = Maker(random.Random(f"{seed} {number}"))
    file = maker.file()
    return Family(f"random-{number}", maker.model(), file, is_made=True)
