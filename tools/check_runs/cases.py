"""Programs whose outcome was worked out by hand from ISO/IEC 9899:2011, and outcomes of which it is known whether they are the same.

The operators are those of 6.5.3.3 and 6.5.5 to 6.5.14, what does not fit `int` is 6.5, paragraph 5, truncation and the sign of a remainder
6.5.5, paragraph 6, and what `&&` and `||` leave out 6.5.13 and 6.5.14, paragraph 4. The order of the parts of a `do` is 6.8.5.2, of those of
a `for` 6.8.5.3, and where a jump leads 6.8.6. Macros are 6.10.3: the tokens of `#define` stand in the place of its name, and those of `-DNAME=VALUE` in the place of a
feature's.
"""
from __future__ import annotations

from dataclasses import dataclass

from .families import NO_FEATURES


@dataclass(frozen=True)
class Case:
    """A program, and its outcome in both modes: `LINE KIND`, or how it ends with the values."""
    name: str
    text: str
    inputs: tuple[int, ...]
    stop: str
    wrap: str
    model: str = NO_FEATURES
    settings: tuple[str, ...] = ()


def case(name: str, declaration: str, statements: str, stop: str, wrap: str | None = None, inputs: tuple[int, ...] = ()) -> Case:
    """A program with its declaration in line 1, and its statements from line 3 on."""
    return Case(name, f"{declaration}\nint main(void) {{\n{statements}\n}}\n", inputs, stop, wrap or stop)


# What stops in both modes, or in neither, has one outcome.
PROGRAMS = [
    case("the least int by -1", "int x = -2147483647, y = -1;", "x = x - 1;\ny = x / y;", "4 overflow"),
    case("the least int % -1", "int x = -2147483647, y = -1;", "x = x - 1;\ny = x % y;", "4 overflow"),
    case("the least int /= -1", "int x = -2147483647;", "--x;\nx /= -1;", "4 overflow"),
    case("the least int %= -1", "int x = -2147483647;", "--x;\nx %= -1;", "4 overflow"),
    case("/ 0", "int x = 7, y;", "x = x / y;", "3 zero-divisor"),
    case("% 0", "int x = 7, y;", "x = x % y;", "3 zero-divisor"),
    case("/= 0", "int x = 7, y;", "x /= y;", "3 zero-divisor"),
    case("%= 0", "int x = 7, y;", "y++;\nx %= y - 1;", "4 zero-divisor"),
    case("0 / 0", "int x;", "x = x / x;", "3 zero-divisor"),
    case("+ above", "int x = 2147483647;", "x = x + 1;", "3 overflow", "ended x=-2147483648"),
    case("+ below", "int x = -2147483647, y = -2;", "x = x + y;", "3 overflow", "ended x=2147483647 y=-2"),
    case("- below", "int x = -2147483647;", "x = x - 2;", "3 overflow", "ended x=2147483647"),
    case("- above", "int x = 2147483647, y = -1;", "x = x - y;", "3 overflow", "ended x=-2147483648 y=-1"),
    case("* above", "int x = 65536;", "x = x * 32768;", "3 overflow", "ended x=-2147483648"),
    case("* above, a square", "int x = 46341;", "x = x * x;", "3 overflow", "ended x=-2147479015"),
    case("* below", "int x = 65536, y = -32769;", "x = x * y;", "3 overflow", "ended x=2147418112 y=-32769"),
    case("* at the ends", "int x = 65536, y = -32768;", "y = x * y;\nx = 46340 * 46340;", "ended x=2147395600 y=-2147483648"),
    case("the least int * -1", "int x;", "x = input();\nx = x * -1;", "4 overflow", "ended x=-2147483648", (-2147483648,)),
    case("- of the least int", "int x = -2147483647;", "x = x - 1;\nx = -x;", "4 overflow", "ended x=-2147483648"),
    case("- of the greatest", "int x = 2147483647;", "x = -x;", "ended x=-2147483647"),
    case("x++ at the limit", "int x = 2147483646;", "x++;\nx++;", "4 overflow", "ended x=-2147483648"),
    case("++x at the limit", "int x = 2147483646;", "++x;\n++x;", "4 overflow", "ended x=-2147483648"),
    case("x-- at the limit", "int x = -2147483647;", "x--;\nx--;", "4 overflow", "ended x=2147483647"),
    case("--x at the limit", "int x = -2147483647;", "--x;\n--x;", "4 overflow", "ended x=2147483647"),
    case("+= above", "int x = 2147483000;", "x += 648;", "3 overflow", "ended x=-2147483648"),
    case("-= below", "int x = -2147483000;", "x -= 649;", "3 overflow", "ended x=2147483647"),
    case("*= above", "int x = 1073741824;", "x *= 2;", "3 overflow", "ended x=-2147483648"),
    case("a part that does not fit", "int x;", "x = 2147483647 + 1 - 1;", "3 overflow", "ended x=2147483647"),
    case("a test that does not fit", "int x;", "if (2147483647 + 1 < 0)\nx = 1;", "3 overflow", "ended x=1"),
    case("an assertion that does not fit", "int x;", "assert(2147483647 + 1 < 0);", "3 overflow", "ended x=0"),
    case("quotients of negatives", "int a, b, c;", "a = -7 / 2;\nb = 7 / -2;\nc = -7 / -2;", "ended a=-3 b=-3 c=3"),
    case("remainders of negatives", "int a, b, c;", "a = -7 % 2;\nb = 7 % -2;\nc = -7 % -4;", "ended a=-1 b=1 c=-3"),
    case("&& leaves out", "int x, y;", "if (x != 0 && 10 / x > 1)\ny = 1;\nelse\ny = 2;", "ended x=0 y=2"),
    case("|| leaves out", "int x, y;", "if (x == 0 || 10 / x > 1)\ny = 1;\nelse\ny = 2;", "ended x=0 y=1"),
    case("&& takes the left first", "int x, y;", "y = 10 / x > 1 && x != 0;", "3 zero-divisor"),
    case("|| takes the left first", "int x, y;", "y = 10 / x > 1 || x == 0;", "3 zero-divisor"),
    case("&& goes on", "int x = 1, y;", "y = x && 1 / (x - 1);", "3 zero-divisor"),
    case("the left operand first", "int x, y;", "y = 1 / x + (2147483647 + 1);", "3 zero-divisor"),
    case("the left operand first, turned", "int x, y;", "y = (2147483647 + 1) + 1 / x;", "3 overflow", "3 zero-divisor"),
    case("the operands before the division", "int x;", "x = (2147483647 + 1) / x;", "3 overflow", "3 zero-divisor"),
    case("an assertion", "int x;", "assert(x == 0);\nassert(x == 1);\nassert(0);", "4 assertion"),
    case("an assertion in a loop", "int x;", "while (1) {\nx++;\nassert(x < 3);\n}", "5 assertion"),
    case("an assertion of three lines", "int x;", "assert(x ==\n('(' - 40) && // )\nx);\nx = 1;", "3 assertion"),
    case("any number but 0 is true", "int x = -5;", "assert(x);\nassert(!!x == 1);\nassert(x - x);", "5 assertion"),
    case("the test of a loop", "int x = 2;", "while (10 / x)\nx--;", "3 zero-divisor"),
    case("a statement of two lines", "int x;", "if (x ==\n1 / x)\nx = 1;", "3 zero-divisor"),
    case("two statements in a line", "int x, y;", "x = 1; y = x / y;", "3 zero-divisor"),
    case("truths are 1 and 0", "int a, b, c;", "a = 3 && 2;\nb = !5;\nc = (2 < 1) + (1 <= 1) + (0 || -9);", "ended a=1 b=0 c=2"),
    case("comparisons in a chain", "int a, b, c;", "a = 3 > 2 > 1;\nb = -1 < 0 < 1;\nc = 5 == 5 == 1;", "ended a=0 b=0 c=1"),
    case("what binds how", "int a, b, c;", "a = 2 + 3 * 4 % 5 - 6 / 4;\nb = 8 - 4 - 2;\nc = 1 || 0 && 0;", "ended a=3 b=2 c=1"),
    case("signs", "int a, b, c;", "a = - -5;\nb = +-+3;\nc = -2 * -3 - -1;", "ended a=5 b=-3 c=7"),
    case("! binds first", "int a, b;", "a = !2 + 3;\nb = !0 * 4 < 5;", "ended a=3 b=1"),
    case("the whole right side", "int a = 10, b = 10, c = 10;", "a -= 3 - 1;\nb *= 2 + 1;\nc /= 1 + 1;", "ended a=8 b=30 c=5"),
    case("numbers", "int a, b, c;", "a = 'a' + 0x10 + 010;\nb = '\\n' + '\\0' + '\\x41';\nc = 0x7fffffff - 0;", "ended a=121 b=75 c=2147483647"),
    case("start values", "int a = 017, b = -0x10; static int c;", "a = a + c;", "ended a=15 b=-16 c=0"),
    case("else of the nearest if", "int x, y, z;", "if (x)\nif (y)\nz = 1;\nelse\nz = 2;", "ended x=0 y=0 z=0"),
    case("else if", "int x = 2, z;", "if (x == 1) z = 1; else if (x == 2) z = 2; else z = 3;", "ended x=2 z=2"),
    case("a wait", "int x, y;", "x = input();\ny = input();", "waiting x=-5 y=0", inputs=(-5,)),
    case("inputs that are left", "int x;", "x = input();", "ended x=1", inputs=(1, 2)),
    case("no statement", "int x = 1;", ";", "ended x=1"),
    case("return", "int x;", "x = 4;\nreturn 3;", "ended x=4"),
    case("a for", "int i, x;", "for (i = 0; i < 3; i++)\nx += i;", "ended i=3 x=3"),
    case("a for that does nothing", "int i, x;", "for (i = 5; i < 3; i++)\nx = 1;", "ended i=5 x=0"),
    case("a for without a start and a step", "int x = 7;", "for (; x > 2;)\nx -= 2;", "ended x=1"),
    case("a for without a test", "int x;", "for (x = 5;; x++)\nassert(x < 8);", "4 assertion"),
    case("a for without parts", "int x, y;", "for (;;) {\nx = input();\ny += x;\n}", "waiting x=4 y=7", inputs=(3, 4)),
    case("a for by inputs", "int x, y;", "for (x = input(); x; x = input())\ny += x;", "ended x=0 y=7", inputs=(3, 4, 0)),
    case("a for that waits", "int x, y;", "for (x = input(); x; x = input())\ny += x;", "waiting x=4 y=7", inputs=(3, 4)),
    case("a for by short forms", "int i = 3, n;", "for (i *= 4; i; i /= 2)\nn++;", "ended i=0 n=4"),
    case("the start of a for", "int x, y;", "for (x =\n3 / y; x < 9; x++)\ny++;", "3 zero-divisor"),
    case("the start of a for, once", "int x, y = 2;", "for (x = 6 / y;\nx < 5;\nx++)\ny = 0;", "ended x=5 y=0"),
    case("the test of a for", "int x = 9, y;", "for (x = 2;\n7 / x;\nx--)\ny = x;", "4 zero-divisor"),
    case("the step of a for", "int x, y;", "for (x = 2147483646;\nx > 0;\nx++)\ny++;", "5 overflow", "ended x=-2147483648 y=2"),
    case("the step behind the body", "int x = 2, y;", "for (;\nx;\ny = 6 / x)\nx--;", "5 zero-divisor"),
    case("the body before the step", "int x = 2, y;", "for (;\nx;\nx = 0)\ny = 6 / (x - 2);", "6 zero-divisor"),
    case("the step that the body makes", "int i, x;", "for (i = 0; i < 4; i += x)\nx++;", "ended i=6 x=3"),
    case("a for in a for", "int i, j, n;", "for (i = 0; i < 3; i++)\nfor (j = i; j < 3; ++j)\nn++;", "ended i=3 j=3 n=6"),
    case("a for in an if", "int x, y = 5, z;", "if (x)\nfor (y = 0; y < 3; y++)\nz++;\nelse\nz = 9;", "ended x=0 y=5 z=9"),
    case("an if in a for", "int x, y, z;", "for (; x < 3; x++) if (x) y++; else z++;", "ended x=3 y=2 z=1"),
    case("a for that declares", "int x;", "for (int i = 0; i < 3; i++)\nx += i;", "ended x=3 i=3"),
    case("a for that declares two", "int x;", "for (int i = 0, j = 5; i < j; i++) {\nx += j;\nj--;\n}", "ended x=12 i=3 j=2"),
    case("a for that declares one by another", "int x;", "for (int i = 2, j = i * 3; j; j--)\nx += i;", "ended x=12 i=2 j=0"),
    case("a for that declares a constant", "int x;", "for (const int k = 3; x < k; x++)\n;", "ended x=3 k=3"),
    case("a for that declares in another", "int n;", "for (int i = 0; i < 3; i++)\nfor (int j = i; j < 3; ++j)\nn++;", "ended n=6 i=3 j=3"),
    case("one name in two loops", "int x;", "for (int i = 0; i < 2; i++) x++;\nfor (int i = 7; i > 4; i--) x++;", "ended x=5 i=4"),
    case("the initialiser in a for", "int y;", "for (int x =\n3 / y; x < 9; x++)\ny++;", "3 zero-divisor"),
    case("else in a for that declares", "int x = 1, y;", "if (x) for (int i = 0; i < 1; i++) if (y) y = 1; else y = 2;", "ended x=1 y=2 i=1"),
    case("else behind a for that declares", "int x, y;", "if (x) for (int i = 0; i < 1; i++) y = 1; else y = 2;", "ended x=0 y=2 i=0"),
    case("a do", "int x;", "do\nx++;\nwhile (x < 3);", "ended x=3"),
    case("a do whose test fails at once", "int x = 5;", "do\nx++;\nwhile (x < 3);", "ended x=6"),
    case("a do in a do", "int x;", "do\ndo\nx++;\nwhile (x < 3);\nwhile (x < 5);", "ended x=5"),
    case("a while in a do", "int x;", "do while (x < 2) x++; while (0);", "ended x=2"),
    case("a do by inputs", "int x, y;", "do {\nx = input();\ny += x;\n} while (x);", "ended x=0 y=7", inputs=(3, 4, 0)),
    case("a do that waits", "int x, y;", "do {\nx = input();\ny += x;\n} while (x);", "waiting x=4 y=7", inputs=(3, 4)),
    case("the body of a do", "int x, y;", "do\ny = 6 / x;\nwhile (1 / y);", "4 zero-divisor"),
    case("the test of a do", "int x;", "do\nx = 0;\nwhile (\n7 / x);", "6 zero-divisor"),
    case("the test of a do, behind its body", "int x = 3;", "do x -= 3; while (\n7 / x);", "4 zero-divisor"),
    case("else behind a do", "int x, y;", "if (x) do if (y) y = 1; while (0); else y = 2;", "ended x=0 y=2"),
    case("else in a do", "int x = 1, y;", "if (x) do if (y) y = 1; else y = 3; while (y < 3);", "ended x=1 y=3"),
    case("break", "int x;", "while (1) {\nif (x == 2)\nbreak;\nx++;\n}\nx *= 5;", "ended x=10"),
    case("break leaves out the step", "int i;", "for (i = 0;; i++)\nif (i == 3)\nbreak;", "ended i=3"),
    case("break leaves out the test", "int x;", "do\nbreak;\nwhile (1 / x);", "ended x=0"),
    case("break out of the inner loop", "int i, j, n;", "for (i = 0; i < 3; i++)\nfor (j = 0;; j++) {\nif (j == i)\nbreak;\nn++;\n}", "ended i=3 j=2 n=3"),
    case("break out of blocks", "int x;", "do { { if (x < 9) { { break; } } x = 1; } x = 2; } while (1);", "ended x=0"),
    case("continue in a while", "int x, y;", "while (x < 4) {\nx++;\nif (x == 2)\ncontinue;\ny += x;\n}", "ended x=4 y=8"),
    case("continue in a for", "int i, s;", "for (i = 0; i < 5; i++) {\nif (i % 2)\ncontinue;\ns += i;\n}", "ended i=5 s=6"),
    case("continue to the step", "int x = 3;", "for (;\nx;\nx = 6 / x) {\nx -= 3;\ncontinue;\n}", "5 zero-divisor"),
    case("continue in a do", "int x, y;", "do {\nx++;\nif (x == 2)\ncontinue;\ny += x;\n} while (x < 4);", "ended x=4 y=8"),
    case("continue to the test", "int x, y;", "do {\nif (!x)\ncontinue;\ny = 1;\n} while (\n1 / x);", "8 zero-divisor"),
    case("continue of the inner loop", "int i, j;", "while (i < 2) {\ni++;\ndo\ncontinue;\nwhile (j > 9);\nj += i;\n}", "ended i=2 j=3"),
    case("return in loops", "int i, j;", "for (i = 0; i < 3; i++)\nfor (j = 0; j < 3; j++)\nif (i + j == 3)\nreturn 0;\ni = 9;", "ended i=1 j=2"),
    case("the value of a return", "int x = 2147483647;", "return x + 1;\nx = 1;", "3 overflow", "ended x=2147483647"),
    case("the value of a return, a quotient", "int x;", "if (!x)\nreturn 1 / x;\nx = 5;", "4 zero-divisor"),
    case("what a return leaves out", "int x;", "return 0;\nassert(x);", "ended x=0"),
    case("a static variable of main", "int i, x;", "for (i = 0; i < 3; i++) {\nstatic int n = 10;\nn += i;\nx = n;\n}", "ended i=3 x=13 n=13"),
    case("a static constant of main", "int x;", "static const int k = -4;\nx = k * 2;", "ended x=-8 k=-4"),
    case("constants", "int x; const int A = 3; int const B = -2;", "x = A - B;", "ended x=5 A=3 B=-2"),
    case("constants that are counted", "int x; enum { A, B, C = 0x10, D, E = -3, F, };", "x = D + F;", "ended x=15 A=0 B=1 C=16 D=17 E=-3 F=-2"),
    case("words of the type", "int32_t a = 1; signed b = 2; int signed c; static signed int d;", "c = a + b;\nd = c;", "ended a=1 b=2 c=3 d=3"),
]

GROUPS = """int x = 1;
int main(void) {
#ifdef A
    x = x - 1;
#endif
#if N < 0 && !defined(B)
    x = 1 / x;
#elif 2 * N == A + 1
    x = 5;
#else
    x = 6;
#endif
}
"""
MODEL = '{"features": [{"name": "A"}, {"name": "N", "min": -2, "max": 3}, {"name": "B"}], "constraints": ["!B || A"]}\n'

DEFINED = """int x = 7, y;
#ifdef A
#define STEP (-3)
#else
#define STEP 2
#endif
#ifndef LAST
# define LAST - 0x10 /* a note */
#endif
int main(void) {
    x = x * STEP - LAST;
    y = x / (STEP - 2);
}
"""
ONE_PART = """int x = 5;
#ifdef A
#define STEP ( '\\n' )
#endif
int main(void) {
#ifdef A
    x = -STEP;
#endif
    x = x + N;
}
"""
ENDS = """int x, y = 2147483647;
int main(void) {
    x = N * 3 - 1;
    y = y - N;
    while (x < N)
        x++;
    if (N == 3)
        x = -N;
}
"""
DIVIDED = """int x = 10;
int main(void) {
    x %= 7;
    x = (x + 1) / N;
}
"""
GUARDED = """int x, y;
int main(void) {
    x = N && 6 / N;
    while (N + x < 0)
        x = x - N;
    assert(x <= 6 && (N || !x));
#if N
    y = 7 % N;
#endif
}
"""
LEFT = """int x;
int main(void) {
    do {
#ifdef A
        if (x == N)
            break;
#elif N < 0
        return N;
#endif
        x++;
#if N == 2
        continue;
        x = 9;
#endif
    } while (x < 4);
    x = -x;
}
"""
LEAST = """int x;
int main(void) {
    x = WIDTH * WIDTH;
    x = WIDTH + x;
}
"""
ONE_VALUE = '{"features": [{"name": "WIDTH", "min": -1048576, "max": -1048576}]}\n'


def variants(name: str, text: str, outcomes: dict[str, str | tuple[str, str]], model: str = MODEL) -> list[Case]:
    """Variants of a family, each by its settings, with the outcome in both modes or in one and the other."""
    told = {settings: (outcome, outcome) if isinstance(outcome, str) else outcome for settings, outcome in outcomes.items()}
    return [Case(f"{name}, {settings}", text, (), stop, wrap, model, tuple(settings.split())) for settings, (stop, wrap) in told.items()]


FAMILIES = [
    *variants("groups", GROUPS, {
        "A=1 N=-1": "7 zero-divisor", "N=-1": "ended x=1", "A=1 N=-2 B=1": "ended x=6",
        "A=1 N=1": "ended x=5", "N=1": "ended x=6", "A=1 N=3": "ended x=6"}),
    *variants("a #define in either part", DEFINED, {"A=1 N=0": "ended x=-5 y=1 STEP=-3 LAST=-16", "N=0": "12 zero-divisor"}),
    *variants("a #define in one part", ONE_PART, {"A=1 N=-2": "ended x=-12 STEP=10 N=-2", "N=3": "ended x=8 STEP=0 N=3"}),
    *variants("a feature in arithmetic", ENDS, {
        "N=-2": ("4 overflow", "ended x=-2 y=-2147483647 N=-2"), "N=0": "ended x=0 y=2147483647 N=0", "N=3": "ended x=-3 y=2147483644 N=3"}),
    *variants("a division by a feature", DIVIDED, {"N=0": "4 zero-divisor", "N=-2": "ended x=-2 N=-2", "N=3": "ended x=1 N=3"}),
    *variants("a feature in tests", GUARDED, {
        "N=0": "ended x=0 y=0 N=0", "N=-2": "ended x=3 y=1 N=-2", "N=-1": "ended x=1 y=0 N=-1", "N=3": "ended x=1 y=1 N=3"}),
    *variants("jumps in groups", LEFT, {
        "A=1 N=3": "ended x=-3 N=3", "A=1 N=-1": "ended x=-4 N=-1", "N=-1": "ended x=0 N=-1", "N=2": "ended x=-4 N=2",
        "A=1 N=2": "ended x=-2 N=2", "N=0": "ended x=-4 N=0"}),
    *variants("the least feature", LEAST, {"WIDTH=-1048576": ("3 overflow", "ended x=-1048576 WIDTH=-1048576")}, ONE_VALUE),
]

CASES = PROGRAMS + FAMILIES

COMPARED = """int x, y;
int main(void) {
    x = 1; y = 1 / x;
    if (x / 2 ==
        y) x = 9 / y; // a note; and {
    assert(x == 1);
    for (x = 3 / y; x < 3 / y; x += 3 / y) y = 3 / x;
    if (x) for (x = 3 / y; /* a note; and ) */ x; x = 3 / y) ;
    for (;; x = (3) / y) y = (3 / x);
    do y = 1 / x; while (3 / x);
    return 4 / x;
}
"""
REPORT = "t.c:{}:{}: runtime error: {} cannot be represented in type 'int'\nSUMMARY: ..\n"
BY_ZERO = "t.c:{}:{}: runtime error: division by zero\nSUMMARY: ..\n"
FAILED = "t: ./t.c:{}: int main(void): Assertion `x == 1' failed.\n"

# What famlint prints of a run of that text, what the compiled program writes to its output and its error stream, and whether that is the same.
OUTCOMES = [
    ("ended x=1 y=2\n", "ended x=1 y=2\n", "", True),
    ("ended x=1 y=2\n", "ended x=1 y=3\n", "", False),
    ("ended x=1 y=2\n", "ended x=1\n", "", False),
    ("ended x=1 y=2\n", "waiting x=1 y=2\n", "", False),
    ("ended x=1 y=2 STEP=0\n", "ended x=1 y=2\n", "", True),
    ("ended x=1 y=2 STEP=3\n", "ended x=1 y=2\n", "", False),
    ("ended x=1 y=2 STEP=-3 N=0\n", "ended x=1 y=2 STEP=-3 N=0\n", "", True),
    ("ended x=1 y=2 STEP=-3 N=0\n", "ended x=1 y=2 STEP=-3 N=1\n", "", False),
    ("ended x=1 y=2\n", "ended x=1 y=2 N=1\n", "", False),
    ("waiting 3:5 x=1 y=2\n", "waiting x=1 y=2\n", "", True),
    ("waiting 3:5 x=1 y=2\n", "waiting x=0 y=2\n", "", False),
    ("waiting 3:5 x=1 y=2\n", "ended x=1 y=2\n", "", False),
    ("ended x=1 y=2\n", "", FAILED.format(6), False),
    ("stopped 6:5 assertion\n", "", FAILED.format(6), True),
    ("stopped 6:5 assertion\n", "", FAILED.format(5), False),
    ("stopped 6:5 assertion\n", "ended x=2 y=1\n", "", False),
    ("stopped 6:5 assertion\n", "", BY_ZERO.format(6, 5), False),
    ("stopped 3:12 zero-divisor\n", "", BY_ZERO.format(3, 18), True),
    ("stopped 3:12 overflow\n", "", BY_ZERO.format(3, 18), False),
    ("stopped 3:5 zero-divisor\n", "", BY_ZERO.format(3, 18), False),
    ("stopped 4:5 zero-divisor\n", "", BY_ZERO.format(3, 18), False),
    ("stopped 4:5 overflow\n", "", REPORT.format(4, 11, "division of -2147483648 by -1"), True),
    ("stopped 4:5 zero-divisor\n", "", REPORT.format(4, 11, "division of -2147483648 by -1"), False),
    ("stopped 4:5 zero-divisor\n", "", BY_ZERO.format(5, 18), False),
    ("stopped 5:12 zero-divisor\n", "", BY_ZERO.format(5, 18), True),
    ("stopped 5:12 overflow\n", "", REPORT.format(5, 18, "signed integer overflow: 2147483647 + 1"), True),
    ("stopped 5:12 overflow\n", "", REPORT.format(5, 18, "negation of -2147483648"), True),
    ("stopped 6:5 zero-divisor\n", "", BY_ZERO.format(5, 18), False),
    ("stopped 7:10 zero-divisor\n", "", BY_ZERO.format(7, 16), True),
    ("stopped 7:10 zero-divisor\n", "", BY_ZERO.format(7, 27), False),
    ("stopped 7:21 zero-divisor\n", "", BY_ZERO.format(7, 27), True),
    ("stopped 7:21 zero-divisor\n", "", BY_ZERO.format(7, 16), False),
    ("stopped 7:21 zero-divisor\n", "", BY_ZERO.format(7, 39), False),
    ("stopped 7:32 zero-divisor\n", "", BY_ZERO.format(7, 39), True),
    ("stopped 7:32 zero-divisor\n", "", BY_ZERO.format(7, 50), False),
    ("stopped 7:44 zero-divisor\n", "", BY_ZERO.format(7, 39), False),
    ("stopped 7:44 zero-divisor\n", "", BY_ZERO.format(7, 50), True),
    ("stopped 8:5 zero-divisor\n", "", BY_ZERO.format(8, 23), False),
    ("stopped 8:17 zero-divisor\n", "", BY_ZERO.format(8, 23), True),
    ("stopped 8:51 zero-divisor\n", "", BY_ZERO.format(8, 57), True),
    ("stopped 9:13 zero-divisor\n", "", BY_ZERO.format(9, 21), True),
    ("stopped 9:13 zero-divisor\n", "", BY_ZERO.format(9, 33), False),
    ("stopped 9:26 zero-divisor\n", "", BY_ZERO.format(9, 33), True),
    ("stopped 10:8 zero-divisor\n", "", BY_ZERO.format(10, 14), True),
    ("stopped 10:8 zero-divisor\n", "", BY_ZERO.format(10, 28), False),
    ("stopped 10:5 zero-divisor\n", "", BY_ZERO.format(10, 14), False),
    ("stopped 10:26 zero-divisor\n", "", BY_ZERO.format(10, 28), True),
    ("stopped 10:26 zero-divisor\n", "", BY_ZERO.format(10, 14), False),
    ("stopped 10:26 zero-divisor\n", "", BY_ZERO.format(11, 14), False),
    ("stopped 11:5 zero-divisor\n", "", BY_ZERO.format(11, 14), True),
    ("file: F12 at 1:1\n", "file: F12 at 1:1\n", "", False),
    ("", "", "Segmentation fault\n", False),
]
