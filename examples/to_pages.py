#!/usr/bin/env python3
"""Writes what is expected of each example families/NAME_page.words, byte for byte and without the program: the page NAME_page.html, of the
fixed parts of pages, MODEL, FILE, and what is expected of the same words under `invariants`, in NAME_invariants.expected.

    examples/to_pages.py            writes the pages; behind it run examples/to_tests.sh
    examples/to_pages.py --check    compares them, and ends with 1 where one differs
"""
import hashlib
import pathlib
import re
import sys

FAMILIES = pathlib.Path(__file__).resolve().parent / "families"
TOP = FAMILIES.parent.parent
PARTS = TOP / "crates/alarm_page/page"
SCRIPTS = ("texts.js", "conditions.js", "view.js")
# the options in the order of a page, with their defaults
OPTIONS = {
    "domain": "interval", "delay": "0", "narrow": "1", "widening": "type", "overflow": "stop", "regions": "paths", "unknown": "zero", "includes": "assert",
}


def written(data):
    """A text as a page holds it."""
    return "".join(
        chr(byte) if byte == 10 or (32 <= byte <= 126 and byte not in b"\"&'<>") else f"&#x{byte:02x};" for byte in data)


def about(options, model, file):
    """The text at the foot."""
    kit = re.search(r"rattle-kit-\w+ logic \w+", (TOP / "README.md").read_text())[0]
    words = " ".join(f"--{name}={value}" for name, value in options.items())
    sums = [hashlib.sha256(data).hexdigest() for data in (model, file)]
    return f"famlint, proved by {kit}\noptions: {words}\nSHA-256 of MODEL: {sums[0]}\nSHA-256 of FILE: {sums[1]}\n".encode()


def alarms_of(report):
    """The lines of the alarms, behind those of what is known."""
    is_alarm = re.compile(rb"(\d+:\d+: (overflow|zero-divisor|assertion) |alarms: )")
    return b"".join(line for line in report.splitlines(keepends=True) if is_alarm.match(line))


def page_of(words, report):
    """The page that the words of an example ask for."""
    given = dict(word[2:].split("=", 1) for word in words if word.startswith("--"))
    model, file = ((FAMILIES / word).read_bytes() for word in words[1:] if not word.startswith("--"))
    texts = {
        "alarms": alarms_of(report),
        "numbers": "".join(f"{number}\n" for number in range(1, file.count(b"\n") + 2)).encode(),
        "file": file,
        "report": report,
        "model": model,
        "about": about({**OPTIONS, **given}, model, file),
    }
    fixed = {"style": (PARTS / "page.css").read_text(), "script": "".join((PARTS / name).read_text() for name in SCRIPTS)}
    put = lambda mark: fixed[mark[1]] if mark[1] in fixed else written(texts[mark[1]])
    return re.sub(r"^@([a-z]+)@\n", put, (PARTS / "page.html").read_text(), flags=re.MULTILINE)


def main():
    check = sys.argv[1:] == ["--check"]
    if sys.argv[1:] and not check:
        print("usage: to_pages.py [--check]", file=sys.stderr)
        return 2
    differing = 0
    for words in sorted(FAMILIES.glob("*_page.words")):
        report = words.with_name(words.name.replace("_page.words", "_invariants.expected"))
        target = words.with_suffix(".html")
        page = page_of(words.read_text().split(), report.read_bytes())
        if not check:
            target.write_text(page)
        elif not target.exists() or target.read_text() != page:
            differing += 1
            print(f"to_pages.py: {target.relative_to(TOP)} is not the page of its words")
    return 1 if differing else 0


if __name__ == "__main__":
    sys.exit(main())
