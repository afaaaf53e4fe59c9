"""Manual pages, from a document in Markdown or from the text of `--help`."""
import re

LINK = re.compile(r"\[([^\]]*)\]\([^)]*\)")
MARKS = re.compile(r"\*\*([^*]+)\*\*|`([^`]+)`|(?<![\w*])\*([^*\s]+)\*(?![\w*])")


def escaped(text):
    """The text as troff prints it."""
    text = text.replace("\\", "\\e").replace("-", "\\-")
    return "\\&" + text if text[:1] in (".", "'") else text


def inline(text):
    """A text of Markdown with its code in bold, and its stress in bold or italics."""
    text = escaped(LINK.sub(r"\1", text).replace("\\|", "|"))
    return MARKS.sub(lambda found: f"\\fI{found[3]}\\fR" if found[3] else f"\\fB{found[1] or found[2]}\\fR", text)


def header(name, section, title):
    return [f".TH {name.upper()} {section} \"\" \"famlint\" \"{title}\"", ".SH NAME", f"{escaped(name)} \\- {title}"]


def block(lines):
    """Lines that stay as they are."""
    return [".PP", ".RS 4", ".nf", *(escaped(line) for line in lines), ".fi", ".RE"]


def row(heads, cells):
    """A row of a table: its first cell, and the others below it; where there are several, with their heads."""
    named = [f"{head}: {cell}" if len(cells) > 2 else cell for head, cell in zip(heads[1:], cells[1:]) if cell]
    others = "\n.br\n".join(inline(text) for text in named)
    return [".TP", inline(cells[0]) or "\\&", others or "\\&"]


def cells_of(line):
    return [cell.strip() for cell in re.split(r"(?<!\\)\|", line)[1:-1]]


def table(lines):
    """A table."""
    heads = cells_of(lines[0])
    return [part for line in lines[2:] for part in row(heads, cells_of(line))]


def item(lines):
    return [".IP \\(bu 2", inline(" ".join([lines[0][2:], *(line.strip() for line in lines[1:])]))]


def heading(line):
    """A heading; the name of a command stays as it is written."""
    level, text = line.split(" ", 1)
    plain = escaped(text.replace("`", ""))
    return [f".SH {plain if '`' in text else plain.upper()}" if len(level) <= 2 else f".SS {plain}"]


def kind_of(line):
    """What a line of Markdown belongs to."""
    if not line.strip():
        return "blank"
    if line.startswith("    "):
        return "block"
    if line.startswith("|"):
        return "table"
    if line.startswith("#"):
        return "heading"
    return "item" if line.startswith("- ") else "text"


def kind_in_help(line):
    """What a line of a help text belongs to."""
    return "blank" if not line.strip() else "block" if line.startswith("  ") else "text"


def groups(lines, kind_of=kind_of):
    """The lines in groups, each with its kind. An item or a paragraph goes on up to a line of another kind."""
    kind, group = "blank", []
    for line in lines:
        its = kind_of(line)
        goes_on = its == kind and its in ("block", "table", "text") or kind == "item" and its in ("text", "block") and line.strip()
        if not goes_on:
            yield kind, group
            kind, group = its, []
        group.append(line)
    yield kind, group


def of_markdown(text):
    """The body of a page from a document, without the title of the document."""
    made = [".SH DESCRIPTION"]
    for kind, lines in groups(text.splitlines()[1:]):
        if kind == "block":
            made += block([line[4:] for line in lines])
        elif kind == "table":
            made += table(lines)
        elif kind == "item":
            made += item(lines)
        elif kind == "heading":
            made += heading(lines[0])
        elif kind == "text":
            made += [".PP", inline(" ".join(lines))]
    return made


def of_help(text):
    """A part of a page from a text with indented blocks."""
    made = []
    for kind, lines in groups(text.splitlines(), kind_in_help):
        if kind == "block":
            left = min(len(line) - len(line.lstrip()) for line in lines)
            made += block([line[left:] for line in lines])
        elif kind != "blank":
            made += [".PP", "\n".join(escaped(line) for line in lines)]
    return made


def page(name, section, title, body):
    """The text of a page."""
    return "\n".join([*header(name, section, title), *body]) + "\n"
