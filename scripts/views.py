#!/usr/bin/env python3
"""The two other forms of a printed cube, `--json` and `--aligned`, made of its text by a program of its own, which is read beside
docs/FORMATS.md.

    scripts/views.py json DIMENSIONS < CUBE
    scripts/views.py aligned DIMENSIONS [WIDTH] < CUBE

They write the form of the printed cube on standard input. tests/test_views.py holds what `datacube` writes beside them.
"""
import csv
import io
import re
import sys
import unicodedata

NULL = "\\N"
NUMBER = re.compile(r"-?[0-9]+(\.[0-9]+)?")
ESCAPES = {'"': '\\"', "\\": "\\\\", "\n": "\\n", "\r": "\\r", "\t": "\\t"}
ROUNDED = "Means are rounded half away from zero, to two digits more than their measure has."


def records(text):
    """The header of a printed cube, and its rows."""
    csv.field_size_limit(sys.maxsize)
    header, *rows = csv.reader(io.StringIO(text.decode(), newline=""))
    return header, rows


def quoted(text):
    """A text of JSON."""
    return '"' + "".join(ESCAPES.get(it, f"\\u{ord(it):04x}" if it < " " else it) for it in text) + '"'


def members(names, values):
    """An object of JSON; a name that stands twice stands once."""
    kept = dict(reversed(list(zip(names, values))))
    return "{" + ",".join(f"{quoted(name)}:{kept[name]}" for name in dict.fromkeys(names)) + "}"


def answer(field):
    """An answer in JSON: null, a number as it stands, or a text."""
    if field == NULL:
        return "null"
    return field if NUMBER.fullmatch(field) else quoted(field)


def json_form(text, dimensions):
    """The lines of JSON of a printed cube with so many dimensions."""
    header, rows = records(text)
    names, lines = header[:dimensions], []
    for row in rows:
        texts = ["null" if it == NULL else quoted(it) for it in row[:dimensions]]
        parts = [members(names, texts), members(names, row[dimensions : 2 * dimensions]),
                 members(header[2 * dimensions :], map(answer, row[2 * dimensions :]))]
        lines.append('{"dimensions":%s,"grouping":%s,"answers":%s}\n' % tuple(parts))
    return "".join(lines).encode()


def character_width(character):
    """How many columns a character takes by itself."""
    if unicodedata.category(character) in ("Mn", "Me", "Cf"):
        return 0
    return 2 if unicodedata.east_asian_width(character) in "WF" else 1


def width(text):
    """How many columns a text takes, of the characters that are among `TEXTS`."""
    return sum(map(character_width, text))


def shown(text):
    """A text without control characters."""
    return "".join("\ufffd" if unicodedata.category(it) == "Cc" else it for it in text)


def mean(fraction, digits):
    """A fraction, rounded half away from zero to so many digits behind the point."""
    top, bottom = map(int, fraction.split("/"))
    units = (2 * abs(top) * 10**digits + bottom) // (2 * bottom)
    text = str(units).rjust(digits + 1, "0")
    return ("-" if top < 0 and units else "") + text[:-digits] + "." + text[-digits:]


def cut(line, most):
    """A line, or its beginning and `…`, where it takes more columns than it may."""
    if most is None or width(line) <= most:
        return line
    kept = ""
    for character in line:
        if width(kept + character) > most - 1:
            break
        kept += character
    return kept + "…"


def aligned_form(text, dimensions, decimals=None, most=None):
    """The aligned columns of a printed cube with so many dimensions, whose aggregates have so many decimals each (0 where that is
    left out), and of whose lines none takes more columns than a number, if that is given."""
    header, rows = records(text)
    count = len(header)
    means = [it.startswith("avg(") for it in header]
    lines = [[shown(it) for it in header]]
    for row in rows:
        line = []
        for at, field in enumerate(row):
            if field == NULL:
                field = "(all)" if at < dimensions and row[dimensions + at] == "1" else "(null)"
            elif means[at] and at >= 2 * dimensions:
                field = mean(field, 2 + (decimals[at - 2 * dimensions] if decimals else 0))
            line.append(shown(field))
        lines.append(line)
    columns = [*range(dimensions), *range(2 * dimensions, count)]
    widths = {at: max(width(line[at]) for line in lines) for at in columns}
    out = []
    for line in lines:
        cells = []
        for at in columns:
            spaces = " " * (widths[at] - width(line[at]))
            cells.append(line[at] + spaces if at < dimensions else spaces + line[at])
        out.append("  ".join(cells))
    if any(means[2 * dimensions :]):
        out.append(ROUNDED)
    return "".join(cut(line, most) + "\n" for line in out).encode()


def main():
    form, dimensions, *most = sys.argv[1:]
    text = sys.stdin.buffer.read()
    if form == "json":
        sys.stdout.buffer.write(json_form(text, int(dimensions)))
    else:
        sys.stdout.buffer.write(aligned_form(text, int(dimensions), most=int(most[0]) if most else None))


if __name__ == "__main__":
    main()
