"""The schema of a file of one's own, as docs/FORMATS.md says the rules ("A schema without writing one"): a reading of its
own, which shares no line with the program. `schema_text` writes the schema, `Wrong` says why there is none.
"""
import re

import oracle

NULLS = ["", "NA", "N/A", "NaN", "nan", "NULL", "null", "\\N"]
LABEL = re.compile(r"(?:^|.*[ _-])(?:id|no|nr|zip|code|year|phone)", re.IGNORECASE | re.DOTALL | re.ASCII)
DATE = re.compile(rb"[0-9]{4}-(0[1-9]|1[0-2])-(0[1-9]|[12][0-9]|3[01])")
BARE = re.compile(r"[A-Za-z0-9_-]+")
MOST_BYTES, MOST_RECORDS = 16 * 2**20, 10_000


class Wrong(Exception):
    """Why there is no schema."""


class Number:
    """How a field spells a number, where it spells one: its digits, how many decimals it needs, its point, and zeros in front."""

    def __init__(self, field, point):
        found = re.fullmatch(rb"([+-]?)([0-9]+)(?:%s([0-9]+))?" % re.escape(point), field)
        self.is_one = bool(found)
        if found:
            sign, whole, behind = found.groups()
            self.has_point, self.is_padded = behind is not None, len(whole) > 1 and whole[:1] == b"0"
            self.digits = (behind or b"").rstrip(b"0")
            self.decimals = len(self.digits)
            self.sign, self.whole = -1 if sign == b"-" else 1, whole

    def at(self, decimals):
        return self.sign * int(self.whole + self.digits.ljust(decimals, b"0"))


class Column:
    """What a column has."""

    def __init__(self, header, fields, place):
        raw = header[place]
        self.place, self.name = place, raw.decode() if oracle.is_text(raw) else None
        self.why = None
        if self.name is None:
            self.why = "its name isn't UTF-8"
        elif header.count(raw) > 1:
            self.why = "its name stands in the header more than once"
        elif not self.name:
            self.why = "it has no name"
        self.is_own = self.why is None
        self.fields = [it for it in fields if it not in [null.encode() for null in NULLS]]
        if self.is_own and not self.fields:
            self.why = "it is null throughout"
        elif self.is_own and not all(map(oracle.is_text, self.fields)):
            self.why = "a field isn't UTF-8"
        self.is_date = bool(self.fields) and all(map(DATE.match, self.fields))
        self.of_point = {point: self.numbers(point) for point in (b".", b",")}

    def numbers(self, point):
        """The decimals, whether there is a point, and whether they are labels; None where they aren't numbers."""
        found = [Number(it, point) for it in self.fields]
        if not found or not all(it.is_one for it in found):
            return None
        decimals = max(it.decimals for it in found)
        if decimals > 18 or not all(oracle.LEAST <= it.at(decimals) <= oracle.GREATEST for it in found):
            return None
        has_point = any(it.has_point for it in found)
        values = [it.at(0) for it in found] if not has_point else []
        is_label = any(it.is_padded for it in found) or len(values) > 20 and len(set(values)) == len(values)
        return decimals, has_point, is_label

    def different(self, first=None):
        return len({it[:first] for it in self.fields})


def delimiter_of(data):
    """That of `,` `;` tab `|` which stands most often in the header outside quotes, the earlier among equals."""
    at = oracle.start_of(data)
    while data[at : at + 1] in (b"\r", b"\n"):
        at += 1
    counts = {it: 0 for it in b",;\t|"}
    while True:
        if data[at : at + 1] == b'"':
            at += 1
            while at < len(data) and (data[at : at + 1] != b'"' or data[at + 1 : at + 2] == b'"'):
                at += 1 if data[at : at + 1] != b'"' else 2
            at += 1
        at = re.compile(rb"[^,;\t|\r\n]*").match(data, min(at, len(data))).end()
        if at >= len(data) or data[at] not in counts:
            break
        counts[data[at]] += 1
        at += 1
    return max(counts, key=lambda it: (counts[it], -list(counts).index(it)))


def sample_of(data, delimiter):
    """The header and the first records; where the file is longer, of its first 16 MiB those that end in them."""
    is_whole = len(data) <= MOST_BYTES
    records = oracle.records_of(data if is_whole else data[:MOST_BYTES] + b"x", bytes([delimiter]))
    records = records if is_whole else records[:-1]
    if not records:
        raise Wrong("the file has no header")
    return records[0], [it for it in records[1 : MOST_RECORDS + 1] if len(it) == len(records[0])]


def picked(header, option, text, least, most):
    """The columns that an option names: for each its place, its number or None, and its field."""
    records = oracle.records_of(text)
    if len(records) != 1:
        raise Wrong(f"{option} isn't exactly one CSV record")
    found = []
    for field in records[0]:
        name, colon, number = field, b"", b""
        if field not in header:
            name, colon, number = field.rpartition(b":")
            if not colon:
                raise Wrong(f"{option} names {shown(field)}, which is no column of the header")
        if header.count(name) != 1:
            how = "stands in the header more than once" if name in header else "is no column of the header"
            raise Wrong(f"{option} names {shown(name)}, which {how}")
        if colon and not (re.fullmatch(rb"[0-9]+", number) and least <= int(number) <= most):
            raise Wrong(f"{option} has {shown(field)}, whose number isn't one from {least} to {most}")
        found.append((header.index(name), int(number) if colon else None, field.decode()))
    return found


def shown(field):
    return quoted(field.decode())


def quoted(text):
    """A text of TOML, as the schema writes it."""
    short = {'"': '\\"', "\\": "\\\\", "\n": "\\n", "\r": "\\r", "\t": "\\t"}
    return '"' + "".join(short.get(it) or (it if " " <= it != "\x7f" else f"\\u{ord(it):04x}") for it in text) + '"'


def lawful(name):
    return name + "_" if name in ("", "op", "id", "*") else name


def schema_text(data, by=None, of=None):
    """The text of the schema of a file, whose columns may be given by the two options, as bytes."""
    delimiter = delimiter_of(data)
    header, records = sample_of(data, delimiter)
    columns = [Column(header, [it[place] for it in records], place) for place in range(len(header))]
    commas = [it for it in columns if it.is_own and it.of_point[b","] and not it.of_point[b"."]]
    point = b"," if delimiter != ord(",") and commas else b"."
    dims = picked(header, "--by", by, 1, 255) if by is not None else []
    dims = [(lawful(text), place, number) for place, number, text in dims]
    used = {place for _, place, _ in dims}
    measures = given_measures(columns, point, picked(header, "--of", of, 0, 18)) if of is not None else \
        guessed_measures(columns, point, used, [it[0] for it in dims])
    used |= {place for _, place, _ in measures}
    if by is None:
        dims, left = guessed_dimensions(columns, used, [it[0] for it in measures])
    else:
        left = [(it, it.why or "--by doesn't name it") for it in columns if it.place not in used]
    names = [it[0] for it in dims + measures]
    twice = [it for it in names if names.count(it) > 1]
    for is_wrong, what in ((len(dims) > 8, "--by names more than 8 columns"), (len(measures) > 4, "--of names more than 4 columns"),
                           (not dims, "no column is a dimension; --by takes one"), (twice, twice and f"two names are {quoted(twice[0])}")):
        if is_wrong:
            raise Wrong(what)
    text = "\n".join(lines_of(columns, dims, measures, left, chr(delimiter), point)) + "\n"
    if len(text.encode()) > 1048576:
        raise Wrong("the schema would have more than 1048576 bytes")
    return text.encode()


def decimals_of(column, point):
    numbers = column.of_point[point]
    return numbers[0] if numbers and numbers[1] else None


def given_measures(columns, point, given):
    return [(lawful(columns[place].name), place, decimals_of(columns[place], point) if number is None else number)
            for place, number, _ in given]


def guessed_measures(columns, point, used, names):
    """The first four of the columns of numbers that are added, those with a point first."""
    added = [it for it in columns if it.is_own and it.of_point[point] and not it.of_point[point][2] and not LABEL.fullmatch(it.name)]
    measures = []
    for it in sorted(added, key=lambda it: not it.of_point[point][1]):
        name = lawful(it.name)
        if it.place not in used and len(measures) < 4 and name not in names + [one[0] for one in measures]:
            measures.append((name, it.place, decimals_of(it, point)))
    return measures


def guessed_dimensions(columns, used, names):
    """The dimensions, and the columns that are left out with why: dates take their places first."""
    room, cells, firsts = 8, 1, {}
    for it in columns:
        if it.place not in used and it.why is None and it.is_date:
            firsts[it.place] = [10, 7][-min(2, room):] if room else []
            room -= len(firsts[it.place])
            for first in firsts[it.place]:
                cells *= it.different(first) + 1
    dims, left = [], []
    for it in columns:
        taken = names + [one[0] for one in dims]
        if it.place in used:
            continue
        if it.why:
            left.append((it, it.why))
        elif it.is_date:
            left += [(it, "there is no place for one more dimension")] if not firsts[it.place] else []
            for first in firsts[it.place]:
                name = f"{it.name}:{first}"
                if name in taken:
                    left.append((it, "another column has the name that it would get"))
                else:
                    dims.append((name, it.place, first))
                    taken = taken + [name]
        elif it.different() > 1000:
            left.append((it, "it has more than 1,000 different texts"))
        elif lawful(it.name) in taken:
            left.append((it, "another column has the name that it would get"))
        elif not room:
            left.append((it, "there is no place for one more dimension"))
        elif cells * (it.different() + 1) > 1_000_000:
            left.append((it, "with it there would be more than 1,000,000 combinations"))
        else:
            cells, room = cells * (it.different() + 1), room - 1
            dims.append((lawful(it.name), it.place, None))
    return dims, left


def lines_of(columns, dims, measures, left, delimiter, point):
    """The lines of the schema."""
    functions = ["sum", "min", "max", "avg"] if len(measures) < 4 else ["sum", "avg"]
    array = lambda texts: "[" + ", ".join(map(quoted, texts)) + "]"
    lines = [f"dimensions = {array(it[0] for it in dims)}", f"measures = {array(it[0] for it in measures)}"]
    lines.append(f"aggregates = {array(['count(*)'] + [f'{it}({name})' for name, _, _ in measures for it in functions])}")
    lines += ["", "[feed]", f"null = {array(NULLS)}"]
    lines += [f"delimiter = {quoted(delimiter)}"] if delimiter != "," else []
    lines += ['point = ","'] if point == b"," else []
    key = lambda name: name if BARE.fullmatch(name) else quoted(name)
    come = []
    for name, place, first in dims:
        if first:
            come.append(f"{key(name)} = {{ column = {quoted(columns[place].name)}, first = {first} }}")
        elif name != columns[place].name:
            come.append(f"{key(name)} = {quoted(columns[place].name)}")
    come += [f"{key(name)} = {quoted(columns[place].name)}" for name, place, _ in measures if name != columns[place].name]
    lines += ["columns = { " + ", ".join(come) + " }"] if come else []
    decimals = [f"{key(name)} = {count}" for name, _, count in measures if count is not None]
    lines += ["", "[decimals]"] + decimals if decimals else []
    if left:
        lines += ["", "# These columns of the file are left out:"]
        lines += [left_line(it, why, point) for it, why in left[:100]]
        lines += [f"# and {len(left) - 100} more"] if len(left) > 100 else []
    return lines


def left_line(column, why, point):
    """The comment on a column that is left out, with the options that take it."""
    name = column.name
    if name is None:
        return f"# column {column.place + 1}: {why}"
    has_control = any(it < " " or it == "\x7f" for it in name)
    line = f"# {quoted(name) if has_control or not name else name}: {why}"
    if has_control or why == "its name stands in the header more than once":
        return line
    return line + f"; {option('--by', name)}{' or ' + option('--of', name) if column.of_point[point] else ''} takes it"


def option(word, name):
    """An option with a column as its value, as a shell takes it."""
    between = "=" if name.startswith("-") else " "
    if re.fullmatch(r"[A-Za-z0-9_.:-]+", name):
        return word + between + name
    field = '"' + name.replace('"', '""') + '"' if not name or '"' in name or "," in name else name
    return word + between + "'" + field.replace("'", "'\\''") + "'"
