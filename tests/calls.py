"""Scripts of calls of the library for crates/cube_calls, with their answers by programs of another kind: sorted lists for multisets, and
scripts/oracle.py for cubes and builders."""
import bisect
import collections

import oracle

SAMPLE = oracle.SAMPLE
MANY = 300
MORE_THAN_32_BITS = 1 << 40


class Calls:
    """A script of calls, and the lines that it answers."""

    def __init__(self, subject, schema=SAMPLE):
        self.schema, self.lines, self.answers = schema, [subject], []

    def call(self, line, *answers):
        self.lines.append(line)
        self.answers += answers

    def see(self, room):
        """Makes the calls in a room of their driver, and compares what it answers."""
        text = lambda lines: "".join(f"{it}\n" for it in lines).encode()
        room.write("schema.toml", self.schema.toml())
        room.expect(["schema.toml"], (0, text(self.answers), b""), text(self.lines))


# The forms that the library keeps numbers in, with how many times the numbers from 0 to below which end are added, up
# and down again: none, one that is held once or twice; a short list with a number of more than 32 bits; a list of
# numbers of 32 bits, few, many, many that were brought in order, with so many behind them that they are brought in order
# too, and many of which few are different; a log, one that owes, one in order, and the table after that; the table and the
# short list after a list whose numbers repeat.
FORMS = {
    "empty": (0, 0), "once": (0, 0), "one": (1, 1), "few": (1, 5), "narrow": (1, 5), "long": (1, MANY),
    "long in order": (1, MANY), "longer in order": (1, MANY), "repeating": (5, 20), "log": (1, MANY), "owed": (1, MANY), "ordered": (1, MANY), "table": (1, MANY),
    "repeated": (10, 100), "repeated few": (20, 3)}


class Multiset(Calls):
    """Calls of a multiset that begins in a form, beside a sorted list of its numbers."""

    def __init__(self, form="empty"):
        super().__init__("counted")
        self.values, self.other = [], []
        self.form(form)

    def form(self, name):
        """Adds numbers that the library keeps in this form."""
        if name in ("few", "log"):
            self.add(MORE_THAN_32_BITS)
        if name == "once":
            self.add(0)
        times, end = FORMS[name]
        for value in [*range(end), *reversed(range(end))] * times:
            self.add(value)
        if name.endswith("in order"):
            self.order()
        for value in range(2 * MANY if name == "longer in order" else 0):
            self.add(-value)
        for value in {"owed": [7, 7], "ordered": [0], "table": [0]}.get(name, []):
            self.remove(value)
        if name == "table":
            self.add(-7)
            self.remove(-7)

    def add(self, value):
        bisect.insort(self.values, value)
        self.call(f"add {value}")

    def remove(self, value):
        at = bisect.bisect_left(self.values, value)
        held = at < len(self.values) and self.values[at] == value
        if held:
            del self.values[at]
        self.call(f"remove {value}", "true" if held else "false")

    def holds(self, value):
        self.call(f"holds {value}", "true" if value in self.values else "false")

    def show(self):
        it = self.values
        self.call("show", f"{len(it)} from {it[0]} to {it[-1]}" if it else "0, empty")

    def statistics(self):
        """Asks for the numbers in order, how many are different, and those at the first, the last and two places between."""
        counts = collections.Counter(self.values)
        self.call("in_order", " ".join(f"{it}*{counts[it]}" for it in sorted(counts)))
        self.call("different", f"{len(counts)}")
        many = len(self.values)
        for place in sorted({1, many // 3, (many + 1) // 2, many} if many > 2 else range(1, many + 1)):
            self.call(f"at_place {place}", f"{self.values[place - 1]}")

    def shrink(self):
        """Has it give back the room to spare."""
        self.call("shrink")

    def order(self):
        """Has it bring the numbers in order."""
        self.call("order")

    def swap(self):
        self.values, self.other = self.other, self.values
        self.call("swap")

    def merge(self):
        self.values = sorted(self.values + self.other)
        self.call("merge")

    def drain(self, order=list):
        """Takes all numbers away, in the order that a call gives them."""
        for value in order(self.values):
            self.remove(value)
        self.show()


def merged(form, other):
    """Numbers of a form, into which those of another one were merged."""
    made = Multiset(other)
    made.swap()
    made.form(form)
    made.merge()
    made.show()
    made.statistics()
    made.add(MANY // 2)
    made.remove(MANY // 3)
    made.show()
    return made


def drain_both(made):
    """Takes all numbers away, and those that were merged into them."""
    made.drain()
    made.swap()
    made.drain()


class Facts(Calls):
    """Calls of a cube, or of a part of one, beside its facts."""

    def __init__(self, schema, part=None, of=1):
        super().__init__("cube" if part is None else f"part {part} {of}", schema)
        self.facts = []
        self.kept = oracle.Schema(schema.dimensions, schema.measures, schema.aggregates)
        self.kept.masks = [it for it in schema.masks if (it + it // of) % of == (part or 0)]

    def fill(self, facts, way):
        """Fills it with facts that are gathered, or adds them in turn."""
        self.facts += facts
        for fact in facts:
            self.call(f"{way} {fields(fact)}")
        if way == "gather":
            self.call("fill")

    def remove(self, place):
        """Takes a fact away that it holds."""
        fact = self.facts.pop(place % len(self.facts))
        self.call(f"holds {fields(fact)}", "true")
        self.call(f"remove {fields(fact)}")

    def show(self):
        self.call("rows", *rows(self.kept, self.facts))
        self.call("facts", str(len(self.facts)))


def rows(schema, facts):
    """The lines of the rows of facts, with no quotes."""
    lines = []
    for key, answers in oracle.rows_of(schema, facts):
        coords = ["\\N" if it is oracle.ALL or it is None else it.decode() for it in key]
        lines.append(",".join(coords + ["1" if it is oracle.ALL else "0" for it in key] + answers))
    return lines


def field(value):
    return b"\\N" if value is None else value if isinstance(value, bytes) else b"%d" % value


def fields(fact):
    dims, measures = fact
    return oracle.encode([list(map(field, dims + measures))]).decode().rstrip("\n")
