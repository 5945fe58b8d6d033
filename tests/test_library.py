"""The calls of the library in cases/library/*.case, and generated ones, by the driver crates/cube_calls, where it was built here, or the
one at --library PATH. What generated calls answer is found by programs that share nothing with the library (calls.py)."""
import tempfile

import cases
import oracle
import pytest
from calls import FORMS, MANY, SAMPLE, Calls, Facts, Multiset, drain_both, field, merged, rows
from generated import seeded, series
from rooms import Room

try:
    from strategies import tries
except pytest.skip.Exception as why:
    tries = lambda count, why=why: pytest.mark.skip(reason=str(why))

CASES = cases.all_cases("cases/library")
FIVE = [("count", None), ("sum", 0), ("min", 0), ("max", 0), ("avg", 0)]
SQUARES = [("sum_of_squares", 0), ("var_pop", 0), ("var_samp", 0)]
THREE = oracle.Schema(
    ["a", "b", "c"], ["m"],
    [("count", None), ("count", 0), *FIVE[1:], ("count distinct", 0), ("percentile_disc 0.5", 0), *SQUARES, ("values", 0)])
# (cubes by their names: a schema, and which part of how many)
CUBES = {
    "the sample schema": (SAMPLE,),
    "chosen sets of two measures": (oracle.Schema(
        ["a", "b", "c"], ["m", "n"],
        [("count", None), ("count", 0), ("sum", 0), ("min", 1), ("max", 1), ("avg", 0), ("max", 0), ("percentile_disc 0.95", 1),
         ("count distinct", 1), ("percentile_disc 0", 0), ("var_samp", 1), ("values", 1)],
        [["a", "c"], [], ["b"], ["a", "b", "c"]]),),
    "five dimensions": (oracle.Schema(["a", "b", "c", "d", "e"], ["m"], FIVE),),
    "squares": (oracle.Schema(["a"], ["m", "n"], [*SQUARES, ("var_pop", 1)]),),
    "values": (oracle.Schema(["a"], ["m", "n"], [("values", 1), ("values", 0)]),),
    "all sets": (THREE, 0),
    "chosen sets without the grand total": (oracle.Schema(["a", "b", "c"], ["m"], FIVE[:4], [["a", "c"], ["b"], ["b", "c"]]), 0),
    "chosen sets with the grand total": (oracle.Schema(
        ["a", "b", "c", "d"], ["m"], FIVE[:4], [["a", "c"], [], ["a", "b", "c", "d"], ["d"], ["c"]]), 0),
    "eight dimensions": (oracle.Schema([f"d{it}" for it in range(1, 9)], ["m"], FIVE[:4]), 0),
    **{f"part {part} of {of}": (THREE, part, of) for part, of in [(0, 2), (1, 2), (0, 3), (1, 3), (2, 3)]},
}
# (of the same columns: a text that is counted in place of the second dimension)
COUNTED = oracle.Schema(
    ["region"], ["kind", "amount"], [("count", None), ("count", 0), ("count distinct", 0), ("sum", 1), ("count distinct", 1)], texts=["kind"])
NUMBERS = [0, 1, -1, 2, None, *range(-5, 0), *range(3, 6), oracle.LEAST, oracle.GREATEST]


@pytest.fixture(scope="module")
def cases_room(driver):
    with cases.room_of(driver) as room:
        yield room


@pytest.fixture(scope="module")
def room(driver):
    """A folder in which the driver is run."""
    with tempfile.TemporaryDirectory(prefix="library-") as folder:
        yield Room(driver, folder)


@pytest.mark.parametrize("number, case", enumerate(CASES), ids=[it.name for it in CASES])
def test_case(number, case, cases_room):
    why = cases.try_case(case, number, cases_room)
    if why:
        pytest.fail(f"{case.place} {why}", pytrace=False)


# ---- numbers


def backwards(values):
    return values[::-1]


def step_of(rng):
    """A step of a multiset: a call by its name, and the number that it takes, or none."""
    value = rng.choice([rng.randint(0, MANY), rng.randint(-5, 5), oracle.LEAST, oracle.GREATEST, 1 << 40])
    return rng.choice([("add", value), ("add", value), ("remove", value), ("holds", value), ("show",), ("statistics",), ("shrink",), ("order",),
                       ("swap",), ("merge",)])


def go_on(made, rng):
    """Up to a hundred steps by choice, of which few merge, since that may double the numbers."""
    merges = 0
    for name, *value in series(rng, 100, step_of):
        merges += name == "merge"
        if name != "merge" or merges < 4:
            getattr(made, name)(*value)


def to_the_ends(made):
    """The least and the greatest numbers of all come and go."""
    least, greatest = oracle.LEAST, oracle.GREATEST
    for value in (greatest, least, 0, least, greatest):
        made.holds(value)
        made.add(value)
        made.holds(value)
        made.show()
    for value in (greatest, least, greatest, least, least, greatest):
        made.remove(value)
        made.show()


def without_room(made):
    """It goes on with no room to spare."""
    made.shrink()
    made.show()
    made.add(MANY)
    made.shrink()
    made.order()
    made.add(MANY)
    made.statistics()
    made.remove(1)
    made.add(-1)
    made.show()


def in_turn(made):
    """Adds and removes come in turn."""
    for step in range(MANY):
        made.remove(step)
        made.show()
        made.add(-step)
        made.show()


@pytest.mark.parametrize("form", FORMS)
@pytest.mark.parametrize("what", [to_the_ends, without_room, in_turn], ids=lambda it: it.__name__)
@tries(4)
def test_numbers(room, rng, form, what):
    """Numbers of each form meet something, and go on; then all are taken away, from the first to the last or back."""
    made = Multiset(form)
    go_on(made, rng)
    what(made)
    made.statistics()
    go_on(made, rng)
    made.drain(rng.choice([list, backwards]))
    made.see(room)


@pytest.mark.parametrize("order", [list, backwards], ids=["first", "last"])
@pytest.mark.parametrize("form", FORMS)
@tries(2)
def test_numbers_are_taken(room, rng, form, order):
    """All numbers of each form are taken away, from the first to the last or back, each once more than it is held at last."""
    made = Multiset(form)
    for value in order(made.values):
        made.remove(value)
        made.show()
    made.remove(0)
    go_on(made, rng)
    made.see(room)


@pytest.mark.parametrize("other", FORMS)
@pytest.mark.parametrize("form", FORMS)
@tries(2)
def test_merged_numbers(room, rng, form, other):
    """Numbers of each form are merged into those of each, and go on."""
    made = merged(form, other)
    go_on(made, rng)
    drain_both(made)
    made.see(room)


@tries(8)
def test_a_long_run(room, rng):
    """Up to 20,000 steps: from one number over a few to hundreds, and back again."""
    made, count, rng = Multiset(), rng.choice([20, 2000, *[20_000] * 5]), seeded(rng)
    for step in range(count):
        value = rng.randrange(1 + step // 50 % 400) - 100
        if rng.randrange(10) < (4 if step < 12_000 else 7):
            made.remove(value)
        else:
            made.add(value)
        made.show()
        if step % 1000 == 0:
            made.statistics()
    made.see(room)


# ---- cubes and builders


@pytest.mark.parametrize("way", ["gather", "add"])
@pytest.mark.parametrize("name", CUBES)
@tries(6)
def test_cubes(room, rng, name, way):
    """A cube, or a part of one, is filled with facts, or they are added in turn; then some go and others come, and at last all go."""
    made = Facts(*CUBES[name])
    few = len(made.schema.dimensions) > 5
    fact_of = lambda rng: ([rng.choice([b"", b"a", b"ab", None]) for _ in made.schema.dimensions],
                           [rng.choice(NUMBERS) for _ in made.schema.measures])
    made.fill(series(rng, 6 if few else 60, fact_of), way)
    made.show()
    changes = series(rng, 12 if few else 400, lambda rng: (rng.randrange(5) < 3, rng.randrange(256), fact_of(rng)))
    for at, (is_new, place, fact) in enumerate(changes, 1):
        if is_new or not made.facts:
            made.fill([fact], "add")
        else:
            made.remove(place)
        if at % 40 == 0:
            made.show()
    made.show()
    while made.facts:
        made.remove(rng.choice([0, -1]))
    made.show()
    made.see(room)


def record_of(rng):
    """A record of a feed: mostly a change of one of eight ids."""
    kinds = [b"b", b"\\N", "é".encode(), b"a,b"]
    number = b"five" if rng.random() < 0.1 else field(rng.choice([*range(-5, 6), None]))
    return [rng.choice([b"I", b"I", b"U", b"U", b"D"]), b"%d" % rng.randint(1, 8), rng.choice([b"", b"a", b"ab", b"\\N"]), rng.choice(kinds), number]


@pytest.mark.parametrize("schema", [SAMPLE, COUNTED], ids=["dimensions", "texts"])
@tries(12)
def test_builders(room, rng, schema):
    """The items of three sources arrive in an order that keeps each source's own."""
    feeds = [series(rng, 80, record_of) for _ in range(3)]
    made, ran, taken = Calls("builder 3", schema), oracle.Run(schema, feeds), [0, 0, 0]
    while left := [source for source in range(3) if taken[source] < len(feeds[source])]:
        source = rng.choice(left)
        line = oracle.encode([feeds[source][taken[source]]]).decode().rstrip("\n")
        taken[source] += 1
        made.call(f"apply {source + 1} {taken[source]} {line}")
    made.call("rows", *rows(schema, ran.facts))
    made.call("refusals", *(f"{a},{b},{c}" for a, b, c in ran.refused))
    made.call("facts", str(len(ran.facts)))
    made.see(room)
