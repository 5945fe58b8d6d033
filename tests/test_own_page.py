"""The page explorer/datacube.html, which counts a file of one's own, in headless Chromium beside what the program prints.

The page has to be what its parts give, its allocator is tried by random steps, and its module is asked for the cubes of the examples, of
the cases that name files alone (some of them, or with --all-cases all) and of generated schemas, feeds and files, with a memory of 64 bits
and with one of 32: the bytes, the refusals and the faults have to be the program's. Then files are dropped and chosen, columns chosen, the
work stopped, results saved, by keyboard alone too, and at last the browser's own log is read for whatever was asked of a host. --large has
the workloads of the measurements too, drops a file of a million lines, and says what they took.
"""
import base64
import hashlib
import json
import os
import random
import re
import shlex
import shutil
import subprocess
import time

import browser
import cases
import generated_files
import page as builder
import pytest
from browser import BEATS, NAMELESS, ROOT, SHOP, SHOP_SCHEMA, Keys, pause_for, see_contrast
from generated import random_case, written
from processes import memory_of, of_family, spent_by
from programs import Room, read, write
from workloads import WORKLOADS, make

try:
    from strategies import tries
except pytest.skip.Exception as why:
    tries = lambda count, why=why: pytest.mark.skip(reason=str(why))

ALLOCATOR_STEPS, MOST_CASE_BYTES = 2_000_000, 20 << 20
# Asks the page's module, question by question; each answer is a kind and texts in base64.
ASK = """
const [questions, done] = arguments;
const bytes = (text) => Uint8Array.from(atob(text), (it) => it.charCodeAt(0));
const packed = async (it) => {
  const read = new FileReader();
  const ended = new Promise((end) => { read.onload = end; });
  read.readAsDataURL(it);
  await ended;
  return read.result.replace(/^[^,]*,?/, "");
};
(async () => {
  const answers = [];
  for (const it of questions) {
    const files = it.files.map((text, at) => new File([bytes(text)], `${at}.csv`));
    const asked = it.kind === "schema" ? { start: bytes(it.files[0]).buffer, isWhole: true, by: it.by, of: it.of }
      : it.kind === "explain" ? { code: it.code } : { schema: bytes(it.schema), files, delimiter: it.delimiter };
    const { kind, text = "", cube = new Blob(), refusals = "", refused = [] } = await ownData.ask({ kind: it.kind, ...asked });
    answers.push([kind, await packed(new Blob([text])), await packed(cube), await packed(new Blob([refusals])), refused]);
  }
  done(answers);
})().catch((fault) => done(String(fault)));
"""
# What the page asks of others, each in its own way, and how often its policy forbade it.
ASKING = """
const done = arguments[0], seen = [];
document.addEventListener("securitypolicyviolation", (event) => seen.push(event.effectiveDirective));
const address = "http://127.0.0.1:9/";
const tries = [
  () => fetch(address).catch(() => {}),
  () => { const it = new XMLHttpRequest(); it.open("GET", address); it.send(); },
  () => new WebSocket("ws://127.0.0.1:9/"),
  () => new EventSource(address),
  () => navigator.sendBeacon(address, "x"),
  () => { new Image().src = address; },
  () => { const it = document.createElement("script"); it.src = address; document.head.append(it); },
  () => { const it = document.createElement("script"); it.textContent = "window.isRun = true"; document.head.append(it); },
  () => { const it = document.createElement("link"); it.rel = "stylesheet"; it.href = address; document.head.append(it); },
  () => { const it = document.createElement("iframe"); it.src = address; document.body.append(it); },
  () => { const it = document.createElement("form"); it.action = address; it.method = "post"; document.body.append(it); it.submit(); },
  () => new Worker("data:text/javascript,fetch('http://127.0.0.1:9/')"),
];
for (const it of tries) { try { it(); } catch {} }
setTimeout(() => done([[...new Set(seen)].sort(), window.isRun === true]), 1000);
"""
FORBIDDEN = ["connect-src", "form-action", "frame-src", "img-src", "script-src-elem", "style-src-elem", "worker-src"]


class OwnPage(browser.Page):
    """The page in a browser, and questions to its module."""

    ADDRESS = f"file://{builder.PAGE}"

    def use(self, width):
        """Opens the page anew, with the module for a memory of so many bits."""
        self.fresh()
        self.later("ownData.useModule(arguments[0]).then(arguments[1])", width)
        self.width = width

    def ask(self, questions):
        """The answers of the module to questions."""
        answers = self.later(ASK, questions)
        if isinstance(answers, str):
            raise ValueError(answers)
        return [(kind, *map(base64.b64decode, texts)) for kind, *texts, _ in answers]

    def choose_files(self, *paths):
        self.at("#chosen").send_keys("\n".join(map(str, paths)))

    def shows_cube(self, name):
        """Waits until the cube of a file is shown."""
        self.wait("return !document.getElementById('own-bar').hidden && !document.getElementById('explorer').hidden")
        self.titled(f"{name} cube.csv")
        if self.at("#problem").is_displayed():
            raise ValueError(self.text("#problem"))

    def cube(self):
        """The bytes of the cube that is shown."""
        return self.later("ownData.shown().cube.text().then(arguments[0])").encode()

    def shell_words(self):
        """The words of the command that does the same."""
        return shlex.split(self.text("#own-bar .own-command"))

    def change_columns(self):
        self.at("#own-change").click()

    def set(self, key, value):
        """Chooses for a column, and waits until it is so."""
        self.js("const it = document.querySelector(`[data-own='${arguments[0]}']`); it.value = arguments[1];"
                "it.dispatchEvent(new Event('change'))", key, value)
        self.wait("return document.querySelector(`[data-own='${arguments[0]}']`).value === arguments[1]", key, value)

    def commanded(self, text, is_there=True):
        """Waits until a text stands in the command of the columns, or doesn't."""
        self.wait("return document.querySelector('#own .own-command').textContent.includes(arguments[0]) === arguments[1]", text, is_there)

    def uses(self):
        """What each column is, as it is shown."""
        return self.js("return [...document.querySelectorAll('#own-rows select')].map((it) => it.value)")

    def count(self, name):
        self.at("#own-count").click()
        self.shows_cube(name)

    def refused(self):
        """The lines that were refused, as the page tells them."""
        return self.js("return [...document.querySelectorAll('#own-refused-rows tr')].map((row) => [...row.children].map((it) => it.textContent))")


@pytest.fixture(scope="module")
def driven():
    """The page in a browser that keeps logs."""
    with browser.chromium(performance="ALL", browser="ALL") as driver:
        yield OwnPage(driver)


@pytest.fixture
def page(driven):
    driven.plain()
    return driven


@pytest.fixture(params=["64", "32"])
def module(page, request):
    """The page, whose module has a memory of 64 bits, or of 32."""
    page.use(request.param)
    return page


def ran(folder, *words):
    """The status of the program in a folder, its output, and the line of its failure or nothing."""
    status, out, err = Room(browser.datacube(), folder).run(words, seconds=300)
    return status, out, err.split(b"\n")[0].removeprefix(b"datacube: ") if status not in (0, 4) else b""


# What isn't seen in a browser.


def test_parts():
    """The page is what its parts give, and has no script or style but those that its policy names."""
    assert builder.faults([]) == []
    policy = re.search(r'Content-Security-Policy"\s+content="([^"]*)"', read(builder.PAGE).decode())[1]
    rules = dict(it.strip().split(" ", 1) for it in policy.split(";"))
    assert "unsafe-inline" not in policy
    assert [rules[it] for it in ("default-src", "connect-src", "worker-src")] == ["'none'", "'none'", "blob:"]


def test_allocator(tmp_path):
    """The page's allocator under random steps."""
    compiler = shutil.which("cc") or shutil.which("gcc") or shutil.which("clang")
    if not compiler:
        pytest.skip("there is no C compiler")
    built = subprocess.run([compiler, "-O2", "-fno-builtin", "-o", f"{tmp_path}/heap_trial", f"{ROOT}/scripts/heap_trial.c"])
    assert built.returncode == 0
    done = subprocess.run([f"{tmp_path}/heap_trial", str(ALLOCATOR_STEPS), "1"], stdout=subprocess.PIPE, text=True)
    assert (done.returncode, done.stdout.split(",")[0]) == (0, f"{ALLOCATOR_STEPS} steps passed")


# The bytes.


class Question:
    """A question to the module, with the answer of the program beside it, which is that to some words."""

    def __init__(self, name, kind, words, wanted, **given):
        self.name, self.words, self.wanted = name, words, wanted
        self.asked = {"kind": kind, "by": "", "of": "", "schema": "", "delimiter": 44, "files": [], **given}

    def got(self, answer):
        """Of an answer of the module what is to be compared."""
        kind, text, cube, refusals = answer
        return (text,) if kind in ("schema", "explained") else (cube, refusals) if kind == "cube" else (kind, text)


def packed(data):
    return base64.b64encode(data).decode()


def cube_question(name, folder, words, schema, files):
    """A question for the cube that some words of the program print, and for the refusals by its schema."""
    status, out, line = ran(folder, *words)
    given = {"schema": packed(schema), "files": [packed(it) for it in files]}
    if status not in (0, 4):
        return Question(name, "cube", words, ("fault", line), **given)
    write(f"{folder}/asked.toml", schema)
    names = [f"asked{at}.csv" for at in range(len(files))]
    for it, data in zip(names, files):
        write(f"{folder}/{it}", data)
    return Question(name, "cube", words, (out, ran(folder, "refusals", "asked.toml", *names)[1]), **given)


def schema_question(name, folder, file, by=None, of=None):
    """A question for the schema of a file."""
    words = ["schema", *([f"--by={by}"] if by is not None else []), *([f"--of={of}"] if of is not None else []), file]
    status, out, line = ran(folder, *words[:-1], os.path.abspath(f"{folder}/{file}"))
    wanted = ("fault", line) if status else (out,)
    return Question(name, "schema", words, wanted, files=[packed(read(f"{folder}/{file}"))], by=by or "", of=of or "")


def explain_question(folder, code):
    """A question for what is said of a code, or of all."""
    status, out, line = ran(folder, "explain", code)
    return Question(f"what is said of {code}", "explain", ["explain", code], ("fault", line) if status else (out,), code=code)


def see_answers(page, questions, batch=20):
    """Asks the module, and compares."""
    for start in range(0, len(questions), batch):
        some = questions[start : start + batch]
        for question, answer in zip(some, page.ask([it.asked for it in some])):
            assert question.got(answer) == question.wanted, question.name


def test_examples(module, tmp_path):
    """The examples of the repository."""
    first = f"{ROOT}/examples/first"
    _, schema, _ = ran(first, "schema", "feed.csv")
    see_answers(module, [
        cube_question("the shop", tmp_path, ["print", SHOP_SCHEMA, *SHOP], read(SHOP_SCHEMA), [read(it) for it in SHOP]),
        cube_question("the first file", tmp_path, ["table", f"{first}/feed.csv"], schema, [read(f"{first}/feed.csv")]),
        schema_question("the first file's schema", first, "feed.csv"),
        schema_question("its schema by options", first, "feed.csv", by="nothing:3"),
    ])


def test_explanations(module, tmp_path):
    """What the page says of each code that concerns it, of all of them, and of words that are none."""
    told = module.ask([{"kind": "explain", "code": "", "files": []}])[0][1]
    everything = ran(tmp_path, "explain")[1]
    assert everything[: len(told)] == told, "what is said of all codes stands first in what the program says"
    codes, others = (list(dict.fromkeys(re.findall(r"^(\S.*?): ", it, re.M))) for it in (told.decode(), everything[len(told) :].decode()))
    assert (codes[0], codes[-1], len(codes)) == ("S1", "too many cubes", 68)
    assert others == [*(f"D{at}" for at in range(1, 10)), "no columns"], "those that don't concern it"
    asked = [*codes, "L", "s1", "é"]
    see_answers(module, [explain_question(tmp_path, it) for it in (asked if module.width == "64" else asked[::8])])


# Options of `print` and `table` that change no byte of the output.
NO_CHANGE = {b"--why"}


def plain_cases():
    """The cases of `print` and `table` that name files alone, with the files as they are."""
    for case in cases.all_cases("cases"):
        kind, *words = [*case.words, b""][:-1] or [b""]
        words = [it for it in words if it not in NO_CHANGE]
        is_plain = kind in (b"print", b"table") and not case.before and case.stdin is None and case.stdout is None and not case.variables
        if is_plain and len(words) > 1 - (kind == b"table") and not any(it.startswith(b"-") or b"/" in it for it in words):
            yield case, kind.decode(), [os.fsdecode(it) for it in words]


def case_question(folder, case, kind, words):
    """A case as a question, or None where its files can't be read as the page would."""
    shutil.copytree(f"{ROOT}/cases/files", folder)
    for made in case.made:
        cases.make(folder, *made)
    paths = [f"{folder}/{it}" for it in words]
    if not all(os.path.isfile(it) and os.stat(it).st_mode & 0o400 for it in paths) or sum(map(os.path.getsize, paths)) > MOST_CASE_BYTES:
        return None
    if kind == "table":
        status, schema, _ = ran(folder, "schema", words[0])
        feeds = paths
        if status:
            return schema_question(case.name, folder, words[0])
    else:
        schema, feeds = read(paths[0]), paths[1:]
    return cube_question(case.name, folder, [kind, *words], schema, [read(it) for it in feeds]) if 1 <= len(feeds) <= 64 else None


def test_cases(module, tmp_path, request):
    """What the cases print that name files alone: each fifth of them, and in 32 bits fewer, or all."""
    step = 1 if request.config.getoption("--all-cases") else 5 if module.width == "64" else 20
    chosen = list(plain_cases())[::step]
    made = [case_question(f"{tmp_path}/case{at}", *it) for at, it in enumerate(chosen)]
    see_answers(module, [it for it in made if it])


def generated_question(room, rng):
    """A generated schema with its feeds, right, damaged or by names; or a file with or without options."""
    if rng.random() < 0.33:
        names, _, data = generated_files.file_of(rng)
        room.write("f.csv", data)
        by, of = (it and it.decode() for it in (generated_files.columns_asked(rng, names, most) for most in (8, 4)))
        return schema_question(room.name, room.folder, "f.csv", by or None, of or None)
    schema, feeds = random_case(rng, rng.random() < 0.5)
    pairs = [written(rng, schema, it[:300], rng.random() < 0.9)[0] for it in feeds]
    data = [damaged(rng, it) if rng.random() < 0.15 else it for it in pairs]
    names = [room.write(f"f{place}.csv", it) for place, it in enumerate(data)]
    return cube_question(room.name, room.folder, ["print", room.write("s.toml", schema.toml()), *names], schema.toml(), data)


def damaged(rng, data):
    """A feed that was cut, or of which a byte was changed."""
    place = rng.randrange(len(data) + 1)
    return data[:place] if rng.random() < 0.5 else data[:place] + bytes([rng.choice(b'",\n\r;\xff0I')]) + data[place + 1 :]


@tries(50)
def test_generated(room, rng, module):
    """Generated schemas, feeds and files."""
    question = generated_question(room, rng)
    got = question.got(module.ask([question.asked])[0])
    if got != question.wanted:
        room.fail(f"the page answers {got!r:.300}", question.words, room.run(question.words))


# What a person does.

SALES = b"""city,when,product,price,qty,order no
York,2026-01-02T10:00,tea,1.50,2,17
Leeds,2026-02-03T11:00,"tea, green",2.25,3,18
York,2026-02-04T09:30,tea,NA,1,19
Leeds,2026-02-05T09:30,coffee,1.75,1,20
York,2026-03-05T09:30,coffee,1.70,4
"""


@pytest.fixture
def sales(page, tmp_path):
    """The page, on which a file was dropped, and shows its cube."""
    write(f"{tmp_path}/sales.csv", SALES)
    page.fresh()
    page.drop({"sales.csv": SALES})
    page.shows_cube("sales")
    return page


@pytest.fixture
def columns(sales):
    """The page, on which the columns of the file can be chosen."""
    sales.change_columns()
    return sales


def see_cube(page, folder):
    """Compares the cube that is shown with what the command prints that the page shows."""
    program, *words = page.shell_words()
    assert program == "datacube"
    assert page.cube() == ran(folder, *words)[1]


def keep_schema(page, folder):
    """Writes the schema of the chosen columns to the file that the command names."""
    write(f"{folder}/sales.toml", page.js("return document.getElementById('own-schema').value").encode())


def test_first_minute(sales, tmp_path):
    """A file is dropped, and its cube is there; and the columns are chosen anew."""
    assert sales.shell_words() == ["datacube", "table", "sales.csv"]
    see_cube(sales, tmp_path)
    assert [it[0] for it in sales.shown()["body"]] == ["Leeds", "York"], "its first set is shown"
    sales.change_columns()
    assert sales.uses() == ["dimension", "dimension", "dimension", "measure", "measure", "dimension"], "what was guessed"
    sales.set("use 0", "none")
    sales.commanded("--by")
    sales.js("document.querySelector('[data-own=\"time 1 10\"]').click()")
    sales.commanded("--by 'when:7,product,order no'")
    sales.set("decimals 3", "3")
    sales.commanded("price:3")
    sales.count("sales")
    assert sales.shell_words() == ["datacube", "table", "sales.csv", "--by", "when:7,product,order no", "--of", "price:3,qty"]
    see_cube(sales, tmp_path)


def test_drawn(sales):
    """The page draws charts under its policy, too."""
    sales.click("#as-bars")
    assert [it["name"].split(": ")[0] for it in sales.marks()[0]] == ["Leeds", "York"]


def test_other_columns(sales):
    """What stands above a cube is of that cube, though other columns were chosen meanwhile."""
    before = sales.cube(), sales.shell_words()
    sales.change_columns()
    sales.set("use 0", "none")
    sales.commanded("--by")
    sales.at("#own-back").click()
    assert (sales.cube(), sales.shell_words()) == before
    sales.change_columns()
    assert sales.uses()[0] == "none", "the choice is still there"
    sales.js("window.dispatchEvent(new ErrorEvent('error', { error: new Error('by a trial') }))")
    assert sales.told("This page met a fault of its own (Error: by a trial)")


def test_counts_alone(columns, tmp_path):
    """No column is a measure, and then none is a dimension; the guess comes back."""
    columns.set("use 3", "none")
    columns.commanded("--of qty")
    columns.set("use 4", "none")
    columns.commanded("print sales.toml")
    columns.count("sales")
    keep_schema(columns, tmp_path)
    see_cube(columns, tmp_path)
    assert columns.cube().split(b"\n")[0].endswith(b"grouping(order no),count(*)")
    columns.change_columns()
    for at in (0, 1, 2, 5):
        columns.set(f"use {at}", "none")
    assert columns.told("The cube needs a dimension") == "The cube needs a dimension: choose a column to group by."
    assert not columns.at("#own-count").is_enabled(), "nothing can be counted then"
    columns.at("#own-guess").click()
    columns.wait("return document.getElementById('own-count').disabled === false")
    columns.count("sales")
    assert columns.shell_words() == ["datacube", "table", "sales.csv"], "the guess again"


def test_nulls(columns, tmp_path):
    """What null is spelled as is changed."""
    assert columns.js("return document.getElementById('own-nulls').value") == '"",NA,N/A,NaN,nan,NULL,null,\\N'
    columns.js("const it = document.getElementById('own-nulls'); it.value = arguments[0]; it.dispatchEvent(new Event('change'))",
               '"",York,"a ""b"""')
    columns.commanded("print")
    keep_schema(columns, tmp_path)
    assert b'null = ["", "York", "a \\"b\\""]' in read(f"{tmp_path}/sales.toml")
    columns.count("sales")
    see_cube(columns, tmp_path)


STRANGE = b"""constructor,__proto__,"a""b",it's,,x:7,op,"l\nm",qty
a,b,c,d,e,f,I,g,1
b,b,"c,d",d,e,f,U,h,2
"""


def test_strange_names(page, tmp_path):
    """Columns whose names are hard to quote; each is left out once and taken again."""
    write(f"{tmp_path}/it's strange.csv", STRANGE)
    page.fresh()
    page.drop({"it's strange.csv": STRANGE})
    page.shows_cube("it's strange")
    assert page.shell_words() == ["datacube", "table", "it's strange.csv"], "a name with a quote"
    see_cube(page, tmp_path)
    page.change_columns()
    assert page.uses() == [*["dimension"] * 4, "none", *["dimension"] * 3, "measure"]
    why = page.js("return document.querySelector('#own-rows tr:nth-child(5)').lastChild.textContent")
    assert why == "it has no name", "why one is left out"
    page.set("use 4", "dimension")
    page.commanded(',"",')
    for use in ("none", "dimension"):
        page.set("use 7", use)
        page.commanded("\nm", use != "none")
    page.set("use 6", "none")
    page.commanded(",op", False)
    page.count("it's strange")
    assert page.shell_words()[3:] == ["--by", 'constructor,__proto__,"a""b",it\'s,"",x:7,"l\nm"', "--of", "qty"]
    see_cube(page, tmp_path)


def test_schema_text(columns, tmp_path):
    """The schema is changed as a text; one that is wrong is told."""
    columns.js("document.getElementById('own-text').open = true")
    text = columns.js("return document.getElementById('own-schema').value").replace('"NA", ', "").replace('["city", ', '["city", "flavour", ')
    edit = "const it = document.getElementById('own-schema'); it.value = arguments[0]; it.dispatchEvent(new Event('input'))"
    columns.js(edit, text.replace('"flavour", ', ""))
    write(f"{tmp_path}/sales.toml", text.replace('"flavour", ', "").encode())
    columns.count("sales")
    assert columns.shell_words() == ["datacube", "print", "sales.toml", "sales.csv"]
    see_cube(columns, tmp_path)
    assert columns.text("#own-refused-count") == "2 lines were refused.", "without NA a line more is refused"
    columns.change_columns()
    for wrong, start in (("dimensions = 7\n", "The schema: `dimensions` is missing"),
                         (text, "sales.csv: The first record of the feed isn't the header")):
        columns.js(edit, wrong)
        columns.at("#own-count").click()
        assert columns.told(start)


def test_refused_lines(page):
    """Refused lines are told with where they stand and why."""
    data = b'city,price\n"Yo\nrk",1.5\n\nLeeds,abc\nLeeds\n"x"",y",7\n'
    page.fresh()
    page.drop({"prices.csv": data, "s.toml": b'dimensions = ["city"]\nmeasures = ["price"]\naggregates = ["count(*)"]\n[feed]\n'})
    page.shows_cube("prices")
    assert page.text("#own-refused-count") == "3 lines were refused."
    rows = page.refused()
    assert [it[:4] for it in rows] == [["prices.csv", "2", "1", "5"], ["prices.csv", "5", "2", "5"], ["prices.csv", "6", "3", "2"]]
    no_number = "L5: a measure isn't a number."
    assert [it[4] for it in rows] == [f"{no_number} price is “1.5”.", f"{no_number} price is “abc”.",
                                      "L2: a wrong number of fields. It has 1, and the header 2."]
    assert [it[5] for it in rows] == ['"Yo↵rk",1.5', "Leeds,abc", "Leeds"], "what they say"
    schema = b'dimensions = ["city"]\nmeasures = ["a", "b"]\naggregates = ["count(*)"]\n[feed]\nnull = ["-"]\ndelimiter = ";"\npoint = ","\n'
    numbers = b"a;city;b\n-;York;1,50\n1,0;York;1,5000\n1;York;1,005\n1;York;,5\n1;York;1,\n1;York;+1\n1;York;-\n"
    page.drop({"numbers.csv": numbers, "s.toml": schema + b"[decimals]\nb = 2\n"})
    page.shows_cube("numbers")
    wanted = [("3", "a is “1,0”"), ("4", "b is “1,005”"), ("5", "b is “,5”"), ("6", "b is “1,”")]
    assert [(it[1], it[4]) for it in page.refused()] == [(line, f"{no_number} {what}.") for line, what in wanted]


def test_several_files(page, tmp_path):
    """Several files, and feeds with their schema."""
    write(f"{tmp_path}/more sales.csv", SALES.replace(b"York", b"Hull"))
    write(f"{tmp_path}/sales.csv", SALES)
    page.fresh()
    page.choose_files(f"{tmp_path}/sales.csv", f"{tmp_path}/more sales.csv")
    page.shows_cube("sales")
    assert page.shell_words() == ["datacube", "table", "sales.csv", "more sales.csv"]
    see_cube(page, tmp_path)
    page.fresh()
    page.choose_files(*SHOP, SHOP_SCHEMA)
    page.shows_cube("market")
    assert page.cube() == read(f"{ROOT}/examples/shop/cube.csv"), "the cube of feeds and a schema"
    assert page.text("#own-refused-count") == "3 lines were refused."
    page.at("#own-refused summary").click()
    records = [read(SHOP[source - 1]).decode().splitlines()[record] for source, record in ((2, 5), (3, 3), (3, 4))]
    assert [it[5] for it in page.refused()] == records
    page.choose_files(f"{ROOT}/examples/shop/cube.csv")
    page.wait("return document.title.startsWith('cube.csv') && document.getElementById('own-bar').hidden")
    assert page.at("#explorer").is_displayed() and not page.at("#own").is_displayed(), "a printed cube is shown"


# files that are no facts, and how the sentence begins that says so
WRONG = {
    "a.csv.gz": (b"\x1f\x8b\x08\0abc", "a.csv.gz is compressed (gzip)."),
    "sheet.xlsx": (b"PK\x03\x04abc", "sheet.xlsx is a zip archive"),
    "sheet.xls": (b"\xd0\xcf\x11\xe0abc", "sheet.xls is an old spreadsheet"),
    "wide.csv": ("a,b\n1,2\n".encode("utf-16"), "wide.csv is UTF-16."),
    "wide again.csv": ("a,b\n1,2\n".encode("utf-16-le"), "wide again.csv is no text that this page can read"),
    "some.pdf": (b"%PDF-1.7\n", "some.pdf is a PDF."),
    "some.parquet": (b"PAR1abc", "some.parquet is a Parquet file."),
    "some.json": (b'[\n {"city": "York"}]', "some.json is JSON."),
    "page.csv": (b"<!DOCTYPE html><p>no", "page.csv is a page or XML."),
    "none.csv": (b"", "none.csv is empty."),
    "alone.toml": (b"dimensions = []\n", "That is a schema alone."),
    "blank.csv": (b"\n\n", "No schema was made: "),
    "numbers.csv": (b"price\n1.5\n2.5\n", "No column was taken for a dimension: choose one to group by."),
}


# files that don't go together, and one that is too long or isn't closed
TOGETHER = [
    ({"cube.csv": read(f"{ROOT}/examples/shop/cube.csv"), "sales.csv": SALES}, "One of these files is a printed cube."),
    ({"a.toml": b"x", "b.toml": b"x"}, "These are several schemas."),
    ({f"{at}.csv": SALES for at in range(65)}, "These are 65 feeds; 64 can be read at once."),
    ({"long.toml": b"#" * 1048577, "sales.csv": SALES}, "long.toml: The schema file isn't there, can't be read, is a folder, or has more than"),
    ({"open.csv": b'city,qty\nYork,1\n"Leeds,2\n'}, "open.csv ends within a text in quotes that is never closed (G3 1 F5 2)."),
]


def test_wrong_files(page):
    """Files that are no facts, a folder, and files that don't go together: a sentence each, and the page goes on."""
    page.fresh()
    for files, start in [*(({name: data}, start) for name, (data, start) in WRONG.items()), *TOGETHER]:
        page.drop(files)
        assert page.told(start)
    page.js("const it = { items: [{ kind: 'file', webkitGetAsEntry: () => ({ isDirectory: true }) }] };"
            "const event = new Event('drop', { bubbles: true, cancelable: true }); event.dataTransfer = it; document.body.dispatchEvent(event)")
    assert page.told("That is a folder.")
    page.drop({"sales.csv": SALES})
    page.shows_cube("sales")
    assert not page.at("#problem").is_displayed(), "the page goes on"


def spoil(page, how):
    """Has each worker spoil its instance of the module: its text is the page's own, with one line before it."""
    page.js("""
        const own = document.getElementById("own-worker"), line = "WebAssembly.instantiate(module, {})";
        window.kept ??= own.textContent;
        own.textContent = window.kept.replace("(await " + line + ").instance.exports",
          "((it) => { const calls = { ...it.instance.exports }; " + arguments[0] + "; return calls; })(await " + line + ")");
        ownData.anew();
    """, how)


@pytest.mark.parametrize("how, start", [
    ("throw new WebAssembly.RuntimeError('unreachable')", "The module stopped (RuntimeError: unreachable)."),
    ("throw new RangeError('no memory')", "There isn't enough memory"), ("calls.page_alloc = () => 0n", "There isn't enough memory")])
def test_faults_of_module(columns, tmp_path, how, start):
    """A trap and want of memory are sentences, and the page goes on after them."""
    spoil(columns, how)
    columns.at("#own-count").click()
    assert columns.told(start)
    columns.js("document.getElementById('own-worker').textContent = window.kept; ownData.anew()")
    columns.count("sales")
    see_cube(columns, tmp_path)


def test_without_meanings(page):
    """Where the module doesn't say what codes mean, or isn't there at all, there is a sentence all the same."""
    page.fresh()
    spoil(page, "calls.page_explain = () => { throw new WebAssembly.RuntimeError('unreachable'); }")
    page.drop({"sales.csv": SALES, "s.toml": b"dimensions = 7\n"})
    told = "s.toml wasn't taken (S4); `datacube explain S4` says why."
    assert page.told(told) == told, "a code without its meaning"
    page.js("for (const it of document.querySelectorAll('[id^=own-module]')) it.textContent = ''; ownData.anew()")
    page.drop({"sales.csv": SALES})
    assert page.told("The module stopped (this browser can't unpack the module).")


def large_feed(lines):
    """A file of so many lines: three dimensions, of which one is the month of a time, and a measure with two decimals."""
    shops, products = [f"shop {at:02d}" for at in range(40)], [f"product {at:02d}" for at in range(30)]
    rows = (f"{at},2026-{at * 7 % 12 + 1:02d}-{at % 28 + 1:02d}T10:00:00,{shops[at * 31 % 40]},{products[at * 17 % 30]},{at * 7919 % 10000 / 100:.2f},x\n"
            for at in range(lines))
    return "order no,when,shop,product,price,note\n" + "".join(rows)


def test_too_large(page, tmp_path):
    """A file that doesn't fit a memory of 32 bits."""
    path = f"{tmp_path}/huge.csv"
    write(path, large_feed(20_000).encode())
    os.truncate(path, 5_000_000_000)  # (it takes no room on the disk)
    page.use("32")
    page.choose_files(path)
    page.told("There isn't enough memory in this browser")
    assert page.at("#own-count").is_displayed()
    page.drop({"sales.csv": SALES})
    page.shows_cube("sales")


def test_stopped(page, tmp_path):
    """The work is stopped, by the button."""
    write(f"{tmp_path}/long.csv", large_feed(400_000).encode())
    page.fresh()
    page.choose_files(f"{tmp_path}/long.csv")
    page.wait("return !document.getElementById('own-work').hidden")
    page.at("#own-stop").click()
    assert page.text("#problem") == "Counting was stopped."
    assert not page.at("#own-work").is_displayed(), "no work goes on"
    page.count("long")
    see_cube(page, tmp_path)


def test_saved(sales, tmp_path):
    """The cube, the schema and the refusals are saved as files."""
    folder = tmp_path / "saved"
    sales.js("document.getElementById('own-refused').open = true")
    files = {"cube": "sales cube.csv", "schema": "sales.toml", "refusals": "sales refusals.csv"}
    for button, name in files.items():
        sales.save(f"#own-save-{button}", name, folder)
    assert sorted(os.listdir(folder)) == sorted(files.values())
    shutil.copy(f"{tmp_path}/sales.csv", folder)
    for name, words in (("sales cube.csv", ["print", "sales.toml", "sales.csv"]), ("sales.toml", ["schema", "sales.csv"]),
                        ("sales refusals.csv", ["refusals", "sales.toml", "sales.csv"])):
        assert read(f"{folder}/{name}") == ran(folder, *words)[1], name


def test_by_keyboard(sales, tmp_path):
    """Without a pointer: the columns are chosen, the cube is made, the table has the focus."""
    is_in_table = "it.closest('#table') !== null"
    assert sales.focus(is_in_table)
    sales.fresh()
    assert sales.tab_to("it.id === 'pick'") and sales.tab_to("it.id === 'pick-too'")
    sales.drop({"sales.csv": SALES})
    sales.shows_cube("sales")
    sales.at("#own-change").send_keys(Keys.ENTER)
    assert sales.focus("it.id") == "own-title", "the title of the columns has the focus"
    assert sales.tab_to("it.dataset.own === 'use 2'")
    sales.press("l")
    sales.wait("return document.querySelector('[data-own=\"use 2\"]').value === 'none'")
    sales.commanded("--by")
    assert sales.focus("it.dataset.own") == "use 2", "a choice keeps the focus"
    assert sales.tab_to("it.id === 'own-count'")
    sales.press(Keys.ENTER)
    sales.wait("return !document.getElementById('own-bar').hidden")
    sales.shows_cube("sales")
    assert sales.shell_words()[4] == "city,when:10,when:7,order no"
    see_cube(sales, tmp_path)
    assert sales.focus(is_in_table)
    sales.change_columns()
    assert sales.tab_to("it.id === 'own-back'")
    sales.press(Keys.ENTER)
    assert sales.focus("[it.id, document.getElementById('explorer').hidden]") == ["own-change", False], "back to the cube"


@pytest.mark.parametrize("place", ["cube", "columns"])
def test_names_and_contrast(sales, place):
    """Each control has a name, and what is written on it is read well, in light and dark colours."""
    if place == "columns":
        sales.change_columns()
        sales.js("document.getElementById('own-text').open = true")
    assert sales.js(NAMELESS) == []
    for look in ("light", "dark"):
        sales.colours(look)
        sales.settle(0.1)
        see_contrast(sales)


@pytest.mark.asked("large")
@pytest.mark.parametrize("name", WORKLOADS)
def test_workload(module, tmp_path, name, tell):
    """The workloads of the measurements, at their own size."""
    schema, *feeds = make(tmp_path, name, 64 if name == "many" else 1, 1.0)
    start = time.monotonic()
    module.choose_files(*feeds, schema)
    module.wait("return Boolean(ownData.shown())")
    took = time.monotonic() - start
    digest = module.later("""
        const done = arguments[0];
        ownData.shown().cube.arrayBuffer().then((it) => crypto.subtle.digest("SHA-256", it))
          .then((it) => done([...new Uint8Array(it)].map((byte) => byte.toString(16).padStart(2, "0")).join("")));
    """)
    wanted = ran(tmp_path, "print", schema, *feeds)[1]
    assert digest == hashlib.sha256(wanted).hexdigest()
    tell(f"{name}: {len(wanted) / 1e6:.1f} MB of cube in {took:.1f} s")


def use_of(driver):
    """The memory that a browser's processes have by themselves, in MiB, and the processor time that they took, in seconds."""
    return tuple(of_family(driver.service.process.pid, it) for it in (memory_of, lambda process: spent_by(process, has_children=False)))


@pytest.mark.asked("large")
def test_large(page, tmp_path, tell):
    """A million lines: from dropping the file to the table, and the memory of the browser above what it has without."""
    path = f"{tmp_path}/million.csv"
    write(path, large_feed(1_000_000).encode())
    page.fresh()
    time.sleep(1)
    before, spent = use_of(page.driver)
    most = before
    page.js(BEATS)
    start = time.monotonic()
    page.choose_files(path)
    while not page.js("return !document.getElementById('own-bar').hidden"):
        most = max(most, use_of(page.driver)[0])
        time.sleep(0.3)
    took, longest = time.monotonic() - start, page.js("return window.longest") / 1000
    last, spent = use_of(page.driver)[0], use_of(page.driver)[1] - spent
    most = max(most, last)
    tell(f"{os.path.getsize(path) / 1e6:.1f} MB, a million lines: {took:.1f} s from the file to the table, {spent:.1f} s of processors; "
         f"{most - before:.0f} MiB more than the empty page at most; the page's longest pause was {longest:.2f} s; "
         f"{page.text('#about')}; {page.text('#own-made')}")
    see_cube(page, tmp_path)
    assert longest < pause_for(took), "the page answers meanwhile"
    assert took < 8, "seconds"
    assert most - before < 600e6 / 2**20, "MiB"


def shop_sales():
    """Some sales of a shop, of which a few have no price that can be read."""
    pick, lines = random.Random(3), ["order no,when,city,product,price,pieces"]
    for at in range(2_000):
        when = f"2026-{pick.randint(1, 6):02d}-{pick.randint(1, 28):02d}T{pick.randint(9, 17):02d}:{pick.randint(0, 59):02d}"
        price = "free" if at % 500 == 77 else f"{pick.randint(120, 990) / 100:.2f}"
        city, product = pick.choice(["Hull", "Leeds", "Leeds", "York", "York", "York"]), pick.choice(["cake", "coffee", "tea", "tea"])
        lines.append(f"{10_000 + at},{when},{city},{product},{price},{pick.randint(1, 4)}")
    return "\n".join(lines) + "\n"


@pytest.mark.asked("screenshots")
def test_pictures(page, tmp_path):
    """The pictures of docs/explorer/ whose names begin with `own-`."""
    write(f"{tmp_path}/sales.csv", shop_sales().encode())
    page.driver.set_window_size(1080, 780)
    page.fresh()
    page.choose_files(f"{tmp_path}/sales.csv")
    page.shows_cube("sales")
    page.change_columns()
    page.js("document.querySelector('[data-own=\"time 1 10\"]').click()")
    page.commanded("--by when:7")
    page.set("use 4", "measure")
    page.commanded("price:2")
    page.screenshot("own-columns")
    page.count("sales")
    page.js("document.getElementById('own-refused').open = true")
    page.screenshot("own-cube")
    page.driver.set_window_size(1280, 800)


# (this one reads what the others left in the log, so it is the last)
def test_asks_nobody(page):
    """What the page would ask of others is forbidden, and in all that was done here nothing was asked of a host."""
    complaints = [it["message"][:200] for it in page.driver.get_log("browser") if it["level"] == "SEVERE"]
    assert complaints == []
    page.fresh()
    directives, is_run = page.later(ASKING)
    assert directives == FORBIDDEN
    assert not is_run, "no script of another runs"
    messages = [json.loads(it["message"])["message"] for it in page.driver.get_log("performance")]
    of = lambda kind: [it["params"] for it in messages if it["method"] == kind]
    received = {it["response"]["url"].partition(":")[0] for it in of("Network.responseReceived")}
    assert received, "the log has the page's own requests"
    assert received <= {"file", "blob", "data", "about"}
    assert [str(it.get("headers"))[:100] for it in of("Network.requestWillBeSentExtraInfo")] == [], "what was sent to a host"
