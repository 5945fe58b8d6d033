"""The explorer's numbers and charts: how numbers are written, the first rows and the rest, shares, filters of numbers, bars, lines,
their ticks and keys, and how wide the page may be."""
from fractions import Fraction

import pytest
from browser import LUMINANCE, NAMELESS, OVER, TWO, UNSEEN, Keys, shop_sliced, shown_answer, webdriver

# the addresses of the shop's views that are looked at in each width
VIEWS = {"each city": "#slice=%3F,%5CA,%5CA", "each cell": "#slice=%3F,%3F,%3F", "the heat map": f"{TWO}&form=heat&colour=9",
         "bars": f"{TWO}&form=bars&answers=7,9", "lines": f"{TWO}&form=lines&colour=9", "stacked bars": f"{TWO}&form=stacked&colour=9"}
# of each colour of a chart, its contrast with the paper
SHAPES = LUMINANCE + """
const light = (text) => luminance(text.match(/\\d+/g)), shape = document.querySelector("#chart .shape");
const paper = light(getComputedStyle(document.getElementById("chart")).backgroundColor);
return ["s0", "s1", "s2", "s3", "s4", "s5", "s6", "rest"].map((name) => {
  shape.setAttribute("class", `shape ${name}`);
  const [high, low] = [light(getComputedStyle(shape).fill), paper].sort((a, b) => b - a);
  return [name, (high + 0.05) / (low + 0.05)];
});
"""
# of the ticks of each chart's numbers: what is written, and where
AXIS = """
return [...document.querySelectorAll("#chart figure")].map((figure) => [...figure.querySelectorAll("g.tick")].filter((it) =>
  it.querySelector("line.grid, line.zero")).map((it) => {
  const frame = figure.querySelector("svg").getBoundingClientRect(), line = it.querySelector("line").getBoundingClientRect();
  return { said: it.textContent, x: line.left - frame.left, y: line.top - frame.top };
}));
"""
# numbers of a column, and the ticks beside them
TICKS = {
    "none": (["0", "0"], "0 1"),
    "few": (["3", "1", "\\N"], "0 1 2 3"),
    "thousands": (["12345", "9"], "0 2,000 4,000 6,000 8,000 10,000 12,000 14,000"),
    "below zero": (["-1500", "2500"], "-2,000 -1,000 0 1,000 2,000 3,000"),
    "all below zero": (["-7", "-12"], "-12 -10 -8 -6 -4 -2 0"),
    "decimals": (["-0.25", "0.50"], "-0.4 -0.2 0 0.2 0.4 0.6"),
    "more decimals": (["0.07", "0.12"], "0 0.02 0.04 0.06 0.08 0.10 0.12"),
    "the least decimals": (["0.000000000000000003", "-0.000000000000000001"], "-1e-18 0 1e-18 2e-18 3e-18"),
    "a million": (["999999", "1"], "0 200k 400k 600k 800k 1M"),
    "millions": (["2500000", "-100000"], "-500k 0 500k 1M 1.5M 2M 2.5M"),
    "billions": (["-9000000000", "700000000"], "-10B -8B -6B -4B -2B 0 2B"),
    "above 2^53": (["9223372036854775807", "9223372036854775806"], "0 2e+18 4e+18 6e+18 8e+18 1e+19"),
    "128 bits": (["-170141183460469231731687303715884105728", "5"], "-2e+38 -1.5e+38 -1e+38 -5e+37 0 5e+37"),
}


def percent(text, of):
    """A share as the page shows it: two digits, half away from zero."""
    if text == "\\N" or of == "\\N" or not Fraction(of):
        return "—"
    share = 10000 * Fraction(text) / Fraction(of)
    whole = (2 * abs(share.numerator) + share.denominator) // (2 * share.denominator)
    return f"{'-' if share < 0 and whole else ''}{whole // 100:,}.{whole % 100:02d} %"


@pytest.fixture(scope="module")
def lines():
    """The lines of each city and product of the shop, and those of each city, and of all, by their texts; a line is its answers."""
    lines = {tuple(it[:2] + it[3:5]): it[6:] for it in shop_sliced("?,?,\\A")[1:]}
    cells = {key: line for key, line in lines.items() if key[2:] == ("0", "0")}
    cities = {key[0]: line for key, line in lines.items() if key[2:] == ("0", "1")}
    return cells, cities, lines["\\N", "\\N", "1", "1"]


def answers(line, *places):
    """Some answers of a line as the page shows them."""
    return [shown_answer(line[at]) for at in places]


def name_of(text):
    return "null" if text == "\\N" else text


def cents_of(cells, first=0, second=1, between=", ", is_null_kept=False):
    """The sums of the cells by the names of their places in a chart."""
    return {f"{name_of(key[first])}{between}{name_of(key[second])}": line[2] for key, line in cells.items()
            if is_null_kept or line[2] != "\\N"}


def is_linear(pairs):
    """Whether numbers and lengths go together, as those of a scale do."""
    (low, start), (high, end) = min(pairs), max(pairs)
    return high > low and all(abs(length - start - (value - low) * (end - start) / (high - low)) < 0.51 for value, length in pairs)


def exact_of(marks):
    """The exact texts of marks by their names."""
    return {it["name"].split(": ")[0]: it["exact"] for it in marks}


# Numbers.


def last(page):
    """The last column of the table, and of the total."""
    shown = page.shown()
    return [it[-1] for it in shown["body"]], shown["foot"][-1][-1]


def test_answers(page, shop, lines):
    cells, _, whole = lines
    page.open(shop, f"{TWO}&answers=7,9,10")
    names = lambda: page.js("return [...document.querySelectorAll('#table thead th')].map((it) => it.querySelector('.sort').textContent)")
    assert names()[2:] == ["count(*)", "sum(cents)", "min(cents)"]
    assert [it[2:] for it in page.shown()["body"]] == [answers(line, 0, 2, 3) for line in cells.values()]
    page.click("#more summary")
    page.click("[data-answer='3']")
    assert names()[2:] == ["count(*)", "sum(cents)"]
    assert page.focus("it.dataset.answer") == "3", "the focus stays on it"
    for kind, sign in (("space", "\u202f"), ("none", ""), ("comma", ",")):
        page.choose("thousands", kind)
        assert last(page)[1] == shown_answer(whole[2]).replace(",", sign), f"thousands: {kind}"


def test_shares(page, shop, lines):
    cells, cities, whole = lines
    page.open(shop, f"{TWO}&answers=7,9")
    for kind, of in (("parent", lambda key: cities[key[0]]), ("total", lambda key: whole), ("whole", lambda key: whole)):
        page.choose("share", kind)
        shown = page.shown()
        assert [it[2:] for it in shown["body"]] == [
            [percent(line[at], of(key)[at]) if line[at] != "\\N" else "[null]" for at in (0, 2)] for key, line in cells.items()], kind
        assert shown["foot"][-1][2:] == ["100.00 %", "100.00 %"], f"{kind}: the total is whole"
    exact = page.js("return document.querySelector('#table tr[data-row] td:last-child').title")
    assert exact == f"{next(iter(cells.values()))[2]} of {whole[2]}", "exact numbers under the pointer"
    page.go("#slice=%3DLeeds,%3F,%5CA&answers=9&share=whole")
    shown, total = last(page)
    assert shown == [percent(line[2], whole[2]) for key, line in cells.items() if key[0] == "Leeds"], "shares of everything, of one city"
    assert total == percent(cities["Leeds"][2], whole[2])


def cents(line):
    return int(line[2]) if line[2] != "\\N" else -1


def test_first_rows(page, shop, lines):
    """The first rows, and the rest as one line."""
    cells, _, whole = lines
    page.open(shop, f"{TWO}&answers=7,9,11")
    page.click("#more summary")
    page.type("#top", "2", "top")
    assert page.at("[aria-sort=descending]").text.startswith("count(*)"), "by the first answer"
    page.click("[data-sort='6']")
    ordered = sorted(cells.values(), key=lambda it: -cents(it))
    shown = page.shown()
    assert [it[2:] for it in shown["body"]] == [answers(line, 0, 2, 4) for line in ordered[:2]]
    rest = ordered[2:]
    most = max(int(line[4]) for line in rest if line[4] != "\\N")
    total = [f"{sum(int(line[0]) for line in rest):,}", f"{sum(max(0, cents(line)) for line in rest):,}", f"{most:,}"]
    assert shown["foot"][0] == [f"rest ({len(rest)})", *total]
    assert shown["foot"][1][2:] == answers(whole, 0, 2, 4)
    assert "the first 2, and the rest as one line" in page.text("#summary")


def test_bounds(page, shop, lines):
    """Filters of numbers."""
    cells, _, whole = lines
    ordered = sorted(cells.values(), key=lambda it: -cents(it))
    page.open(shop, f"{TWO}&answers=7,9,11&sort=-9")
    page.click("#more summary")
    page.choose("limit", "2")
    page.type("#least", "400", "least")
    page.type("#most", "1500.5", "most")
    kept = [line for line in ordered if 400 <= cents(line) <= 1500.5]
    assert 0 < len(kept) < len(cells)
    shown = page.shown()
    assert [it[2:] for it in shown["body"]] == [answers(line, 0, 2, 4) for line in kept]
    assert shown["foot"][0][:3] == [f"{len(kept)} found", f"{sum(int(line[0]) for line in kept)}", f"{sum(map(cents, kept)):,}"]
    assert "sum(cents) at least 400 and at most 1500.5" in page.text("#summary")
    page.at("#least").send_keys("x")
    page.wait("return document.getElementById('least').ariaInvalid === 'true'")
    wanted = sum(cents(line) <= 1500.5 and line[2] != "\\N" for line in ordered)
    assert len(page.shown()["body"]) == wanted, "no number, no bound"
    assert "least=400x" in page.js("return location.hash")
    page.open(shop, f"{TWO}&answers=9&sort=-9&of=9&least=400&top=1&share=total")
    assert [it[-1] for it in page.shown()["body"]] == [percent(ordered[0][2], whole[2])], "an address with all of it"


# Charts.


def test_bars(page, shop, lines):
    """Bars have the numbers of the cube's lines, and their lengths; what isn't shown is one more bar, which is exact."""
    cells, _, whole = lines
    page.open(shop, f"{TWO}&colour=9")
    page.click("#as-bars")
    marks = page.marks()[0]
    cents = cents_of(cells, between=" · ", is_null_kept=True)
    numbers = [it for it in cents.values() if it != "\\N"]
    assert [it["name"] for it in marks] == [f"{name}: {shown_answer(it).strip('[]')}" for name, it in cents.items()]
    there = [it for it in marks if it["width"] is not None]
    assert [it["exact"] for it in there] == numbers
    assert is_linear([(0, 0), *((int(it["exact"]), it["width"]) for it in there)])
    assert [it["name"] for it in marks if it["width"] is None] == ["null · coffee: null"], "null has no bar"
    page.go(f"{TWO}&form=bars&answers=7,9,12&sort=-9&top=2")
    counts, sums, means = page.marks()
    assert [len(counts), len(sums), len(means)] == [3, 3, 2], "several answers side by side"
    rest = sum(sorted(map(int, numbers), reverse=True)[2:])
    assert (sums[2]["name"], sums[2]["exact"], sums[2]["role"]) == (f"rest ({len(cells) - 2}): {rest:,}", str(rest), "img")
    sides = page.js("return new Set([...document.querySelectorAll('#chart figure')].map((it) => it.getBoundingClientRect().top)).size")
    assert sides == 1
    assert "/" in means[0]["exact"], "a mean under the pointer"
    page.go(f"{TWO}&form=bars&colour=9&share=total")
    wanted = [percent(it, whole[2]) if it != "\\N" else "null" for it in cents.values()]
    marks = page.marks()[0]
    assert [it["name"].split(": ")[1] for it in marks] == wanted
    assert marks[0]["drawn"] == float(wanted[0].split(" ")[0]), "the share is drawn"


def test_lines(page, shop, lines):
    """Lines go along a dimension in its order, a line for each value of the other one."""
    cells = lines[0]
    page.open(shop, f"{TWO}&form=lines&colour=9&along=2")
    marks, cents = page.marks()[0], cents_of(cells, 1, 0)
    assert exact_of(marks) == cents
    assert is_linear([(int(it["exact"]), -it["cy"]) for it in marks]), "heights"
    products = ["coffee", "tea", "tea, green"]
    assert all(it["name"].startswith(products[it["place"]] + ", ") for it in marks), "in the order of the dimension"
    assert is_linear([(it["place"], it["cx"]) for it in marks]), "from the left"
    paths = page.js("return [...document.querySelectorAll('#chart path.line')].map((it) => it.getAttribute('d').split(/[ML]/).length - 1)")
    assert sum(paths) == len(cents), "a point for each number"
    page.go(f"{TWO}&form=lines&answers=7,9&along=2")
    keys = page.js("return [...document.querySelectorAll('#chart figure')].map((it) => [...it.querySelectorAll('.key')].map("
                   "(key) => key.nextSibling.textContent + key.getAttribute('class')))")
    assert [len(it) for it in keys] + [len(set(keys[0] + keys[1]))] == [3, 3, 3], "a value has one colour in all charts"
    page.go(f"{TWO}&form=lines&colour=9&along=2")
    page.choose("along", "0")
    assert set(exact_of(page.marks()[0])) == set(cents_of(cells)), "along the other one"
    page.go("#slice=%3F,%5CA,%5CA&form=lines&colour=12")
    marks = page.marks()[0]
    assert [it["exact"] for it in marks] == [it[-1] for it in shop_sliced("?,\\A,\\A")[1:] if it[3] == "0"], "one line, of means"
    assert is_linear([(float(Fraction(it["exact"])), -it["cy"]) for it in marks])


def test_stacked(page, shop, lines):
    """Parts of a bar follow each other, and their sum is the line's."""
    cells, cities, _ = lines
    page.open(shop, f"{TWO}&form=stacked&colour=9")
    marks = [it for it in page.marks()[0] if it["width"] is not None]
    assert exact_of(marks) == cents_of(cells)
    assert is_linear([(0, 0), *((int(it["exact"]), it["width"]) for it in marks)])
    ends = {}
    for it in marks:
        assert abs(it["x"] - ends.get(it["place"], it["x"])) < 0.1, f"{it['name']} begins where the one before ends"
        ends[it["place"]] = it["x"] + it["width"]
    numbers = lambda: page.js("return [...document.querySelectorAll('#chart text.number')].map((it) => it.textContent)")
    assert numbers() == [shown_answer(line[2]) for line in cities.values()], "sums"
    page.go(f"{TWO}&form=stacked&colour=9&top=1")
    most = sorted((int(line[2]) for line in cities.values()), reverse=True)
    assert numbers() == [f"{most[0]:,}", f"{sum(most[1:]):,}"], "the greatest bar and the rest"
    page.go(f"{TWO}&colour=12")
    closed = page.js("const it = document.getElementById('as-stacked'); return [it.disabled, it.title]")
    assert closed == [True, "Counts and sums alone can be stacked"]


def drop_sums(page, texts, address):
    """Drops a printed cube of one dimension with a row for each sum, and goes to a view of it."""
    lines = ["place,grouping(place),sum(m)", *(f"p{at},0,{it}" for at, it in enumerate(texts))]
    page.fresh(address)
    page.drop({"sums.csv": "\n".join([*lines, ""]).encode()})
    page.titled("sums")


def value_of(tick):
    """The number that a tick says."""
    text, letter = tick.replace(",", "").replace("\u202f", ""), tick[-1]
    return float(text[:-1]) * 1000 ** ("kMBT".index(letter) + 1) if letter in "kMBT" else float(text)


@pytest.mark.parametrize("name", TICKS)
def test_ticks(page, name):
    """The ticks of a scale: their texts, and that each stands where a number of its size is drawn."""
    texts, wanted = TICKS[name]
    drop_sums(page, texts, "#slice=%3F&form=lines")
    found, marks = page.js(AXIS)[0], page.marks()[0]
    assert [it["said"] for it in found] == wanted.split()
    assert is_linear([*((float(Fraction(it["exact"])), -it["cy"]) for it in marks), *((value_of(it["said"]), -it["y"]) for it in found)])
    assert [it["exact"] for it in marks] == [it for it in texts if it != "\\N"], "the numbers are exact"
    page.go("#slice=%3F&form=bars")
    found, marks = page.js(AXIS)[0], [it for it in page.marks()[0] if it["width"] is not None and float(it["exact"])]
    (zero,) = [it["x"] for it in found if it["said"] == "0"]
    ends = [(float(it["exact"]), it["x"] + (it["width"] if float(it["exact"]) > 0 else 0) - zero) for it in marks]
    assert is_linear([*ends, *((value_of(it["said"]), it["x"] - zero) for it in found)]), "ticks of bars"


def test_marks_between_thousands(page):
    drop_sums(page, ["12345"], "#slice=%3F&form=lines&thousands=space")
    assert page.js(AXIS)[0][-1]["said"] == "14\u202f000"
    page.choose("thousands", "none")
    assert page.js(AXIS)[0][-1]["said"] == "14000"


# Keys and the pointer.


def test_chart_keys(page, shop):
    page.open(shop, f"{TWO}&form=stacked&colour=9")
    page.js("document.getElementById('pick').focus()")
    page.tab_to("it.closest('#chart svg')")
    focus = lambda: page.focus("it.ariaLabel")
    assert focus() == "Leeds, tea: 700", "Tab comes to the chart"
    for key, wanted in ((Keys.ARROW_RIGHT, "Leeds, coffee: 1,350"), (Keys.ARROW_DOWN, "York, coffee: 450"), (Keys.END, "null, coffee: null"),
                        (Keys.HOME, "Leeds, tea: 700")):
        page.press(key)
        assert focus() == wanted
    assert page.text("#reading") == "Leeds, tea: 700", "it is read below"
    assert page.focus("getComputedStyle(it.querySelector('.hit')).strokeWidth") == "3px", "the focus is seen"
    page.press(Keys.ENTER)
    page.settle(0.1)
    assert page.command()[3] == "=Leeds,=tea,?", "Enter drills down"
    assert page.focus("it.closest('#chart, #table') !== null"), "and the focus is in what is shown"
    page.go(f"{TWO}&form=lines&colour=9&along=2")
    page.js("document.querySelector('.mark').focus()")
    assert focus() == "coffee, Leeds: 1,350", "a line's first point"
    page.press(Keys.ARROW_RIGHT)
    assert focus() == "tea, Leeds: 700", "to the right along a line"
    page.go(f"{TWO}&form=bars&answers=7,9")
    page.js("document.querySelector('.mark').focus()")
    page.press(Keys.TAB, Keys.ARROW_DOWN)
    assert focus() == "Leeds · tea: 700", "Tab goes to the next chart"


def test_chart_pointer(page, shop):
    page.open(shop, f"{TWO}&form=bars&colour=9")
    names = page.js("return [...document.querySelectorAll('#chart [role=group], #chart [role=button], #chart [role=img]')].map((it) => it.ariaLabel)")
    assert (len(names), all(names)) == (8, True), "each part of a chart has a name"
    mark = page.at(".mark[data-place='1']")
    webdriver.ActionChains(page.driver).move_to_element(mark).perform()
    page.wait("return document.getElementById('reading').textContent === 'Leeds · tea: 700'")
    mark.click()
    page.settle(0.1)
    assert page.command()[3] == "=Leeds,=tea,?", "a click drills down"


def test_controls_by_keys(page, shop):
    """All controls of numbers, charts and saving are reached and used by keys alone, and have names."""
    # each control, the keys that are pressed there, and what the address has then
    steps = {"as-bars": ([Keys.ENTER], "form=bars"), "measure": (["s", "s"], "colour=9"), "more": ([Keys.ENTER], ""), "top": (["2"], "top=2"),
             "least": (["4", "0", "0"], "least=400"), "share": ([Keys.ARROW_DOWN] * 2, "share=total"),
             "thousands": ([Keys.ARROW_DOWN], "thousands=space"), "means": ([Keys.ARROW_DOWN], "means=fraction"), "0": ([Keys.SPACE], "answers="),
             "save-csv": ([], ""), "save-svg": ([], ""), "save-png": ([], ""), "save-link": ([Keys.ENTER], "")}
    page.open(shop, TWO)
    page.js("document.getElementById('pick').focus()")
    for name, (keys, wanted) in steps.items():
        assert page.tab_to(f"[it.id, it.parentElement.id, it.dataset.answer].includes('{name}')"), f"keys come to {name}"
        page.press(*keys)
        page.wait("return location.hash.includes(arguments[0])", wanted)
        page.settle(0)
        if name == "least":
            assert page.focus("[it.id, it.value]") == [name, "400"], "the field keeps what is typed, and the focus"
    page.wait("return document.activeElement.id === 'link'")
    assert page.js(NAMELESS) == []


def test_place_is_kept(page, shop):
    """A chart that is made anew keeps the place of the focus."""
    page.open(shop, f"{TWO}&form=bars&colour=9")
    page.js("document.querySelector('.mark').focus()")
    page.press(Keys.ARROW_DOWN, Keys.ARROW_DOWN)
    before = page.focus("it.ariaLabel")
    # (as a page over a served cube does when there is another state)
    page.js("view = fromAddress(location.hash, true); show().then(() => rowsSeen.go(rowsSeen.top))")
    page.settle(0)
    assert page.focus("it.ariaLabel") == before


@pytest.mark.parametrize("look", ["light", "dark"])
def test_chart_colours(page, shop, look):
    """Shapes stand out from what is below them by 3 to 1 at least (WCAG 2.2, 1.4.11)."""
    page.colours(look)
    page.open(shop, f"{TWO}&form=stacked&colour=9")
    least = page.js(SHAPES)
    assert (len(least), [it for it in least if it[1] < 3]) == (8, [])


@pytest.mark.parametrize("width", [420, 1280, 2560])
def test_widths(page, shop, width):
    """Nothing stands over the side of the page, and the numbers are seen."""
    page.fresh()
    page.size(width)
    assert page.js(OVER) == [True, []], "the start"
    for name, address in VIEWS.items():
        page.open(shop, address)
        page.click("#more summary")
        assert page.js(OVER) == [True, []], name
        page.click("#more summary")
        count, unseen = page.js(UNSEEN)
        assert (count > 2, unseen) == (True, []), name
