"""The explorer over a cube of a million lines (`--rows N` for another number): it answers while it reads, filters, sorts, draws, saves and
compares, and what it shows is what the program prints."""
import random
import re
import time

import pytest
from browser import AWAIT, BEATS, lines_of, number_of, pause_for, print_cube, printed, shown_answer, wanted_rows
from programs import text_at


@pytest.fixture(scope="module")
def folder(tmp_path_factory):
    return tmp_path_factory.mktemp("large")


@pytest.fixture(scope="module")
def cube(folder, request):
    """The path of the large cube; its schema and feed lie beside it."""
    make_feed(folder, request.config.getoption("--rows"))
    return print_cube(f"{folder}/large cube.csv", f"{folder}/large.toml", f"{folder}/large.csv")


@pytest.fixture(scope="module")
def finest(cube):
    """The lines of the finest grouping set."""
    return [it for it in lines_of(cube) if it[3:6] == ["0", "0", "0"]]


@pytest.fixture
def large(page, cube):
    """The page with the large cube, whose pauses are noted from now on."""
    if not page.js("return document.title.startsWith('large') && !document.title.includes(' and ')"):
        page.open(cube, "")
    page.js(BEATS)
    return page


def make_feed(folder, rows):
    """A schema, and a feed whose cube has as many lines or more."""
    shops, products = 60, 44
    days = max(2, -(-rows // ((shops + 1) * (products + 1))))
    pick = random.Random(3)
    (folder / "large.toml").write_text('dimensions = ["day", "shop", "product"]\nmeasures = ["cents"]\n'
                                       'aggregates = ["count(*)", "sum(cents)", "min(cents)", "max(cents)", "avg(cents)"]\n')
    names = ["\\N", *(f"shop {it:02d}" for it in range(1, shops))]
    ends = [f",{shop},product {product:02d}," for shop in names for product in range(products)]
    with open(folder / "large.csv", "w", encoding="utf-8") as file:
        file.write("op,id,day,shop,product,cents\n")
        for day in range(days):
            start, base = f",day {day:04d}", pick.randrange(100, 5000)
            file.write("".join(f"I,{day}-{at}{start}{end}{base + at * 7919 % 4999}\n" for at, end in enumerate(ends)))


def sliced(folder, command, *words):
    """What the program prints of the large feed."""
    return printed(command, f"{folder}/large.toml", *words, f"{folder}/large.csv")


def longest(page):
    """The longest pause of the page, in seconds."""
    return page.js("return window.longest") / 1000


def test_large_load(page, cube, request, tell):
    page.fresh()
    page.at("#chosen").send_keys(cube)
    page.wait("return document.getElementById('progress').value > 0")
    # (the line of progress is wrapped in another way from one moment to the next, so the button may move away from a pointer)
    page.js("document.getElementById('cancel').click()")
    assert page.text("#summary") == "Reading was stopped."
    page.js(BEATS)
    asked, start = [0], time.monotonic()
    page.at("#chosen").send_keys(cube)
    while time.monotonic() - start < AWAIT and not page.js("return document.title.startsWith('large')"):
        before = time.monotonic()
        page.js("return document.getElementById('progress-text').textContent")
        asked.append(time.monotonic() - before)
        time.sleep(0.02)
    took, paused = time.monotonic() - start, longest(page)
    lines = number_of(re.search(r": ([\d,]+) lines", page.text("#about"))[1])
    assert lines >= request.config.getoption("--rows")
    tell(f"{lines:,} lines were read in {took:.1f} s; the page's longest pause was {paused:.2f} s, "
         f"and it answered {len(asked) - 1} times, within {max(asked):.2f} s")
    assert max(paused, *asked) < pause_for(took), "the page answers while it reads"


def test_large_views(large, folder):
    large.go("#slice=%3F,%5CA,%5CA")
    large.find("day 0017")
    large.value("day 0017")
    body = wanted_rows(sliced(folder, "drill", "=day 0017,\\A,\\A", "shop"), [1])[0]
    shown = large.shown()
    assert shown["body"] == body[: len(shown["body"])], "a day drilled down"
    assert shown["count"] == len(body) + 2, "all its shops"
    large.go("#slice=%3F,%3Dshop%2007,%3F&sort=-8")
    body, foot = wanted_rows(sliced(folder, "slice", "?,=shop 07,?"), [0, 2])
    shown = large.shown()
    wanted = sorted(body, key=lambda row: -number_of(row[3]))
    assert shown["body"] == wanted[: len(shown["body"])], "a shop's days and products by cents"
    assert shown["foot"] == foot


def test_large_table(large, finest, tell):
    show = lambda it: [*("[null]" if text == "\\N" else text for text in it[:3]), *map(shown_answer, it[6:])]
    large.go("#slice=%3F,%3F,%3F")
    large.js("window.longest = 0")
    assert large.shown()["count"] == len(finest) + 2, "every row of the finest set"
    for part in (0.25, 0.5, 0.75, 1, 0):
        large.js("const it = document.getElementById('scroller'); it.scrollTop = arguments[0] * it.scrollHeight", part)
        time.sleep(0.4)
        shown = large.shown()
        first = shown["first"]
        assert shown["body"] == [show(it) for it in finest[first : first + len(shown["body"])]], f"rows at {part}"
        assert abs(first / len(finest) - part) < 0.02, f"place at {part}"
    large.js("const it = document.getElementById('scroller'); it.scrollTop = Math.min(3e6, it.scrollHeight / 2)")
    time.sleep(0.4)
    top = large.js("return rowsSeen.top")
    large.js("document.getElementById('scroller').scrollTop += 100")
    time.sleep(0.1)
    assert round(large.js("return rowsSeen.top") - top) == 100, "a small step goes row by row"
    start = time.monotonic()
    large.click("[data-sort='5']")
    took, paused = time.monotonic() - start, longest(large)
    shown = large.shown()
    wanted = sorted(finest, key=lambda it: -int(it[7]))
    assert shown["body"] == list(map(show, wanted[: len(shown["body"])])), "sorted by cents"
    tell(f"{len(finest):,} rows were sorted in {took:.1f} s; the page's longest pause was {paused:.2f} s")
    assert paused < pause_for(took), "the page answers while it sorts"
    large.find("product 07")
    found = [it for it in finest if it[2] == "product 07"]
    assert large.shown()["foot"][0][:3] == [f"{len(found):,} found", f"{len(found):,}", f"{sum(int(it[7]) for it in found):,}"]


def test_large_numbers(large, finest, tell):
    """The first rows, filters and charts of many rows; the page answers meanwhile."""
    cents = sorted((int(it[7]) for it in finest), reverse=True)
    large.go("#slice=%3F,%3F,%3F&sort=-8&answers=7,8&top=10")
    large.js("window.longest = 0")
    shown = large.shown()
    assert [number_of(it[4]) for it in shown["body"]] == cents[:10], "the first ten of many"
    count = sum(int(it[6]) for it in finest) - 10
    assert shown["foot"][0] == [f"rest ({len(finest) - 10:,})", f"{count:,}", f"{sum(cents[10:]):,}"], "the rest of many"
    large.choose("limit", "1")
    large.js("document.getElementById('more').open = true")
    start = time.monotonic()
    large.type("#least", str(cents[500]), "least")
    took = time.monotonic() - start
    assert large.shown()["foot"][1][0] == f"{sum(it >= cents[500] for it in cents)} found", "a bound over many"
    start = time.monotonic()
    large.go("#slice=%3F,%3F,%3F&sort=-8&form=bars&colour=8")
    drawn, paused = time.monotonic() - start, longest(large)
    exact = lambda: large.js("return [...document.querySelectorAll('#chart .mark')].map((it) => it.dataset.exact)")
    assert exact()[-1] == str(sum(cents[50:])), "bars of many, and the rest"
    tell(f"{len(finest):,} rows were filtered by a number in {took:.1f} s and drawn as bars in {drawn:.1f} s; "
         f"the page's longest pause was {paused:.2f} s")
    assert paused < pause_for(took + drawn), "the page answers while it filters and draws"
    large.go("#slice=%3F,%3F,%5CA&form=lines&colour=8")
    marks = exact()
    assert (len(marks), sum(map(int, marks))) == (8 * len({it[0] for it in finest}), sum(cents)), "lines of each day, and the rest of the shops"
    large.go("#slice=%3F,%3F,%5CA&form=lines&colour=8&along=2")
    assert sum(map(int, exact())) == sum(cents), "along the shops, the days are folded"


def test_large_saving(page, cube, tmp_path, tell):
    """Many lines are saved."""
    page.open(cube, "#slice=%3F,%3F,%3F")
    page.click("#more summary")
    start = time.monotonic()
    path = page.save("#save-csv", "large cube-seen.csv", tmp_path)
    page.wait("return document.getElementById('saved').textContent === 'Saved as large cube-seen.csv.'")
    took = time.monotonic() - start
    lines = [it for it in text_at(cube).splitlines() if ",0,0,0," in it]
    found = text_at(path).splitlines()
    tell(f"{len(lines):,} rows were saved in {took:.1f} s")
    assert (found[1:-1] == lines, ",1,1,1," in found[-1]) == (True, True)


def test_large_comparison(large, cube, folder, tell):
    """Two large cubes: one day came."""
    lines = text_at(f"{folder}/large.csv").splitlines(keepends=True)
    last = lines[-1].split(",")[2]
    (folder / "earlier.csv").write_text("".join(it for it in lines if f",{last}," not in it))
    earlier = print_cube(f"{folder}/earlier cube.csv", f"{folder}/large.toml", f"{folder}/earlier.csv")
    large.go("#slice=%3F,%5CA,%5CA")
    start = time.monotonic()
    large.open_earlier(earlier)
    took, paused = time.monotonic() - start, longest(large)
    tell(f"two such cubes were compared in {took:.1f} s; the page's longest pause was {paused:.2f} s")
    assert paused < pause_for(took), "the page answers while it compares"
    large.click("#changes")
    *_, day = (it for it in lines_of(cube) if it[3:6] == ["0", "1", "1"])
    shown = large.shown()
    assert [[row[0], row[-1]] for row in shown["body"]] == [[day[0], f"+{int(day[7]):,}"]], "the day that came"
    assert shown["foot"][-1][-1].split(" ")[-1] == f"+{int(day[7]):,}", "the total's change"


@pytest.mark.asked("screenshots")
def test_large_pictures(large):
    for name, size, address in (("million", (1240, 720), "#slice=%3F,%3F,%3F&sort=-8&means=decimal"),
                                ("days", (860, 780), "#slice=%3F,%3F,%5CA&form=heat&colour=8")):
        large.driver.set_window_size(*size)
        large.go(address)
        large.screenshot(name)
    large.driver.set_window_size(1280, 800)
