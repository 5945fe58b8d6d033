"""The pictures of docs/explorer/ that show the explorer; those of a million lines are taken by test_explorer_large.py."""
import random

import pytest
from browser import print_cube

pytestmark = pytest.mark.asked("screenshots")
# of the shop: an address, and whether it is in dark colours
PICTURES = {"table": ("#slice=%3F,%3F,%5CA&sort=-9", False), "dark": ("#slice=%3DLeeds,%3F,%5CA", True),
            "heat": ("#slice=%3F,%3F,%5CA&form=heat&colour=9", False)}
# of a year of months, cities and products: an address, whether it is in dark colours, and how wide and high the page is
CHARTS = {"bars": ("#slice=%5CA,%3F,%3F&form=bars&answers=7,8&sort=-8&top=9", False, (1360, 720)),
          "lines": ("#slice=%3F,%5CA,%3F&form=lines&colour=8", False, (1360, 720)),
          "stacked": ("#slice=%3F,%3F,%5CA&form=stacked&colour=8&share=total", True, (1360, 820)),
          "narrow": ("#slice=%5CA,%5CA,%3F&form=bars&colour=8", False, (420, 800)),
          "narrow-dark": ("#slice=%5CA,%3F,%5CA&answers=8,9&sort=-8", True, (420, 800))}


def make_year(folder):
    """The printed cubes of a year of sales, and of its first eleven months."""
    pick, cities, products = random.Random(7), ["Bath", "Hull", "Leeds", "York"], ["cocoa", "coffee", "juice", "tea"]
    (folder / "year.toml").write_text('dimensions = ["month", "city", "product"]\nmeasures = ["price"]\ndecimals = { price = 2 }\n'
                                      'aggregates = ["count(*)", "sum(price)", "avg(price)"]\n')
    for name, months in (("before", 11), ("after", 12)):
        pick.seed(7)
        with open(f"{folder}/{name}-feed.csv", "w", encoding="utf-8") as file:
            file.write("op,id,month,city,product,price\n")
            for at in range(months * 16):
                month, cell = divmod(at, 16)
                city, product = divmod(cell, 4)
                warm = abs(month - 6) / 6
                for sale in range(int((6 + 5 * city) * (1 + [1.5 * warm, 0.6, 2 * (1 - warm), warm][product]))):
                    cents = 150 + 60 * product + pick.randrange(200)
                    file.write(f"I,{at}-{sale},2025-{month + 1:02d},{cities[city]},{products[product]},{cents // 100}.{cents % 100:02d}\n")
        print_cube(f"{folder}/{name}.csv", f"{folder}/year.toml", f"{folder}/{name}-feed.csv")
    return f"{folder}/after.csv", f"{folder}/before.csv"


def test_shop_pictures(page, shop):
    page.driver.set_window_size(1360, 720)
    page.fresh()
    page.screenshot("start")
    for name, (address, dark) in PICTURES.items():
        page.open(shop, address)
        page.screenshot(name, dark)
    page.driver.set_window_size(1280, 800)


def test_chart_pictures(page, tmp_path):
    """Charts, wide and narrow, and what changed."""
    after, before = make_year(tmp_path)
    for name, (address, dark, size) in CHARTS.items():
        page.open(after, address)
        page.size(*size)
        page.screenshot(name, dark)
    page.open(after, "#slice=%3F,%5CA,%3F")
    page.size(1360, 720)
    page.open_earlier(before)
    page.go("#slice=%5CA,%3F,%3F&compare=1&answers=10,11,12&sort=-12")
    page.screenshot("changes")
