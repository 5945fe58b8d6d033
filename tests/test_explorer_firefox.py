"""The explorer in Firefox, where it is installed: spoken to over its own protocol (Marionette), which needs no other program."""
import json
import os
import shutil
import socket
import subprocess
import time

import programs
import pytest
from browser import AWAIT, SHOP, SHOP_SCHEMA, TWO, Page, print_cube, see_view, shop_sliced

pytestmark = pytest.mark.skipif(not shutil.which("firefox-esr"), reason="Firefox isn't installed")


class Firefox:
    """A headless Firefox with a profile of its own."""

    PREFERENCES = {"marionette.port": 0, "datareporting.policy.dataSubmissionEnabled": "false",
                   "app.update.auto": "false", "network.captive-portal-service.enabled": "false",
                   "network.connectivity-service.enabled": "false"}

    def __init__(self, folder):
        profile = f"{folder}/firefox"
        os.mkdir(profile)
        programs.write(f"{profile}/user.js", "".join(f'user_pref("{name}", {value});\n' for name, value in self.PREFERENCES.items()))
        words = ["firefox-esr", "--headless", "--marionette", "--no-remote", "--profile", profile]
        quiet = {"stdout": subprocess.DEVNULL, "stderr": subprocess.DEVNULL, "env": dict(os.environ, HOME=folder)}
        self.process = subprocess.Popen(words, **quiet)
        end, port = time.monotonic() + AWAIT, f"{profile}/MarionetteActivePort"
        while not (os.path.exists(port) and os.path.getsize(port)) and time.monotonic() < end:
            time.sleep(0.1)
        self.link = socket.create_connection(("127.0.0.1", int(programs.read(port))), AWAIT)
        self.stream = self.link.makefile("rwb")
        self.read()
        self.ask("WebDriver:NewSession", {})

    def read(self):
        length = b""
        while (byte := self.stream.read(1)) != b":":
            length += byte
        return json.loads(self.stream.read(int(length)))

    def ask(self, name, given):
        text = json.dumps([0, 1, name, given]).encode()
        self.stream.write(b"%d:%s" % (len(text), text))
        self.stream.flush()
        _, _, fault, found = self.read()
        if fault:
            raise ValueError(fault["message"])
        return found

    def get(self, address):
        self.ask("WebDriver:Navigate", {"url": address})

    def execute_script(self, text, *given):
        return self.ask("WebDriver:ExecuteScript", {"script": text, "args": list(given), "sandbox": None})["value"]

    def find_element(self, _, name):
        return Found(self, self.ask("WebDriver:FindElement", {"using": "css selector", "value": name})["value"])

    def quit(self):
        self.process.terminate()
        self.process.wait(10)


class Found:
    """An element in Firefox."""

    def __init__(self, firefox, reference):
        self.firefox, self.id = firefox, next(iter(reference.values()))

    def send_keys(self, text):
        self.firefox.ask("WebDriver:ElementSendKeys", {"id": self.id, "text": text})

    def click(self):
        self.firefox.ask("WebDriver:ElementClick", {"id": self.id})

    def get_property(self, name):
        return self.firefox.ask("WebDriver:GetElementProperty", {"id": self.id, "name": name})["value"]


@pytest.fixture(scope="module")
def page(tmp_path_factory):
    driver = Firefox(str(tmp_path_factory.mktemp("home")))
    yield Page(driver)
    driver.quit()


def test_firefox_table(page, shop):
    page.open(shop, "#slice=%3F,%5CA,%5CA")
    see_view(page, "each city", shop_sliced("?,\\A,\\A"), [0])
    page.click("#table tbody button.value")
    see_view(page, "Leeds drilled down", shop_sliced("=Leeds,?,\\A"), [1])
    page.go(f"{TWO}&form=heat&colour=9")
    assert page.shown()["foot"] == [["[ALL]", "1,800", "2,250", "400", "4,450"]], "the heat map"


@pytest.mark.parametrize("form", ["bars", "lines", "stacked"])
def test_firefox_chart(page, shop, form):
    page.open(shop, f"{TWO}&form={form}&colour=9")
    assert sorted(int(it["exact"]) for it in page.marks()[0] if it["exact"]) == [350, 400, 450, 700, 1200, 1350]
    page.js("window.seen = null; pngOf(pictureOf()).then((blob) => (window.seen = blob.size))")
    page.wait("return window.seen !== null")
    assert page.js("return window.seen") > 5000, "a picture"


def test_firefox_comparison(page, shop, tmp_path):
    page.open(shop, "")
    page.open_earlier(print_cube(f"{tmp_path}/earlier.csv", SHOP_SCHEMA, *SHOP[1:]))
    page.go("#slice=%3F,%5CA,%5CA&compare=1&answers=15")
    assert [it[-1].split(" ")[-1] for it in page.shown()["body"]] == ["+2,450", "0", "0"]
