"""A page in headless Chromium: what drives it, what a person sees of it, and what the program prints of the same."""
import base64
import contextlib
import csv
import functools
import io
import os
import re
import shlex
import shutil
import subprocess
import tempfile
import time
from fractions import Fraction

import programs
import pytest

try:
    from selenium import webdriver
    from selenium.webdriver.common.keys import Keys
except ImportError:
    webdriver = Keys = None

ROOT = programs.ROOT
SHOP = [f"{ROOT}/examples/shop/{it}.csv" for it in ("market", "street", "online")]
SHOP_SCHEMA = f"{ROOT}/examples/shop/schema.toml"
# the shop's cities and products, as an address says it
TWO = "#slice=%3F,%3F,%5CA"
CONTROLS = {"\n": "↵", "\r": "␍", "\t": "␉"}
AWAIT = 60
# what a person sees of the table, as texts; pills are in brackets
SHOWN = """
const cell = (it) => {
  const [pill, number, part] = [".pill", ".main-number", ".fraction"].map((name) => it.querySelector(name));
  if (pill) return `[${pill.textContent}]`;
  return number ? (part ? part.textContent + " " : "") + number.textContent : it.textContent;
};
const rows = (part) => [...document.querySelectorAll(`#table ${part} tr:not(.space)`)]
  .map((it) => [...it.children].map(cell));
return { body: rows("tbody"), foot: rows("tfoot"),
  count: Number(document.getElementById("table").getAttribute("aria-rowcount")),
  first: Number(document.querySelector("#table tbody tr[data-row]")?.dataset.row) };
"""
SETTLED = """
return document.getElementById("loading").hidden && !document.getElementById("scroller").hasAttribute("aria-busy");
"""
# from now on the longest time for which the page does nothing else, in milliseconds
BEATS = """
clearInterval(window.beats);
window.longest = 0;
let last = performance.now();
window.beats = setInterval(() => {
  const now = performance.now();
  window.longest = Math.max(window.longest, now - last);
  last = now;
}, 10);
"""
# of each mark of a chart: its name, the exact text, its place and series, and what is drawn of it
MARKS = """
return [...document.querySelectorAll("#chart figure")].map((figure) => [...figure.querySelectorAll(".mark")].map((it) => {
  const shape = it.querySelector(".shape"), read = (name) => shape && shape.hasAttribute(name) ? Number(shape.getAttribute(name)) : null;
  return { name: it.getAttribute("aria-label"), exact: it.dataset.exact, place: Number(it.dataset.place), series: it.dataset.series,
    drawn: Number(it.dataset.drawn), x: read("x"), width: read("width"), cx: read("cx"), cy: read("cy"), role: it.getAttribute("role") };
}));
"""
# what of the page stands over its right side, and which numbers of the first column of answers can't be seen
OVER = """
const wide = document.documentElement.clientWidth, inside = (it) => it.closest("#scroller, #chart") !== null;
const over = [...document.querySelectorAll("body *")].filter((it) => !inside(it) && it.checkVisibility()
  && !it.closest(".unseen") && it.getBoundingClientRect().right > wide + 0.5).map((it) => it.id || it.textContent.slice(0, 40));
const chart = document.getElementById("chart");
return [document.documentElement.scrollWidth <= wide && (chart.hidden || chart.scrollWidth <= chart.clientWidth), over];
"""
UNSEEN = """
const numbers = [...document.querySelectorAll("#chart svg text")], frame = document.getElementById("chart").getBoundingClientRect();
if (numbers.length) {
  return [numbers.length, numbers.map((it) => [it.textContent, it.getBoundingClientRect()]).filter(([, it]) =>
    it.left < frame.left || it.right > Math.min(frame.right, innerWidth)).map((it) => it[0])];
}
const box = document.getElementById("scroller").getBoundingClientRect();
const firsts = [...document.querySelectorAll("#table tr[data-row]")].map((it) => it.querySelector(".main-number, td.heat button, td .pill"));
return [firsts.length, firsts.filter((it) => {
  const here = it.getBoundingClientRect(), cell = it.closest("td").getBoundingClientRect();
  return here.right > Math.min(box.right, innerWidth) || here.left < Math.max(box.left, cell.left - 0.5) || here.width < 5;
}).map((it) => it.textContent)];
"""
# the controls and parts that are seen and have no name
NAMELESS = """
const isNamed = (it) => it.ariaLabel || it.getAttribute("aria-labelledby") || it.labels?.length
  || (it.matches("button, summary") && it.textContent.trim()) || (it.matches("table") && it.caption);
return [...document.querySelectorAll("button, select, input, textarea, summary, table, section, progress")]
  .filter((it) => it.checkVisibility() && !isNamed(it)).map((it) => it.outerHTML.slice(0, 80));
"""
# the least contrast of a text (WCAG 2.2, 1.4.3), and what is done with a button
CONTRAST = 4.5
STATES = [[], ["hover"], ["focus", "focus-visible"], ["hover", "active"]]
# how light a colour is, of which the parts are numbers up to 255
LUMINANCE = """
const luminance = (colour) => {
  const [red, green, blue] = colour.map((it) => it / 255 <= 0.04045 ? it / 255 / 12.92 : ((it / 255 + 0.055) / 1.055) ** 2.4);
  return 0.2126 * red + 0.7152 * green + 0.0722 * blue;
};
"""
# of each element with a text of its own, and of each field: its text, and the contrast of what is written with what is painted below
CONTRASTS = LUMINANCE + """
const dot = new OffscreenCanvas(1, 1).getContext("2d", { willReadFrequently: true });
const seen = new Map();
const rgba = (text) => {
  if (!seen.has(text)) {
    dot.clearRect(0, 0, 1, 1);
    dot.fillStyle = text;
    dot.fillRect(0, 0, 1, 1);
    const [red, green, blue, alpha] = dot.getImageData(0, 0, 1, 1).data;
    seen.set(text, [[red, green, blue], alpha / 255]);
  }
  return seen.get(text);
};
const ink = (it, style) => (it.matches("svg text") ? style.fill : style.color);
const mix = (part, one, other) => one.map((it, at) => part * it + (1 - part) * other[at]);
const over = (text, below) => mix(rgba(text)[1], rgba(text)[0], below);
const paint = (chain, at, isText, below) => {
  const style = getComputedStyle(chain[at]), ground = over(style.backgroundColor, below);
  const inside = at + 1 < chain.length ? paint(chain, at + 1, isText, ground) : isText ? over(ink(chain[at], style), ground) : ground;
  return mix(Number(style.opacity), inside, below);
};
const contrast = (it) => {
  const chain = [];
  for (; it; it = it.parentElement) chain.unshift(it);
  const [high, low] = [true, false].map((isText) => luminance(paint(chain, 0, isText, [255, 255, 255]))).sort((a, b) => b - a);
  return (high + 0.05) / (low + 0.05);
};
const isRead = (it) => !it.matches("script, style, option, title, desc, [type=checkbox], [type=file]") && !it.closest("svg defs")
  && (it.matches("select, input") || [...it.childNodes].some((node) => node.nodeType === 3 && node.data.trim()));
return [...document.querySelectorAll("body *")].filter(isRead).map((it) => [it.id || it.textContent.slice(0, 40), contrast(it)]);
"""
# drops files, each a name and a text in base64
DROP = """
const data = new DataTransfer();
for (const [name, text] of arguments[0]) {
  data.items.add(new File([Uint8Array.from(atob(text), (it) => it.charCodeAt(0))], name));
}
for (const kind of ["dragover", "drop"]) {
  document.body.dispatchEvent(new DragEvent(kind, { dataTransfer: data, bubbles: true, cancelable: true }));
}
"""


@contextlib.contextmanager
def chromium(**logs):
    """A headless Chromium that keeps logs; where there is none, what asks for it is skipped."""
    driver, browser = shutil.which("chromedriver"), shutil.which("chromium")
    if not webdriver:
        pytest.skip("Debian's package python3-selenium isn't installed")
    if not driver or not browser:
        pytest.skip("Debian's package chromium-driver isn't installed")
    options = webdriver.ChromeOptions()
    options.binary_location = browser
    if logs:
        options.set_capability("goog:loggingPrefs", logs)
    for word in ("--headless=new", "--window-size=1280,800", "--disable-dev-shm-usage", "--hide-scrollbars=false"):
        options.add_argument(word)
    if os.geteuid() == 0:
        options.add_argument("--no-sandbox")
    with tempfile.TemporaryDirectory(prefix="datacube-browser-", ignore_cleanup_errors=True) as files:
        service = webdriver.chrome.service.Service(driver, env={**os.environ, "TMPDIR": files})
        try:
            made = webdriver.Chrome(service=service, options=options)
        except webdriver.remote.webdriver.WebDriverException as why:
            pytest.skip(f"the browser can't be driven here: {why.msg}")
        made.set_script_timeout(600)
        try:
            yield made
        finally:
            made.quit()


class Page:
    """A page in a browser."""

    ADDRESS = f"file://{ROOT}/explorer/index.html"

    def __init__(self, driver):
        self.driver = driver

    def js(self, text, *given):
        return self.driver.execute_script(text, *given)

    def later(self, text, *given):
        """What a script in the page hands to its last argument."""
        return self.driver.execute_async_script(text, *given)

    def at(self, name):
        return self.driver.find_element("css selector", name)

    def text(self, name):
        return self.at(name).get_property("textContent")

    def wait(self, text, *given):
        """Waits until an expression is so in the page."""
        end = time.monotonic() + AWAIT
        while not self.js(text, *given):
            if time.monotonic() > end:
                raise TimeoutError(f"not so in {AWAIT} seconds: {' '.join(text.split())}")
            time.sleep(0.02)

    def settle(self, seconds=0.05):
        """Waits until the page shows what it was asked for so long ago."""
        time.sleep(seconds)
        self.wait(SETTLED)

    def fresh(self, address=""):
        """Opens the page anew."""
        self.driver.get("about:blank")
        self.driver.get(self.ADDRESS + address)

    def open(self, path, address=None):
        """Opens a file by the page's chooser."""
        if address is not None:
            self.fresh(address)
        self.at("#chosen").send_keys(path)
        self.wait("return !document.getElementById('explorer').hidden")
        self.titled(os.path.basename(path))

    def titled(self, start):
        """Waits until the page shows what has a title that begins so."""
        self.wait("return document.title.startsWith(arguments[0])", start)
        self.wait(SETTLED)

    def drop(self, files):
        """Drops files, a dictionary of names and bytes."""
        self.js(DROP, [[name, base64.b64encode(data).decode()] for name, data in files.items()])

    def open_earlier(self, path):
        """Opens a file beside the cube that is shown."""
        self.at("#earlier").send_keys(path)
        self.wait("return document.title.includes(' and ' + arguments[0])", os.path.basename(path))
        self.wait(SETTLED)

    def told(self, start):
        """Waits for a sentence on what is wrong that begins so, and gives all of it."""
        self.wait("return document.getElementById('problem').textContent.startsWith(arguments[0])", start)
        return self.text("#problem")

    def go(self, address):
        """Goes to a view by its address."""
        self.js("location.hash = arguments[0]", address)
        self.wait("return location.hash === arguments[0]", address)
        self.settle()

    def click(self, name):
        self.at(name).click()
        self.settle()

    def value(self, text):
        """Clicks a value of the table."""
        found = [it for it in self.driver.find_elements("css selector", "#table tbody button.value") if it.text == text]
        found[0].click()
        self.settle()

    def choose(self, name, value):
        """Chooses of a list."""
        self.js("const it = document.getElementById(arguments[0]); it.value = arguments[1];"
                "it.dispatchEvent(new Event('change'))", name, value)
        self.wait(SETTLED)

    def find(self, text):
        """Types into the filter."""
        self.type("#find", text, "find")

    def type(self, name, text, kept):
        """Types into a field, and waits until the address has it by a name."""
        self.at(name).send_keys(Keys.CONTROL + "a" + Keys.NULL + Keys.BACKSPACE + text)
        self.wait("return new URLSearchParams(location.hash.slice(1)).get(arguments[0]) === arguments[1]", kept, text or None)
        self.wait(SETTLED)

    def press(self, *keys):
        """Presses keys, one after the other, where the focus is."""
        for it in keys:
            self.driver.switch_to.active_element.send_keys(it)

    def tab_to(self, condition, key=None):
        """Presses Tab, or another key, until an expression holds of the element with the focus; whether it came to that."""
        for _ in range(80):
            self.press(key or Keys.TAB)
            if self.js(f"const it = document.activeElement; return Boolean({condition})"):
                return True
        return False

    def focus(self, condition):
        """Whether an expression holds of the element with the focus, or what it is."""
        return self.js(f"const it = document.activeElement; return {condition}")

    def shown(self):
        return self.js(SHOWN)

    def marks(self):
        """The marks of each chart."""
        return self.js(MARKS)

    def command(self):
        """The words of the command that the page shows for its view."""
        return shlex.split(self.text("#command"))

    def colours(self, look):
        """Asks for light or dark colours, and for no motion."""
        asked = {"prefers-color-scheme": look, "prefers-reduced-motion": "reduce"}
        features = [{"name": name, "value": value} for name, value in asked.items()]
        self.driver.execute_cdp_cmd("Emulation.setEmulatedMedia", {"features": features})

    def force(self, state):
        """Has each control, and each row of the table, look as in a state: with the pointer on it, or the focus."""
        ask = self.driver.execute_cdp_cmd
        for name in ("DOM.enable", "CSS.enable"):
            ask(name, {})
        root = ask("DOM.getDocument", {"depth": 0})["root"]["nodeId"]
        for node in ask("DOM.querySelectorAll", {"nodeId": root, "selector": "button, tr, select, input, summary, label, .mark"})["nodeIds"]:
            ask("CSS.forcePseudoState", {"nodeId": node, "forcedPseudoClasses": state})

    def size(self, width, height=900):
        """Gives the page a size."""
        given = {"width": width, "height": height, "deviceScaleFactor": 1, "mobile": False}
        self.driver.execute_cdp_cmd("Emulation.setDeviceMetricsOverride", given)
        self.settle(0.1)

    def plain(self):
        """Gives the page the size of its window, and light colours."""
        self.driver.execute_cdp_cmd("Emulation.clearDeviceMetricsOverride", {})
        self.colours("light")

    def asked(self):
        """What the page asked for that doesn't stand in it."""
        return self.js("return performance.getEntriesByType('resource').map((it) => it.name).filter((it) => !/^(data|blob):/.test(it))")

    def save(self, button, name, folder):
        """The path of the file with a name in a folder that a button saves."""
        self.driver.execute_cdp_cmd("Browser.setDownloadBehavior", {"behavior": "allow", "downloadPath": str(folder)})
        self.at(button).click()
        path, end = f"{folder}/{name}", time.monotonic() + AWAIT
        while not os.path.exists(path) and time.monotonic() < end:
            time.sleep(0.05)
        return path

    def screenshot(self, name, dark=False):
        """Takes a picture of docs/explorer/."""
        self.js("document.activeElement.blur(); const more = document.getElementById('more'); if (more) more.open = false")
        kind = {"features": [{"name": "prefers-color-scheme", "value": "dark" if dark else "light"}]}
        self.driver.execute_cdp_cmd("Emulation.setEmulatedMedia", kind)
        self.settle(0.4)
        self.driver.save_screenshot(f"{ROOT}/docs/explorer/{name}.png")


def see_contrast(page, least=0):
    """Sees that each text of the page, also of what is hidden now, can be read, whatever is done with its control; there are so
    many at least."""
    for state in STATES:
        page.force(state)
        found = page.js(CONTRASTS)
        assert [it for it in found if it[1] < CONTRAST] == [], f"each text can be read, {' and '.join(state) or 'at rest'}"
        assert len(found) >= least, "texts were looked at"
    page.force([])


def pause_for(took):
    """How long the page may pause: a second, or more where other work holds the machine up."""
    return max(1, took / 5)


# What is wanted, made of what the program prints.


@functools.cache
def datacube():
    """The program."""
    return os.environ.get("DATACUBE") or programs.datacube()


def run(*words):
    """What the program prints."""
    ran = subprocess.run([datacube(), *words], stdout=subprocess.PIPE, check=False)
    if ran.returncode not in (0, 4):
        raise ValueError(f"datacube ended with status {ran.returncode}")
    return ran.stdout


def print_cube(path, *words):
    """Writes the printed cube of a schema and feeds to a file, and gives its path."""
    programs.write(path, run("print", *words))
    return str(path)


def printed(*words):
    """The records that the program prints."""
    return list(csv.reader(io.StringIO(run(*words).decode(), newline="")))


def lines_of(path):
    """The records of a file."""
    with open(path, encoding="utf-8", newline="") as file:
        return list(csv.reader(file))


def shop_sliced(pattern):
    """What the program prints of the shop for a pattern."""
    return printed("slice", SHOP_SCHEMA, pattern, *SHOP)


def shown_text(text):
    return "".join(CONTROLS.get(it, it) for it in text) or "[empty text]"


def decimal(text):
    """A fraction to four places, as the page shows it."""
    value, places = Fraction(text), 4
    while value and abs(value) < Fraction(1000, 10**places):
        places += 1
    scaled = abs(value) * 10**places
    whole = (2 * scaled.numerator + scaled.denominator) // (2 * scaled.denominator)
    front, back = divmod(whole, 10**places)
    back = str(back).rjust(places, "0").rstrip("0")
    sign = ("" if scaled.denominator == 1 else "≈ ") + ("-" if value < 0 else "")
    return f"{sign}{front:,}" + (f".{back}" if back else "")


# (so many letters of values stand in a cell)
MOST_SHOWN = 60


def shown_answer(text):
    if text == "\\N":
        return "[null]"
    if text == "":
        return "[no value]"
    if "*" in text:
        return text if len(text) <= MOST_SHOWN else text[:MOST_SHOWN] + "…"
    if "/" in text:
        return decimal(text)
    sign, whole, point, decimals = re.fullmatch(r"(-?)(\d+)(\.?)(\d*)", text).groups()
    return f"{sign}{int(whole):,}{point}{decimals}"


def number_of(shown):
    """The number that the page shows, without marks between thousands."""
    return int(shown.replace(",", ""))


def wanted_rows(records, open_dimensions):
    """The rows of a slice, as they are to be shown: those of the table, and the total."""
    header, *lines = records
    count = next(at for at, name in enumerate(header) if name == f"grouping({header[0]})")
    body, foot = [], []
    for line in lines:
        flags = [line[count + at] for at in open_dimensions]
        shown = ["[ALL]" if line[count + at] == "1" else "[null]" if line[at] == "\\N" else shown_text(line[at])
                 for at in open_dimensions] + [shown_answer(it) for it in line[2 * count:]]
        if "1" not in flags:
            body.append(shown)
        elif "0" not in flags:
            foot.append(shown)
    return body, foot


def see_view(page, name, records, open_dimensions):
    """Compares the table, small enough to be there whole, with what the program printed."""
    body, foot = wanted_rows(records, open_dimensions)
    shown = page.shown()
    assert shown["body"] == body, name
    assert shown["foot"] == foot, f"{name}: the total"
    assert shown["count"] == len(body) + len(foot) + 1, name
