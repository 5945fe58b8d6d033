"""The explorer with a cube in it, in Chromium where it is there."""
import json
import os
import re
import shutil
import stat
import tempfile
import time
import unittest
from pathlib import Path
from unittest import mock

import beside
import jackraisin
from beside import ROWS, browser

EVIL = "</script><script>document.title = 'evil'</script><!--<script>"
SECONDS = 60


class Show(unittest.TestCase):
    def setUp(self):
        self.folder = tempfile.mkdtemp(prefix="t-")
        self.addCleanup(shutil.rmtree, self.folder)
        self.cube = jackraisin.Cube(f'city,grouping(city),count(*)\n"{EVIL}",0,3\nYork,0,4\n\\N,1,7\n')

    def test_the_page(self):
        """It is the explorer, and a script with the very text of the cube."""
        with mock.patch("webbrowser.open") as opened:
            path = self.cube.show(f"{self.folder}/a page.html")
        opened.assert_called_once_with(Path(path).as_uri())
        with open(path, encoding="utf-8") as file, open(f"{beside.ROOT}/explorer/index.html", encoding="utf-8") as page:
            shown, before = file.read(), page.read()
        added = re.fullmatch(re.escape(before.rsplit("</body>", 1)[0]) + r"<script>\n(.*?)</script>\n</body>\n</html>\n", shown, re.DOTALL)
        self.assertEqual(json.loads(re.match(r"open\(new File\(\[(\".*?[^\\]\")\], ", added[1])[1]), self.cube.text)

    def test_a_file_of_its_own(self):
        with mock.patch("webbrowser.open") as opened, mock.patch("tempfile.tempdir", self.folder):
            path = self.cube.show(browser=False)
        opened.assert_not_called()
        self.assertEqual((os.path.dirname(path), stat.S_IMODE(os.stat(path).st_mode)), (self.folder, 0o600))

    @beside.in_a_browser
    def test_in_a_browser(self):
        path = self.cube.show(f"{self.folder}/page.html", browser=False)
        with browser(self) as driver:
            driver.get(Path(path).as_uri())
            end = time.monotonic() + SECONDS
            while ["York", "4"] not in driver.execute_script(ROWS) and time.monotonic() < end:
                time.sleep(0.1)
            self.assertIn([EVIL, "3"], driver.execute_script(ROWS))
            self.assertIn(["York", "4"], driver.execute_script(ROWS))
            driver.find_element("id", "as-bars").click()
            while not (marks := driver.find_elements("css selector", "#chart .mark")) and time.monotonic() < end:
                time.sleep(0.1)
            self.assertEqual([it.get_attribute("aria-label") for it in marks], [f"{EVIL}: 3", "York: 4"])
            self.assertNotEqual(driver.title, "evil")
            self.assertEqual([it for it in driver.get_log("browser") if it["level"] == "SEVERE"], [])


if __name__ == "__main__":
    unittest.main()
