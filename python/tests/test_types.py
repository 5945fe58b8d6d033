"""The types of the package, which mypy looks at."""
import os
import shutil
import subprocess
import unittest

import beside


class Types(unittest.TestCase):
    @unittest.skipUnless(shutil.which("mypy"), "mypy isn't installed")
    def test_the_package(self):
        ran = subprocess.run(["mypy", "--cache-dir", os.devnull], cwd=f"{beside.ROOT}/python", stdout=subprocess.PIPE, stderr=subprocess.STDOUT, text=True)
        self.assertEqual(ran.returncode, 0, ran.stdout)


if __name__ == "__main__":
    unittest.main()
