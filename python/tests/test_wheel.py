"""The wheel: its name and what it says of itself, the program in it, and its command."""
import email
import os
import re
import shutil
import stat
import subprocess
import sys
import tempfile
import unittest
import zipfile

import beside
import jackraisin
from programs import read

DEBIANS = "/usr/bin/python3"
RELEASED = f"{beside.ROOT}/release/x86_64-linux/datacube"
NEEDS = ["python", "release", "explorer"]
NO_INDEX = ["--no-index", "--no-deps", "--disable-pip-version-check", "--no-cache-dir", "-q"]


def why_not():
    if os.uname().machine != "x86_64" or sys.platform != "linux":
        return "there is a released program for Linux on x86-64 alone"
    call = "import sys; from importlib.util import find_spec; sys.exit(not all(map(find_spec, ('venv', 'setuptools', 'wheel', 'pip'))))"
    if subprocess.run([DEBIANS, "-c", call], stderr=subprocess.DEVNULL).returncode:
        return "Debian's python3-venv, python3-pip, python3-setuptools or python3-wheel isn't installed"
    return None


class Version(unittest.TestCase):
    def test_it_is_the_programs(self):
        said = subprocess.run([jackraisin.program(), "--version"], stdout=subprocess.PIPE, text=True, check=True).stdout
        self.assertEqual(said, f"datacube {jackraisin.__version__}\n")

    def test_the_old_name_is_nobodys(self):
        found = [it for it in os.listdir(f"{beside.ROOT}/python/src") if not it.endswith(".egg-info")]
        self.assertEqual((found, jackraisin.__name__), (["jackraisin"], "jackraisin"))


class OwnCommand(unittest.TestCase):
    """The command of an installation isn't taken for the program, which it would run in turn without end."""

    def setUp(self):
        self.folder = tempfile.mkdtemp(prefix="datacube-test-")
        self.addCleanup(shutil.rmtree, self.folder)
        script = f"#!{sys.executable}\nimport sys\nsys.path.insert(0, {beside.ROOT!r} + '/python/src')\nfrom jackraisin._program import command\ncommand()\n"
        self.command = self.put("own", script)
        self.other = self.put("other", "#!/bin/sh\nprintf 'the other:'; printf ' <%s>' \"$@\"; echo; exit 4\n")

    def put(self, name, text):
        os.mkdir(f"{self.folder}/{name}")
        path = f"{self.folder}/{name}/datacube"
        with open(path, "w", encoding="utf-8") as out:
            out.write(text)
        os.chmod(path, 0o755)
        return path

    def said(self, *words, **env):
        env = {"PYTHONDONTWRITEBYTECODE": "1", "PATH": f"{self.folder}/own", **env}
        ran = subprocess.run([self.command, *words], env=env, stdout=subprocess.PIPE, stderr=subprocess.PIPE, timeout=60)
        return ran.returncode, ran.stdout.decode("utf-8", "surrogateescape"), ran.stderr.decode()

    def test_it_runs_the_next_one_with_the_same_words(self):
        path = f"{self.folder}/own:{self.folder}/other"
        self.assertEqual(self.said("a b", b"\xff", "", PATH=path), (4, "the other: <a b> <\udcff> <>\n", ""))
        self.assertEqual(self.said("x", PATH=path, DATACUBE="datacube"), (4, "the other: <x>\n", ""))
        self.assertEqual(self.said("x", DATACUBE=self.other), (4, "the other: <x>\n", ""))

    def test_where_there_is_none_it_says_so(self):
        for env in ({}, {"DATACUBE": self.command}, {"DATACUBE": "/nowhere"}):
            status, out, err = self.said("--version", **env)
            self.assertEqual((status, out, err.count("\n")), (1, "", 1))
            self.assertTrue(err.startswith("datacube: no program: "), err)


WHY = why_not()


@unittest.skipIf(WHY, f"wheels: {WHY}")
class Wheels(unittest.TestCase):
    @classmethod
    def setUpClass(cls):
        cls.folder = tempfile.mkdtemp(prefix="datacube-test-")
        cls.addClassCleanup(shutil.rmtree, cls.folder)
        cls.wheel = cls.built("whole", NEEDS)

    @classmethod
    def built(cls, name, parts):
        """The one wheel that is built of parts of the repository."""
        for it in parts:
            shutil.copytree(f"{beside.ROOT}/{it}", f"{cls.folder}/{name}/{it}", ignore=shutil.ignore_patterns("build", "*.egg-info", "__pycache__", ".mypy_cache"))
        words = [DEBIANS, "-m", "pip", "wheel", *NO_INDEX, "--no-build-isolation", "-w", f"{cls.folder}/{name}", f"{cls.folder}/{name}/python"]
        ran = subprocess.run(words, stdout=subprocess.PIPE, stderr=subprocess.STDOUT, text=True, env={**os.environ, "HOME": cls.folder})
        wheels = [it for it in os.listdir(f"{cls.folder}/{name}") if it.endswith(".whl")]
        if ran.returncode or len(wheels) != 1:
            raise AssertionError(ran.stdout)
        return f"{cls.folder}/{name}/{wheels[0]}"

    def parts(self, wheel):
        with zipfile.ZipFile(wheel) as files:
            return {it.filename: (files.read(it), it.external_attr >> 16) for it in files.infolist()}

    def test_its_name_and_what_it_says_of_itself(self):
        version = jackraisin.__version__
        self.assertEqual(os.path.basename(self.wheel), f"jackraisin-{version}-py3-none-manylinux_2_34_x86_64.whl")
        parts = self.parts(self.wheel)
        told = email.message_from_bytes(parts[f"jackraisin-{version}.dist-info/METADATA"][0])
        self.assertEqual((told["Name"], told["Version"], told["Requires-Python"]), ("jackraisin", version, ">=3.9"))
        self.assertIn("data cube", told["Summary"])
        self.assertIn("Typing :: Typed", told.get_all("Classifier"))
        self.assertFalse([it for it in told.get_all("Classifier") if it.startswith("License")], "no licence was chosen")
        self.assertEqual((told["License"], told["Home-page"], told.get_all("Project-URL")), (None, None, None))
        self.assertEqual(told["Description-Content-Type"], "text/markdown")
        self.assertEqual(told.get_payload().strip(), read(f"{beside.ROOT}/python/README.md").decode().strip())
        self.assertEqual([it.split(";")[0] for it in told.get_all("Requires-Dist")], ["pyarrow ", "pandas ", "polars ", "psycopg2 ", "aiohttp ", "prometheus-client ", "tomli "])
        self.assertFalse([it for it in parts if it.startswith("datacube")], "a part has the old name")

    def test_its_parts(self):
        parts = self.parts(self.wheel)
        sources = [os.path.relpath(f"{folder}/{it}", f"{beside.ROOT}/python/src") for folder, _, files in os.walk(f"{beside.ROOT}/python/src/jackraisin") for it in files]
        wanted = {it for it in sources if it.endswith((".py", ".js", "py.typed"))}
        self.assertEqual(wanted - set(parts), set())
        self.assertEqual(parts["jackraisin/postgres/explorer.html"][0], read(f"{beside.ROOT}/explorer/index.html"))

    def test_the_program_in_it(self):
        program, mode = self.parts(self.wheel)["jackraisin/bin/datacube"]
        self.assertEqual((program, stat.S_IMODE(mode)), (read(RELEASED), 0o755))
        asked = {tuple(map(int, it.split(b"."))) for it in re.findall(rb"GLIBC_([0-9.]+)\0", program)}
        self.assertEqual(max(asked)[:2], (2, 34), "the tag says which C library is wanted")

    def test_installed_it_has_its_command(self):
        subprocess.run([DEBIANS, "-m", "venv", "--without-pip", f"{self.folder}/v"], check=True)
        words = [DEBIANS, "-m", "pip", "--python", f"{self.folder}/v/bin/python", "install", *NO_INDEX, "--no-compile", self.wheel]
        subprocess.run(words, check=True, env={**os.environ, "HOME": self.folder})
        env = {"PATH": "/nowhere"}
        call = "import jackraisin as it; print(it.__version__, it.program() == it._program.BESIDE)"
        ran = subprocess.run([f"{self.folder}/v/bin/python", "-c", call], env=env, stdout=subprocess.PIPE, text=True)
        self.assertEqual(ran.stdout, f"{jackraisin.__version__} True\n")
        feeds = [f"{beside.SHOP}/{it}" for it in ("schema.toml", "market.csv", "street.csv", "online.csv")]
        ran = subprocess.run([f"{self.folder}/v/bin/datacube", "print", *feeds], env=env, stdout=subprocess.PIPE, stderr=subprocess.PIPE)
        self.assertEqual((ran.returncode, ran.stdout, ran.stderr), (4, read(f"{beside.SHOP}/cube.csv"), b""))

    def test_of_sources_without_a_program(self):
        wheel = self.built("alone", ["python"])
        self.assertEqual(os.path.basename(wheel), f"jackraisin-{jackraisin.__version__}-py3-none-any.whl")
        self.assertNotIn("jackraisin/bin/datacube", self.parts(wheel))


if __name__ == "__main__":
    unittest.main()
