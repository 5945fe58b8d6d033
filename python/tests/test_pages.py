"""The examples of docs/PYTHON.md, and the first minutes of docs/PYTHON.md and docs/POSTGRES.md, word for word, as a new user of
this machine would have them.

The first minutes run where DATACUBE_LONG=1 is in the environment: an installation takes its time."""
import importlib.util
import os
import shutil
import socket
import subprocess
import sys
import tempfile
import unittest

import beside
import pages
import private_server

NEEDS = ["python", "release", "explorer", "examples"]
# (a Python that has nothing stands before Debian's, as one of a user's own may)
OWN, PATH = "own", "/usr/bin:/bin"
NOBODY = ["setpriv", "--reuid", "65534", "--regid", "65534", "--clear-groups"] if os.geteuid() == 0 else []


def blocks(page, part=None):
    """The kinds and texts of a page's blocks, or of a part's, up to the next part."""
    with open(f"{beside.ROOT}/docs/{page}.md", encoding="utf-8") as file:
        text = file.read()
    if part:
        text = text.partition(f"\n## {part}\n")[2].partition("\n## ")[0]
    return [(it.kind, it.text) for it in pages.blocks_of(text)]


def why_not():
    if not private_server.LONG:
        return "they are of the long form"
    if not os.path.exists("/usr/bin/python3") or not shutil.which("curl", path=PATH):
        return "Debian's python3 or curl isn't installed"
    lacks = subprocess.run(["/usr/bin/python3", "-c", "import venv, ensurepip, setuptools, wheel, psycopg2"], stderr=subprocess.DEVNULL).returncode
    return "Debian's python3-venv, python3-setuptools, python3-wheel or python3-psycopg2 isn't installed" if lacks else private_server.missing()


class Examples(unittest.TestCase):
    """Each example of docs/PYTHON.md, one after the other in one Python, and what it says below."""

    @unittest.skipIf(sys.version_info < (3, 11) or not importlib.util.find_spec("pandas"), "the examples want Python 3.11 and pandas")
    def test_python(self):
        found = blocks("PYTHON")
        pairs = list(zip(found, [*found[1:], ("end", "")]))
        code = "".join(text + "print('-- end')\n" * (following == "") for (kind, text), (following, _) in pairs if kind == "python")
        env = {**os.environ, "PYTHONPATH": f"{beside.ROOT}/python/src"}
        how = {"cwd": beside.ROOT, "env": env, "stdout": subprocess.PIPE, "stderr": subprocess.STDOUT, "text": True}
        # (refused lines are warned of, on standard error, which the page says)
        ran = subprocess.run([sys.executable, "-B", "-W", "ignore::UserWarning", "-"], input=code, **how)
        said = pages.bare(ran.stdout).split("-- end\n")
        wanted = [text for (kind, _), (following, text) in pairs if kind == "python" and following == ""]
        self.assertGreater(len(wanted), 5)
        self.assertEqual(said, [*wanted, ""])


@unittest.skipIf(why_not(), f"the first minutes of the pages: {why_not()}")
class Pages(unittest.TestCase):
    def setUp(self):
        """A folder of a new user, with what the pages take from the repository."""
        self.folder = tempfile.mkdtemp(prefix="datacube-user-")
        self.addCleanup(shutil.rmtree, self.folder)
        for it in NEEDS:
            shutil.copytree(f"{beside.ROOT}/{it}", f"{self.folder}/{it}", ignore=shutil.ignore_patterns("build", "*.egg-info", "__pycache__", ".mypy_cache"))
        os.mkdir(f"{self.folder}/{OWN}")
        for it in ("python3", "python", "pip"):
            with open(f"{self.folder}/{OWN}/{it}", "w", encoding="utf-8") as out:
                out.write("#!/bin/sh\necho this is another Python >&2\nexit 1\n")
            os.chmod(f"{self.folder}/{OWN}/{it}", 0o755)
        if NOBODY:
            subprocess.run(["chown", "-R", "65534:65534", self.folder], check=True)

    def said(self, script):
        """What a script of bash says, without spaces at the ends of lines."""
        env = {"HOME": self.folder, "PATH": f"{self.folder}/{OWN}:{PATH}"}
        ran = subprocess.run([*NOBODY, "bash", "-e"], input=script, cwd=self.folder, env=env, stdout=subprocess.PIPE, stderr=subprocess.STDOUT, text=True)
        return pages.bare(ran.stdout)

    def test_python(self):
        (shell, install), (python, example), (_, wanted) = blocks("PYTHON", "Five minutes from nothing")[:3]
        self.assertEqual((shell, python), ("sh", "python"))
        self.assertTrue(self.said(f"{install}v/bin/python <<'EOF'\n{example}EOF\n").endswith(wanted))

    def test_postgres(self):
        """The follower runs beside the commands that come after it, until its pages were looked at."""
        with socket.socket() as it:
            it.bind(("127.0.0.1", 0))
            port = str(it.getsockname()[1])
        script, wanted = "", []
        for kind, text in blocks("POSTGRES", "Five minutes from nothing"):
            text = text.replace("8000", port)
            if not kind:
                wanted.append(text)
            elif kind == "python":
                script += f"v/bin/python <<'EOF'\n{text}EOF\n"
            elif "--serve" in text:
                script += f"{text.rstrip()} > said 2>&1 &\nuntil grep -q copied said; do sleep 0.1; done; cat said\n"
            elif "curl" in text:
                script += text.replace("\ncurl", "\nsleep 1\ncurl") + "kill %1; wait\n"
            else:
                script += text
        said = self.said(script)
        self.assertEqual(len(wanted), 4)
        for it in wanted:
            # (the address and what is told of the copy come from two threads, in either order)
            for part in it.splitlines(keepends=True) if "jackraisin.postgres: " in it else [it]:
                self.assertIn(part, said)
        self.assertTrue(said.endswith("server stopped\n"), said)


if __name__ == "__main__":
    unittest.main()
