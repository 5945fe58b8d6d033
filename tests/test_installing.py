"""What starts, installs and packs the program: ./datacube, scripts/install.sh and scripts/deb.sh, and the manual page.

All is tried in a copy of the repository whose released program is the one that is tried, with a record that fits. The kit's
command `rt` is a script there that says that it was called.
"""
import concurrent.futures
import contextlib
import glob
import gzip
import os
import re
import shutil
import stat
import subprocess
import sys
import tempfile
import time

import links
import programs
import pytest
from programs import read, text_at, write

ROOT = programs.ROOT
# (what of the repository the copy lacks: what was built, and what has no part in this)
LEFT_OUT = shutil.ignore_patterns("out", ".git", "__pycache__", "must-fail", "wrong-bodies", "build", "*.egg-info")
# (the most milliseconds that ./datacube may take beside the program's own)
MOST = 30
SHOP = ["schema.toml", "market.csv", "street.csv", "online.csv"]


class Copy:
    """A copy of the repository in a folder, in which the released program is of its sources."""

    def __init__(self, folder, program):
        self.folder, self.root, self.marks = folder, f"{folder}/repository", f"{folder}/called"
        shutil.copytree(ROOT, self.root, ignore=LEFT_OUT)
        release = f"{self.root}/release/{os.uname().machine}-{os.uname().sysname.lower()}"
        os.makedirs(release, exist_ok=True)
        self.program = shutil.copy(program, f"{release}/datacube")
        tools = f"{folder}/tools"
        os.mkdir(tools)
        for name in ("rt", "sha256sum"):
            is_kit = name == "rt"
            write(f"{tools}/{name}", f"#!/bin/sh\necho {name} >>{self.marks}\n" + ("exit 1\n" if is_kit else f'exec {shutil.which(name)} "$@"\n'))
            os.chmod(f"{tools}/{name}", 0o755)
        self.env = {**os.environ, "PATH": f"{tools}:{os.environ['PATH']}", "LC_ALL": "C.UTF-8"}
        sources, whole = (self.shell(f". scripts/programs.sh; {it}") for it in ("sources_of .", f"sum_of {self.program}"))
        write(f"{release}/datacube.txt", f"program: {whole}\nkit: none\nsources: {sources}\n")

    def shell(self, call):
        return subprocess.run(["sh", "-c", call], cwd=self.root, env=self.env, stdout=subprocess.PIPE, text=True).stdout.strip()

    def run(self, script, *words, folder=None, umask=-1, **more):
        """The status of a script of the copy, its output and its standard error, and what it called."""
        if os.path.exists(self.marks):
            os.unlink(self.marks)
        how = {"cwd": folder or self.root, "env": {**self.env, **more}, "umask": umask, "stdin": subprocess.DEVNULL, "timeout": 120}
        ran = subprocess.run([f"{self.root}/{script}", *words], capture_output=True, text=True, **how)
        called = text_at(self.marks).split() if os.path.exists(self.marks) else []
        return ran.returncode, ran.stdout, ran.stderr, called

    def version(self):
        return self.run("datacube", "--version")[:3]

    def source(self):
        """A file of the sources."""
        return f"{self.root}/crates/cube_core/src/lib.rt"

    @contextlib.contextmanager
    def edited(self):
        """Has a source be another one while a block runs."""
        was = read(self.source())
        write(self.source(), was + b"// later\n")
        yield
        write(self.source(), was)


@pytest.fixture(scope="session")
def copy(program):
    """A trial that passes leaves the copy as it was."""
    with tempfile.TemporaryDirectory(prefix="datacube-installing-") as folder:
        yield Copy(folder, program)


# ---- ./datacube


def said_by_program(copy):
    ran = subprocess.run([copy.program, "--version"], stdout=subprocess.PIPE, text=True)
    return 0, ran.stdout, ""


def test_it_builds_nothing_and_says_what_does(copy):
    """Where the release is older than the sources, it says what to run, and runs nothing."""
    assert copy.version() == said_by_program(copy), "before the edit"
    with copy.edited():
        status, out, err, called = copy.run("datacube", "--version")
    assert (status, out) == (1, ""), "the status and the output"
    assert "built from other sources" in err and "scripts/build.sh" in err, f"it says {err!r}"
    assert "rt" not in called, "the kit was called"
    assert copy.version() == said_by_program(copy), "after the edit was undone"


def rested(copy):
    """Lets the files rest, and has the program found and kept."""
    time.sleep(3.2)
    assert copy.version() == said_by_program(copy), "the program"
    assert os.path.exists(f"{copy.root}/out/program.txt"), "what was found isn't kept"


def test_it_keeps_which_program_it_found(copy):
    """The second call computes no checksum, whoever makes it, and nothing else lies beside what is kept."""
    rested(copy)
    assert copy.run("datacube", "--version") == (*said_by_program(copy), []), "the next call"
    assert os.listdir(f"{copy.root}/out") == ["program.txt"], "the files of out/"
    assert stat.S_IMODE(os.stat(f"{copy.root}/out/program.txt").st_mode) == 0o644, "the rights of what is kept"


def test_it_notices_each_change_of_a_source_or_of_the_program(copy):
    """A change is noticed at the next call, though its size and its date are as before; so is a file more or less."""
    rested(copy)
    source = copy.source()
    was, times = read(source), os.stat(source)
    write(source, was.replace(b"//", b"/*", 1))
    os.utime(source, ns=(times.st_atime_ns, times.st_mtime_ns))
    assert copy.version()[0] == 1, "of the same size and date"
    write(source, was)
    os.utime(source, ns=(times.st_atime_ns, times.st_mtime_ns))
    assert copy.version() == said_by_program(copy), "undone"
    more = f"{copy.root}/crates/cube_core/proofs/More.antt"
    write(more, b"")
    assert copy.version()[0] == 1, "a file more"
    os.rename(more, source + ".other")
    assert copy.version()[0] == 1, "under another name"
    os.unlink(source + ".other")
    rested(copy)
    os.rename(source, f"{copy.root}/kept.rt")
    assert copy.version()[0] == 1, "a file less"
    os.rename(f"{copy.root}/kept.rt", source)
    rested(copy)
    write(copy.program, read(copy.program) + b"\0")
    status, out, err = copy.version()
    assert (status, out) == (1, "") and "isn't whole" in err, f"another program: {status}, {err!r}"
    write(copy.program, read(copy.program)[:-1])
    assert copy.version() == said_by_program(copy), "the program once more"


def test_it_notices_a_change_that_is_made_at_once(copy):
    """A change right after a call is noticed, whatever the clock of the files shows."""
    source = copy.source()
    was = read(source)
    for _ in range(10):
        write(source, was)
        assert copy.version() == said_by_program(copy), "the program"
        write(source, was.replace(b"//", b"/*", 1))
        assert copy.version()[0] == 1, "changed at once"
    write(source, was)


def test_many_at_once(copy):
    """Many calls at once, of which each may keep what it found."""
    time.sleep(3.2)
    shutil.rmtree(f"{copy.root}/out", ignore_errors=True)
    begin = lambda _: subprocess.run([f"{copy.root}/datacube", "--version"], env=copy.env, stdout=subprocess.PIPE, stderr=subprocess.PIPE, text=True)
    with concurrent.futures.ThreadPoolExecutor(16) as pool:
        found = {(it.returncode, it.stdout, it.stderr) for it in pool.map(begin, range(32))}
    assert found == {said_by_program(copy)}, "what they say"
    assert os.listdir(f"{copy.root}/out") == ["program.txt"], "the files of out/"


def test_where_nothing_may_be_written(copy):
    """Where nothing can be kept, it runs all the same, and says nothing of it."""
    shutil.rmtree(f"{copy.root}/out", ignore_errors=True)
    write(f"{copy.root}/out", b"")
    for _ in range(2):
        assert copy.version() == said_by_program(copy), "the program"
    os.unlink(f"{copy.root}/out")
    if os.geteuid():
        os.mkdir(f"{copy.root}/out", 0o555)
        assert copy.version() == said_by_program(copy), "without leave to write"
        os.rmdir(f"{copy.root}/out")


def test_it_takes_little_more_time_than_the_program(copy):
    """It takes a few milliseconds more than the program itself: the best of many calls, in turn."""
    rested(copy)
    least = {f"{copy.root}/datacube": float("inf"), copy.program: float("inf")}
    more = lambda: 1000 * (least[f"{copy.root}/datacube"] - least[copy.program])
    for turn in range(200):
        for program in least:
            start = time.perf_counter()
            subprocess.run([program, "--version"], stdout=subprocess.DEVNULL, check=True)
            least[program] = min(least[program], time.perf_counter() - start)
        if turn >= 19 and more() <= MOST:
            break
    assert more() <= MOST, f"{more():.1f} ms more than the program, and not {MOST}"


# ---- install.sh


def tree(folder):
    """The paths below a folder, with their kinds and rights."""
    found = {}
    for top, folders, files in os.walk(folder):
        for name in folders + files:
            path = os.path.join(top, name)
            found[os.path.relpath(path, folder)] = stat.filemode(os.lstat(path).st_mode)
    return found


def test_install_and_take_away(copy):
    """A relative PREFIX is the caller's, whatever the umask; taking away leaves what was there before, and no more."""
    caller = f"{copy.folder}/caller"
    os.makedirs(f"{caller}/there/share/man/man1")
    os.makedirs(f"{caller}/there/share/zsh")
    write(f"{caller}/there/share/zsh/other", b"")
    before = tree(caller)
    for prefix in ("there", "there", "new/prefix/", "new/prefix/"):
        status, _, err, called = copy.run("scripts/install.sh", prefix, folder=caller, umask=0o077)
        assert (status, err, "rt" in called) == (0, "", False), "installing"
    installed = tree(caller)
    for path, rights in installed.items():
        wanted = before.get(path) or {"d": "drwxr-xr-x", "l": "lrwxrwxrwx"}.get(rights[0]) or (
            "-rwxr-xr-x" if path.endswith(("bin/datacube", ".py")) else "-rw-r--r--")
        assert rights == wanted, path
    assert read(f"{caller}/new/prefix/bin/datacube") == read(copy.program), "the program"
    documents = f"{caller}/new/prefix/share/doc/datacube"
    for path in examples():
        assert os.path.exists(f"{documents}/{path}"), f"{path} isn't installed"
    ran = subprocess.run(["../../datacube", "print", *SHOP], cwd=f"{documents}/examples/shop", stdout=subprocess.PIPE)
    assert ran.stdout == read(f"{ROOT}/examples/shop/cube.csv"), "the shop's cube, as the tutorial has it"
    lead_somewhere(documents)
    write(f"{caller}/new/prefix/share/doc/datacube/mine", b"")
    for prefix in ("there", "new/prefix"):
        assert copy.run("scripts/install.sh", "--uninstall", prefix, folder=caller)[0] == 0, "taking away"
    mine = [f"new{it}" for it in ("", "/prefix", "/prefix/share", "/prefix/share/doc", "/prefix/share/doc/datacube")]
    assert set(tree(caller)) == {*before, *mine, f"{mine[-1]}/mine"}, "what is left"
    stage = {"DESTDIR": "stage/below", "folder": copy.folder}
    copy.run("scripts/install.sh", "/usr", **stage)
    assert os.path.exists(f"{copy.folder}/stage/below/usr/bin/datacube"), "nothing is below DESTDIR"
    copy.run("scripts/install.sh", "--uninstall", "/usr", **stage)
    assert not os.path.exists(f"{copy.folder}/stage"), "folders are left below DESTDIR"


def lead_somewhere(documents):
    """What installed documents link to, and the documents that they name, are there; one that isn't is noticed."""
    assert links.lost_where_installed(documents) == [], "links of installed documents that lead nowhere"
    os.rename(f"{documents}/docs/PROMISES.md", f"{documents}/kept")
    lost = links.lost_where_installed(documents)
    os.rename(f"{documents}/kept", f"{documents}/docs/PROMISES.md")
    assert any(it.startswith("README.md: ") for it in lost), f"a document that isn't there isn't noticed: {lost}"


def examples():
    """The files of the examples, by what is to be installed of them."""
    found = []
    if shutil.which("git"):
        words = ["git", "-C", ROOT, "ls-files", "examples"]
        found = subprocess.run(words, stdout=subprocess.PIPE, stderr=subprocess.DEVNULL, text=True).stdout.split()
    return found or ["examples/first/feed.csv", *(f"examples/shop/{it}" for it in SHOP)]


def test_install_builds_nothing(copy):
    """A release that is older than the sources isn't installed, and nothing is built for it."""
    with copy.edited():
        status, _, err, called = copy.run("scripts/install.sh", f"{copy.folder}/none")
    assert (status, "rt" in called, os.path.exists(f"{copy.folder}/none")) == (1, False, False), "its status, the kit, a folder"
    assert "scripts/build.sh" in err, f"it says {err!r}"


# ---- deb.sh


def test_a_package(copy):
    """The package has what a newcomer looks for, and it works where it is unpacked."""
    if not shutil.which("dpkg-deb"):
        pytest.skip("dpkg-deb isn't installed")
    room = f"{copy.folder}/package"
    os.makedirs(f"{room}/packed")
    status, _, err, _ = copy.run("scripts/deb.sh", "packed", folder=room, umask=0o077)
    assert status == 0, err
    (package,) = glob.glob(f"{room}/packed/*.deb")
    files = f"{room}/files"
    subprocess.run(["dpkg-deb", "-x", package, files], check=True)
    usr = f"{files}/usr"
    for path, rights in tree(files).items():
        is_program = path.endswith("bin/datacube") or "/examples/" in path and path.endswith(".py")
        assert rights == {"d": "drwxr-xr-x", "l": "lrwxrwxrwx"}.get(rights[0]) or ("-rwxr-xr-x" if is_program else "-rw-r--r--"), path
    documents = f"{usr}/share/doc/datacube"
    for path in ("docs/FORMATS.md", "explorer/index.html", "explorer/datacube.html", "README.md", "changelog.gz", "copyright", *examples()):
        assert os.path.exists(f"{documents}/{path}"), f"{path} isn't in the package"
    assert links.lost_where_installed(documents) == [], "links of the package's documents that lead nowhere"
    assert not os.path.exists(f"{documents}/folders"), "the package has notes of an installation"
    with gzip.open(f"{usr}/share/man/man1/datacube.1.gz") as page:
        assert page.read() == read(f"{copy.root}/docs/datacube.1"), "the manual page"
    packages = f"{usr}/lib/python3/dist-packages"
    assert read(f"{packages}/jackraisin/postgres/explorer.html") == read(f"{copy.root}/explorer/index.html"), "the page that it serves"
    call = "import jackraisin, sys; print(jackraisin.__file__, len(jackraisin.cube(sys.argv[1], sys.argv[2:])))"
    env = {"PATH": f"{usr}/bin:/usr/bin:/bin", "PYTHONPATH": packages}
    # (three lines of the shop are refused, which is warned of)
    ran = subprocess.run([sys.executable, "-B", "-W", "ignore::UserWarning", "-c", call, *SHOP], cwd=f"{documents}/examples/shop", env=env, stdout=subprocess.PIPE, stderr=subprocess.PIPE, text=True)
    assert (ran.returncode, ran.stdout, ran.stderr) == (0, f"{packages}/jackraisin/__init__.py 35\n", ""), "the Python package"
    control = subprocess.run(["dpkg-deb", "-f", package], stdout=subprocess.PIPE, text=True).stdout
    assert "Python package" in control, "the description doesn't name the Python package"


# ---- the manual page


def test_the_manual_page(copy):
    """It has sections on schemas, feeds and printed cubes with examples, and reads without a warning."""
    page = read(f"{copy.root}/docs/datacube.1").decode()
    titles = re.findall(r"^\.SH (.*)$", page, re.MULTILINE)
    for title in ("SCHEMAS", "FEEDS", "THE PRINTED CUBE", "EXAMPLES", "EXIT STATUS", "CODES"):
        assert title in titles, f"it has no section {title}"
    part = lambda title: page.partition(f".SH {title}\n")[2].partition("\n.SH ")[0]
    for title, example in (("SCHEMAS", "dimensions = ["), ("FEEDS", "op,id,region,kind,amount"), ("THE PRINTED CUBE", "west,a,0,0,1,5,5,5,5/1")):
        assert example in part(title), f"{title} has no example"
    if not shutil.which("man"):
        pytest.skip("man isn't installed")
    ran = subprocess.run(["man", "--warnings", "-l", f"{copy.root}/docs/datacube.1"], env={**copy.env, "MANWIDTH": "200"}, stdout=subprocess.PIPE, stderr=subprocess.PIPE, text=True)
    assert (ran.returncode, ran.stderr) == (0, ""), "man"
    shown = ran.stdout
    for line in read(f"{ROOT}/examples/first/cube.csv").decode().splitlines():
        assert line in shown, f"man doesn't show {line!r}"
