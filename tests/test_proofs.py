"""What the gate keeps of proofs (scripts/proofs.py), by a kit that proves nothing and writes down what it is asked to prove: nothing is
taken that was made of other files, libraries, handles or another kit."""
import os
import subprocess
import sys

import programs
import pytest

SCRIPT = f"{programs.ROOT}/scripts/proofs.py"
# A kit's command: three crates, each on the one before it; a crate whose source has `wrong` isn't proved.
KIT = '''#!{python}
import os, sys

KIT = {home!r}


class Crate:
    allowed = ()

    def __init__(self, name, libraries):
        self.name, self.libraries, self.folder, self.said, self.out = name, libraries, f"{{os.getcwd()}}/crates/{{name}}", {{"name": name}}, sys.stdout

    def below(self):
        return self.libraries

    def ci(self, flags, tests):
        with open(f"{{KIT}}/asked", "a") as it:
            it.write(f"{{self.name}} {{flags[1]}}\\n")
        with open(f"{{self.folder}}/src/lib.rt") as it:
            text = it.read()
        os.makedirs(f"{{self.folder}}/out/rlib/{{self.name}}.rlib", exist_ok=True)
        with open(f"{{self.folder}}/out/rlib/{{self.name}}.rlib/format", "w") as it:
            it.write(text)
        return int("wrong" in text)


def in_lanes(tasks):
    return {{key: call({{}}, 1) for key, (_, _, _, call) in tasks.items()}}


def main(words):
    low = Crate("low", [])
    middle, aside = Crate("middle", [low]), Crate("aside", [low])
    crates = [low, aside, middle, Crate("high", [middle, low])]
    lines = {{"low": 9, "aside": 1, "middle": 9, "high": 9}}
    waits = {{it.name: [(below.name, "proof") for below in it.libraries] for it in crates}}
    Crate.allowed = tuple(open("HANDLES").read().split())
    given = in_lanes({{(it.name, "proof"): (waits[it.name], lines[it.name], 0, lambda given, jobs, it=it: it.ci(["--jobs", "1"], False)) for it in crates}})
    failed = sum(map(bool, given.values()))
    print(f"{{len(given) - failed}} passed, {{failed}} failed")
    return int(failed > 0)


if __name__ == "__main__":
    if sys.argv[1:] == ["help"]:
        print({help!r})
    else:
        print("the kit alone:", *sys.argv[1:])
'''


class Room:
    """A kit, a folder of crates, and a folder for what is kept."""

    def __init__(self, folder):
        self.home, self.work, self.cache = (f"{folder}/{it}" for it in ("kit", "work", "cache"))
        self.kit("rt ci")
        self.write(f"{self.work}/HANDLES", "Threads")
        for name in ("low", "aside", "middle", "high"):
            self.source(name, f"pub fn {name}() {{}}\n")

    def kit(self, said, line="a kit"):
        self.write(f"{self.home}/bin/rt", KIT.format(python=sys.executable, home=self.home, help=said))
        os.chmod(f"{self.home}/bin/rt", 0o755)
        self.write(f"{self.home}/KIT-ID", line)
        self.write(f"{self.home}/bin/rattle", "the prover")

    def source(self, name, text):
        self.write(f"{self.work}/crates/{name}/src/lib.rt", text)

    def write(self, path, text):
        os.makedirs(os.path.dirname(path), exist_ok=True)
        programs.write(path, text)

    def proved(self, *words):
        """What the kit was asked to prove, and the last line of what was said."""
        self.write(f"{self.home}/asked", "")
        where = {**os.environ, "PATH": f"{self.home}/bin:{os.environ['PATH']}", "XDG_CACHE_HOME": self.cache}
        ran = subprocess.run([sys.executable, "-B", SCRIPT, *words], cwd=self.work, env=where, stdout=subprocess.PIPE, stderr=subprocess.STDOUT, text=True)
        asked = [line.split()[0] for line in programs.text_at(f"{self.home}/asked").splitlines()]
        return asked, ran.stdout.splitlines()[-1]

    def library(self, name):
        return programs.text_at(f"{self.work}/crates/{name}/out/rlib/{name}.rlib/format")


ALL = ["low", "aside", "middle", "high"]
GOOD = "4 passed, 0 failed"


@pytest.fixture
def room(tmp_path):
    found = Room(tmp_path)
    assert found.proved() == (ALL, GOOD)
    return found


def test_what_was_proved_is_taken_with_its_library(room):
    for name in ALL:
        os.remove(f"{room.work}/crates/{name}/out/rlib/{name}.rlib/format")
    assert room.proved() == ([], GOOD)
    assert room.library("high") == "pub fn high() {}\n"


def test_a_change_has_its_crate_and_those_above_proved_again(room):
    room.source("middle", "pub fn other() {}\n")
    assert room.proved() == (["middle", "high"], GOOD)
    assert room.proved() == ([], GOOD)
    room.source("low", "pub fn other() {}\n")
    assert room.proved() == (ALL, GOOD)


def test_what_was_is_taken_again(room):
    room.source("high", "pub fn other() {}\n")
    assert room.proved() == (["high"], GOOD)
    room.source("high", "pub fn high() {}\n")
    assert room.proved() == ([], GOOD)
    assert room.library("high") == "pub fn high() {}\n"


def test_a_file_more_and_a_name_more_are_changes(room):
    room.write(f"{room.work}/crates/aside/proofs/Laws.antt", "")
    assert room.proved() == (["aside"], GOOD)
    os.rename(f"{room.work}/crates/aside/proofs/Laws.antt", f"{room.work}/crates/aside/proofs/Facts.antt")
    assert room.proved() == (["aside"], GOOD)


def test_what_is_not_proved_is_not_kept(room):
    room.source("aside", "wrong\n")
    for _ in range(2):
        assert room.proved() == (["aside"], "3 passed, 1 failed")


def test_nothing_is_taken_of_another_kit_another_prover_or_other_handles(room):
    room.kit("rt ci", "another kit")
    assert room.proved() == (ALL, GOOD)
    room.write(f"{room.home}/bin/rattle", "another prover")
    assert room.proved() == (ALL, GOOD)
    room.write(f"{room.work}/HANDLES", "none")
    assert room.proved() == (ALL, GOOD)


def test_nothing_is_taken_where_all_is_done_anew(room):
    assert room.proved("--anew") == (ALL, GOOD)
    assert room.proved() == ([], GOOD)


def test_the_longest_chain_gets_more_processors(room):
    assert room.proved("--anew")[0] == ALL
    jobs = dict(line.split() for line in programs.text_at(f"{room.home}/asked").splitlines())
    more = str(max(1, min(len(os.sched_getaffinity(0)) - 1, 4)))
    assert jobs == {"low": more, "aside": "1", "middle": more, "high": more}


def test_a_kit_that_keeps_proofs_is_called_alone(room):
    room.kit("rt ci [--anew]")
    assert room.proved() == ([], "the kit alone: ci")
    assert room.proved("--anew") == ([], "the kit alone: ci --anew")
