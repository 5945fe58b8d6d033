"""Proves the crates of the folder that it is called in by the kit's `rt ci`, and keeps on this machine what that proved and built.

    scripts/proofs.py [--anew]

Of a crate nothing is proved again whose files, whose line in `crates.txt` and whose libraries are those of an earlier run by
the same kit, under the same handles: what that run left is taken, unless all is to be done anew. Kits that keep it themselves
are called alone. Where a kit gives each check one processor, those on the longest chain of crates get more.
"""
import contextlib
import functools
import hashlib
import importlib.machinery
import importlib.util
import os
import re
import secrets
import shutil
import subprocess
import sys
import tempfile
import time

KEPT = os.path.expanduser(f"{os.environ.get('XDG_CACHE_HOME') or '~/.cache'}/datacube/proofs")
PARTS = ("src", "specs", "proofs")
# (names a library that was built, in its crate's out/)
NAME = "out/built.txt"
# How long what nobody took stays, in seconds.
STAYS = 3 * 86400


class Kept:
    """What `rt ci` proved and built of crates, in a folder for each checksum of what it was made of."""

    def __init__(self, kit, is_anew):
        self.kit, self.is_anew, self.done, self.all = kit, is_anew, 0, 0
        self.proved, self.lanes, self.longest = kit.Crate.ci, kit.in_lanes, set()

    def ci(self, crate, flags, tests):
        """What the kit's call does, or what came of it in an earlier run."""
        self.all += 1
        place = f"{KEPT}/{self.sum_of(crate, tests)}"
        if not self.is_anew and os.path.isdir(place):
            os.utime(place)
            copy_all(place, crate.folder)
            print("rt: what an earlier run on this machine proved is taken", file=crate.out, flush=True)
            return 0
        self.done += 1
        status = self.proved(crate, self.jobs_of(crate, tests, flags), tests)
        if status == 0:
            if not tests:
                write(f"{crate.folder}/{NAME}", secrets.token_hex(16))
            keep(crate.folder, made_of(crate, tests), place)
        return status

    def sum_of(self, crate, tests):
        """A checksum of all that a crate's proof, or that of its tests, is made of."""
        files = [it for part in PARTS for it in files_in(f"{crate.folder}/{part}")]
        named = [(os.path.relpath(it, crate.folder), sum_of_file(it)) for it in files]
        below = sorted((it.name, text_at(f"{it.folder}/{NAME}")) for it in crate.below())
        kit = text_at(f"{self.kit.KIT}/KIT-ID"), sum_of_file(os.path.realpath(f"{self.kit.KIT}/bin/rattle"))
        said = kit, self.kit.Crate.allowed, crate.name, tests, sorted(crate.said.items()), named, below
        return hashlib.sha256(repr(said).encode()).hexdigest()

    def in_lanes(self, tasks):
        """Does what the kit's call does, once it is known which checks are on the longest chain."""
        ahead, behind = {}, {key: 0 for key in tasks}
        for key, (below, lines, *_) in tasks.items():
            ahead[key] = lines + max((ahead[it] for it in below), default=0)
        for key in reversed([*tasks]):
            for it in tasks[key][0]:
                behind[it] = max(behind[it], behind[key] + tasks[key][1])
        most = max((ahead[key] + behind[key] for key in tasks), default=0)
        self.longest = {key for key in tasks if ahead[key] + behind[key] == most}
        given = self.lanes(tasks)
        print(f"rt: {self.done} of {self.all} proofs done in this run, the others in earlier ones", flush=True)
        return given

    def jobs_of(self, crate, tests, flags):
        """The flags of a check, of which one on the longest chain gets all processors but one."""
        if (crate.name, "tests" if tests else "proof") not in self.longest or flags != ["--jobs", "1"]:
            return flags
        return ["--jobs", str(max(1, min(len(os.sched_getaffinity(0)) - 1, 4)))]


def made_of(crate, tests):
    """The paths in a crate's folder of what its proof leaves for others, or that of its tests."""
    if tests:
        return [f"out/{crate.name}_tests"]
    return [NAME, "out/rlib", f"out/{crate.name}", f"out/{crate.name}.by-rattle"]


def keep(folder, paths, place):
    """Puts what stands at these paths of a folder into a place that isn't there yet."""
    os.makedirs(KEPT, exist_ok=True)
    with tempfile.TemporaryDirectory(dir=KEPT, prefix="new-") as room:
        for path in filter(lambda it: os.path.exists(f"{folder}/{it}"), paths):
            os.makedirs(os.path.dirname(f"{room}/all/{path}"), exist_ok=True)
            if os.path.isdir(f"{folder}/{path}"):
                shutil.copytree(f"{folder}/{path}", f"{room}/all/{path}")
            else:
                shutil.copy2(f"{folder}/{path}", f"{room}/all/{path}")
        os.makedirs(f"{room}/all", exist_ok=True)
        with contextlib.suppress(OSError):
            shutil.rmtree(place, ignore_errors=True)
            os.rename(f"{room}/all", place)


def copy_all(place, folder):
    """Puts what was kept into a crate's folder."""
    if os.path.isdir(f"{place}/out/rlib"):
        shutil.rmtree(f"{folder}/out/rlib", ignore_errors=True)
        shutil.copytree(f"{place}/out/rlib", f"{folder}/out/rlib")
    for it in os.listdir(f"{place}/out") if os.path.isdir(f"{place}/out") else ():
        if os.path.isfile(f"{place}/out/{it}"):
            shutil.copy2(f"{place}/out/{it}", f"{folder}/out/{it}")


def files_in(folder):
    return sorted(f"{at}/{it}" for at, _, names in os.walk(folder) for it in names)


@functools.lru_cache(None)
def sum_of_file(path):
    with open(path, "rb") as it:
        return hashlib.sha256(it.read()).hexdigest()


def text_at(path):
    with open(path, encoding="utf-8", errors="replace") as it:
        return it.read()


def write(path, text):
    with open(path, "w", encoding="utf-8") as it:
        it.write(text)


def clear():
    """Takes away what nobody took for days, and what a run that was killed left."""
    with contextlib.suppress(OSError):
        for it in os.listdir(KEPT):
            if time.time() - os.stat(f"{KEPT}/{it}").st_mtime > STAYS:
                shutil.rmtree(f"{KEPT}/{it}", ignore_errors=True)


def kit_of(path):
    """The kit's command as a module."""
    loader = importlib.machinery.SourceFileLoader("rt", path)
    kit = importlib.util.module_from_spec(importlib.util.spec_from_loader("rt", loader))
    loader.exec_module(kit)
    return kit


def main(words):
    sys.dont_write_bytecode = True
    command, is_anew = os.path.realpath(shutil.which("rt") or "rt"), "--anew" in words
    help_of_kit = subprocess.run([command, "help"], stdout=subprocess.PIPE, stderr=subprocess.STDOUT, text=True).stdout
    if "--anew" in help_of_kit or not re.search(r"(?m)^def in_lanes\(", text_at(command)):
        os.execv(command, [command, "ci", *(["--anew"] if is_anew and "--anew" in help_of_kit else [])])
    clear()
    kit = kit_of(command)
    kept = Kept(kit, is_anew)
    kit.Crate.ci = lambda crate, flags, tests: kept.ci(crate, flags, tests)
    kit.in_lanes = kept.in_lanes
    return kit.main(["ci"])


if __name__ == "__main__":
    sys.exit(main(sys.argv[1:]))
