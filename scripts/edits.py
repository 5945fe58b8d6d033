"""Tries must-fail edits: each puts a wrong body into a function, and the prover has to refuse it.

A crate's edits (`crates/NAME/must-fail/`, in the form that the kit's `rt must-fail` reads) are tried in a copy of the
repository in which the crate was proved and the libraries below it stand built. Each is tried on the functions that it
changes and what those call: where the prover refuses one of them it refuses the crate, and what else the crate has was
proved. Edits of different functions are tried in one check, most of whose time goes into what it reads: a proof rests on
the contracts of what its function calls, not on their bodies, so a function that is told `not proved`, or that `search` did
not prove a goal of, has a wrong body of its own. One that calls it is told so: its edit is tried again without those that
were refused. One that the prover can't read, as where it doesn't cover a form, is not refused.
(`rt ci` and `rt must-fail` try the same edits one by one, after a check of the whole crate.) What was refused is kept on
this machine, by a checksum of all that the try read.

An edit whose text and whose file, with the contracts in it, are those with which it was refused before is not tried again:
`refused_edits.txt` beside this file has a line for each that was, of its name and a checksum of both. `scripts/test.sh --anew`
tries all. Once the gate has seen all edits refused, this writes the lines anew:

    python3 -B scripts/edits.py
"""
import collections
import concurrent.futures
import contextlib
import functools
import glob
import hashlib
import itertools
import os
import re
import shutil
import subprocess
import tempfile
import threading

import programs

ROOT = programs.ROOT
PARTS = ("src", "specs", "proofs")
RECORD = f"{ROOT}/scripts/refused_edits.txt"
# (what the folders of tries are named)
ROOM = "/must-fail-"
KEPT = os.path.expanduser(f"{os.environ.get('XDG_CACHE_HOME') or '~/.cache'}/datacube/edits")
FUNCTION = re.compile(r'^( *)(?:pub(?:\(\w+\))? )?(?:const )?(?:extern "C" )?fn (\w+)', re.M)
IMPL = re.compile(r"^impl\b([^{]*)\{", re.M)
PROVED = re.compile(r"rt: (\w+) (?:proved|is kept:)")
# What a check says of a function whose own body it refuses: of one that calls it, or that it can't read, it says otherwise.
REFUSED = r"^fn (?:\w+::)+{}: (?:no proof: [^;\n]*; )?(not proved|`search` did not prove [^;\n]*)$"
ENDED = re.compile(r"^only=\d+ proved=\d+$\s*\Z", re.M)

# What came of an edit: whether the prover refused it, whether it did so in an earlier run, and what to say.
Tried = collections.namedtuple("Tried", "is_refused is_kept text")


class Trials:
    """The tries of edits in a copy of the repository, each begun when its crate is proved there, beside what else runs."""

    def __init__(self, copy, folder, is_anew=False, names=()):
        """The edits in a folder of each crate, or of those with these names, to be tried in a copy."""
        self.copy, self.is_anew, self.begun = copy, is_anew, {}
        self.edits = [it for it in sorted(glob.glob(f"{ROOT}/crates/*/{folder}/*.edit")) if not names or crate_of(it) in names]
        processors = len(os.sched_getaffinity(0))
        self.pool = concurrent.futures.ThreadPoolExecutor(processors)
        # (while the proofs run, the tries get by with half of the processors, so that memory serves both)
        self.left = processors // 2
        self.room = threading.Semaphore(processors - self.left)

    def see(self, line):
        """Begins with a crate's edits where a line of `rt ci` says that the crate is proved."""
        proved = PROVED.match(line)
        if own := [it for it in self.edits if proved and crate_of(it) == proved[1]]:
            self.begun.update(dict.fromkeys(own, self.pool.submit(self.try_rounds, own)))

    def try_rounds(self, edits):
        """What comes of the edits of a crate, each round once there is room for its try."""
        found = {}
        for together in rounds_of(edits, self.copy):
            with self.room:
                found |= tried(together, self.copy, self.is_anew)
        shutil.rmtree(checked_in(self.copy, crate_of(edits[0])), ignore_errors=True)
        return found

    def results(self):
        """What came of each edit, once all were tried. The proofs are over by now, so the tries have all processors."""
        for _ in range(self.left):
            self.room.release()
        untried = "NOT TRIED, since its crate is not proved"
        return [self.begun[it].result()[it] if it in self.begun else Tried(False, False, f"{label_of(it)}: {untried}") for it in self.edits]


def copy_sources(to):
    """Copies what `rt ci` proves into a folder, without the edits, which it would try in its own way."""
    for name in ("crates.txt", "HANDLES"):
        shutil.copy(f"{ROOT}/{name}", to)
    shutil.copytree(f"{ROOT}/crates", f"{to}/crates", ignore=shutil.ignore_patterns("out", "must-fail", "wrong-bodies"))


def crate_of(edit):
    return edit.split("/")[-3]


def label_of(edit):
    return f"{crate_of(edit)}/{os.path.basename(edit).removesuffix('.edit')}"


def rounds_of(edits, copy):
    """The edits of a crate in rounds, in each of which no two change the same function; one that changes several places,
    which may be more than a body, has a round of its own."""
    rounds = []
    for edit in edits:
        function = function_of(edit, copy)
        free = next((it for it in rounds if function and not {function, None} & it.keys()), None)
        if free is None:
            free = {}
            rounds.append(free)
        free[function] = edit
    return [list(it.values()) for it in rounds]


def tried(edits, copy, is_anew):
    """What comes of edits of different functions of a crate, each by itself; or what came of one in an earlier run over the
    same files, which serves unless all is done anew."""
    kept = {it: f"{KEPT}/{sum_of(it, copy)}" for it in edits}
    known = [it for it in edits if not is_anew and os.path.exists(kept[it])]
    found = {it: Tried(True, True, f"{label_of(it)}: refused in an earlier run on this machine") for it in known}
    same = [it for it in edits if not is_anew and it not in found and recorded().get(label_of(it)) == mark_of(it, copy)]
    found |= {it: Tried(True, True, f"{label_of(it)}: refused before, and neither it nor its file has changed") for it in same}
    left = [it for it in edits if it not in found]
    while left:
        told = attempt(left, copy) or attempt(left[:1], copy)
        for edit in told:
            if told[edit].is_refused:
                with contextlib.suppress(OSError):
                    os.makedirs(KEPT, exist_ok=True)
                    programs.write(kept[edit], told[edit].text)
        found |= told
        left = [it for it in left if it not in found]
    return found


@functools.lru_cache
def recorded():
    """The marks with which edits were refused, by their labels."""
    return dict(line.split() for line in programs.text_at(RECORD).splitlines())


def mark_of(edit, copy):
    """A checksum of an edit and of the files that it changes."""
    found = hashlib.sha256(programs.read(edit))
    for path, _, _ in changes_of(edit):
        found.update(programs.read(f"{copy}/crates/{crate_of(edit)}/{path}"))
    return found.hexdigest()


def sum_of(edit, copy):
    """A checksum of all that the try of an edit reads: the kit, the edit, the crate's files and the libraries that were built."""
    crate = crate_of(edit)
    named, own = libraries_of(copy, crate)
    files = [edit, *(f"{place_of(copy, name)}/{name}.rlib/format" for name in sorted(own))]
    for part in PARTS:
        files += sorted(it for it in glob.glob(f"{copy}/crates/{crate}/{part}/**", recursive=True) if os.path.isfile(it))
    found = hashlib.sha256(repr([kit_line(), named]).encode())
    for path in files:
        found.update(repr([os.path.relpath(path, copy) if path != edit else "", programs.read(path)]).encode())
    return found.hexdigest()


def attempt(edits, copy):
    """Tries edits of a crate in one check. Gives what came of one; of several, those that are refused for their own change."""
    crate = crate_of(edits[0])
    with tempfile.TemporaryDirectory(prefix=ROOM[1:]) as room:
        for part in PARTS:
            if os.path.isdir(f"{copy}/crates/{crate}/{part}"):
                shutil.copytree(f"{copy}/crates/{crate}/{part}", f"{room}/{part}")
        functions, whys = zip(*(apply(it, room) for it in edits))
        if not all(functions):
            bad = Tried(False, False, f"{label_of(edits[0])}: BAD EDIT: {whys[0] or 'it changes no function'}")
            return {edits[0]: bad} if len(edits) == 1 else {}
        words = ["nice", *check_of(copy, crate), "--incremental", checked_in(copy, crate)]
        words += [word for name in itertools.chain(*functions) for word in ("--only", name)]
        ran = subprocess.run(words, cwd=room, stdin=subprocess.DEVNULL, stdout=subprocess.PIPE, stderr=subprocess.STDOUT, text=True)
    is_over = ran.returncode == 1 and ENDED.search(ran.stdout)
    refusals = [is_over and refusal(ran.stdout, names, len(edits) == 1) for names in functions]
    if len(edits) == 1 and not refusals[0]:
        return {edits[0]: unrefused(edits[0], functions[0], ran)}
    return {edit: Tried(True, False, f"{label_of(edit)}: refused, as it must be: {it[:120]}") for edit, it in zip(edits, refusals) if it}


def refusal(said, functions, is_alone):
    """What a check says first against the own body of one of these functions, where it refuses one."""
    # (of a method of a trait only the module is known, so that an edit of one is seen to be refused where it is alone)
    within = r"(?:::\S+)?" if is_alone else ""
    told = [found[1] for it in functions for found in re.finditer(REFUSED.format(re.escape(it) + within), said, re.M)]
    folders = [f"/{it.replace('::', '/')}/" for it in functions]
    own = [line for line in said.splitlines() if ": error" in line and any(it in line.partition(":")[0] for it in folders)]
    return [*own, *told][0] if told else None


def unrefused(edit, functions, ran):
    """What a check says of an edit that it doesn't refuse."""
    if ran.returncode == 0:
        return Tried(False, False, f"{label_of(edit)}: NOT REFUSED: {', '.join(functions)} is still proved")
    lines = ran.stdout.splitlines()
    told = [it for it in lines if it.startswith("fn ") and not it.endswith(": proved")] or lines[-4:]
    return Tried(False, False, "\n".join([f"{label_of(edit)}: NOT TRIED: its check ended with status {ran.returncode}", *told]))


def apply(edit, crate):
    """Makes the changes of an edit in a crate's folder; gives the names of the functions that they lie in, or why it can't."""
    functions = []
    for path, old, new in changes_of(edit):
        function, why = replace(f"{crate}/{path}", old, new, module_of(path))
        if why:
            return [], f"{path} {why}"
        functions += [function] * (function not in [None, *functions])
    return functions, None


def changes_of(edit):
    """The changes of an edit: of each the file, the text that stands there once, and the one that takes its place."""
    path, old = None, None
    for line in programs.text_at(edit).split("\n"):
        word, _, text = line.partition(":")
        text = text.removeprefix(" ")
        if word == "file":
            path = text
        elif word == "old":
            old = text
        elif word == "new":
            yield path, old, text


def function_of(edit, copy):
    """The function that an edit changes, where it changes one place."""
    changes = list(changes_of(edit))
    if len(changes) != 1:
        return None
    path, old, _ = changes[0]
    text = programs.text_at(f"{copy}/crates/{crate_of(edit)}/{path}")
    return function_at(text, text.find(old) + len(old), module_of(path))


def replace(path, old, new, module):
    """Puts a text in the place of another; gives the name of the function there, if any, or why it can't."""
    text = programs.text_at(path)
    if text.count(old) != 1:
        return None, f"has {old!r} {text.count(old)} times, and not once"
    programs.write(path, text.replace(old, new))
    return function_at(text, text.index(old) + len(old), module), None


def module_of(path):
    """The modules that lead to a file of a crate: none for its root."""
    return [word for word in path.removesuffix(".rt").split("/")[1:] if word not in ("lib", "main")]


def function_at(text, at, module):
    """The name by which a check asks for the function that encloses a place of a file, where one does: its path, or its type
    and name where it is a method; the file's module where it is one of a trait, or of a type with arguments."""
    before = [it for it in FUNCTION.finditer(text) if it.start() < at]
    if not before:
        return None
    indent, name = before[-1].groups()
    if not indent:
        return "::".join([*module, name])
    block = [it[1] for it in IMPL.finditer(text) if it.start() < before[-1].start()][-1]
    method = re.fullmatch(r"(?:<.*>)? (\w+) |<.*> (\w+)<.*> ", block)
    return f"{method[1] or method[2]}::{name}" if method and " for " not in block else "::".join(module)


@functools.lru_cache
def kit():
    """The folder of the kit whose command stands on the PATH."""
    return os.path.dirname(said_by("doc"))


@functools.lru_cache
def kit_line():
    """The kit's line about itself."""
    return said_by("version")


def said_by(verb):
    """What a verb of the kit's command says."""
    return subprocess.run(["rt", verb], stdout=subprocess.PIPE, text=True, check=True).stdout.strip()


def check_of(copy, crate):
    """The words that check a crate in its folder, over libraries that were built in a copy of the repository."""
    named, own = libraries_of(copy, crate)
    root = "src/main.rt" if os.path.exists(f"{copy}/crates/{crate}/src/main.rt") else "src/lib.rt"
    words = [f"{kit()}/bin/rattle", "check", "--crate-name", crate, root, "-L", f"dependency={kit()}/rlibs"]
    for name in ["std", *named]:
        words += ["--extern", f"{name}={place_of(copy, name)}/{name}.rlib"]
    for name in own:
        words += ["-L", f"dependency={place_of(copy, name)}"]
    return [*words, "--antt-project", f"{kit()}/rattle/logic/antt-project.json", "--logic-built", f"{kit()}/logic_built", "--links", f"{crate}=", "--jobs", "1"]


def place_of(copy, library):
    """The folder in which a library stands built: one of a copy of the repository, or else one of the kit."""
    own = f"{copy}/crates/{library}"
    return f"{own}/out/rlib" if os.path.isdir(own) else f"{kit()}/rlibs"


def checked_in(copy, crate):
    """The folder that keeps what the checks of a crate's edits have proved, for those that follow."""
    return f"{copy}/crates/{crate}/out/edits"


def libraries_of(copy, crate):
    """The libraries that a crate names, and those of the repository that it stands on."""
    needs = programs.crates(copy)
    own, ahead = [], [crate]
    while ahead:
        below = [it for it in needs[ahead.pop()] if it in needs and it not in own]
        own, ahead = own + below, ahead + below
    return needs[crate], own


def record():
    """Writes the marks of all must-fail edits, which the gate has seen refused."""
    names = sorted(glob.glob(f"{ROOT}/crates/*/must-fail/*.edit"))
    programs.write(RECORD, "".join(f"{label_of(it)} {mark_of(it, ROOT)}\n" for it in names))


if __name__ == "__main__":
    record()
