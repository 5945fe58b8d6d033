"""Sessions over a store whose calls are watched: each call on the store's files, and each allocation, refused in turn.

Two files in C are preloaded before the program: `store_calls.c` refuses or records the calls on the store's files, and
`refuse.c` refuses memory. Needs cc.
"""
import collections
import errno
import itertools
import os
import re
import shutil
import struct
import subprocess
import tempfile

import oracle
from programs import ROOT
from store_rooms import FEEDS, SCHEMA, SECONDS, Changes, LeftOut, Wrong, everything, expect, refusal_of, shown, taken

KINDS = ("a new store", "a store whose session ended", "a store whose session was killed")
# (a session: changes that are taken and refused, some of them longer than a page, and questions, the last one before the
# last changes; no two first parts of it leave the same facts and refusals)
SESSION = [
    [b"1", b"I", b"new", b"west", b"tea", b"1"],
    [b"print"],
    [b"2", b"D", b"nobody"],
    [b"3", b"I", b"long", b"n" * 3000, b"tea", b"2"],
    [b"refusals", b"2", b"0"],
    [b"1", b"U", b"new", b"east", b"tea", b"4"],
    [b"3", b"I", b"longer", b"east", b"k" * 9000, b"8"],
    [b"3", b"U", b"long", b"o" * 3000, b"tea", b"16"],
    [b"sync"],
    [b"1", b"D", b"new"],
    [b"rollup", b"place", b"\\A", b"\\A"],
    [b"slice", b"?", b"\\A"],
    [b"2", b"I", b"last", b"\\N", b"", b"32"],
    [b"1", b"D", b"new"],
]
# (what a start is asked for all that it has)
LOOK = b"print\nrefusals\n"
# (what is refused in turn: the file that is preloaded, how it is asked, the codes that a session may end with, if it
# doesn't answer whole, and how far apart the calls are that are refused in the short form and in the long one)
Cause = collections.namedtuple("Cause", "file variable value codes short long")
FAILED, FULL, MEMORY = r"D[26]", r"D[67]", r"D8|S1|G1|G2|G3 \d+ F1|G4"
READS, WRITES = r"schema unreadable|feed \d+ unreadable|G3 \d+ F2|Q3", r"G6 \d+"
CAUSES = {
    "call on the store": Cause("store_calls", "REFUSE_STORE", f"calls {{}} {errno.EIO}", FAILED, 11, 1),
    "call on the store and all after it": Cause("store_calls", "REFUSE_STORE", f"from {{}} {errno.EIO}", FAILED, 23, 1),
    "write to the store, by a full disk": Cause("store_calls", "REFUSE_STORE", f"writes {{}} {errno.ENOSPC}", FULL, 11, 1),
    "other read": Cause("refuse", "REFUSE", "read {}", READS, 7, 1),
    "write of an answer": Cause("refuse", "REFUSE", "write {}", WRITES, 7, 1),
    "allocation": Cause("refuse", "REFUSE", "alloc {}", MEMORY, 401, 11),
}
# (what is said where there is no memory for the words themselves)
NO_WORDS = (2, b"", b"error: out of memory\n")
RECORD = struct.Struct("<cc6xqq")
Call = collections.namedtuple("Call", "kind file at size data")


class Story:
    """A session over a store of some kind: what it may answer, and what a start after it may find."""

    def __init__(self, room, kind, rng):
        self.room, self.kind, self.name, self.given = room, kind, "story.db", oracle.encode(SESSION)
        self.state = oracle.Session(SCHEMA, FEEDS)
        room.remove(self.name)
        if kind != KINDS[0]:
            self.make(kind, rng)
        self.answers, self.parts = [], {everything(self.state): 0}
        for record in SESSION:
            count = len(self.parts) - 1
            answer = self.state.reply(record)
            if answer:
                self.answers.append((answer, count))
            else:
                self.parts[everything(self.state)] = count + 1
        self.whole = b"".join(answer for answer, _ in self.answers)

    def make(self, kind, rng):
        """Makes the store that stands before the session."""
        changes = Changes(rng)
        records = [changes.next() for _ in range(60)]
        live = self.room.open(self.name)
        wanted = taken(self.state, records).reply([b"print"])
        expect(live.ask(*records, [b"print"]), wanted, "the answer of the session that made the store")
        live.end(is_killed=kind == KINDS[2])

    def begin(self):
        """Puts the store that stands before the session in the place of the one that is tried."""
        self.room.remove("tried.db")
        if os.path.exists(self.room.path(self.name)):
            self.room.copied(self.name, "tried.db")

    def certain(self, size, is_whole):
        """How many changes are certain once so many bytes of the answers went out, which end after one where it is whole."""
        certain = start = 0
        for answer, count in self.answers:
            if start >= size:
                break
            start, certain = start + len(answer), count
        if is_whole and start != size:
            raise Wrong(f"{size} bytes of answers end within one")
        return certain

    def see_next(self, options, certain):
        """Starts over the store that is tried: it has to have a first part of the session's changes, with those that are
        certain; how many it has."""
        code, out, _ = refusal_of(self.room, self.room.words("tried.db", *options), LOOK)
        if code:
            raise Wrong(f"the next start is refused by {code}")
        return self.part(out, certain)

    def part(self, out, certain):
        """How many changes those are that a start shows."""
        if out not in self.parts:
            raise Wrong(f"the next start answers {shown(out)}, which is over no first part of the changes")
        if self.parts[out] < certain:
            raise Wrong(f"the next start has {self.parts[out]} changes, and {certain} stood before an answer")
        return self.parts[out]


def preloaded(room, name):
    """The path of a C file of this folder, made to be preloaded."""
    if not shutil.which("cc"):
        raise LeftOut("there is no C compiler")
    path = room.path(f"{name}.so")
    if not os.path.exists(path):
        subprocess.run(["cc", "-O2", "-shared", "-fPIC", "-o", path, f"{ROOT}/scripts/{name}.c", "-ldl"], check=True)
    return path


def run_preloaded(room, words, given, env, file):
    """Runs a session with what env says, and a file for what is told; status, output and standard error."""
    how = {"cwd": room.folder, "stdout": subprocess.PIPE, "stderr": subprocess.PIPE, "pass_fds": (file.fileno(),)}
    env = {"PATH": "/usr/bin:/bin", "STORE": room.path("tried.db"), **env}
    try:
        ran = subprocess.run([room.program, "live", *words], input=given, env=env, timeout=SECONDS, **how)
    except subprocess.TimeoutExpired:
        raise Wrong(f"a session ran past its {SECONDS} seconds") from None
    return ran.returncode, ran.stdout, ran.stderr


def recorded(room, options, given):
    """Runs a session over the store that is tried; its status, output and standard error, and its calls in their order."""
    with tempfile.TemporaryFile(dir=room.folder) as file:
        env = {"LD_PRELOAD": preloaded(room, "store_calls"), "RECORD": str(file.fileno())}
        ran = run_preloaded(room, room.words("tried.db", *options), given, env, file)
        file.seek(0)
        return ran, list(calls_of(file.read()))


def calls_of(data):
    """The calls of a record."""
    at = 0
    while at < len(data):
        kind, file, place, size = RECORD.unpack_from(data, at)
        at += RECORD.size
        length = size if kind == b"w" else 0
        yield Call(kind.decode(), file.decode(), place, size, data[at : at + length])
        at += length


# ---- each call refused in turn


def refused_run(story, options, env):
    """A session that meets a refusal, and the start after it: the code that it said, or None where it met none."""
    room = story.room
    story.begin()
    with tempfile.TemporaryFile(dir=room.folder) as told:
        env = {**env, "TOLD": str(told.fileno())}
        status, out, err = run_preloaded(room, room.words("tried.db", *options), story.given, env, told)
        was_refused = told.seek(0, os.SEEK_END) > 0
    if not story.whole.startswith(out):
        raise Wrong(f"it answers {shown(out)}")
    said = re.fullmatch(rb"datacube: (.+)\n", err)
    if (status, out, err) == NO_WORDS:
        code = "no words"
    elif (status, out, err) == (story.state.status(), story.whole, b""):
        code = "all answers"
    elif said and status == (3 if said[1] in (b"S1", b"schema unreadable") else 1):
        code = said[1].decode()
    else:
        raise Wrong(f"status {status} with {shown(out)} and {shown(err)}")
    if code.startswith("G6"):
        expect(code, f"G6 {len(out)}", "the bytes that went out")
    certain = story.certain(len(out), is_whole=not code.startswith("G6"))
    story.see_next(options, len(story.parts) - 1 if code == "all answers" else certain)
    return code if was_refused else None


def in_turn(story, options, cause, turns):
    """Refuses these calls of a kind in turn until a session meets no refusal; how often each code was said."""
    counts, env = collections.Counter(), {"LD_PRELOAD": preloaded(story.room, cause.file)}
    for turn in turns:
        value = cause.value.format(turn)
        try:
            code = refused_run(story, options, {**env, cause.variable: value})
            if code not in (None, "all answers", "no words") and not re.fullmatch(cause.codes, code):
                raise Wrong(f"it says {code}")
        except Wrong as why:
            raise Wrong(f"{story.kind} {' '.join(options)}, {value}: {why}") from None
        if code is None:
            return counts
        counts[re.sub(r"(?<=G6) \d+", "", code)] += 1
    return counts


def refused_in_turn(room, rng, name):
    """One cause over each kind of store, with `--wary` and without; how often each code was said."""
    counts, cause = collections.Counter(), CAUSES[name]
    step = cause.short if room.is_short else 1 if room.is_each else cause.long
    for kind in KINDS:
        story = Story(room, kind, rng)
        for options in ([], ["--wary"]):
            counts += in_turn(story, options, cause, itertools.count(rng.randint(1, step), step))
    return f"{sum(counts.values())} sessions: " + ", ".join(f"{count} {code}" for code, count in sorted(counts.items()))
