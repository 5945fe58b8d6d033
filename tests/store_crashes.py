"""What a crash of the machine may leave of a store, at each moment of a session, and what a start makes of it.

The calls of a session on the store's files are recorded. Between any two of them a crash may leave of each file what was
synced, and any part of the calls after its last sync: each whole, lost or torn, in whatever order. Of a torn write there
is a first part, or each byte old or new; with `--wary` it may have left any bytes. Past the synced end there may be any
bytes either way. A file may be gone until its folder is synced after it was made.
"""
import collections
import hashlib
import os
import random

import programs
from store_calls import KINDS, LOOK, Story, recorded
from store_rooms import Wrong, expect

PAGE, FRAME = 4096, 4120
NAMES = {"d": "", "l": "-wal"}
# (what becomes of a call that wasn't synced: it is lost, whole, torn after so many bytes, or torn into bytes that are
# told by a seed)
Fate = collections.namedtuple("Fate", "name number", defaults=(0,))
OLD_OR_NEW = bytes(128) + b"\xff" * 128
LOST, WHOLE = Fate("lost"), Fate("whole")
# (what became of all calls that weren't synced, which of the files have other bytes past their synced end, and which are gone)
Crash = collections.namedtuple("Crash", "fates beyond gone", defaults=("", ""))


class File(collections.namedtuple("File", "synced pending is_named", defaults=((), True))):
    """A file on a disk: what was synced, and the calls after that; `is_named` where its folder was synced too."""

    def after(self, call):
        """The file once a call was made."""
        if call.kind == "o":
            return File(b"", (), False)
        if call.kind == "s":
            return File(self.now(), (), self.is_named)
        return File(self.synced, (*self.pending, call), self.is_named)

    def now(self):
        """What the file has for a program that reads it."""
        content = self.synced
        for call in self.pending:
            content = made(content, call, WHOLE)
        return content


def made(content, call, fate):
    """What a file has after a call that met this fate."""
    if fate == LOST:
        return content
    if call.kind == "c":
        return content[: call.at].ljust(call.at, b"\0")
    data, old = call.data, content[call.at : call.at + call.size].ljust(call.size, b"\0")
    if fate.name == "part":
        data = data[: fate.number]
    elif fate.name == "bytes":
        mask = int.from_bytes(random.Random(fate.number).randbytes(call.size).translate(OLD_OR_NEW), "big")
        data = (int.from_bytes(old, "big") & ~mask | int.from_bytes(data, "big") & mask).to_bytes(call.size, "big")
    elif fate.name == "any":
        data = random.Random(fate.number).randbytes(call.size)
    return content[: call.at].ljust(call.at, b"\0") + data + content[call.at + len(data) :]


class Moment(collections.namedtuple("Moment", "files sent", defaults=(0,))):
    """The disk between two calls, and how many bytes of the answers went out."""

    def after(self, call):
        if call.kind == "a":
            return Moment(self.files, self.sent + call.size)
        if call.file == "f":
            return Moment({name: File(it.synced, it.pending) for name, it in self.files.items()}, self.sent)
        return Moment({**self.files, call.file: self.files[call.file].after(call)}, self.sent)

    def pending(self):
        return [call for file in self.files.values() for call in file.pending]

    def image(self, crash):
        """What a crash leaves of each file, or None where it is gone."""
        fates, left = iter(crash.fates), {}
        for name, file in self.files.items():
            content = file.synced
            for call in file.pending:
                content = made(content, call, next(fates))
            if name in crash.beyond and content:
                end = len(file.synced)
                content = content[:end] + random.Random(end).randbytes(max(len(content) - end, 0))
            left[name] = None if name in crash.gone else content
        return left

    def crashes(self, rng, is_wary):
        """The crashes that are tried at this moment."""
        pending = self.pending()
        for fates in subsets(len(pending), rng):
            yield Crash(fates)
        for at, call in enumerate(pending):
            for fate in torn(call, rng, is_wary) if call.kind == "w" else ():
                for before, behind in ((WHOLE, LOST), (WHOLE, WHOLE), (LOST, LOST), (LOST, WHOLE)):
                    yield Crash((*[before] * at, fate, *[behind] * (len(pending) - at - 1)))
        for name in ("d", "l", "dl"):
            yield Crash((WHOLE,) * len(pending), beyond=name)
            if all(not self.files[it].is_named for it in name):
                yield Crash((WHOLE,) * len(pending), gone=name)


def subsets(count, rng):
    """Which of some calls are lost: all, none, each alone, all but each, and some by chance."""
    yield (LOST,) * count
    yield (WHOLE,) * count
    for at in range(count):
        yield tuple(LOST if it == at else WHOLE for it in range(count))
        yield tuple(WHOLE if it == at else LOST for it in range(count))
    for _ in range(min(2**count, 8) if count > 2 else 0):
        yield tuple(rng.choice((LOST, WHOLE)) for _ in range(count))


def torn(call, rng, is_wary):
    """How a write may be torn."""
    ends = {1, 4, 8, 24, call.size // 2, call.size - 1, *range(PAGE, call.size, PAGE), *range(FRAME, call.size, FRAME)}
    for end in sorted(it for it in ends if 0 < it < call.size):
        yield Fate("part", end)
    for _ in range(2):
        yield Fate("bytes", rng.randrange(2**32))
        if is_wary:
            yield Fate("any", rng.randrange(2**32))


def moments(room, options, given):
    """Runs a session over the store that is tried: what it said, and its moments, the first one before its first call."""
    found = [Moment({name: File(read(room.path("tried.db" + end))) for name, end in NAMES.items()})]
    ran, calls = recorded(room, options, given)
    for call in calls:
        found.append(found[-1].after(call))
    return ran, found


def read(path):
    """The bytes of a file, or None where there is none."""
    return programs.read(path) if os.path.exists(path) else None


def first_moments(story, options):
    """Each moment of a session, with how many of its changes are certain then."""
    story.begin()
    ran, found = moments(story.room, options, story.given)
    expect(ran, (story.state.status(), story.whole, b""), "a session whose calls are recorded")
    known = [(it, story.certain(it.sent, is_whole=False)) for it in found]
    return [*known[:-1], (known[-1][0], len(story.parts) - 1)]


def next_moments(story, options, certain):
    """The same of a start over an image: what it shows in an answer is certain from then on."""
    (status, out, err), found = moments(story.room, options, LOOK)
    expect((status in (0, 4), err), (True, b""), "a start over an image")
    have = story.part(out, certain)
    return [(it, have if it.sent else certain) for it in found]


def images(known, options, rng):
    """The images that crashes leave, each once: its moment, its crash, and how many changes are certain at the last
    moment that may leave it."""
    found = {}
    for moment, certain in known:
        for crash in moment.crashes(rng, bool(options)):
            key = hashlib.sha256()
            for content in moment.image(crash).values():
                key.update(b"-" if content is None else b"%d " % len(content) + content)
            found[key.digest()] = moment, crash, certain
    return list(found.values())


def some_images(known, options, rng, count):
    """One image of each of so many moments."""
    for moment, certain in rng.choices(known, k=count):
        yield moment, rng.choice(list(moment.crashes(rng, bool(options)))), certain


def put(room, image):
    """Puts an image in the place of the store that is tried."""
    room.remove("tried.db")
    for name, content in image.items():
        if content is not None:
            room.write("tried.db" + NAMES[name], content)


def see(story, options, moment, crash, certain):
    """Starts over an image; whether it has changes that weren't certain."""
    put(story.room, moment.image(crash))
    try:
        return story.see_next(options, certain) > certain
    except Wrong as why:
        calls = ", ".join(f"{' '.join(map(str, it[:4]))} {' '.join(map(str, fate))}" for it, fate in zip(moment.pending(), crash.fates))
        said = f"after {moment.sent} bytes of answers, with {calls}, {crash.beyond} beyond, {crash.gone} gone: {why}"
        raise Wrong(f"{story.kind} {' '.join(options)}, {said}") from None


def crash_images(room, rng):
    """Sessions over each kind of store, with `--wary` and without."""
    count = more = 0
    for kind in KINDS:
        story = Story(room, kind, rng)
        for options in ([], ["--wary"]):
            known = first_moments(story, options)
            for it in some_images(known, options, rng, 10) if room.is_short else images(known, options, rng):
                more += see(story, options, *it)
                count += 1
    return f"{count} images, of which {more} have changes that weren't certain"


def second_crashes(room, rng):
    """The same, where the start over an image meets a crash too."""
    count = 0
    for kind in KINDS:
        story = Story(room, kind, rng)
        for options in ([], ["--wary"]):
            known = first_moments(story, options)
            for moment, crash, certain in some_images(known, options, rng, 1 if room.is_short else 12):
                put(room, moment.image(crash))
                again = next_moments(story, options, certain)
                for it in some_images(again, options, rng, 3 if room.is_short else 20):
                    see(story, options, *it)
                    count += 1
    return f"{count} images"
