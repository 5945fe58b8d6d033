"""A folder in which a program is run on files, and which says of an answer that isn't right all that it takes to see it again: a
case in the form of cases/*.case."""
import collections
import os
import re
import shutil

import programs

# (how many times as many generated cases are tried as in the gate; conftest.py sets it)
TIMES = 1
# (how many cases of each generated test were tried)
TRIED = collections.Counter()
CODED = re.compile(r"\\x[0-9A-F]{2}")
PLAIN = re.compile(r"[A-Za-z0-9_./=-]+")
QUOTED = re.compile(r"([^\x00-\x1f\x7f-\x9f\udc80-\udcff\\'${]|\\(?!x))*")
IN_FILES = re.compile(r"[\x00-\x1f\x7f-\x9f\udc80-\udcff]|\\(?=x)|##")
IN_WORDS = re.compile(r'[\x00-\x1f\x7f-\x9f\udc80-\udcff\\"$`{]')


class Differs(AssertionError):
    """An answer that isn't right: why, and the case."""

    def __init__(self, why, block):
        super().__init__(f"{why}\n\n{block}")
        self.block = block


class Room(programs.Room):
    """A folder in which cases are tried, one after the other; what one of them wrote there is known."""

    def __init__(self, program, folder):
        super().__init__(program, folder)
        self.name, self.files, self.earlier = "", {}, []

    def begin(self, name):
        """Begins a case of a name, in an empty folder."""
        self.name, self.files, self.earlier = name, {}, []
        for it in os.listdir(self.folder):
            path = f"{self.folder}/{it}"
            shutil.rmtree(path) if os.path.isdir(path) else os.unlink(path)

    def write(self, name, data):
        """Writes a file, and gives its name."""
        self.files[name] = data
        return super().write(name, data)

    def expect(self, words, wanted, given=b"", leaves=False):
        """Runs the program, whose status, output and standard error have to be those that are wanted. A run that leaves files is a
        part of the cases behind it."""
        self.compare(self.run(words, given), words, wanted, given)
        if leaves:
            self.earlier.append((words, given))

    def compare(self, got, words, wanted, given=b""):
        """Ends the case where what came of a run isn't what is wanted."""
        why = differs(got, wanted)
        if why:
            self.fail(why, words, wanted, given)

    def fail(self, why, words, wanted, given=b""):
        """Ends the case, which says why."""
        raise Differs(why, self.block(why, words, wanted, given))

    def block(self, why, words, wanted, given):
        """The case as a block of a file of cases."""
        lines = [f"case {self.name.removeprefix('test_').replace('_', ' ')}", f"# {why}", "words " + " ".join(map(word, words))]
        for name, data in self.files.items():
            lines += file_of(name, data)
        for earlier, typed in self.earlier:
            lines += ["before " + " ".join(map(word, earlier)), *lines_of(typed)]
        lines += ["stdin typed", *file_of("typed", given)] if given else []
        status, out, err = wanted
        lines += ["out coded", *lines_of(out)] if out else []
        lines += [f"err {err.decode(errors='replace').rstrip()}"] if err else []
        return "\n".join(lines + ([f"status {status}"] if status else [])) + "\n"


def word(it):
    """A word of a command, as a line of a case has it."""
    text = it if isinstance(it, str) else it.decode(errors="surrogateescape")
    if PLAIN.fullmatch(text):
        return text
    return f"'{text}'" if QUOTED.fullmatch(text) else '"' + coded(text, IN_WORDS) + '"'


def file_of(name, data):
    """The lines of a case that make a file."""
    lines = lines_of(data)
    return [f"{'coded' if any(CODED.search(it) for it in lines) else 'file'} {name}", *lines]


def lines_of(data):
    """The lines of a file, as those of a case have it."""
    lines = data.decode(errors="surrogateescape").split("\n")
    return [f"| {coded(it, IN_FILES)}" if it else "|" for it in lines[:-1]] + ([f"|. {coded(lines[-1], IN_FILES)}"] if lines[-1] else [])


def coded(text, special):
    r"""A text in which what is special in a case stands as \xFF."""
    bytes_of = lambda found: "".join(f"\\x{it:02X}" for it in found[0].encode(errors="surrogateescape"))
    return special.sub(bytes_of, text)


def said(line):
    """What stands on standard error for the line that a failure tells, or for none."""
    return f"datacube: {line}\n".encode() if line else b""


def differs(got, wanted):
    """Says how a status, an output and a standard error differ from those that are wanted, or gives None."""
    if (got[0], got[2]) != (wanted[0], wanted[2]):
        return f"status {wanted[0]} and {wanted[2]!r} were to come, and {got[0]} and {got[2][:300]!r} came"
    if got[1] == wanted[1]:
        return None
    place = len(os.path.commonprefix([got[1], wanted[1]]))
    ours, theirs = (it[max(place - 40, 0) : place + 80] for it in (got[1], wanted[1]))
    return f"at byte {place} {theirs!r} was to come, and {ours!r} came"
