#!/usr/bin/env python3
"""Runs the program on the cases of the folder cases/, and says `N passed, M failed`.

    scripts/cases.py [-v] [--folder FOLDER] [--program PATH] [--first] [NAME...]

All cases of the folder are run, or those whose name has one of the words, on the program that stands at PATH, else on
the one that `./datacube` would run; `--first` ends at the first case that fails. `tests/test_cases.py` has each as a
test of pytest.

Each case runs in a folder of its own, which has copies of the files in cases/files, beside one of examples/, which
is ../examples. A case is a block of lines:

    case NAME
    words WORDS          the words after `datacube`, quoted as in a shell; \\xFF there is a byte, and a word with
                         {1..3} in it is three words
    file NAME            a file with the lines below it, each behind `| `; a last line behind `|. ` has no line end;
                         `|* N TEXT` is N lines, in which # is the line's number from 1, and #%7 what is left of it
                         when it is divided by 7; a NAME with {1..3} in it is three files, in which ## is the file's
                         number
    coded NAME           a file as `file`, in which \\xFF is a byte
    before WORDS         a run of its own before the one that is tried, on the lines below it, in which \\xFF is a byte, as
                         standard input; it has to end with status 0 or 4
    folder NAME          a folder
    locked NAME          takes all rights from a file
    link NAME FILE       a symbolic link to a file
    alias NAME FILE      one more name of a file: a hard link
    bytes NAME N         a file of N bytes: the sample schema and then a comment
    stdin FILE           what stands on standard input, and `stdin` alone the lines below it; it is empty else, and
                         `stdin closed` closes it
    stdout WAY           where the output goes: `closed`, `full` (a full disk), `gone` (a pipe that nobody reads), or a number:
                         a file that has room for so many bytes
    out                  the output, as the lines below it; `out coded` as lines in which \\xFF is a byte, `out FILE` as that
                         file, `out has TEXT` with this text in it
    err TEXT             the line on standard error, and `err` alone the lines below it; `err has TEXT` with this text in it
    variable NAME=VALUE  a variable of the environment
    status N             the status
    row A || B || C      the case once more, with A for $1, B for $2 and C for $3 in all its lines; a \\n in a value is
                         the end of a line. A case with rows is those alone, each named after its first value

No line `out` or `err` means that nothing is written there, and no `status` means 0.
"""
import contextlib
import functools
import multiprocessing
import os
import re
import resource
import shlex
import shutil
import signal
import subprocess
import sys
import tempfile
from concurrent.futures import ProcessPoolExecutor

sys.dont_write_bytecode = True
import programs

ROOT = programs.ROOT
SECONDS = 60
NOBODY = ["setpriv", "--reuid=65534", "--regid=65534", "--clear-groups"]
NUMBER = re.compile(r"(?<!#)#(?!#)(?:%(\d+))?")
RANGE = re.compile(r"\{(\d+)\.\.(\d+)\}")


class Case:
    """A case: what there is before the run, and what is wanted of it."""

    def __init__(self, name, place=""):
        self.name, self.place = name, place
        self.words = []
        self.before = []
        self.made = []
        self.stdin = None
        self.stdout = None
        self.out = [("is", b"")]
        self.err = [("is", b"")]
        self.variables = {}
        self.status = 0


def read_cases(path):
    """Reads the cases of a file."""
    blocks = []
    with open(path, encoding="utf-8") as file:
        for number, line in enumerate(file, 1):
            if line.startswith("case "):
                blocks.append([])
            if blocks:
                blocks[-1].append((number, line.rstrip("\n")))
            elif line.strip() and not line.startswith("#"):
                sys.exit(f"{path}:{number}: a line belongs to no case")
    return [read_case(block, path) for it in blocks for block in with_rows(it)]


def with_rows(block):
    """Gives a block once for each of its rows, with the row's values in it, or the block where it has none."""
    rows = [line[4:].split(" || ") for _, line in block if line.startswith("row ")]
    rest = [it for it in block if not it[1].startswith("row ")]
    return [with_values(rest, values) for values in rows] or [rest]


def with_values(block, values):
    """Gives a block with a row's values in it, as lines of their own where a value has several."""
    made = []
    for number, line in block:
        mark = re.match(r"(\|[.*]?) ", line)
        for at, value in enumerate(values, 1):
            line = line.replace(f"${at}", value.replace("\\n", "\n" + (mark[0] if mark else "")))
        made += [(number, it) for it in line.split("\n")]
    number, name = made[0]
    return [(number, f"{name}: {values[0]}"), *made[1:]]


def read_case(block, path):
    """Reads the lines of a case."""
    case, lines = Case(block[0][1][5:], f"{os.path.relpath(path, ROOT)}:{block[0][0]}"), None
    for number, line in block[1:]:
        place = f"{path}:{number}"
        if line.startswith("|"):
            if lines is None:
                sys.exit(f"{place}: a line belongs to no file and no output")
            lines += read_lines(line, place)
            continue
        lines = None
        if line and not line.startswith("#"):
            word, _, rest = line.partition(" ")
            lines = read_line(case, word, rest, place)
    return case


def read_lines(line, place):
    """Reads a line of a file or an output, which may stand for several."""
    if line.startswith("|* "):
        count, _, text = line[3:].partition(" ")
        value = lambda found, at: str(at % int(found[1]) if found[1] else at)
        return [NUMBER.sub(lambda found: value(found, at), text) + "\n" for at in range(1, int(count) + 1)]
    if line.startswith("|. "):
        return [line[3:]]
    if line != "|" and not line.startswith("| "):
        sys.exit(f"{place}: neither `| `, `|. ` nor `|* `")
    return [line[2:] + "\n"]


def read_line(case, word, rest, place):
    """Takes a line of a case, and gives the list for the lines below it."""
    lines = []
    if word == "words":
        case.words = words_in(rest)
    elif word == "before":
        case.before.append((words_in(rest), lines))
    elif word in ("file", "coded", "folder", "locked"):
        case.made += [(word, name, (number, lines)) for number, name in enumerate(spread(rest), 1)]
    elif word == "bytes":
        name, _, count = rest.partition(" ")
        case.made.append((word, name, int(count)))
    elif word in ("link", "alias"):
        name, _, file = rest.partition(" ")
        case.made.append((word, name, file))
    elif word == "stdin":
        case.stdin = rest or "stdin"
        if not rest:
            case.made.append(("file", "stdin", (1, lines)))
    elif word == "stdout":
        case.stdout = rest
        case.out = []
    elif word == "status":
        case.status = int(rest)
    elif word == "out" and rest in ("", "coded"):
        case.out = [(rest or "lines", lines)]
    elif word == "out" and not rest.startswith("has "):
        case.out = [("file", rest)]
    elif word in ("out", "err") and rest.startswith("has "):
        wanted = getattr(case, word)
        if wanted == [("is", b"")]:
            wanted.clear()
        wanted.append(("has", rest[4:].encode()))
    elif word == "err" and not rest:
        case.err = [("lines", lines)]
    elif word == "err":
        case.err = [("is", rest.encode() + b"\n")]
    elif word == "variable":
        name, _, value = rest.partition("=")
        case.variables[name] = value
    else:
        sys.exit(f"{place}: {word} means nothing here")
    return lines


def words_in(text):
    """Gives the words of a line, each as bytes."""
    return [bytes_of(it) for word in shlex.split(text.replace("\\x", "\\\\x")) for it in spread(word)]


def spread(text):
    """Gives the texts that a text with {1..3} stands for, or the text alone."""
    found = RANGE.search(text)
    if not found:
        return [text]
    return [text[: found.start()] + str(it) + text[found.end() :] for it in range(int(found[1]), int(found[2]) + 1)]


def bytes_of(text):
    r"""Gives a text's bytes, where \xFF is a byte."""
    return re.sub(rb"\\x([0-9A-Fa-f]{2})", lambda it: bytes([int(it[1], 16)]), text.encode())


def make(room, kind, name, what):
    """Makes what a case wants to be there before the run."""
    path = f"{room}/{name}"
    if kind in ("file", "coded"):
        number, lines = what
        text = "".join(lines).replace("##", str(number))
        programs.write(path, bytes_of(text) if kind == "coded" else text)
    elif kind == "folder":
        os.mkdir(path)
    elif kind == "locked":
        os.chmod(path, 0)
    elif kind == "link":
        os.symlink(what, path)
    elif kind == "alias":
        os.link(f"{room}/{what}", path)
    elif kind == "bytes":
        start = programs.read(f"{room}/sample.toml")
        programs.write(path, start + b"#" * (what - len(start)))


def wanted_of(what):
    """Gives what is wanted of an output, with lines and files as bytes."""
    kind, value = what
    if kind == "lines":
        return "is", "".join(value).encode()
    if kind == "coded":
        return "is", bytes_of("".join(value))
    if kind == "file":
        return "is", programs.read(f"{ROOT}/{value}")
    return kind, value


def wrong(name, wanted, got):
    """Says what is wrong of an output, or gives None."""
    for kind, value in map(wanted_of, wanted):
        if kind == "is" and got != value:
            return f"{name} is {got!r}, and not {value!r}"
        if kind == "has" and value not in got:
            return f"{name} is {got!r}, without {value!r}"
    return None


def run(case, room):
    """Runs a case in a folder, and says what is wrong, or gives None."""
    for made in case.made:
        make(room, *made)
    program = [f"{room}/../datacube"]
    if os.geteuid() == 0:
        give_away(room)
        program = NOBODY + program
    for earlier, lines in case.before:
        ran = subprocess.run(program + earlier, cwd=room, input=bytes_of("".join(lines)), capture_output=True, timeout=SECONDS)
        if ran.returncode not in (0, 4):
            return f"a run before it ends with status {ran.returncode}: {ran.stderr!r}"
    words = program + case.words
    how = {"cwd": room, "stderr": subprocess.PIPE, "stdin": subprocess.DEVNULL, "stdout": subprocess.PIPE, "timeout": SECONDS}
    how["env"] = {**os.environ, **case.variables}
    closed = [fd for fd, way in ((0, case.stdin), (1, case.stdout)) if way == "closed"]
    if case.stdin and case.stdin != "closed":
        how["stdin"] = open(f"{room}/{case.stdin}", "rb")
    if case.stdout == "full":
        how["stdout"] = open("/dev/full", "wb")
    if case.stdout == "gone":
        reading, how["stdout"] = os.pipe()
        os.close(reading)
    if closed:
        how["preexec_fn"] = lambda: [os.close(fd) for fd in closed]
    has_room = case.stdout is not None and case.stdout.isdigit()
    if has_room:
        how["stdout"] = open(f"{room}/stdout", "wb")
        how["preexec_fn"] = lambda: limit_files(int(case.stdout))
    try:
        ran = subprocess.run(words, **how)
    except subprocess.TimeoutExpired:
        return f"it doesn't end in {SECONDS} seconds"
    out = programs.read(f"{room}/stdout") if has_room else ran.stdout or b""
    found = [wrong("the output", case.out, out), wrong("standard error", case.err, ran.stderr)]
    if ran.returncode != case.status:
        found.append(f"the status is {ran.returncode}, and not {case.status}")
    return "; ".join(it for it in found if it) or None


def limit_files(size):
    """Lets no file of the process grow past a size: a write takes what fits, and the next one fails."""
    signal.signal(signal.SIGXFSZ, signal.SIG_IGN)
    resource.setrlimit(resource.RLIMIT_FSIZE, (size, size))


def give_away(room):
    """Lets nobody, as whom the program is run, own the folder of a case."""
    for at, folders, files in os.walk(room):
        for it in [at, *(f"{at}/{name}" for name in files)]:
            os.chown(it, 65534, 65534, follow_symlinks=False)


def become_nobody():
    """Has a process that root began be nobody, as whom the program is run."""
    if os.geteuid() == 0:
        os.setgroups([])
        os.setregid(65534, 65534)
        os.setreuid(65534, 65534)


def named(case):
    """The files in cases/files whose names a case has anywhere, and so all that it may reach; the sample schema is in any."""
    text = repr(vars(case))
    return [it for it in os.listdir(f"{ROOT}/cases/files") if it in text or it == "sample.toml"]


def try_case(case, folder, room):
    """Runs a case in a folder of its own, and says what is wrong, or gives None."""
    os.mkdir(f"{room}/{folder}")
    for it in named(case):
        shutil.copyfile(f"{ROOT}/cases/files/{it}", f"{room}/{folder}/{it}")
    return run(case, f"{room}/{folder}")


def all_cases(folder):
    """The cases of all files of a folder."""
    files = sorted(it for it in os.listdir(f"{ROOT}/{folder}") if it.endswith(".case"))
    return [it for name in files for it in read_cases(f"{ROOT}/{folder}/{name}")]


@contextlib.contextmanager
def room_of(program):
    """A folder in which cases are tried on a copy of a program, each in a folder of its own."""
    with tempfile.TemporaryDirectory(prefix="datacube-cases-") as room:
        os.chmod(room, 0o755)
        shutil.copy(program, f"{room}/datacube")
        if os.geteuid() == 0:
            os.chown(room, 65534, 65534)
        if program.endswith(".py"):
            # The oracle, which takes the forms of a cube and the schemas of files from files beside it.
            for name in ("views.py", "guess.py", "oracle.py"):
                shutil.copy(f"{ROOT}/scripts/{name}", room)
        shutil.copytree(f"{ROOT}/examples", f"{room}/examples")
        yield room


def tried(cases, program, first):
    """Runs the cases on a program, and gives each with what is wrong of it; no more once one failed, where first is so."""
    processes = len(os.sched_getaffinity(0))
    with room_of(program) as room, ProcessPoolExecutor(processes, multiprocessing.get_context("fork"), become_nobody) as pool:
        faults = pool.map(functools.partial(try_case, room=room), cases, range(len(cases)), chunksize=4)
        for case, fault in zip(cases, faults):
            yield case, fault
            if first and fault:
                return pool.shutdown(cancel_futures=True)


def try_named(some, given):
    """Runs those of some cases that the words of a script name, on its program; gives the status."""
    if not os.access(given.program, os.X_OK):
        sys.exit(f"no program is there to run: {given.program}")
    named, tally = [it for it in some if not given.name or any(word in it.name for word in given.name)], programs.Tally()
    for case, fault in tried(named, given.program, given.first):
        tally.count(fault is None)
        if fault or given.v:
            print(f"{'FAILED' if fault else 'passed'}: {case.name}" + (f": {fault}" if fault else ""))
    return tally.end()


def main():
    given = programs.words_of(__doc__, folder="cases", v=False, program=None, first=False, name={"nargs": "*"})
    return try_named(all_cases(given.folder), given)


if __name__ == "__main__":
    sys.exit(main())
