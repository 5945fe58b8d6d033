#!/usr/bin/env python3
"""Runs what documents show, each command of a page in the page's order, and holds what it prints beside what the page shows;
then follows the links of all documents (links.py).

    scripts/pages.py [--program PATH] [PAGE...]

The pages are those of the table PAGES, or those whose path has one of the words. Each has a folder of its own with some of this
repository (COPIED), in which `datacube` is the program at PATH, else the one that `./datacube` would run. A page is read so:

- A block of kind `sh` or `bash` is run, the blocks of a page one after the other in one bash; one of kind `python` or `r` by
  that. Each command ends with status 0 or 4: where another is to come, the page shows it (`|| echo "status $?"`).
- A block without a kind is what the last block above it printed, on standard output and standard error.
- A line that ends with `# prints TEXT` prints that, and with `# prints what FILE has` what that file has; a block below it
  has nothing of this line.
- The command at the end of a table's row prints what the case of the same words in CASES wants. A row with a code, what it
  means and how to mend it says what `datacube explain` says.
- `<!-- file: NAME -->` above a block: it is a file of the reader's own, which is made. `<!-- from: PATH -->`: its lines stand
  so in a file of the repository, or, where it is a command, in what this prints; a line `...` stands for some that are left
  out. `<!-- before: COMMANDS -->`: these are run before the block, unseen.

Any other block is a fault, and nothing is left out but what LEFT_OUT, LEFT_OUT_KINDS and NEEDS say. Then in each page each text
that is shown is spoiled by one byte, which has to be noticed. The last line is `N passed, M failed`.
"""
import collections
import concurrent.futures
import contextlib
import functools
import os
import re
import shlex
import shutil
import subprocess
import sys
import tempfile
import textwrap

sys.dont_write_bytecode = True
import cases
import links
import programs
import sql

ROOT = programs.ROOT
SQL = "docs/SQL.md"
# The pages, and where in the repository the reader of each stands.
PAGES = {
    "README.md": ".",
    "docs/INSTALL.md": ".",
    "docs/TUTORIAL.md": ".",
    "docs/STORE.md": "examples/shop",
    SQL: "examples/shop",
    "docs/FORMATS.md": ".",
    "docs/CLUSTER.md": ".",
    "docs/EXPLORER.md": ".",
    "docs/HOW_IT_IS_PROVED.md": ".",
    "examples/live/README.md": "examples/live",
    "python/README.md": ".",
}
# What of the repository a page's folder has.
TABLED, CASES = "cases/files", "cases/own_files.case"
COPIED = ("examples", "scripts", TABLED, "crates/cube_ledger")
# What isn't run, by the start of its line, and why.
INSTALLS = "tests/test_installing.py tries it"
MACHINES = "it is for machines of one's own: scripts/cluster.sh tries it"
SERVES = "it begins a server of its own, and is a part of the gate by itself"
LEFT_OUT = {
    "scripts/test.sh": "it is the gate, which runs this script",
    "scripts/install.sh": INSTALLS,
    "scripts/deb.sh": INSTALLS,
    "scripts/explorer.sh": "it is a part of the gate by itself, or takes pictures",
    "scripts/own_page.sh": "it is a part of the gate by itself, or takes pictures",
    "scripts/page.py": "it is a part of the gate by itself",
    "scripts/d3.py": "it is a part of the gate by itself, or takes packages",
    "scripts/page.sh": "it takes the kit",
    "../../scripts/sql.py  ": SERVES,
    "../../scripts/sql.py schema": SERVES,
    "rt ": "proving takes the kit, and is the gate's",
    "python3 watch.py ../": "Ctrl-C alone ends it: it is run with --once",
    "env time ": "it takes Debian's package time, and says how long it took",
    "cluster/datacube_dask.py ": MACHINES,
    "dask ": MACHINES,
    "tls=": MACHINES,
    "openssl ": MACHINES,
    "id=$(sbatch ": "Slurm isn't installed",
    "sbatch ": "Slurm isn't installed",
    "parts = sc.": "Spark isn't installed",
}
# Kinds of blocks that aren't run, and why.
LEFT_OUT_KINDS = {"console": "its numbers are those of a moment: tests/test_progress.py looks at the progress line"}
# What blocks and their marks name that need not be installed: where it isn't, the block is left out.
NEEDS = ("clickhouse-client", "pandas", "parallel", "psql", "Rscript", "soffice", "sqlite3", "zstd")
# What runs the blocks of each kind; bash does it itself.
RUNS = {"sh": "", "bash": "", "python": "$PYTHON -", "r": "Rscript -"}
SECONDS = 120

BLOCK = re.compile(r"((?:^<!-- \w+: .*? -->\n)*)^```(\w*)\n(.*?)^```$", re.MULTILINE | re.DOTALL)
MARK = re.compile(r"<!-- (\w+): (.*?) -->")
LINE = re.compile(r"(?<!\\)\n")
PRINTS = re.compile(r"^(.*\S) +# prints (?:what (?P<file>\S+) has|(?P<text>.*))$")
ROW = re.compile(r"^\|.*\| `(datacube [^`]*)` \|$", re.MULTILINE)
CODE_ROW = re.compile(r"^\| `([A-Z]\d+)(?: [a-z])?` \| (.*?) \| (.*?) \|$", re.MULTILINE)
LEFT_LINES = re.compile(r"^ *(?:// )?\.\.\.\n", re.MULTILINE)
# (what stands behind the output of each command)
END = "\x1e"
# For bash: what notes each command that fails, on file 3, with the line `at` of the page.
BEGIN = """set -o pipefail
trap 'status=$?; [ $status = 4 ] || echo "$at: status $status: $BASH_COMMAND" >&3' ERR
"""

# A block of a page: its kind, its text, its marks, and where in the page the text begins.
Block = collections.namedtuple("Block", "kind text marks place")
# What a page shows: the line, the text (None: all that the other command printed), where in the page it may be spoiled, the
# numbers of the commands that print it, or that of the command that prints it among other lines.
Shown = collections.namedtuple("Shown", "line text place printed part_of")


def blocks_of(page):
    """The blocks of a page's text."""
    return [Block(it[2], it[3], MARK.findall(it[1]), it.start(3)) for it in BLOCK.finditer(page)]


def bare(text):
    """A text without spaces at the ends of its lines, which pages haven't either."""
    return re.sub(r" +$", "", text, flags=re.MULTILINE)


class Page:
    """What the text of a page wants run, what it shows, what of it is left out by its reason, and which of its blocks are
    neither."""

    def __init__(self, text):
        self.text, self.commands, self.shown, self.left_out, self.faults = text, [], [], {}, []
        # (the numbers of the commands whose output the next block may show: None before one, [] where it was left out)
        self.printed, self.asked = None, {}
        parts = [(it.place, self.take, it) for it in blocks_of(text)]
        parts += [(it.start(1), self.take_row, it) for it in ROW.finditer(text)]
        parts += [(it.start(1), self.take_code_row, it) for it in CODE_ROW.finditer(text)]
        for place, take, part in sorted(parts, key=lambda it: it[0]):
            self.line = f"line {text.count(chr(10), 0, place) + 1}"
            take(part)

    def take(self, block):
        """Takes a block, as its marks and its kind say, unless it needs what isn't installed."""
        marks = dict(block.marks)
        marks["before"] = "\n".join(command for mark, command in block.marks if mark == "before")
        run = [*marks.values(), *([RUNS[block.kind], block.text] if block.kind in RUNS else [])]
        lacking = [it for it in NEEDS if re.search(rf"\b{it}\b", "\n".join(run)) and not has(it)]
        if lacking:
            self.leave_out(block.text, f"{lacking[0]} isn't installed")
            self.printed = []
            return
        if marks["before"]:
            self.run(marks["before"])
        if "file" in marks:
            self.run(f"cat > {shlex.quote(marks['file'])} <<'END OF FILE'\n{block.text}END OF FILE")
        elif "from" in marks:
            path = f"{ROOT}/{marks['from']}"
            self.show(block.text, block.place, part_of=self.ask(f"cat {shlex.quote(path)}" if os.path.isfile(path) else marks["from"]))
        elif block.kind in RUNS:
            self.take_code(block)
        elif block.kind in LEFT_OUT_KINDS:
            self.leave_out(block.text, LEFT_OUT_KINDS[block.kind])
        else:
            self.take_output(block)

    def take_output(self, block):
        """Takes a block that shows what the last one printed."""
        if block.kind or self.printed is None:
            self.faults.append(f"{self.line}: a block that is neither run nor compared")
        elif self.printed:
            self.show(block.text, block.place, self.printed)
        self.printed = None

    def take_code(self, block):
        """Takes a block that is run."""
        lines = LINE.split(block.text)
        left = {line: LEFT_OUT[it] for line in lines for it in LEFT_OUT if line.startswith(it)}
        self.printed = []
        if not RUNS[block.kind]:
            self.take_lines(lines, left, block.place)
        elif left:
            self.leave_out(*left.popitem())
        else:
            self.printed = [self.run(f"{RUNS[block.kind]} <<'END OF BLOCK'\n{block.text}END OF BLOCK")]

    def take_lines(self, lines, left, place):
        """Takes the lines of a block for bash: those that are left out, those that say themselves what they print, and the
        others, whose output the next block may show."""
        others = []
        for line in lines:
            said = PRINTS.match(line)
            if line in left or said:
                self.printed += self.run_all(others)
                others = []
            if line in left:
                self.leave_out(line, left[line])
            elif said:
                self.take_line(said, place)
            else:
                others.append(line)
            place += len(line) + 1
        self.printed += self.run_all(others)

    def take_line(self, said, place):
        """Takes a line that says itself what it prints."""
        number = self.run(said[1])
        if said["file"]:
            self.show(None, None, [number], self.run(f"cat {shlex.quote(said['file'])}"))
        else:
            self.show(said["text"] + "\n", place + said.start("text"), [number])

    def take_row(self, row):
        """Takes a row of a table that ends with a command."""
        number = self.run(f'(cd "$HOME/{TABLED}" && {row[1]} 2> /dev/null)')
        wanted = cased().get(tuple(shlex.split(row[1])[1:]))
        if wanted is None:
            self.faults.append(f"{self.line}: {CASES} has no case of these words")
        else:
            self.show(wanted, None, [number])

    def take_code_row(self, row):
        """Takes a row of a table that says what a code means, and how to mend it."""
        number = self.run(f"datacube explain {row[1]}")
        self.shown.append(Shown(self.line, f"means: {row[2]}\nmend: {row[3]}\n", row.start(3), [], number))

    def run(self, command):
        """Has a command run, and gives its number."""
        self.commands.append((self.line, command))
        return len(self.commands) - 1

    def run_all(self, lines):
        """Has lines run, if any of them has a word; gives the number of that command, in a list."""
        return [self.run("\n".join(lines))] if any(map(str.strip, lines)) else []

    def ask(self, command):
        """Has a command run of whose output several blocks may show a part, once for all of them, and gives its number."""
        if command not in self.asked:
            self.asked[command] = self.run(command)
        return self.asked[command]

    def show(self, text, place, printed=(), part_of=None):
        """Notes a text that stands in the page from a place on, or elsewhere."""
        sign = re.search(r"\S", text) if text and place is not None else None
        self.shown.append(Shown(self.line, text, place + sign.start() if sign else None, printed, part_of))

    def leave_out(self, text, why):
        """Notes what is left out, by its first line without the comment."""
        self.left_out.setdefault(why, []).append(text.partition("\n")[0].partition("  ")[0])

    def script(self):
        """The commands for bash."""
        return BEGIN + "".join(f"at={shlex.quote(line)}\n{command}\nprintf '\\036'\n" for line, command in self.commands)

    def differences(self, said):
        """What the commands said otherwise than the page shows, each as a text."""
        if len(said) != len(self.commands) + 1:
            return [f"the commands weren't all run: {said[-1]!r}"]
        return [f"{it.line}: {why}" for it in self.shown for why in [difference(it, said)] if why]

    def spoiled(self):
        """The page with one byte turned, once for each text that it shows."""
        for at in [it.place for it in self.shown if it.place is not None]:
            yield Page(self.text[:at] + ("y" if self.text[at] == "x" else "x") + self.text[at + 1 :])


def difference(shown, said):
    """How what was said differs from what is shown, or nothing."""
    got = "".join(said[it] for it in shown.printed)
    if shown.part_of is None:
        return "" if bare(got) == shown.text else f"it prints {got!r}, and not {shown.text!r}"
    other = said[shown.part_of]
    if shown.text is None:
        return "" if got == other else f"it prints {got!r}, and not {other!r}"
    return "" if is_part(shown.text, other) else f"there are no such lines in {other[:2000]!r}"


def is_part(text, whole):
    """Whether the lines of a text stand in another, in their order and however far they are set in; `...` alone in a line, or
    behind the sign of a comment, stands for any."""
    ahead = whole.split("\n")
    for part in LEFT_LINES.split(text):
        lines = textwrap.dedent(part).rstrip("\n").split("\n")
        starts = range(len(ahead) - len(lines) + 1)
        at = next((it for it in starts if textwrap.dedent("\n".join(ahead[it : it + len(lines)])).split("\n") == lines), None)
        if at is None:
            return False
        ahead = ahead[at + len(lines) :]
    return True


@functools.lru_cache
def has(name):
    """Whether something of NEEDS is there."""
    if name == "pandas":
        return programs.python_with(name) is not None
    if name == "parallel":
        # (moreutils has another program of that name)
        return bool(shutil.which(name)) and "GNU" in subprocess.run([name, "--version"], capture_output=True, text=True).stdout
    return bool(sql.newest_server()) if name == "psql" else bool(shutil.which(name))


@functools.lru_cache
def cased():
    """What the cases of CASES want on standard output, by their words."""
    text = lambda case: b"".join(cases.wanted_of(it)[1] for it in case.out).decode()
    return {tuple(it.decode() for it in case.words): text(case) for case in cases.read_cases(f"{ROOT}/{CASES}")}


def lay_out(room, program):
    """Makes a page's folder. Which program there is to run is known there: tests/test_installing.py tries how it is found."""
    os.mkdir(room)
    for name in COPIED:
        shutil.copytree(f"{ROOT}/{name}", f"{room}/{name}", ignore=shutil.ignore_patterns("__pycache__", "out"))
    os.symlink(program, f"{room}/datacube")
    programs.write(f"{room}/scripts/program.sh", f"#!/bin/sh\necho {shlex.quote(program)}\n")


@contextlib.contextmanager
def environment(folder, program, names):
    """The variables that the commands of pages have: the program is on the PATH, Python finds the package, and psql a server,
    where the page on SQL is among them."""
    os.mkdir(f"{folder}/bin")
    os.symlink(program, f"{folder}/bin/datacube")
    env = {**os.environ, "PATH": f"{folder}/bin:{os.environ['PATH']}", "LC_ALL": "C.UTF-8", "PYTHON": programs.python_with("pandas") or "python3",
           "PYTHONPATH": f"{ROOT}/python/src", "PYTHONDONTWRITEBYTECODE": "1"}
    if SQL not in names or not has("psql"):
        yield env
        return
    programs.write(f"{folder}/psqlrc", "\\set ON_ERROR_STOP on\n")
    with tempfile.TemporaryDirectory(prefix="datacube-sql-") as room, sql.Server(sql.newest_server(), room):
        yield {**env, "PGHOST": room, "PGUSER": "datacube", "PGDATABASE": "postgres", "PSQLRC": f"{folder}/psqlrc"}


def run(page, room, env, folder):
    """Runs the commands of a page in a folder of a room; gives what each said, and which failed."""
    programs.write(f"{room}.sh", page.script())
    with open(f"{room}.said", "w+b") as said, open(f"{room}.failed", "w+b") as failed:
        how = {"cwd": f"{room}/{folder}", "env": {**env, "HOME": room}, "stdin": subprocess.DEVNULL, "timeout": SECONDS}
        words = ["bash", "-c", '. "$0" 3>&"$1"', f"{room}.sh", str(failed.fileno())]
        subprocess.run(words, stdout=said, stderr=subprocess.STDOUT, pass_fds=[failed.fileno()], **how)
        said.seek(0)
        failed.seek(0)
        return said.read().decode(errors="replace").split(END), failed.read().decode().splitlines()


def look(name, program, env, folder):
    """Runs a page; gives it, how often it was spoiled, and what is wrong with it."""
    page = Page(programs.text_at(f"{ROOT}/{name}"))
    room = f"{folder}/{name.replace('/', '-')}"
    lay_out(room, program)
    try:
        said, failed = run(page, room, env, PAGES[name])
    except subprocess.TimeoutExpired:
        return page, 0, [f"its commands don't end in {SECONDS} seconds"]
    wrong = page.faults + failed + page.differences(said)
    spoiled = list(page.spoiled())
    if not wrong and not all(it.differences(said) for it in spoiled):
        wrong.append("a byte that is turned in what it shows isn't noticed")
    return page, len(spoiled), wrong


def note(tally, what, wrong):
    """Counts something that was looked at, with what is wrong with it."""
    tally.note(not wrong, "\n        ".join([what, *wrong]))


def note_pages(tally, names, program):
    """Runs pages side by side, and counts each."""
    with tempfile.TemporaryDirectory(prefix="datacube-pages-") as folder, environment(folder, program, names) as env:
        with concurrent.futures.ThreadPoolExecutor(len(os.sched_getaffinity(0))) as pool:
            for name, looked in [(it, pool.submit(look, it, program, env, folder)) for it in names]:
                page, spoiled, wrong = looked.result()
                note(tally, f"{name}: {len(page.commands)} commands, {len(page.shown)} texts, {spoiled} of them spoiled", wrong)
                for why, texts in page.left_out.items():
                    print(f"        left out: {', '.join(dict.fromkeys(texts))}: {why}", flush=True)


def note_links(tally):
    """Counts each document, by whether its links lead somewhere, and that one whose links don't is noticed."""
    lost = links.lost()
    noticed = len(lost.pop(links.WRONG))
    for name, wrong in lost.items():
        note(tally, f"the links of {name}", wrong)
    tally.note(noticed == links.WRONG_TEXT.count("\n"), f"links that lead nowhere, one of each kind: {noticed} are noticed")


def main():
    given, tally = programs.words_of(__doc__, program=None, page={"nargs": "*"}), programs.Tally()
    names = [it for it in PAGES if not given.page or any(word in it for word in given.page)]
    note_pages(tally, names, given.program)
    if not given.page:
        note_links(tally)
    return tally.end()


if __name__ == "__main__":
    sys.exit(main())
