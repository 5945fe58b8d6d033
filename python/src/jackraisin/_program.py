"""The program: where it is, running it, and what it says of its codes."""
from __future__ import annotations

import os
import re
import shutil
import signal
import subprocess
import sys
from dataclasses import dataclass
from typing import Iterable, List, NoReturn, Optional, Sequence, Tuple, Union

from ._errors import DatacubeError, Failure, ProgramNotFound, TimedOut, Unsayable

Path = Union[str, "os.PathLike[str]"]
Paths = Union[Path, Iterable[Path]]
Word = Union[str, bytes]

BESIDE = os.path.join(os.path.dirname(os.path.abspath(__file__)), "bin", "datacube")
CODE = re.compile(r"[A-Z][0-9]{1,2}|[0-9]")
# (what begins a line of --why, below the one of the code)
BELOW = "\n  "
# (it puts the program in its own place, under the limit that it took: nothing runs between fork and exec in this process)
UNDER_A_LIMIT = ["/bin/sh", "-c", 'ulimit -v "$0" && exec "$@"']
# (0 is done, and 4 is done, with lines refused)
DONE = (0, 4)


@dataclass(frozen=True)
class Limits:
    """The seconds that a run or an answer may take, and the bytes of memory that the program may map (RLIMIT_AS)."""

    timeout: Optional[float] = None
    max_memory: Optional[int] = None

    def __post_init__(self) -> None:
        for name in ("timeout", "max_memory"):
            value = getattr(self, name)
            if value is not None and not value > 0:
                raise Unsayable(f"{name} is a number above 0, and {value!r} isn't")

    def words(self, words: Sequence[Word]) -> List[Word]:
        """The words of a program that runs under the limit of memory."""
        return [*words] if self.max_memory is None else [*UNDER_A_LIMIT, str(-(-self.max_memory // 1024)), *words]

    def passed(self) -> TimedOut:
        """What tells that the time is over."""
        return TimedOut(f"no end within {self.timeout} seconds", "", -signal.SIGKILL)


UNLIMITED = Limits()


def program() -> str:
    """The program that is run: `DATACUBE` of the environment, else the one in this package, else `datacube` on the PATH. The
    command of this package is none: it runs what this finds."""
    wanted = os.environ.get("DATACUBE")
    named = shutil.which(wanted) if wanted else None
    if wanted and not named:
        raise ProgramNotFound(f"no program: DATACUBE names {wanted}, which can't be run")
    found = named if named and not is_own_command(named) else shutil.which(BESIDE) or on_path()
    if not found:
        raise ProgramNotFound(f"no program: there is none at {BESIDE}, nor datacube on the PATH")
    return found


def on_path() -> Optional[str]:
    """The first `datacube` on the PATH that isn't this package's own command, of whichever environment."""
    found = (shutil.which("datacube", path=it) for it in os.get_exec_path() if it)
    return next((it for it in found if it and not is_own_command(it)), None)


def is_own_command(path: str) -> bool:
    """Whether a file is the script that an installation of this package makes for `command`."""
    try:
        with open(path, "rb") as file:
            head = file.read(8192)
    except OSError:
        return False
    return head.startswith(b"#!") and b"from jackraisin." in head


def command() -> NoReturn:
    """The command `datacube` of this package: the program in this process's place, with the same words."""
    try:
        found = program()
        sys.stdout.flush()
        os.execv(found, ["datacube", *sys.argv[1:]])
    except (ProgramNotFound, OSError) as why:
        sys.exit(f"datacube: {why}")


def words_of(command: str, options: Sequence[Word], others: Sequence[Word]) -> List[Word]:
    """The words of a command, spelled so that no path is taken for an option."""
    return [program(), command, *options, "--", *others]


def paths_of(feeds: Paths) -> List[Word]:
    """The paths of feeds, of which one may stand alone."""
    return [os.fspath(it) for it in ([feeds] if isinstance(feeds, (str, os.PathLike)) else feeds)]


def run(words: Sequence[Word], limits: Limits = UNLIMITED) -> Tuple[int, str]:
    """The status and the output of a command that is done; any other end raises `Failure`."""
    return run_with_told(words, limits)[:2]


def run_with_told(words: Sequence[Word], limits: Limits) -> Tuple[int, str, str]:
    """The same, with what the command told last on standard error."""
    pipe = subprocess.PIPE
    try:
        ran = subprocess.run(limits.words(words), stdin=subprocess.DEVNULL, stdout=pipe, stderr=pipe, timeout=limits.timeout)
    except subprocess.TimeoutExpired:
        raise limits.passed() from None
    except ValueError as why:
        raise Unsayable(f"a word of a command line can't be said: {why}") from None
    except OSError as why:
        raise ProgramNotFound(f"the program can't be run: {why}") from None
    # (with --why notes may come before, as of a feed that is given twice)
    told = line_of(ran.stderr).rpartition("\ndatacube: ")[2]
    if ran.returncode not in DONE:
        line, _, below = told.partition(BELOW)
        raise Failure(line, meaning_of(line), ran.returncode, below.replace(BELOW, "\n"))
    return ran.returncode, ran.stdout.decode("utf-8"), told


def line_of(told: bytes) -> str:
    """What the program told on standard error: a line of its own without its name, or words of any other form as they are."""
    text = told.decode("utf-8", "replace").strip()
    return text[len("datacube: ") :] if text.startswith("datacube: ") else text


def explain(code: str) -> str:
    """What the program says that a code means, and how to mend it."""
    return run([program(), "explain", "--", code])[1].strip()


def meaning_of(line: str) -> str:
    """What the codes of a line mean, as far as the program knows them: of `G3 2 F3` G3 and F3, of `G7 1 8 5` G7 and 5, of
    `feed 2 unreadable` that."""
    if not line or line.startswith("error:"):
        return ""
    first, *rest = line.split()
    codes = [it for it in [first, *rest] if it[0].isupper()] if CODE.fullmatch(first) else [re.sub(r" \d+ ", " ", line)]
    codes += rest[-1:] if first == "G7" else []
    meanings = []
    for code in codes:
        try:
            meanings.append(explain(code))
        except DatacubeError:
            pass
    return "\n".join(meanings)
