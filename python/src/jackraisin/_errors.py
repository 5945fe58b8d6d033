"""What can go wrong."""
from __future__ import annotations

import signal
from typing import Optional


class DatacubeError(Exception):
    """Anything that this package tells of."""


class ProgramNotFound(DatacubeError):
    """No program was found, or it couldn't be run."""


class Unsayable(DatacubeError, ValueError):
    """What no schema, cell or feed can say. Nothing was sent."""


class Unreadable(DatacubeError, ValueError):
    """A text that is no printed cube, or that this Python can't read."""


class Failure(DatacubeError):
    """What the program refused: the line that it told, as `P2` or `G3 2 F3`, what that means, and its status, if it ended. Of feeds
    and schemas `why` says more, for people: the file, the line, the field, and what was wanted there."""

    def __init__(self, line: str, meaning: str = "", status: Optional[int] = None, why: str = "") -> None:
        super().__init__(line, meaning, status, why)
        self.line, self.meaning, self.status, self.why = line, meaning, status, why

    def __str__(self) -> str:
        told = self.line or f"the program ended, {status_text(self.status or 0)}"
        return f"{told}\n{self.meaning}" if self.meaning else told

    @property
    def code(self) -> str:
        """The first word of the line, which is the code where it has one."""
        return self.line.partition(" ")[0]


class RefusedLines(UserWarning):
    """What warns of lines of feeds that were refused, and aren't in a cube: how many, and the first with its file, line and reason.
    With a store it says only that there are such lines or changes."""


class Ended(Failure):
    """A session that is over: its last line, what that means, and its status."""


class TimedOut(Ended):
    """A command or a session that took longer than its timeout, and was killed for it."""


def status_text(status: int) -> str:
    """A status of a process in words: a negative one is the signal that ended it."""
    if status >= 0:
        return f"status {status}"
    try:
        return f"killed by {signal.Signals(-status).name}"
    except ValueError:
        return f"killed by signal {-status}"
