"""What runs from its start to its close."""
from __future__ import annotations

import abc
from types import TracebackType
from typing import Optional, Type, TypeVar

R = TypeVar("R", bound="Running")


class Running(abc.ABC):
    """What a `with` begins and ends."""

    @abc.abstractmethod
    def start(self) -> None:
        """Begins it."""

    @abc.abstractmethod
    def close(self) -> None:
        """Ends it."""

    def __enter__(self: R) -> R:
        self.start()
        return self

    def __exit__(self, kind: Optional[Type[BaseException]], why: Optional[BaseException], at: Optional[TracebackType]) -> None:
        self.close()
