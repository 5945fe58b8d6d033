"""The questions of a cube that is kept right, as typed rows."""
from __future__ import annotations

import abc
from typing import List

from ._cells import Cell, Pattern, fields_of
from ._cube import Cube
from ._schema import Schema


class Questions(abc.ABC):
    """What answers questions of a cube, as it is now, over the texts that answer them."""

    schema: Schema
    # (whether a text that begins with a backslash has one more in what is asked and answered)
    is_escaped = False

    @abc.abstractmethod
    def ask(self, question: str, *fields: str) -> str:
        """The text that answers a question of a session (docs/FORMATS.md)."""

    def cube(self) -> Cube:
        """The whole cube, as it is now."""
        return self._answer("print")

    def slice(self, pattern: Pattern) -> Cube:
        """The rows that a pattern matches; a dimension that a mapping doesn't name is ALL."""
        return self._answer("slice", *self._fields(pattern))

    def drill(self, cell: Cell, dimension: str) -> Cube:
        """The rows one step below a cell, along a dimension."""
        return self._answer("drill", dimension, *self._fields(cell))

    def rollup(self, cell: Cell, dimension: str) -> Cube:
        """The row one step above a cell, along a dimension, or none where that is no cell of the cube."""
        return self._answer("rollup", dimension, *self._fields(cell))

    def _answer(self, question: str, *fields: str) -> Cube:
        return Cube(self.ask(question, *fields), is_escaped=self.is_escaped)

    def _fields(self, pattern: Pattern) -> List[str]:
        return fields_of(self.schema.dimensions, pattern, self.is_escaped)
