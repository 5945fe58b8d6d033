"""What a request can be told."""
from __future__ import annotations

from .._errors import DatacubeError


class BadBody(DatacubeError, ValueError):
    """A body that isn't whole, or says what no change is. Nothing of it was made."""


class BadQuery(DatacubeError, ValueError):
    """A question that can't be read."""


class CantServe(DatacubeError):
    """What keeps the server from beginning, or from going on."""


class CantCount(CantServe):
    """A store that SQLite couldn't read before the session began."""


class OtherBody(DatacubeError):
    """A body under a key that another one came under. Nothing of it was made."""
