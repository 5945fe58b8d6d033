"""Versions of answers: their tags, by which a client asks for what is new alone, and their coding."""
from __future__ import annotations

import re
import secrets
from typing import Dict, Mapping

from ._served import State

# (what is shorter isn't worth packing)
SHORT = 1024
TAG = re.compile(r'(?:W/)?("[^"]*")|\*')


class Tags:
    """Tags of answers. They begin with a word that is drawn at each start, so that none is taken for one of another store."""

    def __init__(self) -> None:
        self._word = secrets.token_hex(8)

    def of(self, state: State, form: str, is_packed: bool) -> str:
        return f'"{self._word}-{state}-{form.lower()}{"-gzip" if is_packed else ""}"'

    def has(self, headers: Mapping[str, str], state: State, form: str) -> bool:
        """Whether a client has an answer of this state and form, packed or not."""
        known = [it[1] or "*" for it in TAG.finditer(headers.get("If-None-Match", ""))]
        return "*" in known or any(self.of(state, form, it) in known for it in (False, True))


def takes_gzip(headers: Mapping[str, str]) -> bool:
    """Whether a client takes what is packed by gzip."""
    weights: Dict[str, bool] = {}
    for part in headers.get("Accept-Encoding", "").lower().split(","):
        name, _, weight = part.partition(";")
        weights[name.strip()] = not re.fullmatch(r"\s*q\s*=\s*0(\.0*)?\s*", weight)
    return weights.get("gzip", weights.get("*", False))
