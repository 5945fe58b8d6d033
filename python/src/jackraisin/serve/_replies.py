"""What a request is answered by."""
from __future__ import annotations

import json
from dataclasses import dataclass, field
from http import HTTPStatus
from typing import Dict

TEXT = "text/plain; charset=utf-8"
JSON = "application/json"


@dataclass(frozen=True)
class Reply:
    """A status, a body and its content type, and more headers."""

    status: HTTPStatus
    body: bytes
    kind: str = TEXT
    headers: Dict[str, str] = field(default_factory=dict)


class Refusal(Exception):
    """What ends the answering of a request by a status, with a line of text that says why."""

    def __init__(self, status: HTTPStatus, why: str, headers: Dict[str, str] = {}) -> None:
        super().__init__(why)
        self.reply = Reply(status, f"{why}\n".encode("utf-8", "replace"), TEXT, dict(headers))


def not_yet(why: str) -> Refusal:
    """What is told to one who comes too early, or at a bad moment."""
    return Refusal(HTTPStatus.SERVICE_UNAVAILABLE, why, {"Retry-After": "1"})


def json_reply(value: object, headers: Dict[str, str] = {}) -> Reply:
    return Reply(HTTPStatus.OK, (json.dumps(value, ensure_ascii=False) + "\n").encode("utf-8"), JSON, dict(headers))
