"""Who may ask and who may change: tokens."""
from __future__ import annotations

import enum
import hashlib
import hmac
import re
import secrets
from dataclasses import dataclass
from typing import Dict, Iterable, Mapping, Optional
from urllib.parse import quote, unquote

from .._program import Path
from ._errors import CantServe

LINE = re.compile(r"(read|change)[ \t]+([!-~]{8,256})")
SCHEME = "bearer"


class Right(enum.Enum):
    """What a request may do. Who may change may read."""

    READ = "read"
    CHANGE = "change"

    def allows(self, wanted: "Right") -> bool:
        return wanted is Right.READ or self is Right.CHANGE


class Tokens:
    """The tokens that are known, with their rights; none is kept as it is."""

    def __init__(self, rights: Dict[str, Right]) -> None:
        self._rights = {digest_of(token): right for token, right in rights.items()}

    def right_of(self, token: str) -> Optional[Right]:
        """The right that a token gives. Each is compared, in a time that says nothing of it."""
        wanted, found = digest_of(token), None
        for digest, right in self._rights.items():
            if hmac.compare_digest(digest, wanted):
                found = right
        return found

    @classmethod
    def of_one(cls, token: str) -> "Tokens":
        """A token alone, which may change."""
        return cls({token: Right.CHANGE})

    @classmethod
    def read(cls, path: Path) -> "Tokens":
        """The tokens of a file, `read TOKEN` or `change TOKEN` on each line; blank lines and those with `#` are none."""
        try:
            with open(path, encoding="ascii") as file:
                return cls(rights_in(file))
        except (OSError, UnicodeDecodeError) as why:
            raise CantServe(f"the file of tokens can't be read: {why}") from None


@dataclass(frozen=True)
class Cookie:
    """The cookie in which a browser keeps its token: for one port, since browsers have one for all ports of a machine."""

    name: str
    is_secure: bool

    def said(self, token: str) -> str:
        """What sets it: no script reads it, and no page of elsewhere sends it."""
        return f"{self.name}={quote(token, safe='')}; Path=/; HttpOnly; SameSite=Strict{'; Secure' if self.is_secure else ''}"

    def token(self, headers: Mapping[str, str]) -> Optional[str]:
        """The token that a request brings in it."""
        for part in headers.get("Cookie", "").split(";"):
            name, _, value = part.strip().partition("=")
            if name == self.name:
                return unquote(value)
        return None


def rights_in(lines: Iterable[str]) -> Dict[str, Right]:
    found: Dict[str, Right] = {}
    for number, line in enumerate(lines, 1):
        line = line.strip()
        if line and not line.startswith("#"):
            parts = LINE.fullmatch(line)
            if not parts:
                raise CantServe(f"line {number} of the file of tokens isn't `read TOKEN` or `change TOKEN`, with 8 to 256 letters")
            found[parts[2]] = Right(parts[1])
    if not found:
        raise CantServe("the file of tokens has none")
    return found


def drawn_token() -> str:
    return secrets.token_urlsafe(24)


def digest_of(token: str) -> bytes:
    return hashlib.sha256(token.encode("utf-8", "surrogatepass")).digest()


def token_of_header(value: str) -> Optional[str]:
    """The token of an `Authorization` header."""
    scheme, _, token = value.strip().partition(" ")
    return token.strip() if scheme.lower() == SCHEME and token.strip() else None
