"""What a browser may do: nothing from a page of elsewhere, unless that page is named."""
from __future__ import annotations

from dataclasses import dataclass
from http import HTTPStatus
from typing import Dict, FrozenSet, Mapping, Optional
from urllib.parse import urlsplit

from ._replies import Refusal, Reply

OWN_SITES = ("same-origin", "none")
# (what every reply says; a page has a policy of its own in place of the first)
POLICY = "default-src 'none'; frame-ancestors 'none'"
HEADERS = {
    "Content-Security-Policy": POLICY,
    "Cross-Origin-Resource-Policy": "same-origin",
    "Referrer-Policy": "no-referrer",
    "Server": "datacube",
    "X-Content-Type-Options": "nosniff",
    "X-Frame-Options": "DENY",
}
ALLOWED = {
    "Access-Control-Allow-Methods": "GET, HEAD, POST",
    "Access-Control-Allow-Headers": "Authorization, Content-Type, Idempotency-Key, If-None-Match",
    "Access-Control-Max-Age": "600",
}
EXPOSED = "Datacube-Connected, Datacube-Skipped, Datacube-State, Datacube-Table, Datacube-Verified, ETag, Retry-After"


@dataclass(frozen=True)
class Browsers:
    """The names under which the server is asked, where not all are taken, and the origins whose pages may ask."""

    hosts: Optional[FrozenSet[str]] = None
    origins: FrozenSet[str] = frozenset()

    def check(self, headers: Mapping[str, str]) -> None:
        """Refuses what was led here by another name, and what a page of elsewhere asks."""
        host = headers.get("Host", "")
        if self.hosts is not None and name_of_host(host) not in self.hosts:
            raise Refusal(HTTPStatus.MISDIRECTED_REQUEST, f"this is served under {', '.join(sorted(self.hosts))} alone: --host names more")
        origin = headers.get("Origin")
        if origin in self.origins:
            return
        is_own = origin is None or urlsplit(origin).netloc.lower() == host.lower() != ""
        if not is_own or headers.get("Sec-Fetch-Site", "none") not in OWN_SITES:
            raise Refusal(HTTPStatus.FORBIDDEN, "a page of elsewhere may not ask: --allow-origin names those that may")

    def headers_for(self, headers: Mapping[str, str]) -> Dict[str, str]:
        """What a reply says to a page that may ask."""
        if not self.origins:
            return {}
        origin = headers.get("Origin", "")
        named = {"Access-Control-Allow-Origin": origin, "Access-Control-Expose-Headers": EXPOSED} if origin in self.origins else {}
        return {"Vary": "Origin", **named}


def is_asked_before(method: str, headers: Mapping[str, str]) -> bool:
    """Whether a browser asks if a page may ask."""
    return method == "OPTIONS" and "Access-Control-Request-Method" in headers


def may_ask() -> Reply:
    return Reply(HTTPStatus.NO_CONTENT, b"", headers=dict(ALLOWED))


def name_of_host(host: str) -> str:
    """The name of a `Host` header, without the port."""
    return host[: host.find("]") + 1].lower() if host.startswith("[") else host.partition(":")[0].lower()
