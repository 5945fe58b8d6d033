"""Where the server listens: a Unix socket, this machine alone, or any address with tokens and TLS."""
from __future__ import annotations

import contextlib
import ipaddress
import os
import re
import socket
import ssl
import stat
from dataclasses import dataclass
from typing import Optional, Tuple

from ._errors import CantServe

UNIX = "unix:"
ADDRESS = re.compile(r"(?:\[([0-9A-Fa-f:.]+)\]|([A-Za-z0-9.-]+)):([0-9]{1,5})")
BACKLOG = 512


@dataclass(frozen=True)
class Address:
    """An address to listen at: the path of a Unix socket, or a host and a port."""

    path: Optional[str] = None
    host: str = ""
    port: int = 0

    @property
    def is_local(self) -> bool:
        """Whether nothing but this machine reaches it."""
        return self.path is not None or self.host == "localhost" or is_loopback(self.host)

    @property
    def name(self) -> str:
        """The host, as an address of a page has it."""
        return f"[{self.host}]" if ":" in self.host else self.host

    @property
    def authority(self) -> str:
        """The host and the port, likewise."""
        return f"{self.name}:{self.port}"


def address_of(text: str) -> Address:
    """The address that a word says: `unix:PATH`, `HOST:PORT` or `[HOST]:PORT`; port 0 is any free one."""
    if text.startswith(UNIX):
        if len(text) == len(UNIX):
            raise CantServe("unix: wants the path of a socket")
        return Address(path=os.path.abspath(text[len(UNIX) :]))
    found = ADDRESS.fullmatch(text)
    if not found or int(found[3]) > 65535:
        raise CantServe(f"{text} is no address: unix:PATH, 127.0.0.1:PORT or HOST:PORT is one")
    return Address(host=found[1] or found[2], port=int(found[3]))


def is_loopback(host: str) -> bool:
    with contextlib.suppress(ValueError):
        return ipaddress.ip_address(host).is_loopback
    return False


def listen(address: Address) -> Tuple[socket.socket, Address]:
    """A socket that listens, and its address with the port that it has."""
    try:
        if address.path is not None:
            return listen_at(address.path), address
        family, _, _, _, where = socket.getaddrinfo(address.host, address.port, type=socket.SOCK_STREAM, flags=socket.AI_PASSIVE)[0]
        found = socket.create_server((str(where[0]), int(where[1])), family=family, backlog=BACKLOG)
        return found, Address(host=address.host, port=found.getsockname()[1])
    except OSError as why:
        raise CantServe(f"can't listen there: {why}") from None


def listen_at(path: str) -> socket.socket:
    """A Unix socket that its owner alone can open, in place of one that nobody listens at any more."""
    with contextlib.suppress(FileNotFoundError):
        if stat.S_ISSOCK(os.lstat(path).st_mode) and not is_listening(path):
            os.unlink(path)
    found = socket.socket(socket.AF_UNIX)
    # (the rights are there before anyone can find it)
    before = os.umask(0o177)
    try:
        found.bind(path)
    finally:
        os.umask(before)
    found.listen(BACKLOG)
    return found


def is_listening(path: str) -> bool:
    with socket.socket(socket.AF_UNIX) as probe:
        return probe.connect_ex(path) == 0


def tls_of(certificate: Optional[str], key: Optional[str]) -> Optional[ssl.SSLContext]:
    """The context for TLS, where a certificate is given."""
    if certificate is None:
        return None
    context = ssl.create_default_context(ssl.Purpose.CLIENT_AUTH)
    try:
        context.load_cert_chain(certificate, key)
    except (OSError, ssl.SSLError) as why:
        raise CantServe(f"the certificate or its key can't be read: {why}") from None
    return context
