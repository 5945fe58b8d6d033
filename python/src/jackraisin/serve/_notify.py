"""What systemd is told (`Type=notify`), where it began the server."""
from __future__ import annotations

import os
import socket


def tell_systemd(state: str) -> None:
    """Tells of a state, as `READY=1`; elsewhere it does nothing."""
    path = os.environ.get("NOTIFY_SOCKET")
    if path:
        with socket.socket(socket.AF_UNIX, socket.SOCK_DGRAM) as end:
            end.connect("\0" + path[1:] if path.startswith("@") else path)
            end.sendall(state.encode("ascii"))
