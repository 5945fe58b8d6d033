"""What the server needs that isn't Python's own."""
from __future__ import annotations

import importlib
from typing import Optional

# (modules, and Debian's packages of them)
MODULES = {"aiohttp": "python3-aiohttp", "prometheus_client": "python3-prometheus-client"}


def lack() -> Optional[str]:
    """The first of the modules that isn't installed, as whoever wants to serve is told of it; None where all are."""
    for name, package in MODULES.items():
        try:
            importlib.import_module(name)
        except ImportError:
            return f"it needs {name} (Debian: {package})"
    return None
