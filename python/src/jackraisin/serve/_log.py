"""The log of the commands that serve, on standard error."""
from __future__ import annotations

import json
import logging
from typing import TextIO


class JsonLines(logging.Formatter):
    """A line of the log as an object."""

    def format(self, record: logging.LogRecord) -> str:
        said = {"time": self.formatTime(record, "%Y-%m-%dT%H:%M:%S%z"), "level": record.levelname.lower(), "message": record.getMessage()}
        if record.exc_info:
            said["fault"] = self.formatException(record.exc_info)
        return json.dumps(said, ensure_ascii=False)


def log_to_standard_error(name: str) -> "logging.StreamHandler[TextIO]":
    """Has all that is logged written to standard error, each line behind the name of the command."""
    handler = logging.StreamHandler()
    handler.setFormatter(logging.Formatter(f"{name}: %(message)s"))
    logging.basicConfig(level=logging.INFO, handlers=[handler])
    return handler
