"""Logs: a line of JSON for each event on standard error."""

import datetime
import json
import logging
import sys
from typing import Any

logger = logging.getLogger("cvwatch_server")


class JsonLines(logging.Formatter):
    """Writes a record of the log as one line of JSON."""

    def format(self, record: logging.LogRecord) -> str:
        time = datetime.datetime.fromtimestamp(record.created, datetime.timezone.utc)
        line = {"time": time.isoformat(timespec="milliseconds"), "level": record.levelname.lower(), "event": record.getMessage()}
        line.update(getattr(record, "members", {}))
        if record.exc_info:
            line["exception"] = self.formatException(record.exc_info)
        return json.dumps(line, default=str)


def set_up(level: str = "INFO") -> None:
    """Lets all logs of the process be lines of JSON."""
    handler = logging.StreamHandler(sys.stderr)
    handler.setFormatter(JsonLines())
    logging.basicConfig(level=level, handlers=[handler], force=True)


def note(event: str, level: int = logging.INFO, **members: Any) -> None:
    """Logs an event with its members."""
    logger.log(level, event, extra={"members": members})


def warn(event: str, **members: Any) -> None:
    """Logs an event that an operator may want to look at."""
    note(event, logging.WARNING, **members)
