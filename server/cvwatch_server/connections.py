"""Connections of clients: not too many at once, and each has to speak soon."""

import asyncio
import socket
from typing import Any

from aiohttp import web

from .logs import warn
from .metrics import Metrics

BUSY = b"HTTP/1.1 503 Service Unavailable\r\nContent-Length: 0\r\nConnection: close\r\nRetry-After: 1\r\n\r\n"
# the most requests of one connection that may wait for the one before them
MOST_WAITING = 100
# the option TCP_USER_TIMEOUT of Linux
USER_TIMEOUT = 18
LATE = b"HTTP/1.1 408 Request Timeout\r\nContent-Length: 0\r\nConnection: close\r\n\r\n"


class Limits:
    """How many connections there are and may be, and how long each may take."""

    def __init__(self, most: int, seconds: float, metrics: Metrics):
        self.most = most
        self.seconds = seconds
        self.metrics = metrics
        self.open = 0


class GuardedConnection(web.RequestHandler):
    """A connection that is refused if there are too many, and closed if no request comes in time."""

    def __init__(self, manager: web.Server, limits: Limits, **settings: Any):
        super().__init__(manager, **settings)
        self.limits = limits
        self.is_heard = False
        self.is_counted = False

    def connection_made(self, transport: asyncio.BaseTransport) -> None:
        """Counts the connection, or refuses it."""
        super().connection_made(transport)
        assert isinstance(transport, asyncio.Transport)
        if self.limits.open >= self.limits.most:
            self.refuse(BUSY)
            return
        self.is_counted = True
        self.limits.open += 1
        self.limits.metrics.connections.set(self.limits.open)
        # a client that reads nothing of its answer is given up as one whose host is gone
        milliseconds = int(1000 * self.limits.seconds)
        transport.get_extra_info("socket").setsockopt(socket.IPPROTO_TCP, USER_TIMEOUT, milliseconds)
        self._loop.call_later(self.limits.seconds, self.close_if_silent)

    def data_received(self, data: bytes) -> None:
        """Takes bytes, and ends a connection that sends many requests without waiting for answers."""
        super().data_received(data)
        if len(self._messages) > MOST_WAITING:
            self.force_close()

    def log_exception(self, *_: Any, **members: Any) -> None:
        """Logs in one line what is no request of HTTP."""
        warn("a connection failed", error=repr(members.get("exc_info"))[:200])

    def refuse(self, answer: bytes) -> None:
        """Ends the connection with an answer."""
        if self.transport is not None:
            self.transport.write(answer)
        self.force_close()

    def close_if_silent(self) -> None:
        """Ends a connection that has sent no whole request."""
        if not self.is_heard:
            self.refuse(LATE)

    def connection_lost(self, exc: BaseException | None) -> None:
        """Counts the connection no more."""
        if self.is_counted:
            self.is_counted = False
            self.limits.open -= 1
            self.limits.metrics.connections.set(self.limits.open)
        super().connection_lost(exc)


def heard(request: web.Request) -> None:
    """Notes that a connection has sent a request."""
    if isinstance(request.protocol, GuardedConnection):
        request.protocol.is_heard = True
