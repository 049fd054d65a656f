"""What each request goes through: it is counted and logged, checked for the token, and read within limits."""

import asyncio
import base64
import binascii
import errno
import hmac
import sqlite3
import time
from typing import Awaitable, Callable

from aiohttp import web

from .child import LANES
from .connections import heard
from .logs import logger, note
from .metrics import Metrics
from .refusals import Refusal, unavailable

Handler = Callable[[web.Request], Awaitable[web.StreamResponse]]
Middleware = Callable[[web.Request, Handler], Awaitable[web.StreamResponse]]
# these answer without a token, as what asks for them has none
OPEN_PATHS = ("/healthz", "/readyz")
HEADERS = {
    "Content-Security-Policy": "default-src 'none'; style-src 'self'; base-uri 'none'; form-action 'none'; frame-ancestors 'none'",
    "X-Content-Type-Options": "nosniff",
    "Referrer-Policy": "no-referrer",
    "Cache-Control": "no-store",
    "Server": "cvwatch-server",
}


def answer_of(refusal: Refusal) -> web.Response:
    """The answer to a request that is refused."""
    headers = {"Retry-After": "1"} if refusal.status == 503 else {}
    return web.json_response(refusal.body(), status=refusal.status, headers=headers)


def route_of(request: web.Request) -> str:
    """The route of a request, without what its path names."""
    resource = request.match_info.route.resource
    return resource.canonical if resource is not None else "none"


def counted(metrics: Metrics) -> Middleware:
    """Counts and logs each request."""

    @web.middleware
    async def middleware(request: web.Request, handler: Handler) -> web.StreamResponse:
        heard(request)
        began = time.monotonic()
        response = await handler(request)
        route, seconds = route_of(request), time.monotonic() - began
        metrics.requests.labels(request.method if route != "none" else "none", route, str(response.status)).inc()
        metrics.seconds.labels(route).observe(seconds)
        note("request", method=request.method, path=request.path[:200], status=response.status, milliseconds=round(1000 * seconds, 1))
        response.headers.update(HEADERS)
        return response

    return middleware


def is_full(error: Exception) -> bool:
    """Whether something failed because the disk is full, or there are too many open files."""
    if isinstance(error, sqlite3.Error):
        return getattr(error, "sqlite_errorcode", None) == sqlite3.SQLITE_FULL
    return isinstance(error, OSError) and error.errno in (errno.ENOSPC, errno.EDQUOT, errno.EMFILE, errno.ENFILE)


@web.middleware
async def refusing(request: web.Request, handler: Handler) -> web.StreamResponse:
    """Answers in one form what is refused or fails."""
    try:
        return await handler(request)
    except Refusal as refusal:
        return answer_of(refusal)
    except web.HTTPException as error:
        return answer_of(Refusal(error.status, error.reason.lower().replace(" ", "-"), error.reason))
    except ConnectionError:
        # nobody reads this answer
        return answer_of(Refusal(400, "bad-request", "the client left"))
    except Exception as error:  # pylint: disable=broad-exception-caught
        if is_full(error):
            return answer_of(Refusal(507, "no-space", "the server has no room for this"))
        logger.exception("a request failed")
        return answer_of(Refusal(500, "internal", "the request failed"))


def is_for_programs(request: web.Request) -> bool:
    """Whether a path is one of the interface, and not of a page."""
    return "/api/" in request.path


def token_of(request: web.Request) -> str:
    """The token of a request: that of `Bearer`, or for a page the password of `Basic`, as browsers send it."""
    kind, _, value = request.headers.get("Authorization", "").partition(" ")
    if kind.lower() == "bearer":
        return value.strip()
    if kind.lower() == "basic" and not is_for_programs(request):
        try:
            return base64.b64decode(value, validate=True).decode("utf-8").partition(":")[2]
        except (binascii.Error, UnicodeDecodeError):
            return ""
    return ""


def authorized(token: str) -> Middleware:
    """Refuses requests without the token."""

    @web.middleware
    async def middleware(request: web.Request, handler: Handler) -> web.StreamResponse:
        if token and request.path not in OPEN_PATHS and not hmac.compare_digest(token_of(request).encode(), token.encode()):
            response = answer_of(Refusal(401, "unauthorized", "a token is needed"))
            response.headers["WWW-Authenticate"] = "Bearer" if is_for_programs(request) else 'Basic realm="cvwatch"'
            return response
        return await handler(request)

    return middleware


@web.middleware
async def without_browsers(request: web.Request, handler: Handler) -> web.StreamResponse:
    """Refuses changes that a page in a browser asks for: a foreign page could do so, and those of the server never do."""
    if request.method not in ("GET", "HEAD") and "Origin" in request.headers:
        raise Refusal(403, "forbidden", "pages of browsers may only read")
    return await handler(request)


class Bodies:
    """The bodies that are in memory: each within a limit, and all together within another."""

    def __init__(self, longest: int, most: int, seconds: float):
        self.longest = longest
        self.most = most
        self.seconds = seconds
        self.used = 0

    def size_of(self, request: web.Request) -> int:
        """How many bytes a body may have: by its header, or else as many as one may."""
        if not request.can_read_body:
            return 0
        size = self.longest if request.content_length is None else request.content_length
        if size > self.longest:
            raise Refusal(413, "too-large", f"a body has at most {self.longest} bytes")
        if self.used + size > self.most:
            raise unavailable("too many bodies are read now")
        return size

    async def read(self, request: web.Request, handler: Handler) -> web.StreamResponse:
        """Reads the body of a request, which has to come in time, and keeps count of it until it is answered."""
        request["lane"] = id(request.transport) // 64 % LANES
        size = self.size_of(request)
        self.used += size
        try:
            async with asyncio.timeout(self.seconds):
                request["body"] = await request.read()
        except TimeoutError:
            raise Refusal(408, "timeout", "the body did not come in time") from None
        else:
            return await handler(request)
        finally:
            self.used -= size

    def middleware(self) -> Middleware:
        """The step that reads bodies."""

        @web.middleware
        async def middleware(request: web.Request, handler: Handler) -> web.StreamResponse:
            return await self.read(request, handler)

        return middleware
