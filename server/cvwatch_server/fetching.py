"""Fetches blobs and feeds, within limits of address, size, time and redirects."""

import asyncio
import dataclasses
import hashlib
from pathlib import Path

import aiohttp
import yarl

from .addresses import GuardedResolver, RefusedAddress, is_allowed, is_literal
from .configuration import Fetch
from .refusals import Refusal

CHUNK = 1 << 18
REDIRECTS = (301, 302, 303, 307, 308)
AGENT = {"User-Agent": "cvwatch-server", "Accept-Encoding": "identity"}


def refused_address(address: yarl.URL) -> Refusal:
    """The server does not fetch from there."""
    return Refusal(403, "address-refused", f"{address.host} is not an address that the server fetches from")


@dataclasses.dataclass(frozen=True)
class Request:
    """What is fetched: the headers go to the first host alone."""

    uri: str
    headers: tuple[tuple[str, str], ...] = ()
    limit: int = 0


@dataclasses.dataclass(frozen=True)
class Fetched:
    """What came: the status, the SHA-256 of the bytes, and the mark by which a later fetch is spared."""

    status: int
    digest: str
    mark: str


class Fetcher:
    """A client of HTTP. A guarded one connects to allowed addresses only."""

    def __init__(self, settings: Fetch, is_guarded: bool):
        self.settings = settings
        self.is_guarded = is_guarded
        self.networks = settings.allowed()
        resolver = GuardedResolver(self.networks) if is_guarded else None
        connector = aiohttp.TCPConnector(resolver=resolver, limit=64, use_dns_cache=False, force_close=True)
        times = aiohttp.ClientTimeout(total=None, sock_connect=settings.silent_seconds, sock_read=settings.silent_seconds)
        self.session = aiohttp.ClientSession(
            connector=connector, timeout=times, auto_decompress=False, cookie_jar=aiohttp.DummyCookieJar(), headers=AGENT, read_bufsize=CHUNK
        )

    async def close(self) -> None:
        """Ends all connections."""
        await self.session.close()

    def address(self, uri: str) -> yarl.URL:
        """The address of a text, which has to be one of http or https without a password."""
        try:
            address = yarl.URL(uri)
        except ValueError:
            raise Refusal(400, "bad-request", "the uri is malformed") from None
        if address.scheme not in ("http", "https") or not address.host or address.user or address.password:
            raise Refusal(400, "bad-request", "the uri is not one of http or https")
        if self.is_guarded and is_literal(address.host) and not is_allowed(address.host, self.networks):
            raise refused_address(address)
        return address

    async def fetch(self, request: Request, file: Path) -> Fetched:
        """Writes the bytes of an address to a file. Raises Refusal if that fails or passes a limit."""
        try:
            async with asyncio.timeout(self.settings.seconds):
                return await self.follow(request, file)
        except TimeoutError:
            raise Refusal(504, "fetch-timeout", "the source did not answer in time") from None
        except aiohttp.ClientConnectorError as error:
            if isinstance(error.os_error, RefusedAddress):
                raise Refusal(403, "address-refused", str(error.os_error)) from None
            raise Refusal(502, "fetch-failed", "the source cannot be reached") from None
        except (aiohttp.ClientError, ValueError) as error:
            raise Refusal(502, "fetch-failed", f"the source did not answer as it should: {type(error).__name__}") from None

    async def follow(self, request: Request, file: Path) -> Fetched:
        """Fetches through redirects, each of which is checked as the first address is."""
        address = self.address(request.uri)
        origin = address.origin()
        for _ in range(self.settings.redirects + 1):
            headers = request.headers if address.origin() == origin else ()
            async with self.session.get(address, headers=list(headers), allow_redirects=False) as response:
                if response.status not in REDIRECTS:
                    return await self.take(response, request.limit or self.settings.blob_bytes, file)
                location = response.headers.get("Location", "")
            try:
                address = self.address(str(address.join(yarl.URL(location))))
            except ValueError:
                raise Refusal(502, "fetch-failed", "a redirect is malformed") from None
        raise Refusal(502, "fetch-failed", "there are too many redirects")

    async def take(self, response: aiohttp.ClientResponse, limit: int, file: Path) -> Fetched:
        """Writes the body of an answer to a file."""
        if response.status == 304:
            return Fetched(304, "", response.headers.get("ETag", ""))
        if response.status != 200:
            raise Refusal(502, "fetch-failed", f"the source answered with status {response.status}")
        too_large = Refusal(422, "too-large", f"there are more than {limit} bytes")
        if response.content_length is not None and response.content_length > limit:
            raise too_large
        digest, size = hashlib.sha256(), 0
        with file.open("wb") as output:
            async for chunk in response.content.iter_chunked(CHUNK):
                size += len(chunk)
                if size > limit:
                    raise too_large
                digest.update(chunk)
                output.write(chunk)
        return Fetched(200, f"sha256:{digest.hexdigest()}", response.headers.get("ETag", ""))
