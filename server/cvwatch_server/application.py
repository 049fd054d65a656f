"""All parts of the server put together."""

import asyncio
import contextlib
import os
from typing import AsyncIterator, Awaitable, Callable

from aiohttp import web

from . import middlewares
from .configuration import Configuration
from .connections import GuardedConnection, Limits
from .feeds import Feeds
from .fetching import Fetcher
from .indexer import Indexer
from .keeper import Keeper, lock_state
from .layers import Layers
from .logs import logger, note
from .matcher import Matcher
from .metrics import Metrics
from .notifier import Notifier
from .pages import Pages
from .records import Records
from .store import Store

STOP_SECONDS = 60.0
KEEP_ALIVE_SECONDS = 75.0
# answers that are being written at the end get so long
CLOSE_SECONDS = 5.0
# a task that failed, as on a full disk, begins again after so long
RETRY_SECONDS = 5.0


class Application:
    """The parts, and the tasks that run beside the requests."""

    def __init__(self, configuration: Configuration, lock: int):
        self.configuration = configuration
        self.metrics = Metrics()
        self.store = Store(configuration.state / "state.sqlite")
        self.records = Records(configuration.state / "records.sqlite", configuration.tools)
        self.keeper = Keeper(configuration, self.store, self.records, self.metrics, lock)
        self.blobs = Fetcher(configuration.fetch, is_guarded=True)
        self.sources = Fetcher(configuration.fetch, is_guarded=False)
        self.layers = Layers(configuration, self.store, self.blobs)
        self.indexer = Indexer(configuration, self.store, self.keeper, self.layers)
        self.matcher = Matcher(self.store, self.records, self.keeper)
        self.notifier = Notifier(configuration.webhook, self.store, self.records, self.keeper, self.metrics)
        self.keeper.on_resumed = self.notifier.resume
        self.feeds = Feeds(configuration, self.store, self.records, self.keeper, self.sources, self.notifier, self.metrics)
        self.pages = Pages(configuration, self.store, self.matcher, self.indexer, self.notifier, self.metrics)

    def web(self) -> web.Application:
        """The routes."""
        settings = self.configuration.server
        steps = [
            middlewares.counted(self.metrics),
            middlewares.refusing,
            middlewares.authorized(self.configuration.token()),
            middlewares.without_browsers,
            middlewares.Bodies(settings.body_bytes, settings.all_bodies_bytes, settings.request_seconds).middleware(),
        ]
        found = web.Application(middlewares=steps, client_max_size=settings.body_bytes)
        report, one = "/indexer/api/v1/index_report", "/indexer/api/v1/index_report/{digest}"
        notification = "/notifier/api/v1/notification/{id}"
        found.add_routes([
            web.post(report, self.indexer.post),
            web.delete(report, self.indexer.delete_many),
            web.get(one, self.indexer.get),
            web.delete(one, self.indexer.delete),
            web.get("/indexer/api/v1/index_state", self.indexer.state),
            web.get("/matcher/api/v1/vulnerability_report/{digest}", self.matcher.get),
            web.get(notification, self.notifier.get),
            web.delete(notification, self.notifier.delete),
            web.get("/", self.pages.front),
            web.get("/images/{digest}", self.pages.image),
            web.get("/notifications/{id}", self.pages.notification),
            web.get("/style.css", self.pages.style),
            web.get("/healthz", self.pages.health),
            web.get("/readyz", self.pages.readiness),
            web.get("/metrics", self.pages.numbers),
        ])
        return found

    @contextlib.asynccontextmanager
    async def listening(self) -> AsyncIterator[int]:
        """Listens for connections, and gives the port."""
        settings = self.configuration.server
        runner = web.AppRunner(self.web(), access_log=None, handle_signals=False)
        await runner.setup()
        assert runner.server is not None
        manager: web.Server = runner.server
        limits = Limits(settings.connections, settings.request_seconds, self.metrics)
        loop = asyncio.get_running_loop()
        options = {"loop": loop, "access_log": None, "logger": logger, "keepalive_timeout": KEEP_ALIVE_SECONDS, "auto_decompress": False}
        server = await loop.create_server(
            lambda: GuardedConnection(manager, limits, **options), settings.listen, settings.port, backlog=1024, reuse_address=True
        )
        try:
            yield server.sockets[0].getsockname()[1]
        finally:
            server.close()
            await manager.shutdown(CLOSE_SECONDS)
            await runner.cleanup()

    async def close(self) -> None:
        """Ends the clients, and closes the files."""
        await self.blobs.close()
        await self.sources.close()
        self.records.close()
        self.store.close()

    async def run(self, stop: asyncio.Event) -> None:
        """Runs until it is to stop. The round that has begun is ended, and answered."""
        self.layers.prepare()
        await self.layers.tidy()
        child = asyncio.create_task(guarded(self.keeper.run))
        others = [asyncio.create_task(guarded(work)) for work in (self.feeds.run, self.notifier.run)]
        try:
            async with self.listening() as port:
                note("listening", address=self.configuration.server.listen, port=port)
                await stop.wait()
                note("stopping")
                for task in others:
                    task.cancel()
                self.keeper.stop()
                await asyncio.wait({child}, timeout=STOP_SECONDS)
        finally:
            for task in (child, *others):
                task.cancel()
            await asyncio.gather(child, *others, return_exceptions=True)
            await self.close()


async def guarded(work: Callable[[], Awaitable[None]]) -> None:
    """Does some work to its end. Logs what it fails with, and begins it again."""
    while True:
        try:
            return await work()
        except Exception:  # pylint: disable=broad-exception-caught
            logger.exception("a task failed")
        await asyncio.sleep(RETRY_SECONDS)


async def serve(configuration: Configuration, stop: asyncio.Event) -> None:
    """Runs a server in the folder of its state."""
    os.makedirs(configuration.state, mode=0o750, exist_ok=True)
    lock = await asyncio.to_thread(lock_state, configuration)
    try:
        await Application(configuration, lock).run(stop)
    finally:
        os.close(lock)
