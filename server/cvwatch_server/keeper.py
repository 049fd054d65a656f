"""Keeps a child running. After each start it gets what it does not know any more, and only then can it be asked."""

import asyncio
import fcntl
import logging
import os
import time
from typing import Any, Awaitable, Callable

from .child import BAD_KEEP, DESK_FAULT, KEEP_FULL, KEPT, LANES, Answer, Child, ChildGone
from .configuration import Configuration
from .logs import note, warn
from .metrics import Metrics
from .records import Change, Records
from .refusals import not_found, refusal_of, unavailable
from .store import Store

FIRST_PAUSE = 0.1
LONGEST_PAUSE = 30.0
# a child that ran so long is started again without a long pause
STEADY_SECONDS = 60.0
AT_ONCE = 256
Ask = Callable[[dict[str, Any]], Awaitable[Answer]]
# an empty round is enough to index all layers that can be read
INDEX_PAUSES = (0.0, 0.0, 0.1, 0.5, 1.0, 2.0)


async def ignore(_ask: Ask, _numbers: list[int]) -> None:
    """Does nothing with notifications."""


def lock_state(configuration: Configuration) -> int:
    """Takes the lock of the state's folder, which an earlier server or its child may still hold."""
    lock = os.open(configuration.state / "lock", os.O_RDWR | os.O_CREAT | os.O_CLOEXEC, 0o600)
    try:
        fcntl.flock(lock, fcntl.LOCK_EX | fcntl.LOCK_NB)
    except BlockingIOError:
        warn("another server or its child still uses the state: waiting for it to end")
        fcntl.flock(lock, fcntl.LOCK_EX)
    return lock


class Keeper:
    """The child that runs now, if there is one."""

    def __init__(self, configuration: Configuration, store: Store, records: Records, metrics: Metrics, lock: int):
        self.configuration = configuration
        self.store = store
        self.records = records
        self.metrics = metrics
        self.lock = lock
        self.child: Child | None = None
        self.is_ready = asyncio.Event()
        self.is_stopping = asyncio.Event()
        # held while a feed is sent and then kept, so that a child that is restored gets either the old records or the new ones
        self.sending = asyncio.Lock()
        # what is done with the notifications that a child still has
        self.on_resumed: Callable[[Ask, list[int]], Awaitable[None]] = ignore

    async def ask(self, request: dict[str, Any], lane: int = 0) -> Answer:
        """The answer of the child. Raises Refusal while there is none."""
        if self.child is None or not self.is_ready.is_set():
            raise unavailable("cvwatch is starting")
        try:
            return await self.child.ask({**request, "lane": lane % LANES})
        except ChildGone:
            raise unavailable("cvwatch ended before it answered") from None

    async def report(self, digest: str, lane: int) -> Answer:
        """The child's report of an image, which is good, bad or pending. Raises Refusal if there is none."""
        answer = await self.ask({"do": "report", "image": digest}, lane)
        if answer.get("reply") == "not_registered":
            raise not_found("the image is not registered")
        if answer.get("reply") not in ("good", "bad_image", "pending"):
            raise refusal_of(answer)
        return answer

    async def run(self) -> None:
        """Starts children until the server stops."""
        pause = FIRST_PAUSE
        while not self.is_stopping.is_set():
            began = asyncio.get_running_loop().time()
            await self.run_child()
            if self.is_stopping.is_set():
                return
            if asyncio.get_running_loop().time() - began > STEADY_SECONDS:
                pause = FIRST_PAUSE
            self.metrics.restarts.inc()
            try:
                await asyncio.wait_for(self.is_stopping.wait(), pause)
            except TimeoutError:
                pause = min(2 * pause, LONGEST_PAUSE)

    async def run_child(self) -> None:
        """Runs one child to its end."""
        child = Child(self.configuration.child, self.configuration.state, self.metrics, self.lock)
        try:
            await child.start()
        except OSError as error:
            warn("the child cannot be started", error=str(error))
            return
        self.child = child
        if self.is_stopping.is_set():
            child.stop()
        running = asyncio.create_task(child.run())
        restoring = asyncio.create_task(self.restore(child))
        try:
            status = await running
            note("the child ended", logging.INFO if self.is_stopping.is_set() else logging.WARNING, status=status)
            if status in (DESK_FAULT, BAD_KEEP, KEEP_FULL):
                self.set_aside()
        finally:
            self.is_ready.clear()
            self.metrics.is_ready.set(0)
            restoring.cancel()
            await asyncio.gather(restoring, return_exceptions=True)

    def set_aside(self) -> None:
        """Renames the file of a child that cannot go on with it, so that the next one begins without one and gets all that it needs."""
        file = self.configuration.state / KEPT
        aside = file.with_name(f"{KEPT}.{int(time.time())}")
        try:
            file.rename(aside)
        except OSError as error:
            warn("the file of the child cannot be renamed", error=str(error))
        else:
            warn("the file of the child was set aside", file=str(aside))

    def is_current(self, child: Child) -> bool:
        """Whether a child kept all updates that the server knows. One of `serve` has none, and a file may be lost or an older one."""
        newest = max((part.generation for part in self.records.parts()), default=0)
        return child.resumed is not None and child.resumed["generation"] >= newest

    async def restore(self, child: Child) -> None:
        """Brings a child to the state of the server."""
        try:
            heads = await child.ask({"do": "list"})
            is_current = self.is_current(child)
            if not is_current:
                async with self.sending:
                    self.store.new_epoch()
                    await self.send_feeds(child)
            await self.send_images(child)
            if is_current:
                await self.on_resumed(child.ask, [head["number"] for head in heads["notifications"]])
        except ChildGone:
            return
        except Exception as error:  # pylint: disable=broad-exception-caught
            warn("the child was not restored", error=repr(error))
            child.stop()
            return
        note("the child is ready", resumed=is_current)
        self.is_ready.set()
        self.metrics.is_ready.set(1)

    async def send_feeds(self, child: Child) -> None:
        """Sends all records, before there are images that they could concern."""
        for part in self.records.parts():
            lines = await asyncio.to_thread(self.records.lines, part.name)
            answer = await child.ask(update(part.name, lines))
            if answer.get("reply") != "updated":
                raise RuntimeError(f"the feed {part.name} was not taken: {answer}")
            self.records.set_generation(part.name, answer["generation"])

    async def send_images(self, child: Child) -> None:
        """Registers all images, and waits until they are indexed, so that a later update concerns them."""
        images = list(self.store.images())
        for first in range(0, len(images), AT_ONCE):
            some = images[first : first + AT_ONCE]
            for answer in await asyncio.gather(*(child.ask(register(image.digest, image.layers)) for image in some)):
                if answer.get("reply") in ("conflict", "too_many_images"):
                    warn("an image was not registered again", answer=answer)
                    self.store.drop_image(answer["image"])
                elif answer.get("reply") not in ("registered", "already"):
                    raise RuntimeError(f"an image was not taken: {answer}")
        pending = [image.digest for image in images]
        for pause in INDEX_PAUSES:
            pending = [digest for digest in pending if await self.is_pending(child, digest)]
            if not pending:
                return
            await asyncio.sleep(pause)
        warn("layers of some images cannot be read", images=len(pending))

    async def is_pending(self, child: Child, digest: str) -> bool:
        """Whether an image waits for the indexing of its layers."""
        answer = await child.ask({"do": "report", "image": digest})
        self.store.set_state(digest, {"good": "good", "bad_image": "bad"}.get(answer.get("reply", ""), "pending"))
        return answer.get("reply") == "pending"

    def stop(self) -> None:
        """Ends the child when the round that has begun is answered."""
        self.is_stopping.set()
        if self.child is not None:
            self.child.stop()


def register(digest: str, layers: list[str]) -> dict[str, Any]:
    """The request that registers an image."""
    return {"do": "register", "manifest": {"hash": digest, "layers": [{"hash": layer} for layer in layers]}}


def update(part: str, lines: dict[str, bytes]) -> dict[str, Any]:
    """The request that replaces all records of a feed."""
    return {"do": "update", "feed": part, "advisories": list(lines.values())}


def patch(part: str, generation: int, change: Change) -> dict[str, Any]:
    """The request that changes records of a feed, as it is known at a generation."""
    return {"do": "patch", "feed": part, "base": generation, "remove": change.removed, "advisories": list(change.changed.values())}
