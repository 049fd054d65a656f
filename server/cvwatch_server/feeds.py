"""Feeds of OSV records: each is looked at again and again, and what changed in it is sent to the child."""

import asyncio
import dataclasses
import json
import shutil
import tempfile
import time
import zlib
from pathlib import Path
from typing import Any

from .configuration import Configuration, Feed
from .fetching import Fetcher, Request
from .keeper import Keeper, patch, update
from .logs import logger, note, warn
from .metrics import Metrics
from .notifier import Notifier
from .records import Change, Part, Records
from .refusals import Refusal
from .store import FeedState, Store

# the most records and bytes with which a part of a feed begins. cvwatch takes 200,000 records of a feed and lines of 64 MiB, so a part can grow
MOST_RECORDS = 150_000
MOST_BYTES = 40_000_000
RETRY_SECONDS = 5.0


class BadFeed(Exception):
    """The feed is not one of OSV records, or was not taken."""


class Feeds:
    """The feeds of the configuration."""

    def __init__(self, configuration: Configuration, store: Store, records: Records, keeper: Keeper, fetcher: Fetcher, notifier: Notifier, metrics: Metrics):
        self.configuration = configuration
        self.store = store
        self.records = records
        self.keeper = keeper
        self.fetcher = fetcher
        self.notifier = notifier
        self.metrics = metrics
        self.work = configuration.state / "work"
        # one feed is converted at a time, as its records are in memory then
        self.turn = asyncio.Lock()

    async def run(self) -> None:
        """Looks at all feeds until the server stops."""
        names = {feed.name for feed in self.configuration.feeds}
        async with asyncio.TaskGroup() as group:
            for part in self.records.parts():
                if part.feed not in names:
                    group.create_task(self.empty(part))
            for feed in self.configuration.feeds:
                group.create_task(self.keep_fresh(feed))

    async def empty(self, part: Part) -> None:
        """Takes all records from a part whose feed is not configured any more."""
        while True:
            await self.keeper.is_ready.wait()
            try:
                return await self.send_part(part, {})
            except (Refusal, BadFeed) as error:
                warn("a former feed was not emptied", feed=part.name, error=str(error))
                await asyncio.sleep(RETRY_SECONDS)

    async def keep_fresh(self, feed: Feed) -> None:
        """Looks at one feed, and waits. After a failure it waits less at first."""
        pause = RETRY_SECONDS
        while True:
            await self.keeper.is_ready.wait()
            if await self.look(feed):
                pause = RETRY_SECONDS
                await asyncio.sleep(feed.seconds)
            else:
                await asyncio.sleep(min(pause, feed.seconds))
                pause *= 2

    async def look(self, feed: Feed) -> bool:
        """Looks at a feed once, and says whether that succeeded."""
        state = dataclasses.replace(self.store.feed(feed.name), looked=time.time())
        try:
            async with self.turn:
                state = await self.bring(feed, state)
        except Exception as error:  # pylint: disable=broad-exception-caught
            if not isinstance(error, (Refusal, BadFeed, OSError)):
                logger.exception("a feed failed")
            self.metrics.feed_failures.labels(feed.name).inc()
            warn("a feed is not fresh", feed=feed.name, error=str(error))
            self.store.set_feed(dataclasses.replace(state, error=str(error)))
            return False
        self.store.set_feed(dataclasses.replace(state, fresh=time.time(), error=""))
        return True

    async def bring(self, feed: Feed, state: FeedState) -> FeedState:
        """Fetches a feed, and sends what changed. The mark is kept only when all was sent."""
        folder = Path(tempfile.mkdtemp(dir=self.work))
        try:
            file = folder / "feed"
            source = " ".join([feed.url, feed.file, *feed.ecosystems])
            known, _, mark = state.mark.partition("\n")
            is_known = known == source and self.records.parts_of(feed.name)
            new_mark = await self.fetch(feed, mark if is_known else "", file)
            if new_mark is None:
                return state
            if file.stat().st_size == 0:
                # a file that is just being written, or an answer that was cut off, is not a feed without records
                raise BadFeed("the feed is empty")
            lines = await self.convert(feed, file, folder)
            await self.send(feed, lines)
            return dataclasses.replace(state, mark=f"{source}\n{new_mark}", records=len(lines))
        finally:
            await asyncio.to_thread(shutil.rmtree, folder, True)

    async def fetch(self, feed: Feed, mark: str, file: Path) -> str | None:
        """Brings the bytes of a feed, and gives their mark; None if they still have the mark of before."""
        if feed.file:
            found = await asyncio.to_thread(Path(feed.file).stat)
            new_mark = f"{found.st_mtime_ns}-{found.st_size}-{found.st_ino}"
            if new_mark == mark:
                return None
            await asyncio.to_thread(copy, feed.file, file)
            return new_mark
        headers = (("If-None-Match", mark),) if mark else ()
        fetched = await self.fetcher.fetch(Request(feed.url, headers, feed.bytes), file)
        return None if fetched.status == 304 else fetched.mark

    async def convert(self, feed: Feed, file: Path, folder: Path) -> dict[str, bytes]:
        """The records of a feed by their ids, by `tools/feed-to-lines`."""
        options = [text for name in feed.ecosystems for text in ("--ecosystem", name)]
        with (folder / "lines").open("wb") as lines, (folder / "errors").open("wb") as errors:
            process = await asyncio.create_subprocess_exec(
                str(self.configuration.tools / "feed-to-lines"), *options, str(file), stdin=asyncio.subprocess.DEVNULL, stdout=lines, stderr=errors
            )
            status = await process.wait()
        if status != 0:
            said = (folder / "errors").read_text(encoding="utf-8", errors="replace").splitlines()
            raise BadFeed(said[-1][:500] if said else f"feed-to-lines ended with status {status}")
        return await asyncio.to_thread(read_lines, folder / "lines")

    async def send(self, feed: Feed, lines: dict[str, bytes]) -> None:
        """Sends each part of a feed that changed."""
        sent = self.records.parts_of(feed.name)
        names = part_names(feed.name, lines, len(sent))
        for name, some in split(names, lines).items():
            await self.send_part(Part(name, feed.name, -1), some)
        # a feed that has other parts than before has no records in those that it had
        for part in sent:
            if part.name not in names:
                await self.send_part(Part(part.name, feed.name, -1), {})

    async def send_part(self, part: Part, lines: dict[str, bytes]) -> None:
        """Sends what changed in a part, and keeps it as sent."""
        async with self.keeper.sending:
            await self.send_change(part, lines)

    async def send_change(self, part: Part, lines: dict[str, bytes]) -> None:
        """The same, while no child is restored."""
        change = await asyncio.to_thread(self.records.change, part.name, lines)
        known = self.records.known(part)
        is_sent = known.generation >= 0
        if is_sent and change.is_empty():
            return
        answer: dict[str, Any] = {}
        if is_sent:
            answer = await self.keeper.ask(patch(part.name, known.generation, change))
        # the first time, and at `stale_base`, `no_feed` or `too_many_records`
        if answer.get("reply") != "updated":
            answer = await self.keeper.ask(update(part.name, lines))
        if answer.get("reply") != "updated":
            raise BadFeed(f"cvwatch did not take the feed: {json.dumps(answer)[:500]}")
        await self.finish(dataclasses.replace(part, generation=answer["generation"]), change, answer["rows"])

    async def finish(self, part: Part, change: Change, rows: int) -> None:
        """Keeps the notification of an update, and then the records."""
        note("a feed was updated", feed=part.name, generation=part.generation, changed=len(change.changed), removed=len(change.removed), rows=rows)
        if rows:
            await self.notifier.keep(part.generation, part.name, change)
        await asyncio.to_thread(self.records.apply, part, change)
        self.records.forget(part, change)


def copy(source: str, target: Path) -> None:
    """Copies a file."""
    shutil.copyfile(source, target)


def read_lines(file: Path) -> dict[str, bytes]:
    """The records of a file by their ids."""
    with file.open("rb") as lines:
        return {json.loads(line)["id"]: line.rstrip(b"\n") for line in lines}


def part_names(feed: str, lines: dict[str, bytes], present: int) -> list[str]:
    """The parts of a feed: as many as there are, unless it has outgrown them."""
    size = sum(map(len, lines.values()))
    wanted = max(len(lines) // MOST_RECORDS, size // MOST_BYTES) + 1
    if present and wanted <= 1.25 * present:
        wanted = present
    return [feed] if wanted == 1 else [f"{feed}.{number}" for number in range(wanted)]


def split(names: list[str], lines: dict[str, bytes]) -> dict[str, dict[str, bytes]]:
    """The records of each part: an id is always in the same one."""
    parts: dict[str, dict[str, bytes]] = {name: {} for name in names}
    for name, line in lines.items():
        parts[names[zlib.crc32(name.encode()) % len(names)]][name] = line
    return parts
