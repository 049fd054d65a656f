"""The pages for people: images, the findings of one, notifications and feeds. They are rendered here, and have no script."""

import asyncio
import datetime
import time
from collections import Counter
from pathlib import Path
from typing import Any

import jinja2
from aiohttp import web

from . import clair
from .configuration import Configuration
from .indexer import Indexer
from .matcher import Matcher
from .metrics import Metrics
from .notifier import Notifier, next_of, place_of
from .refusals import Refusal, bad_request
from .store import Image, Store

FOLDER = Path(__file__).parent / "templates"
SEVERITIES = ("critical", "high", "medium", "low", "none", "unknown")
IMAGES_OF_PAGE = 50
ROWS_OF_PAGE = 500


def moment(seconds: float | None) -> str:
    """A time as it is shown."""
    if seconds is None:
        return "never"
    return datetime.datetime.fromtimestamp(seconds, datetime.timezone.utc).strftime("%Y-%m-%d %H:%M:%S UTC")


def short(digest: str) -> str:
    """The first digits of a digest."""
    return digest[:19]


def number_of(text: str) -> int:
    """The number of a page."""
    if not text.isascii() or not text.isdigit() or not 1 <= int(text[:9]) <= 1_000_000:
        raise bad_request("page is not a number")
    return int(text[:9])


class Pages:
    """What browsers are shown."""

    def __init__(self, configuration: Configuration, store: Store, matcher: Matcher, indexer: Indexer, notifier: Notifier, metrics: Metrics):
        self.configuration = configuration
        self.store = store
        self.matcher = matcher
        self.indexer = indexer
        self.notifier = notifier
        self.metrics = metrics
        loader = jinja2.FileSystemLoader(FOLDER)
        self.environment = jinja2.Environment(loader=loader, autoescape=True, undefined=jinja2.StrictUndefined)
        self.environment.filters.update(moment=moment, short=short)

    def page(self, name: str, **members: Any) -> web.Response:
        """A page by its template."""
        text = self.environment.get_template(name).render(severities=SEVERITIES, is_ready=self.matcher.keeper.is_ready.is_set(), **members)
        return web.Response(text=text, content_type="text/html", charset="utf-8")

    async def front(self, request: web.Request) -> web.Response:
        """Shows images, notifications and feeds."""
        number = number_of(request.query.get("page", "1"))
        count = self.store.count_images()
        images = list(self.store.images(IMAGES_OF_PAGE, (number - 1) * IMAGES_OF_PAGE))
        return self.page(
            "front.html",
            images=await asyncio.gather(*(self.line_of(image, request["lane"]) for image in images)),
            count=count,
            number=number,
            has_more=number * IMAGES_OF_PAGE < count,
            notifications=self.store.notifications()[-ROWS_OF_PAGE:],
            feeds=[self.store.feed(feed.name) for feed in self.configuration.feeds],
            now=time.time(),
        )

    async def line_of(self, image: Image, lane: int) -> dict[str, Any]:
        """What the front page says of an image."""
        try:
            answer = await self.matcher.answer(image.digest, lane)
        except Refusal as refusal:
            return {"image": image, "state": refusal.message, "counts": None}
        if answer["reply"] != "good":
            state = clair.reason_of(answer["bad"]) if answer["reply"] == "bad_image" else "pending"
            return {"image": image, "state": state, "counts": None}
        return {"image": image, "state": "indexed", "counts": Counter(row.severity for row in self.rows_of(answer))}

    def rows_of(self, answer: dict[str, Any]) -> list[Any]:
        """The findings as `findings-table` shows them, the greatest severity first."""
        findings = self.matcher.records.findings
        image = findings.Image(answer)
        rows = []
        for finding in answer["findings"]:
            row = findings.Row(finding, image)
            record = self.matcher.records.record(finding["feed"], finding["advisory"])
            if record is not None:
                row.join(record)
            rows.append(row)
        return sorted(rows, key=findings.Row.severity_key)

    async def image(self, request: web.Request) -> web.Response:
        """Shows the findings of an image."""
        image = self.indexer.known(request.match_info["digest"])
        answer = await self.matcher.answer(image.digest, request["lane"])
        rows = self.rows_of(answer) if answer["reply"] == "good" else []
        error = clair.reason_of(answer["bad"]) if answer["reply"] == "bad_image" else ""
        state = {"good": "indexed", "bad_image": "bad"}.get(answer["reply"], "pending")
        return self.page("image.html", image=image, state=state, error=error, rows=rows, counts=Counter(row.severity for row in rows))

    async def notification(self, request: web.Request) -> web.Response:
        """Shows a notification."""
        notification = self.notifier.known(request.match_info["id"])
        first = place_of(request.query.get("next", ""))
        rows = self.store.notification_rows(notification.id, first, ROWS_OF_PAGE)
        following = next_of(first + ROWS_OF_PAGE, notification.rows)
        return self.page("notification.html", notification=notification, rows=rows, next=following)

    async def style(self, _request: web.Request) -> web.Response:
        """Answers with the style of the pages."""
        return web.Response(text=(FOLDER / "style.css").read_text(encoding="utf-8"), content_type="text/css")

    async def health(self, _request: web.Request) -> web.Response:
        """Says that the server runs."""
        return web.Response(text="ok\n")

    async def readiness(self, _request: web.Request) -> web.Response:
        """Says whether the child can be asked."""
        is_ready = self.matcher.keeper.is_ready.is_set()
        return web.Response(text="ready\n" if is_ready else "not ready\n", status=200 if is_ready else 503)

    async def numbers(self, _request: web.Request) -> web.Response:
        """Answers with the metrics, of which some are looked up now."""
        states = self.store.images_by_state()
        for state in ("pending", "good", "bad"):
            self.metrics.images.labels(state).set(states.get(state, 0))
        notifications = self.store.notifications()
        for is_taken in (True, False):
            count = sum(1 for one in notifications if bool(one.is_taken) == is_taken)
            self.metrics.notifications.labels(str(is_taken).lower()).set(count)
        for feed in self.configuration.feeds:
            kept = self.store.feed(feed.name)
            self.metrics.feed_records.labels(feed.name).set(kept.records)
            if kept.fresh is not None:
                self.metrics.feed_age.labels(feed.name).set(time.time() - kept.fresh)
        return web.Response(body=self.metrics.text(), headers={"Content-Type": "text/plain; version=0.0.4; charset=utf-8"})
