"""Notifications: they are kept until they are acknowledged, and each is posted to the webhook until it is taken."""

import asyncio
import uuid
from typing import Any

import aiohttp
from aiohttp import web

from . import clair
from .configuration import Webhook
from .keeper import Ask, Keeper
from .logs import note, warn
from .metrics import Metrics
from .records import Change, Records
from .refusals import bad_request, not_found
from .store import Notification, Store

MOST_ROWS = 1000
FIRST_PAUSE = 1.0


def place_of(text: str) -> int:
    """The place of the first row of a page: the number that a UUID of `next` is."""
    if not text:
        return 0
    try:
        return min(uuid.UUID(text).int, 1 << 62)
    except ValueError:
        raise bad_request("next is not one that was given") from None


def next_of(place: int, rows: int) -> str:
    """What `next` is for the page that begins at a place, or nothing after the last of so many rows."""
    return str(uuid.UUID(int=place)) if place < rows else ""


def size_of(text: str) -> int:
    """The number of rows of a page."""
    if not text.isascii() or not text.isdigit() or not 1 <= int(text[:9]) <= MOST_ROWS:
        raise bad_request(f"page_size is not a number from 1 to {MOST_ROWS}")
    return int(text[:9])


async def rows_of(ask: Ask, number: int) -> list[dict[str, Any]] | None:
    """All rows of a notification of the child, or None if it does not have it."""
    rows: list[dict[str, Any]] = []
    page = pages = 1
    while page <= pages:
        answer = await ask({"do": "page", "number": number, "size": MOST_ROWS, "page": page})
        if answer.get("reply") != "page":
            return None
        rows += answer["rows"]
        page, pages = page + 1, answer["pages"]
    return rows


class Notifier:
    """What is done with the notifications of the child."""

    def __init__(self, settings: Webhook, store: Store, records: Records, keeper: Keeper, metrics: Metrics):
        self.settings = settings
        self.store = store
        self.records = records
        self.keeper = keeper
        self.metrics = metrics
        self.has_news = asyncio.Event()

    async def keep(self, number: int, part: str, change: Change) -> None:
        """Keeps a new notification, of an update with this change."""
        rows = await rows_of(self.keeper.ask, number)
        if rows is not None:
            self.add(number, rows, self.records.after(part, change))

    async def resume(self, ask: Ask, numbers: list[int]) -> None:
        """Keeps the notifications that a child still has and that were not kept before."""
        for number in numbers:
            rows = None if self.store.has_number(number) else await rows_of(ask, number)
            if rows is not None:
                self.add(number, rows, self.records.record)

    def add(self, number: int, rows: list[dict[str, Any]], record: clair.Lookup) -> None:
        """Keeps the rows with what the records say now."""
        of = self.records.osv_records
        texts = [
            {"image": row["image"], "reason": row["reason"], "package": row["finding"]["name"], "vulnerability": clair.vulnerability_of(row["finding"], record, of)}
            for row in rows
        ]
        self.store.add_notification(number, texts)
        self.has_news.set()

    async def run(self) -> None:
        """Posts the notifications that were not taken yet, with growing pauses, until the server stops."""
        pause = FIRST_PAUSE
        self.has_news.set()
        async with aiohttp.ClientSession(timeout=aiohttp.ClientTimeout(total=self.settings.seconds)) as session:
            while self.settings.target:
                self.has_news.clear()
                untaken = [one for one in self.store.notifications() if not one.is_taken]
                if not untaken:
                    await self.has_news.wait()
                elif await self.post(session, untaken[0]):
                    self.store.take_notification(untaken[0].id)
                    pause = FIRST_PAUSE
                else:
                    await asyncio.sleep(pause)
                    pause = min(2 * pause, self.settings.longest_pause)

    async def post(self, session: aiohttp.ClientSession, notification: Notification) -> bool:
        """Posts one notification, and says whether it was taken."""
        base = self.settings.callback.rstrip("/")
        body = {"notification_id": notification.id, "callback": f"{base}/notifier/api/v1/notification/{notification.id}"}
        try:
            async with session.post(self.settings.target, json=body, headers=self.settings.headers, allow_redirects=False) as response:
                is_taken = 200 <= response.status < 300
                outcome = "taken" if is_taken else f"status {response.status}"
        except (aiohttp.ClientError, OSError, ValueError) as error:
            is_taken, outcome = False, type(error).__name__
        self.metrics.deliveries.labels("taken" if is_taken else "refused").inc()
        note("a notification was posted", notification=notification.id, outcome=outcome)
        return is_taken

    def known(self, name: str) -> Notification:
        """The notification of an id in a path."""
        found = self.store.notification(name)
        if found is None:
            raise not_found("there is no such notification, or it was acknowledged")
        return found

    async def get(self, request: web.Request) -> web.Response:
        """Answers with a page of a notification."""
        notification = self.known(request.match_info["id"])
        size = size_of(request.query.get("page_size", "100"))
        first = place_of(request.query.get("next", ""))
        rows = self.store.notification_rows(notification.id, first, size)
        page: dict[str, Any] = {"size": size}
        if following := next_of(first + size, notification.rows):
            page["next"] = following
        return web.json_response({"page": page, "notifications": [self.form(notification, first + place, row) for place, row in enumerate(rows)]})

    def form(self, notification: Notification, place: int, row: dict[str, Any]) -> dict[str, Any]:
        """A row in the form of Clair."""
        name = str(uuid.uuid5(uuid.UUID(notification.id), str(place)))
        return {"id": name, "manifest": row["image"], "reason": row["reason"], "vulnerability": row["vulnerability"]}

    async def delete(self, request: web.Request) -> web.Response:
        """Acknowledges a notification."""
        notification = self.known(request.match_info["id"])
        if notification.epoch == self.store.epoch():
            answer = await self.keeper.ask({"do": "ack", "number": notification.number}, request["lane"])
            if answer.get("reply") not in ("acked", "no_notification"):
                warn("a notification was not acknowledged", answer=answer)
        self.store.drop_notification(notification.id)
        return web.Response(status=204)
