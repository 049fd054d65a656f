"""The matcher: the vulnerability report of an image."""

import json
from typing import Any

from aiohttp import web

from . import clair, manifests
from .indexer import PENDING
from .keeper import Keeper
from .records import Records
from .store import Store


class Matcher:
    """What is answered of the findings of images."""

    def __init__(self, store: Store, records: Records, keeper: Keeper):
        self.store = store
        self.records = records
        self.keeper = keeper

    async def answer(self, digest: str, lane: int) -> dict[str, Any]:
        """The child's report of an image that is registered."""
        return await self.keeper.report(manifests.digest_of_path(digest), lane)

    async def get(self, request: web.Request) -> web.Response:
        """Answers with the vulnerability report of an image."""
        digest = request.match_info["digest"]
        answer = await self.answer(digest, request["lane"])
        if answer["reply"] == "pending":
            return web.json_response({"manifest_hash": digest, "state": PENDING}, status=202)
        if answer["reply"] == "bad_image":
            empty = clair.vulnerability_report({"findings": [], "image": digest}, [], self.records)
            return web.json_response({**empty, "err": clair.reason_of(answer["bad"])})
        image = self.store.image(digest)
        report = clair.vulnerability_report(answer, image.packages if image else None, self.records)
        return web.Response(text=json.dumps(report, separators=(",", ":")), content_type="application/json")
