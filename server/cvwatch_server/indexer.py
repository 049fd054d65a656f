"""The indexer: images are posted, their layers fetched and unpacked, and registered with the child."""

import asyncio
import dataclasses
import functools
import hashlib
import os
import shutil
from pathlib import Path
from typing import Any

from aiohttp import web

from . import clair, manifests
from .configuration import Configuration
from .keeper import Keeper, register
from .layers import Layers
from .logs import note
from .packages import PackageLists
from .refusals import Refusal, not_found, refusal_of
from .store import Image, Store

FINISHED, FAILED, PENDING = "IndexFinished", "IndexError", "IndexPending"
FIRST_PAUSE = 0.001
LONGEST_PAUSE = 1.0
MOST_DIGESTS = 1000


class Indexer:
    """What is done with the images of clients."""

    def __init__(self, configuration: Configuration, store: Store, keeper: Keeper, layers: Layers):
        self.configuration = configuration
        self.store = store
        self.keeper = keeper
        self.layers = layers
        self.lists = PackageLists(configuration.child.program, configuration.state, configuration.fetch.at_once)
        # an image is registered or dropped at a time, so that child and state have the same images; images share these locks by their last digits
        self.locks = [asyncio.Lock() for _ in range(256)]

    async def post(self, request: web.Request) -> web.Response:
        """Indexes an image, and answers with its report when that is done."""
        manifest = manifests.parse(request["body"])
        diff_ids: list[str] = []
        try:
            for layer in manifest.layers:
                diff_ids.append(await self.layers.unpacked(layer))
            report = await self.index(manifest.digest, diff_ids, request["lane"])
        finally:
            await self.layers.release(diff_ids)
        headers = {"Location": f"/indexer/api/v1/index_report/{manifest.digest}", "ETag": f'"{await self.program_sum()}"'}
        return web.json_response(report, status=201, headers=headers)

    def lock_of(self, digest: str) -> asyncio.Lock:
        """The lock of an image."""
        return self.locks[int(digest[-2:], 16)]

    async def index(self, digest: str, diff_ids: list[str], lane: int) -> dict[str, Any]:
        """The index report of an image, whose layers are there. It is kept before it is registered, so that it is not lost."""
        async with self.lock_of(digest):
            is_new = self.store.add_image(digest, diff_ids)
            answer = await self.keeper.ask(register(digest, diff_ids), lane)
            if answer.get("reply") not in ("registered", "already"):
                if is_new:
                    self.store.drop_image(digest)
                raise refusal_of(answer)
        note("an image was registered", image=digest, layers=len(diff_ids), reply=answer["reply"])
        return await self.finish(digest, diff_ids, lane)

    async def finish(self, digest: str, diff_ids: list[str], lane: int) -> dict[str, Any]:
        """Waits until an image is indexed, notes what was found, and gives the report."""
        answer = await self.wait(digest, lane)
        known = self.store.image(digest)
        if known is None or known.layers != diff_ids:
            raise not_found("the image was deleted meanwhile")
        packages = known.packages if answer["reply"] == "good" else None
        if answer["reply"] == "good" and packages is None:
            packages = await self.lists.packages(digest, diff_ids)
        self.store.set_image(dataclasses.replace(known, state=state_of(answer), packages=packages))
        return report_of(digest, packages, answer)

    async def wait(self, digest: str, lane: int) -> dict[str, Any]:
        """The child's report of an image when its layers are indexed: each question is a round, and rounds index layers."""
        pause = FIRST_PAUSE
        end = asyncio.get_running_loop().time() + self.configuration.server.index_seconds
        while True:
            answer = await self.keeper.report(digest, lane)
            if answer["reply"] != "pending" or asyncio.get_running_loop().time() > end:
                return answer
            await asyncio.sleep(pause)
            pause = min(2 * pause, LONGEST_PAUSE)

    def known(self, digest: str) -> Image:
        """The image of a digest in a path."""
        image = self.store.image(manifests.digest_of_path(digest))
        if image is None:
            raise not_found("the image is not registered")
        return image

    async def get(self, request: web.Request) -> web.Response:
        """Answers with the index report of an image."""
        image = self.known(request.match_info["digest"])
        answer = await self.keeper.report(image.digest, request["lane"])
        if answer["reply"] == "good" and image.packages is None and self.lists.is_known:
            report = await self.finish(image.digest, image.layers, request["lane"])
        else:
            report = report_of(image.digest, image.packages, answer)
        return web.json_response(report, headers={"ETag": f'"{await self.program_sum()}"'})

    async def delete(self, request: web.Request) -> web.Response:
        """Drops an image."""
        await self.drop(self.known(request.match_info["digest"]), request["lane"])
        return web.Response(status=204)

    async def delete_many(self, request: web.Request) -> web.Response:
        """Drops the images of a list, and answers with those that were there."""
        digests = manifests.parse_json(request["body"])
        if not isinstance(digests, list) or len(digests) > MOST_DIGESTS or not all(map(manifests.is_digest, digests)):
            raise Refusal(400, "bad-request", f"the body is not a list of at most {MOST_DIGESTS} digests")
        dropped = []
        for digest in dict.fromkeys(digests):
            image = self.store.image(digest)
            if image is not None:
                await self.drop(image, request["lane"])
                dropped.append(digest)
        return web.json_response(dropped)

    async def drop(self, image: Image, lane: int) -> None:
        """Drops an image, first from the child and then from the state; and its layers, if no other image has them."""
        async with self.lock_of(image.digest):
            answer = await self.keeper.ask({"do": "drop", "image": image.digest}, lane)
            if answer.get("reply") not in ("dropped", "not_registered"):
                raise refusal_of(answer)
            self.store.drop_image(image.digest)
        note("an image was dropped", image=image.digest)
        await self.layers.remove_unused(image.layers)

    async def state(self, _request: web.Request) -> web.Response:
        """Answers with a text that changes when images may be found to have other packages: the sum of the program."""
        digest = await self.program_sum()
        return web.json_response({"state": digest}, headers={"ETag": f'"{digest}"'})

    async def program_sum(self) -> str:
        """The digits of the SHA-256 of the program, or nothing where there is none."""
        place = shutil.which(self.configuration.child.program)
        if place is None:
            return ""
        found = os.stat(place)
        return await asyncio.to_thread(sum_of, place, found.st_mtime_ns, found.st_ino)


@functools.lru_cache(maxsize=1)
def sum_of(file: str, _time: int, _number: int) -> str:
    """The digits of the SHA-256 of a file, which is read again when it changed."""
    return hashlib.sha256(Path(file).read_bytes()).hexdigest()


def state_of(answer: dict[str, Any]) -> str:
    """The state of an image by its report."""
    return {"good": "good", "bad_image": "bad"}.get(answer["reply"], "pending")


def report_of(digest: str, packages: list[dict[str, str]] | None, answer: dict[str, Any]) -> dict[str, Any]:
    """The index report of an image by the child's report."""
    if answer["reply"] == "bad_image":
        return clair.index_report(digest, None, FAILED, clair.reason_of(answer["bad"]))
    if answer["reply"] == "good":
        return clair.index_report(digest, packages if packages is not None else answer["findings"], FINISHED)
    return clair.index_report(digest, None, PENDING, "the layers are not indexed yet")
