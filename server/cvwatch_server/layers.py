"""Layers on disk: a blob is fetched, checked, and unpacked by `tools/unpack-layer` into the folder of its diff ID."""

import asyncio
import errno
import hashlib
import os
import resource
import shutil
import sys
import tempfile
from collections import Counter
from pathlib import Path

from . import processes
from .configuration import Configuration, Fetch
from .fetching import CHUNK, Fetcher, Request
from .logs import warn
from .manifests import Layer
from .refusals import Refusal
from .store import Store

GZIP = b"\x1f\x8b"
ZSTANDARD = b"\x28\xb5\x2f\xfd"
# how often it is looked at how much was written
LOOK_SECONDS = 0.5


def bad_layer(message: str) -> Refusal:
    """The blob is not one of a layer."""
    return Refusal(422, "bad-layer", message)


def reader_of(blob: Path) -> list[str]:
    """The command that writes the uncompressed bytes of a blob."""
    with blob.open("rb") as file:
        start = file.read(4)
    if start.startswith(GZIP):
        return ["gzip", "-dc"]
    if start == ZSTANDARD or (start[1:] == b"\x2a\x4d\x18" and start[0] >> 4 == 5):
        return ["zstd", "-dcq"]
    return ["cat"]


def size_below(folder: Path) -> int:
    """How many bytes of disk the files right in a folder take."""
    try:
        return sum(entry.stat(follow_symlinks=False).st_blocks * 512 for entry in os.scandir(folder))
    except FileNotFoundError:
        return 0


class Unpacking:
    """A blob that is unpacked: one process writes its bytes, which are summed here, and another one makes the tree."""

    def __init__(self, settings: Fetch, tools: Path, blob: Path, folder: Path):
        self.settings = settings
        self.tools = tools
        self.blob = blob
        self.folder = folder
        self.processes: list[asyncio.subprocess.Process] = []

    async def run(self) -> str:
        """Unpacks the blob below FOLDER/tree, and gives the diff ID."""
        work, watch = asyncio.create_task(self.unpack()), asyncio.create_task(self.watch())
        try:
            async with asyncio.timeout(self.settings.seconds):
                done, _ = await asyncio.wait({work, watch}, return_when=asyncio.FIRST_COMPLETED)
                return (work if work in done else watch).result()
        except TimeoutError:
            raise Refusal(504, "unpack-timeout", "the layer was not unpacked in time") from None
        finally:
            work.cancel()
            watch.cancel()
            await asyncio.gather(work, watch, return_exceptions=True)
            for process in self.processes:
                await processes.kill(process)

    async def start(self, *command: str, **streams: object) -> asyncio.subprocess.Process:
        """Starts a process within the limits."""
        process = await asyncio.create_subprocess_exec(*command, limit=CHUNK, start_new_session=True, **streams)  # type: ignore[arg-type]
        self.processes.append(process)
        for limit, value in ((resource.RLIMIT_AS, self.settings.memory_bytes), (resource.RLIMIT_FSIZE, self.settings.layer_bytes)):
            try:
                resource.prlimit(process.pid, limit, (value, value))
            except ProcessLookupError:
                pass
        return process

    async def unpack(self) -> str:
        """Passes the bytes from the one process to the other."""
        pipe = asyncio.subprocess.PIPE
        with self.blob.open("rb") as blob, (self.folder / "errors").open("wb") as errors:
            reader = await self.start(*reader_of(self.blob), stdin=blob, stdout=pipe, stderr=asyncio.subprocess.DEVNULL)
            unpack = [sys.executable, str(self.tools / "unpack-layer"), str(self.folder)]
            maker = await self.start(*unpack, stdin=pipe, stdout=errors, stderr=errors)
        digest = await self.pass_on(reader, maker)
        if await reader.wait() != 0:
            raise bad_layer("the blob is damaged: it cannot be uncompressed")
        if await maker.wait() != 0:
            raise self.failure()
        return digest

    async def pass_on(self, reader: asyncio.subprocess.Process, maker: asyncio.subprocess.Process) -> str:
        """Sums the uncompressed bytes while they are passed on. A maker that ended says later why."""
        assert reader.stdout is not None and maker.stdin is not None
        digest, size = hashlib.sha256(), 0
        while chunk := await reader.stdout.read(CHUNK):
            size += len(chunk)
            if size > self.settings.layer_bytes:
                raise Refusal(422, "too-large", f"the layer has more than {self.settings.layer_bytes} bytes")
            digest.update(chunk)
            try:
                maker.stdin.write(chunk)
                await maker.stdin.drain()
            except (BrokenPipeError, ConnectionResetError):
                await maker.wait()
                raise self.failure() from None
        maker.stdin.close()
        return f"sha256:{digest.hexdigest()}"

    async def watch(self) -> str:
        """Fails as soon as more was written than a layer may have, as sparse files may be longer than their archive."""
        while True:
            await asyncio.sleep(LOOK_SECONDS)
            if await asyncio.to_thread(size_below, self.folder / "files") > self.settings.layer_bytes:
                raise Refusal(422, "too-large", f"the layer has more than {self.settings.layer_bytes} bytes")

    def failure(self) -> Exception:
        """Why no tree was made, as was said last: the disk is full, which may leave no place to say so, or the blob is not one of a layer."""
        lines = (self.folder / "errors").read_text(encoding="utf-8", errors="replace").splitlines()
        message = (lines[-1] if lines else "the layer cannot be unpacked")[:500]
        is_full = os.strerror(errno.ENOSPC) in message or os.statvfs(self.folder).f_bavail == 0
        return OSError(errno.ENOSPC, message) if is_full else bad_layer(message)


class Layers:
    """The folders of layers in the state."""

    def __init__(self, configuration: Configuration, store: Store, fetcher: Fetcher):
        self.settings = configuration.fetch
        self.tools = configuration.tools
        self.store = store
        self.fetcher = fetcher
        self.final = configuration.state / "layers" / "sha256"
        self.work = configuration.state / "work"
        self.slots = asyncio.Semaphore(self.settings.at_once)
        # how many images on their way have a layer
        self.held: Counter[str] = Counter()
        # a blob that several clients post at once is fetched once; blobs share these locks by their last digits
        self.locks = [asyncio.Lock() for _ in range(256)]

    def prepare(self) -> None:
        """Makes the folders, and removes what an earlier run left unfinished."""
        shutil.rmtree(self.work, ignore_errors=True)
        self.work.mkdir(parents=True, exist_ok=True)
        self.final.mkdir(parents=True, exist_ok=True)

    async def tidy(self) -> None:
        """Removes the layers that no image has any more, of those that the server unpacked."""
        await self.remove_unused(self.store.diff_ids())

    def folder(self, diff_id: str) -> Path:
        """The folder of a layer."""
        return self.final / diff_id.removeprefix("sha256:")

    async def unpacked(self, layer: Layer) -> str:
        """The diff ID of a layer whose folder is there: it is fetched and unpacked, unless it was before. It stays until `release`."""
        async with self.locks[int(layer.digest[-2:], 16)]:
            diff_id = self.store.diff_id(layer.digest)
            if diff_id is not None and self.folder(diff_id).is_dir():
                self.held[diff_id] += 1
                return diff_id
            async with self.slots:
                return await self.bring(layer)

    async def release(self, diff_ids: list[str]) -> None:
        """Lets layers be removed that no image has."""
        self.held.subtract(diff_ids)
        await self.remove_unused(diff_ids)

    async def bring(self, layer: Layer) -> str:
        """Fetches and unpacks a layer, which is held as soon as it is there. What is not whole is removed."""
        if not layer.uri:
            raise Refusal(422, "no-blob", f"the layer {layer.digest} is not known, and has no uri")
        work = Path(tempfile.mkdtemp(dir=self.work))
        try:
            blob = work / "blob"
            fetched = await self.fetcher.fetch(Request(layer.uri, layer.headers), blob)
            if fetched.digest != layer.digest:
                raise Refusal(422, "bad-digest", f"the blob of the layer {layer.digest} has another digest")
            place = work / "layer"
            place.mkdir()
            diff_id = await Unpacking(self.settings, self.tools, blob, place).run()
            await self.move(place / "tree", diff_id)
            self.store.add_blob(layer.digest, diff_id)
            self.held[diff_id] += 1
            return diff_id
        finally:
            await asyncio.to_thread(shutil.rmtree, work, True)

    async def move(self, tree: Path, diff_id: str) -> None:
        """Gives a tree its name as a layer, when all of it is on disk."""
        sync = await asyncio.create_subprocess_exec("sync", "-f", str(tree))
        await sync.wait()
        try:
            os.rename(tree, self.folder(diff_id))
        except OSError:
            if not self.folder(diff_id).is_dir():
                raise

    async def remove_unused(self, diff_ids: list[str]) -> None:
        """Removes the folders of layers that no image has. Their blobs are fetched again when an image needs them."""
        for diff_id in dict.fromkeys(diff_ids):
            if self.held[diff_id] > 0 or self.store.uses_layer(diff_id) or not self.folder(diff_id).is_dir():
                continue
            del self.held[diff_id]
            try:
                gone = Path(tempfile.mkdtemp(dir=self.work))
                os.rename(self.folder(diff_id), gone / "tree")
                await asyncio.to_thread(shutil.rmtree, gone, True)
            except OSError as error:
                warn("a layer was not removed", layer=diff_id, error=str(error))
