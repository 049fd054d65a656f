"""Server and child are killed at random moments: what was answered stays, no layer is left in part, a repeated post answers the same.

The environment variable CVWATCH_KILLS says how often (20 without it).
"""

import http.client
import os
import random
import signal
import subprocess
import threading
import time
from pathlib import Path
from typing import Any

import pytest
from support import Blob, Party, Server, blob_party, debian_blob, manifest_of, npm_blob, record, scanned, vulnerable, wait_for, write_feed

KILLS = int(os.environ.get("CVWATCH_KILLS", "20"))
SEED = int(os.environ.get("CVWATCH_SEED", "1"))
BASE = debian_blob(("bash", "bash", "5.2.15-2"), ("libssl3", "openssl", "3.0.9-1"))
RECORDS = [record("X-1", "Debian:12", "openssl", "3.0.11-1"), record("X-2", "npm", "lodash", "4.17.21"), record("X-3", "Debian:12", "bash", None)]


class Client(threading.Thread):
    """Posts and deletes images without end, and notes what was answered."""

    def __init__(self, server: Server, party: Party, images: dict[str, tuple[Blob, ...]]):
        super().__init__(daemon=True)
        self.server = server
        self.party = party
        self.images = images
        self.choice = random.Random(SEED)
        # the index reports of what is registered for sure, and what may be there or not
        self.reports: dict[str, Any] = {}
        self.unsure: set[str] = set()
        self.posts = 0
        self.is_ended = False
        self.fault: BaseException | None = None

    def run(self) -> None:
        try:
            while not self.is_ended:
                self.step(self.choice.choice(sorted(self.images)))
        except BaseException as error:  # pylint: disable=broad-exception-caught
            self.fault = error

    def await_post(self) -> None:
        """Waits until one more image is indexed."""
        posts = self.posts
        wait_for(lambda: self.posts > posts or self.fault)

    def step(self, digest: str) -> None:
        """Deletes an image now and then, and else posts it."""
        is_deleted = self.choice.random() < 0.2
        known = self.reports.pop(digest, None)
        self.unsure.add(digest)
        try:
            if is_deleted:
                status, _ = self.server.call("DELETE", f"/indexer/api/v1/index_report/{digest}")
                assert status in (204, 404, 503), status
            else:
                status, report = self.server.index(manifest_of(self.party.uri, *self.images[digest], digest=digest))
                assert status in (201, 503), (status, report)
        except (OSError, ValueError, http.client.HTTPException):
            # the connection broke before the answer, or within it
            return
        if status == 503:
            return
        self.unsure.discard(digest)
        if status == 201:
            assert report["success"] and known in (None, report)
            self.reports[digest] = report
            self.posts += 1


def kill(server: Server, choice: random.Random) -> None:
    """Kills the server or its child at some moment, and starts the server again."""
    time.sleep(choice.uniform(0.05, 0.6))
    if choice.random() < 0.5:
        children = server.children()
        for number in children:
            os.kill(number, signal.SIGKILL)
    else:
        server.stop(signal.SIGKILL)
        time.sleep(choice.uniform(0, 0.05))
        server.start(is_waited=choice.random() < 0.7)


def check_layers(server: Server, folder: Path, images: dict[str, tuple[Blob, ...]]) -> None:
    """Each layer in the state is whole."""
    blobs = {blob.diff_id.removeprefix("sha256:"): blob for some in images.values() for blob in some}
    for place in (server.state / "layers" / "sha256").iterdir():
        whole = folder / "whole" / place.name
        if not whole.exists():
            whole.mkdir(parents=True)
            subprocess.run(["tar", "-xf", "-", "-C", whole], input=blobs[place.name].tar, check=True)
        assert subprocess.run(["diff", "-r", whole, place]).returncode == 0


def test_kills(tmp_path: Path, program: str, request: pytest.FixtureRequest) -> None:
    """After each of many kills all is as it was answered."""
    images = {}
    for number in range(12):
        blobs = (BASE, npm_blob("lodash", f"4.17.{number}"))
        images[manifest_of("", *blobs)["hash"]] = blobs
    feed = tmp_path / "feed.jsonl"
    write_feed(feed, RECORDS)
    choice = random.Random(SEED)
    with blob_party(BASE, *(blobs[1] for blobs in images.values())) as party:
        server = Server(tmp_path, program, f'[[feed]]\nname = "a"\nfile = "{feed}"\nseconds = 0.3\n').start()
        request.addfinalizer(server.stop)
        wait_for(lambda: server.metric('cvwatch_feed_records{feed="a"}') == len(RECORDS))
        client = Client(server, party, images)
        client.start()
        for number in range(KILLS):
            if number % 4 == 3:
                # on a slow machine no post is answered between two kills
                client.await_post()
            kill(server, choice)
            assert client.fault is None, client.fault
        client.is_ended = True
        client.join()
        assert client.fault is None, client.fault
        wait_for(server.is_ready, 120)
        assert client.posts > 0
        for digest, blobs in images.items():
            status, report = server.report(digest)
            if digest in client.reports:
                assert status == 200
                assert vulnerable(report) == scanned(program, tmp_path / "scan", digest, blobs, RECORDS)
                assert server.index(manifest_of(party.uri, *blobs, digest=digest)) == (201, client.reports[digest])
            else:
                assert status in ((200, 404) if digest in client.unsure else (404,))
        check_layers(server, tmp_path, images)
        assert list((server.state / "work").iterdir()) == []
        assert server.stop() == 0
