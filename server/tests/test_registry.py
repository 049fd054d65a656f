"""The whole way: images of a registry are indexed, their reports are those of `cvwatch scan`, and updates reach a webhook."""

import http.client
import json
import subprocess
from pathlib import Path
from typing import Any

import pytest
from support import (
    PATIENCE, Answers, Blob, Party, Server, debian_blob, npm_blob, push, record, registry, scanned, vulnerable, wait_for, write_feed,
)

BASE = debian_blob(("libssl3", "openssl", "3.0.9-1"), ("zlib1g", "zlib", "1:1.2.13.dfsg-1"))
OTHER = debian_blob(("bash", "bash", "5.2.15-2"))
IMAGES: dict[str, tuple[Blob, ...]] = {"one": (BASE,), "two": (BASE, npm_blob("lodash", "4.17.20")), "three": (OTHER,)}
OPENSSL = record("DSA-5532-1", "Debian:12", "openssl", "3.0.11-1~deb12u2", summary="a <b>flaw</b>", aliases=["CVE-2023-5363"])
LODASH = record("GHSA-35jh-r3h4-6jhm", "npm", "lodash", "4.17.21", database_specific={"severity": "HIGH"})
BASH = record("DSA-9999-1", "Debian:12", "bash", None)


class World:
    """A registry with three images, a feed file, a webhook, and a server."""

    def __init__(self, folder: Path, program: str, address: str):
        self.folder = folder
        self.program = program
        self.feed = folder / "feed.jsonl"
        self.records = [OPENSSL, LODASH]
        write_feed(self.feed, self.records)
        self.is_taking = True
        self.hook = Party(self.take)
        self.images = {name: push(address, folder, name, blobs) for name, blobs in IMAGES.items()}
        self.address = address
        self.server = Server(
            folder,
            program,
            f'[webhook]\ntarget = "{self.hook.uri}/hook"\ncallback = "http://clair.example"\nlongest_pause = 1\n'
            f'[[feed]]\nname = "all"\nfile = "{self.feed}"\nseconds = 0.3\n',
        )

    def take(self, request: Answers) -> None:
        """Answers a post to the webhook."""
        request.give(200 if self.is_taking else 500)

    def manifest(self, name: str) -> dict[str, Any]:
        """The manifest of an image, as a registry posts it."""
        uri = f"http://{self.address}/v2/{name}/blobs"
        layers = [{"hash": blob.digest, "uri": f"{uri}/{blob.digest}", "headers": {"Accept": ["*/*"]}} for blob in IMAGES[name]]
        return {"hash": self.images[name], "layers": layers}

    def index_all(self) -> None:
        """Waits for the feed, and posts all manifests."""
        wait_for(lambda: self.server.metric('cvwatch_feed_records{feed="all"}') == len(self.records))
        for name in IMAGES:
            status, report = self.server.index(self.manifest(name))
            assert (status, report["state"], report["success"], report["err"]) == (201, "IndexFinished", True, "")

    def check_reports(self) -> None:
        """Compares each report with a scan."""
        for name, blobs in IMAGES.items():
            status, report = self.server.report(self.images[name])
            assert status == 200
            assert vulnerable(report) == scanned(self.program, self.folder / "scan", self.images[name], blobs, self.records)

    def update(self, records: list[dict[str, Any]]) -> dict[str, Any]:
        """Changes the feed, and gives what the webhook got next."""
        before = len(self.hook.posted)
        self.records = records
        write_feed(self.feed, records)
        wait_for(lambda: len(self.hook.posted) > before)
        return self.hook.posted[before]


@pytest.fixture
def world(tmp_path: Path, program: str) -> Any:
    """A world whose server runs."""
    with registry(tmp_path) as address:
        found = World(tmp_path, program, address)
        with found.hook, found.server:
            yield found


def test_reports_are_those_of_a_scan(world: World) -> None:
    """Each report has exactly the findings of a scan, before and after an update."""
    world.index_all()
    world.check_reports()
    _, report = world.server.report(world.images["two"])
    words = {one["name"]: (one["normalized_severity"], one["links"]) for one in report["vulnerabilities"].values()}
    assert words["GHSA-35jh-r3h4-6jhm"] == ("High", "https://osv.dev/vulnerability/GHSA-35jh-r3h4-6jhm")
    assert words["DSA-5532-1"][0] == "Unknown"
    assert {one["did"] for one in report["distributions"].values()} == {"debian"}
    world.update([LODASH, BASH])
    world.check_reports()


def test_index_reports_have_the_state_as_their_mark(world: World) -> None:
    """A client sees by it whether another program indexed the image."""
    world.index_all()
    path = f"/indexer/api/v1/index_report/{world.images['one']}"
    connection = http.client.HTTPConnection("127.0.0.1", world.server.port, timeout=PATIENCE)
    for method, body in (("GET", None), ("POST", json.dumps(world.manifest("one")))):
        connection.request(method, path if body is None else path.rpartition("/")[0], body)
        response = connection.getresponse()
        assert (response.read() != b"", response.headers["Location"]) == (True, None if body is None else path)
        assert response.headers["ETag"] == f'"{world.server.call("GET", "/indexer/api/v1/index_state")[1]["state"]}"'
    connection.close()


def test_an_update_notifies_of_the_images_concerned(world: World) -> None:
    """The webhook gets one notification, with rows for exactly the images whose findings changed; it goes when acknowledged."""
    world.index_all()
    posted = world.update([OPENSSL, LODASH, BASH])
    name = posted["notification_id"]
    path = f"/notifier/api/v1/notification/{name}"
    assert posted["callback"] == f"http://clair.example{path}"
    status, page = world.server.call("GET", path)
    assert (status, page["page"]) == (200, {"size": 100})
    assert [(row["manifest"], row["reason"], row["vulnerability"]["name"]) for row in page["notifications"]] == [
        (world.images["three"], "added", "DSA-9999-1")
    ]
    assert world.server.call("DELETE", path)[0] == 204
    assert world.server.call("GET", path)[0] == 404
    assert world.server.call("DELETE", path)[0] == 404
    assert len(world.hook.posted) == 1


def test_pages_of_a_notification(world: World) -> None:
    """The pages of a notification have all rows, each once."""
    world.index_all()
    name = world.update([BASH])["notification_id"]
    rows, mark = [], ""
    while True:
        status, page = world.server.call("GET", f"/notifier/api/v1/notification/{name}?page_size=2{mark}")
        assert status == 200
        rows += page["notifications"]
        if "next" not in page["page"]:
            break
        mark = f"&next={page['page']['next']}"
    found = sorted((row["manifest"], row["reason"], row["vulnerability"]["name"]) for row in rows)
    images = world.images
    assert found == sorted([
        (images["one"], "removed", "DSA-5532-1"),
        (images["two"], "removed", "DSA-5532-1"),
        (images["two"], "removed", "GHSA-35jh-r3h4-6jhm"),
        (images["three"], "added", "DSA-9999-1"),
    ])
    assert len({row["id"] for row in rows}) == 4
    for query in ("page_size=0", "page_size=x", "page_size=1001", "next=x"):
        assert world.server.call("GET", f"/notifier/api/v1/notification/{name}?{query}")[0] == 400


def test_a_webhook_is_tried_until_it_takes(world: World) -> None:
    """A notification that is not taken is posted again with the same id, also after a restart, and not when it was taken."""
    world.index_all()
    world.is_taking = False
    name = world.update([BASH])["notification_id"]
    wait_for(lambda: len(world.hook.posted) >= 2)
    world.server.stop()
    world.server.start()
    before = len(world.hook.posted)
    wait_for(lambda: len(world.hook.posted) > before)
    world.is_taking = True
    wait_for(lambda: world.server.metric('cvwatch_notifications{is_taken="true"}') == 1)
    count = len(world.hook.posted)
    world.server.stop()
    world.server.start()
    assert world.server.call("GET", f"/notifier/api/v1/notification/{name}")[0] == 200
    world.check_reports()
    assert {post["notification_id"] for post in world.hook.posted} == {name}
    assert len(world.hook.posted) == count


def test_images_are_deleted(world: World) -> None:
    """A deleted image is not there any more, and its layers go when no other image has them."""
    world.index_all()
    path = f"/indexer/api/v1/index_report/{world.images['one']}"
    assert world.server.call("HEAD", path)[0] == 200
    assert world.server.call("DELETE", path)[0] == 204
    assert [world.server.call(method, path)[0] for method in ("GET", "HEAD", "DELETE")] == [404, 404, 404]
    assert world.server.report(world.images["one"])[0] == 404
    layers = {folder.name for folder in (world.server.state / "layers" / "sha256").iterdir()}
    assert BASE.diff_id.removeprefix("sha256:") in layers
    status, dropped = world.server.call("DELETE", "/indexer/api/v1/index_report", [world.images["two"], world.images["one"]])
    assert (status, dropped) == (200, [world.images["two"]])
    layers = {folder.name for folder in (world.server.state / "layers" / "sha256").iterdir()}
    assert layers == {OTHER.diff_id.removeprefix("sha256:")}
    assert world.server.index(world.manifest("one"))[0] == 201
    assert vulnerable(world.server.report(world.images["one"])[1]) == [("libssl3", "3.0.9-1", "DSA-5532-1", "3.0.11-1~deb12u2")]


def test_packages_are_those_of_a_list(world: World) -> None:
    """With a cvwatch that has `sbom`, reports have all packages of an image, each once; otherwise those with findings."""
    asked = subprocess.run([world.program, "sbom"], stdin=subprocess.DEVNULL, stdout=subprocess.DEVNULL, stderr=subprocess.DEVNULL, check=False)
    world.index_all()
    expected = ["libssl3", "lodash"] if asked.returncode == 2 else ["libssl3", "lodash", "zlib1g"]
    _, index = world.server.call("GET", f"/indexer/api/v1/index_report/{world.images['two']}")
    _, report = world.server.report(world.images["two"])
    assert sorted(one["name"] for one in index["packages"].values()) == expected
    assert report["packages"] == index["packages"]
    assert report["environments"] == index["environments"]
