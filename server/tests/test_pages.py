"""The pages, as a browser without scripts shows them: texts of images and records are escaped."""

import html
import re
import shutil
import subprocess
from pathlib import Path

import pytest
from support import Blob, Server, blob_party, debian_blob, manifest_of, record, tar_of, wait_for, write_feed

EVIL = '<script>alert(1)</script>"\'&'
LAYER = debian_blob(("bash", "bash", "5.2.15-2"), ("libssl3", "openssl", "3.0.9-1"))
BROKEN = tar_of({"var/lib/dpkg/status": b"no colon\n"})


@pytest.fixture
def server(tmp_path: Path, program: str) -> object:
    """A server with two images, of which one is bad, and a notification."""
    feed = tmp_path / "feed.jsonl"
    first = record("X-1", "Debian:12", "openssl", "3.0.11-1", summary=EVIL, references=[{"type": "WEB", "url": "javascript:alert(1)"}])
    write_feed(feed, [first])
    with blob_party(LAYER, Blob(BROKEN, BROKEN)) as party:
        with Server(tmp_path, program, f'[[feed]]\nname = "a"\nfile = "{feed}"\nseconds = 0.2\n') as found:
            wait_for(lambda: found.metric('cvwatch_feed_records{feed="a"}') == 1)
            found.image = manifest_of(party.uri, LAYER)["hash"]
            assert found.index(manifest_of(party.uri, LAYER))[0] == 201
            assert found.index(manifest_of(party.uri, Blob(BROKEN, BROKEN)))[0] == 201
            write_feed(feed, [first, record(f"X-{EVIL}", "Debian:12", "bash", None, database_specific={"severity": "CRITICAL"}, summary=EVIL)])
            wait_for(lambda: found.metric('cvwatch_notifications{is_taken="false"}') == 1)
            wait_for(lambda: found.metric('cvwatch_feed_records{feed="a"}') == 2)
            yield found


def text_of(page: bytes) -> str:
    """The text of a page as it is read."""
    return " ".join(html.unescape(re.sub(r"<[^>]*>", " ", page.decode())).split())


def test_the_pages(server: Server) -> None:
    """The front page has counts and states, and leads to the others; nothing of a record is markup."""
    _, front = server.call("GET", "/")
    text = text_of(front)
    assert "indexed 1 0 0 0 0 1" in text
    assert "bad_file: line 1" in text and "no_colon" in text
    assert "a 2 20" in text
    for path in re.findall(rb'href="(/[^"]+)"', front):
        status, page = server.call("GET", path.decode())
        assert status == 200
        assert b"<script" not in page and b"javascript:" not in page
    _, page = server.call("GET", f"/images/{server.image}")
    assert text_of(page).count(EVIL) == 3
    name = re.findall(rb"/notifications/([0-9a-f-]{36})", front)[0].decode()
    assert EVIL in text_of(server.call("GET", f"/notifications/{name}")[1])
    for path in ("/images/sha256:" + "0" * 64, "/notifications/x", "/other"):
        assert server.call("GET", path)[0] == 404
    for query in ("0", "x", "-1", "9999999"):
        assert server.call("GET", f"/?page={query}")[0] == 400


def test_a_long_notification(server: Server, tmp_path: Path) -> None:
    """A page has 500 rows, and leads to the others."""
    write_feed(tmp_path / "feed.jsonl", [record(f"Z-{number}", "Debian:12", "bash", None) for number in range(600)])
    wait_for(lambda: server.metric('cvwatch_notifications{is_taken="false"}') == 2)
    _, front = server.call("GET", "/")
    path = re.findall(rb"/notifications/[0-9a-f-]{36}", front)[0].decode()
    _, first = server.call("GET", path)
    _, second = server.call("GET", path + re.findall(rb'href="(\?next=[^"]+)"', first)[0].decode())
    found = [re.findall(r'osv.dev/vulnerability/([^"]+)', html.unescape(page.decode())) for page in (first, second)]
    assert (len(found[0]), len(set(found[0] + found[1])), b"?next=" in second) == (500, 602, False)


@pytest.mark.skipif(shutil.which("chromium") is None, reason="chromium is not installed")
def test_a_browser(server: Server, tmp_path: Path) -> None:
    """A browser shows the findings, and runs no script of a record."""
    page = f"http://127.0.0.1:{server.port}/images/{server.image}"
    command = ["chromium", "--headless", "--no-sandbox", "--disable-gpu", f"--user-data-dir={tmp_path}/profile", "--dump-dom", page]
    done = subprocess.run(command, stdout=subprocess.PIPE, stderr=subprocess.DEVNULL, timeout=120, check=True)
    assert text_of(done.stdout).count(EVIL) == 3
    assert b"critical" in done.stdout and b"<script" not in done.stdout
