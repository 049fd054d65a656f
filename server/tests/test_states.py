"""States between: an image whose layers cannot be read, a child that cannot be started, a server that waits for another one, a stop."""

import os
import signal
import subprocess
import threading
from concurrent.futures import ThreadPoolExecutor
from pathlib import Path

import pytest
from support import SERVER, Server, blob_of, blob_party, debian_blob, manifest_of, npm_blob, sha256, wait_for

LAYER = debian_blob(("bash", "bash", "5.2.15-2"))


def test_an_image_that_is_pending(tmp_path: Path, program: str) -> None:
    """A layer that cannot be read is tried again; meanwhile its image is pending."""
    with blob_party(LAYER) as party:
        manifest = manifest_of(party.uri, LAYER)
        digest = manifest["hash"]
        server = Server(tmp_path, program, index_seconds=0.5)
        with server:
            assert server.index(manifest)[0] == 201
        # a name that is not UTF-8 is a fault of reading
        fault = os.path.join(os.fsencode(server.state), b"layers/sha256", LAYER.diff_id.removeprefix("sha256:").encode(), b"\xff")
        Path(os.fsdecode(fault)).touch()
        with server:
            assert server.report(digest) == (202, {"manifest_hash": digest, "state": "IndexPending"})
            for status, report in (server.index(manifest), server.call("GET", f"/indexer/api/v1/index_report/{digest}")):
                assert status in (200, 201)
                assert (report["state"], report["success"]) == ("IndexPending", False)
            assert server.metric('cvwatch_images{state="pending"}') == 1
            assert b"pending" in server.call("GET", f"/images/{digest}")[1]
            os.unlink(fault)
            wait_for(lambda: server.report(digest)[0] == 200)
            assert server.index(manifest)[1]["success"] is True


def test_an_image_that_is_posted_and_deleted_at_once(tmp_path: Path, program: str) -> None:
    """Whatever comes first, state and child have the image or not, with the layers of one post, and the packages of these."""
    kinds = [(LAYER,), (LAYER, npm_blob("lodash", "4.17.20"))]
    with blob_party(*kinds[1]) as party, Server(tmp_path, program) as server:
        manifests = [manifest_of(party.uri, *blobs, digest=sha256(b"image")) for blobs in kinds]
        digest = manifests[0]["hash"]
        path = f"/indexer/api/v1/index_report/{digest}"

        def step(number: int) -> None:
            if number % 4 == 3:
                assert server.call("DELETE", path)[0] in (204, 404)
                return
            status, report = server.index(manifests[number % 2])
            assert status in (404, 409) or (status == 201 and len(report["packages"]) in (0, number % 2 + 1)), (status, report)

        with ThreadPoolExecutor(8) as clients:
            list(clients.map(step, range(200)))
        assert server.call("GET", path)[0] == server.report(digest)[0]
        if server.report(digest)[0] == 404:
            assert server.index(manifests[0])[0] == 201
        layers = len(list((server.state / "layers" / "sha256").iterdir()))
        assert len(server.call("GET", path)[1]["packages"]) in (0, layers)


def test_a_child_that_cannot_be_started(tmp_path: Path) -> None:
    """Without a child the server lives, says so, and answers with 503."""
    for name, content in (("missing", None), ("failing", "#!/bin/sh\nexit 2\n"), ("other", "#!/bin/sh\nyes '[]'\n")):
        folder = tmp_path / name
        folder.mkdir()
        program = folder / "program"
        if content is not None:
            program.write_text(content)
            program.chmod(0o755)
        server = Server(folder, str(program)).start(is_waited=False)
        try:
            wait_for(lambda server=server: server.log.exists() and '"listening"' in server.log.read_text())
            assert server.call("GET", "/healthz")[0] == 200
            assert server.call("GET", "/readyz")[0] == 503
            digest = manifest_of("http://127.0.0.1:1", LAYER)["hash"]
            assert server.report(digest)[0] == 503
            assert b"starting" in server.call("GET", "/")[1]
            wait_for(lambda server=server: server.metric("cvwatch_child_restarts_total") >= 2)
        finally:
            assert server.stop() == 0


def test_a_second_server_waits(tmp_path: Path, program: str) -> None:
    """A folder is used by one server; the next one begins when it has ended."""
    with Server(tmp_path, program) as server:
        log = tmp_path / "second"
        with log.open("wb") as output:
            second = subprocess.Popen([SERVER, "--config", server.config], stderr=output)
        wait_for(lambda: b"waiting for it to end" in log.read_bytes())
        assert server.is_ready()
        server.stop(signal.SIGKILL)
        wait_for(lambda: b"the child is ready" in log.read_bytes())
        second.terminate()
        assert second.wait(30) == 0


def test_a_stop_answers_what_was_asked(tmp_path: Path, program: str) -> None:
    """At SIGTERM each request that was taken has its answer."""
    with blob_party(LAYER) as party:
        server = Server(tmp_path, program).start()
        manifest = manifest_of(party.uri, LAYER)
        assert server.index(manifest)[0] == 201
        statuses: list[int] = []

        def ask() -> None:
            try:
                while True:
                    statuses.append(server.report(manifest["hash"])[0])
            except ConnectionRefusedError:
                pass
            except OSError:
                # a connection may be made just as the server ends
                pass

        threads = [threading.Thread(target=ask) for _ in range(8)]
        for thread in threads:
            thread.start()
        wait_for(lambda: len(statuses) > 100)
        assert server.stop() == 0
        for thread in threads:
            thread.join()
        assert set(statuses) <= {200, 503}


@pytest.mark.skipif(subprocess.run(["unshare", "-m", "true"], check=False).returncode != 0, reason="only root mounts a disk")
def test_a_full_disk(tmp_path: Path, program: str) -> None:
    """A blob or a layer that does not fit on the disk is refused, and leaves it as it was."""
    small, large, larger = (blob_of({"file": os.urandom(size)}) for size in (1, 5 << 20, 9 << 20))
    server = Server(tmp_path, program)
    server.state.mkdir()
    mount = 'mount -t tmpfs -o size=8m tmpfs "$0" && exec "$@"'
    server.command = ["unshare", "-m", "sh", "-c", mount, str(server.state), *server.command]
    with blob_party(small, large, larger) as party, server:
        for blob in (large, larger, large):
            status, body = server.index(manifest_of(party.uri, blob))
            assert (status, body["code"]) == (507, "no-space"), body
            assert server.index(manifest_of(party.uri, small))[0] == 201


def test_bad_arguments(tmp_path: Path) -> None:
    """Without a good configuration nothing is started."""
    bad = tmp_path / "bad.toml"
    bad.write_text("[server]\n")
    for arguments in ([], ["--config", str(tmp_path / "none")], ["--config", str(bad)]):
        assert subprocess.run([SERVER, *arguments], stderr=subprocess.DEVNULL).returncode == 2
    example = SERVER.parent / "examples" / "server.toml"
    assert subprocess.run([SERVER, "--config", example, "--check"]).returncode == 0
