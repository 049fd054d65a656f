"""Three servers behind HAProxy answer as one does."""

import shutil
import subprocess
from pathlib import Path

import pytest
from support import ROOT, Server, blob_party, debian_blob, manifest_of, npm_blob, record, wait_for, write_feed

EXAMPLE = ROOT / "server" / "examples" / "haproxy.cfg"
BASE = debian_blob(("bash", "bash", "5.2.15-2"), ("libssl3", "openssl", "3.0.9-1"))
RECORDS = [record("X-1", "Debian:12", "openssl", "3.0.11-1"), record("X-2", "npm", "lodash", "4.17.6")]
COUNT = 24


def configured(folder: Path, port: int, servers: list[Server]) -> Path:
    """The example, with the ports of this test."""
    text = EXAMPLE.read_text().replace("127.0.0.1:6060", f"127.0.0.1:{port}")
    for number, server in enumerate(servers, 6061):
        text = text.replace(f"127.0.0.1:{number}", f"127.0.0.1:{server.port}")
    (folder / "haproxy.cfg").write_text(text)
    return folder / "haproxy.cfg"


@pytest.mark.skipif(shutil.which("haproxy") is None, reason="haproxy is not installed")
def test_three_servers_answer_as_one(tmp_path: Path, program: str) -> None:
    """Each image is on one of three servers, its answers are those of a server that has all, and each has some of them."""
    feed = tmp_path / "feed.jsonl"
    write_feed(feed, RECORDS)
    tables = f'[[feed]]\nname = "a"\nfile = "{feed}"\n'
    servers = []
    for name in ("alone", "one", "two", "three"):
        (tmp_path / name).mkdir()
        servers.append(Server(tmp_path / name, program, tables).start(is_waited=False))
    alone, *others = servers
    front = Server(tmp_path, program)
    process = subprocess.Popen(["haproxy", "-db", "-f", configured(tmp_path, front.port, others)])
    try:
        for server in servers:
            wait_for(lambda server=server: server.is_ready() and server.metric('cvwatch_feed_records{feed="a"}') == len(RECORDS))
        images = [(BASE, npm_blob("lodash", f"4.17.{number}")) for number in range(COUNT)]
        with blob_party(BASE, *(layers[1] for layers in images)) as party:
            manifests = [manifest_of(party.uri, *layers) for layers in images]
            wait_for(lambda: front.call("GET", "/healthz")[0] == 200)
            for manifest in manifests:
                assert front.index(manifest) == alone.index(manifest)
        for manifest in manifests:
            digest = manifest["hash"]
            assert front.report(digest)[0] == 200
            for path in ("/matcher/api/v1/vulnerability_report/", "/indexer/api/v1/index_report/"):
                assert front.call("GET", path + digest) == alone.call("GET", path + digest)
        counts = [server.metric('cvwatch_images{state="good"}') for server in others]
        assert sum(counts) == COUNT and min(counts) > 0
        assert front.call("DELETE", f"/indexer/api/v1/index_report/{manifests[0]['hash']}")[0] == 204
        assert front.report(manifests[0]["hash"])[0] == 404
        others[0].stop()
        statuses = {front.report(manifest["hash"])[0] for manifest in manifests[1:]}
        assert statuses == {200, 503}
    finally:
        process.terminate()
        process.wait()
        for server in servers:
            server.stop()
