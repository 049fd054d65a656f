"""A child that keeps its events and lists packages: here a stand-in, made of a program that has `serve`."""

import json
import os
import signal
import subprocess
from collections.abc import Iterator
from contextlib import contextmanager
from pathlib import Path
from typing import Any

import pytest
from support import Party, Server, blob_party, debian_blob, manifest_of, record, vulnerable, wait_for, write_feed

STAND_IN = Path(__file__).resolve().parent / "stand_in.py"
LAYER = debian_blob(("bash", "bash", "5.2.15-2"), ("libssl3", "openssl", "3.0.9-1"))
FIRST = [record("X-1", "Debian:12", "openssl", "3.0.11-1"), record("X-2", "Debian:12", "dash", None)]
BASH = record("X-3", "Debian:12", "bash", None)


@pytest.fixture
def child(program: str, monkeypatch: pytest.MonkeyPatch) -> str:
    """The tables of a server whose child is the stand-in."""
    monkeypatch.setenv("STANDS_FOR", program)
    return f'[child]\nprogram = "{STAND_IN}"\ncommand = "keep"\n'


def kept(server: Server) -> list[dict[str, Any]]:
    """The requests that the child got so far."""
    return [json.loads(line) for line in (server.state / "cvwatch.keep").read_text().splitlines() if line]


def of_feed(server: Server) -> list[tuple[str, list[str], list[str]]]:
    """The updates and patches that the child got: their records and what they remove."""
    requests = [request for request in kept(server) if request["do"] in ("update", "patch")]
    return [(one["do"], [entry["id"] for entry in one["advisories"]], one.get("remove", [])) for one in requests]


def test_a_child_that_resumes(tmp_path: Path, child: str) -> None:
    """It gets patches, no records again after its end, and its notifications keep their ids."""
    feed = tmp_path / "feed.jsonl"
    write_feed(feed, FIRST)
    with Party(lambda request: request.give(500)) as hook, blob_party(LAYER) as party:
        tables = f'{child}[webhook]\ntarget = "{hook.uri}"\nlongest_pause = 1\n[[feed]]\nname = "a"\nfile = "{feed}"\nseconds = 0.2\n'
        with Server(tmp_path, "", tables) as server:
            wait_for(lambda: server.metric('cvwatch_feed_records{feed="a"}') == 2)
            manifest = manifest_of(party.uri, LAYER)
            assert server.index(manifest)[0] == 201
            write_feed(feed, [FIRST[0], BASH])
            wait_for(lambda: hook.posted)
            assert of_feed(server) == [("update", ["X-1", "X-2"], []), ("patch", ["X-3"], ["X-2"])]
            found = [("bash", "5.2.15-2", "X-3", ""), ("libssl3", "3.0.9-1", "X-1", "3.0.11-1")]
            assert vulnerable(server.report(manifest["hash"])[1]) == found
            for number in server.children():
                os.kill(number, signal.SIGKILL)
            wait_for(lambda: server.metric("cvwatch_child_restarts_total") == 1 and server.metric("cvwatch_ready") == 1)
            assert vulnerable(server.report(manifest["hash"])[1]) == found
            server.stop(signal.SIGKILL)
            server.start()
            assert len(of_feed(server)) == 2
            count = len(hook.posted)
            wait_for(lambda: len(hook.posted) > count)
            names = {post["notification_id"] for post in hook.posted}
            assert len(names) == 1
            assert server.call("DELETE", f"/notifier/api/v1/notification/{names.pop()}")[0] == 204
            assert kept(server)[-1]["do"] == "ack"
            write_feed(feed, [FIRST[0]])
            wait_for(lambda: vulnerable(server.report(manifest["hash"])[1]) == found[1:])
            assert of_feed(server)[2:] == [("patch", [], ["X-3"])]


@contextmanager
def ended_server(tmp_path: Path, child: str) -> Iterator[tuple[Server, dict[str, Any]]]:
    """A server that has a feed of two records and an image, and has ended; and the manifest of that image, whose registry runs."""
    feed = tmp_path / "feed.jsonl"
    write_feed(feed, FIRST)
    with blob_party(LAYER) as party:
        server = Server(tmp_path, "", f'{child}[[feed]]\nname = "a"\nfile = "{feed}"\nseconds = 0.2\n')
        manifest = manifest_of(party.uri, LAYER)
        with server:
            wait_for(lambda: server.metric('cvwatch_feed_records{feed="a"}') == 2)
            assert server.index(manifest)[0] == 201
        yield server, manifest


def test_what_the_server_missed(tmp_path: Path, child: str) -> None:
    """A notification that the child has and the server does not is kept at the start; a base that is stale leads to an update."""
    with ended_server(tmp_path, child) as (server, manifest):
        # as if the server had been killed right after the answer to this update
        update = {"do": "update", "feed": "a", "advisories": [*FIRST, BASH]}
        with (server.state / "cvwatch.keep").open("a") as file:
            file.write(json.dumps(update) + "\n\n")
        write_feed(tmp_path / "feed.jsonl", [*FIRST, BASH])
        with server:
            wait_for(lambda: server.metric('cvwatch_feed_records{feed="a"}') == 3)
            assert server.metric('cvwatch_notifications{is_taken="false"}') == 1
            assert [kind for kind, _, _ in of_feed(server)] == ["update", "update", "patch", "update"]
            assert len(vulnerable(server.report(manifest["hash"])[1])) == 2


@pytest.mark.parametrize("text", [None, "bad"])
def test_a_file_that_is_lost(tmp_path: Path, child: str, text: str | None) -> None:
    """A child whose file is gone, or is not taken, gets all records and images again."""
    found = [("libssl3", "3.0.9-1", "X-1", "3.0.11-1")]
    with ended_server(tmp_path, child) as (server, manifest):
        file = server.state / "cvwatch.keep"
        file.rename(tmp_path / "kept")
        if text is not None:
            file.write_text(text)
        with server:
            assert vulnerable(server.report(manifest["hash"])[1]) == found
            assert of_feed(server) == [("update", ["X-1", "X-2"], [])]
        asides = [one.read_text() for one in server.state.glob("cvwatch.keep.*")]
        assert asides == ([] if text is None else [text])


def test_a_command_that_is_not_named(tmp_path: Path, child: str, program: str) -> None:
    """It is `keep`, if the program has it."""
    for name, tables in (("keep", child.replace('command = "keep"', "")), ("other", f'[child]\nprogram = "{program}"\n')):
        folder = tmp_path / name
        folder.mkdir()
        with Server(folder, "", tables) as server:
            has_keep = subprocess.run([program, "keep"], cwd=folder, stdin=subprocess.DEVNULL, stdout=subprocess.DEVNULL, check=False).returncode != 2
            command = Path(f"/proc/{server.children()[0]}/cmdline").read_bytes().split(b"\0")
            assert (b"keep" in command) == (name == "keep" or has_keep)


def test_a_list_of_packages(tmp_path: Path, child: str) -> None:
    """With `sbom` the reports have all packages of an image, with and without findings."""
    feed = tmp_path / "feed.jsonl"
    write_feed(feed, FIRST)
    with blob_party(LAYER) as party:
        with Server(tmp_path, "", f'{child}[[feed]]\nname = "a"\nfile = "{feed}"\nseconds = 0.2\n') as server:
            manifest = manifest_of(party.uri, LAYER)
            status, report = server.index(manifest)
            assert status == 201
            assert [one["name"] for one in report["packages"].values()] == ["bash", "libssl3"]
            assert report["packages"]["2"]["source"]["name"] == "openssl"
            assert report["environments"]["1"] == [{"package_db": "var/lib/dpkg/status", "distribution_id": "1"}]
            wait_for(lambda: vulnerable(server.report(manifest["hash"])[1]) != [])
            _, found = server.report(manifest["hash"])
            assert found["packages"] == report["packages"] and list(found["package_vulnerabilities"]) == ["2"]
            assert server.call("GET", f"/indexer/api/v1/index_report/{manifest['hash']}") == (200, report)
