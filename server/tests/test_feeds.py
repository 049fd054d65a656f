"""Feeds by HTTP: they are fetched with their ETag, sent when they change, and emptied when they go."""

import contextlib
import sqlite3
from pathlib import Path

import pytest
from support import Answers, Party, Server, blob_party, debian_blob, manifest_of, record, vulnerable, wait_for, write_feed

LAYER = debian_blob(("bash", "bash", "5.2.15-2"))
OF_BASH = record("X-1", "Debian:12", "bash", None)
OF_NPM = record("X-2", "npm", "lodash", None)


def test_a_feed_is_fetched_with_its_mark(tmp_path: Path, program: str) -> None:
    """A feed that did not change is not sent again, also after a restart; another one changes the reports."""
    archive = tmp_path / "all.zip"
    marks: list[str] = []

    def answer(request: Answers) -> None:
        mark = f'"{hash(archive.read_bytes())}"'
        marks.append(request.headers.get("If-None-Match", ""))
        if marks[-1] == mark:
            request.give(304, ETag=mark)
        else:
            request.give(200, archive.read_bytes(), ETag=mark)

    write_feed(archive, [OF_BASH, OF_NPM])
    with Party(answer) as source, blob_party(LAYER) as party:
        tables = f'[[feed]]\nname = "a"\nurl = "{source.uri}/all.zip"\necosystems = ["Debian:12"]\nseconds = 0.2\n'
        with Server(tmp_path, program, tables) as server:
            wait_for(lambda: server.metric('cvwatch_feed_records{feed="a"}') == 1)
            manifest = manifest_of(party.uri, LAYER)
            assert server.index(manifest)[0] == 201
            assert vulnerable(server.report(manifest["hash"])[1]) == [("bash", "5.2.15-2", "X-1", "")]
            wait_for(lambda: marks.count("") == 1 and len(marks) > 3)
            server.stop()
            server.start()
            assert vulnerable(server.report(manifest["hash"])[1]) == [("bash", "5.2.15-2", "X-1", "")]
            wait_for(lambda: server.metric('cvwatch_feed_age_seconds{feed="a"}') < 1)
            assert marks.count("") == 1
            assert server.log.read_text().count("a feed was updated") == 1
            write_feed(archive, [{**OF_BASH, "withdrawn": "2024-01-01T00:00:00Z"}])
            wait_for(lambda: vulnerable(server.report(manifest["hash"])[1]) == [])
            wait_for(lambda: len(server.log.read_text().split('"a feed was updated"')) == 3)
            assert len(server.call("GET", "/")[1].split(b"/notifications/")) == 2


@pytest.mark.parametrize("is_interrupted", [False, True])
def test_a_feed_that_is_not_configured_any_more(tmp_path: Path, program: str, is_interrupted: bool) -> None:
    """The records of a feed go with it, also if it was being sent at the end."""
    feed = tmp_path / "feed.jsonl"
    write_feed(feed, [OF_BASH])
    with blob_party(LAYER) as party:
        manifest = manifest_of(party.uri, LAYER)
        server = Server(tmp_path, program, f'[[feed]]\nname = "a"\nfile = "{feed}"\n')
        with server:
            assert server.index(manifest)[0] == 201
            wait_for(lambda: vulnerable(server.report(manifest["hash"])[1]) != [])
            if is_interrupted:
                wait_for(lambda: server.metric('cvwatch_feed_records{feed="a"}') == 1)
        if is_interrupted:
            # as if the server had been killed before it read the answer of the child
            with contextlib.closing(sqlite3.connect(server.state / "records.sqlite", isolation_level=None)) as connection:
                connection.execute("DELETE FROM record")
                connection.execute("UPDATE part SET generation = -1")
        server.config.write_text(server.config.read_text().partition("[[feed]]")[0])
        with server:
            wait_for(lambda: vulnerable(server.report(manifest["hash"])[1]) == [])


def test_a_list_of_ecosystems_that_changes(tmp_path: Path, program: str) -> None:
    """A feed is sent again if other records of it are wanted, although it has the same mark."""
    feed = tmp_path / "feed.jsonl"
    write_feed(feed, [OF_BASH, OF_NPM])
    server = Server(tmp_path, program, f'[[feed]]\nname = "a"\nfile = "{feed}"\necosystems = ["npm"]\n')
    with server:
        wait_for(lambda: server.metric('cvwatch_feed_records{feed="a"}') == 1)
    server.config.write_text(server.config.read_text().replace('["npm"]', '["npm", "Debian:12"]'))
    with server:
        wait_for(lambda: server.metric('cvwatch_feed_records{feed="a"}') == 2)
