"""Single rules: the configuration, addresses, feeds and their parts, the forms of Clair."""

import errno
import ipaddress
import sqlite3
from pathlib import Path
from types import SimpleNamespace
from typing import Any

import pytest
from support import TOOLS, record

from cvwatch_server import clair, configuration
from cvwatch_server.addresses import is_allowed
from cvwatch_server.child import line_of
from cvwatch_server.configuration import BadConfiguration
from cvwatch_server.feeds import MOST_BYTES, MOST_RECORDS, part_names, split
from cvwatch_server.middlewares import is_full
from cvwatch_server.records import Part, Records
from cvwatch_server.store import Store

GOOD = '[server]\nstate = "/tmp/x"\n'


def test_a_configuration_has_defaults() -> None:
    """Nothing but the folder of the state has to be said."""
    found = configuration.parse(GOOD)
    assert (found.server.listen, found.child.command, found.fetch.networks, found.webhook.target, found.feeds) == ("127.0.0.1", "", (), "", ())


def test_a_whole_configuration() -> None:
    """Each member is read with its type."""
    text = GOOD + (
        '[child]\nworkers = 8\nround_seconds = 5\n[fetch]\nnetworks = ["10.0.0.0/8", "fd00::/8"]\n[webhook]\ntarget = "http://a/"\nheaders = {A = "b"}\n'
        '[[feed]]\nname = "debian"\nurl = "https://a/all.zip"\necosystems = ["Debian:12"]\n[[feed]]\nname = "b"\nfile = "/x"\n'
    )
    found = configuration.parse(text)
    assert (found.child.workers, found.child.round_seconds, found.webhook.headers) == (8, 5.0, {"A": "b"})
    assert found.fetch.allowed() == [ipaddress.ip_network("10.0.0.0/8"), ipaddress.ip_network("fd00::/8")]
    assert [(feed.name, feed.ecosystems) for feed in found.feeds] == [("debian", ("Debian:12",)), ("b", ())]


@pytest.mark.parametrize(
    "text",
    [
        "",
        "x",
        "[server]\n",
        GOOD + 'port = "a"\n',
        GOOD + "port = true\n",
        GOOD + "port = -1\n",
        GOOD + "prot = 1\n",
        GOOD + "[other]\n",
        GOOD + "[child]\nworkers = 9\n",
        GOOD + "[child]\nround_lines = 4097\n",
        GOOD + '[child]\ncommand = "scan"\n',
        GOOD + '[fetch]\nnetworks = ["10.0.0.1/8"]\n',
        GOOD + '[fetch]\nnetworks = "10.0.0.0/8"\n',
        GOOD + "feed = 1\n",
        GOOD + '[[feed]]\nname = "a"\n',
        GOOD + '[[feed]]\nname = "A"\nfile = "x"\n',
        GOOD + '[[feed]]\nname = "a"\nfile = "x"\nurl = "http://a/"\n',
        GOOD + '[[feed]]\nname = "a"\nfile = "x"\n' * 2,
    ],
)
def test_what_is_no_configuration(text: str) -> None:
    """Unknown names, wrong types and values out of range are refused."""
    with pytest.raises(BadConfiguration):
        configuration.parse(text)


@pytest.mark.parametrize(
    ("address", "is_reached"),
    [
        ("93.184.216.34", True),
        ("2606:2800:220:1::1", True),
        ("10.1.2.3", True),
        ("::ffff:10.1.2.3", True),
        ("127.0.0.1", False),
        ("172.16.0.1", False),
        ("192.168.1.1", False),
        ("100.64.0.1", False),
        ("169.254.169.254", False),
        ("0.0.0.0", False),
        ("255.255.255.255", False),
        ("224.0.0.1", False),
        ("240.0.0.1", False),
        ("192.0.2.1", False),
        ("::", False),
        ("::1", False),
        ("::7f00:1", False),
        ("::ffff:127.0.0.1", False),
        ("fe80::1", False),
        ("fe80::1%eth0", False),
        ("fd00::1", False),
        ("ff02::1", False),
        ("64:ff9b::7f00:1", False),
        ("2002:7f00:1::", False),
        ("2001:0:7f00:1::", False),
        ("localhost", False),
        ("", False),
    ],
)
def test_addresses(address: str, is_reached: bool) -> None:
    """Public addresses are reached, and those of the named networks, in each spelling."""
    assert is_allowed(address, [ipaddress.ip_network("10.0.0.0/8")]) == is_reached


def test_a_feed_is_split_when_it_is_large() -> None:
    """A feed keeps its parts while it fits, and an id is in the same part each time."""
    small = {str(number): b"x" for number in range(10)}
    large = {str(number): b"x" for number in range(MOST_RECORDS + 1)}
    heavy = {str(number): b"x" * (MOST_BYTES // 4) for number in range(9)}
    assert part_names("a", small, 0) == ["a"]
    assert part_names("a", large, 0) == ["a.0", "a.1"]
    assert part_names("a", heavy, 0) == ["a.0", "a.1", "a.2"]
    assert part_names("a", small, 2) == ["a.0", "a.1"]
    parts = split(["a.0", "a.1"], large)
    assert {**parts["a.0"], **parts["a.1"]} == large
    assert not parts["a.0"].keys() & parts["a.1"].keys()
    assert split(["a.0", "a.1"], small)["a.0"].keys() <= parts["a.0"].keys()


def test_the_line_of_a_request() -> None:
    """Records go into a request as they are."""
    assert line_of({"do": "list"}) == b'{"do":"list"}\n'
    assert line_of({"do": "update", "advisories": [b'{"id":1}', b"{}"], "lane": 1}) == b'{"do":"update","lane":1,"advisories":[{"id":1},{}]}\n'
    assert line_of({"advisories": [], "do": "x"}) == b'{"do":"x","advisories":[]}\n'


def test_what_changed_in_records(tmp_path: Path) -> None:
    """New, changed and removed records are found, and kept."""
    records = Records(tmp_path / "records.sqlite", TOOLS)
    assert records.known(Part("a", "a", 7)) == Part("a", "a", -1)
    part = Part("a", "a", 1)
    first = records.change("a", {"x": b'{"id":"x"}', "y": b'{"id":"y"}'})
    records.apply(part, first)
    change = records.change("a", {"y": b'{"id":"y","summary":"s"}', "z": b'{"id":"z"}'})
    assert (sorted(change.changed), change.removed) == (["y", "z"], ["x"])
    lookup = records.after("a", change)
    assert (lookup("a", "y").summary, lookup("a", "x").id, lookup("b", "x"), records.record("a", "y").summary) == ("s", "x", None, "")
    records.apply(part, change)
    records.forget(part, change)
    assert (records.record("a", "y").summary, records.record("a", "x")) == ("s", None)
    assert records.change("a", records.lines("a")).is_empty()
    assert records.parts() == [part] and records.known(Part("a", "a", -1)) == part


def test_the_ids_of_notifications(tmp_path: Path) -> None:
    """A notification has the same id each time, and another one in another epoch."""
    store = Store(tmp_path / "state.sqlite")
    first = store.add_notification(1, [{"a": 1}])
    assert store.add_notification(1, [{"a": 1}]) == first
    assert len(store.notifications()) == 1
    assert store.has_number(1) and not store.has_number(2)
    store.new_epoch()
    assert not store.has_number(1)
    assert store.add_notification(1, [{"a": 2}]) != first
    assert len(store.notifications()) == 2
    store.drop_notification(first)
    assert [one.rows for one in store.notifications()] == [1]


def test_a_full_disk_by_its_errors() -> None:
    """SQLite says it in another way than the system does."""
    connection = sqlite3.connect(":memory:")
    connection.execute("PRAGMA max_page_count = 1")
    with pytest.raises(sqlite3.OperationalError) as caught:
        connection.execute("CREATE TABLE a (b)")
        connection.execute("CREATE TABLE c (d)")
    assert is_full(caught.value) and is_full(OSError(errno.ENOSPC, "")) and not is_full(OSError(errno.ENOENT, "")) and not is_full(ValueError())


def finding(**members: Any) -> dict[str, Any]:
    """A finding of cvwatch."""
    facts = {"kind": "deb", "name": "libssl3", "version": "3.0.9-1+b1", "arch": "amd64", "source": "openssl", "source_version": "3.0.9-1"}
    return {**facts, "ecosystem": "Debian:12", "path": "var/lib/dpkg/status", "feed": "a", "advisory": "X-1", "fixed": "3.0.11-1", **members}


def test_a_vulnerability_report() -> None:
    """An advisory on two packages of one source is one vulnerability, which both have."""
    import osv_records  # of tools/lib

    known = osv_records.Record(
        record("X-1", "Debian:12", "openssl", "3.0.11-1", summary="flaw", published="2023-10-24T00:00:00Z", upstream=["CVE-1"],
               severity=[{"type": "CVSS_V3", "score": "CVSS:3.1/AV:N/AC:L/PR:N/UI:N/S:U/C:H/I:H/A:H"}])
    )
    records = SimpleNamespace(record=lambda _, name: known if name == "X-1" else None, osv_records=osv_records)
    findings = [finding(), finding(name="openssl"), finding(advisory="X-2", fixed=None)]
    report = clair.vulnerability_report({"findings": findings, "image": "sha256:1"}, None, records)  # type: ignore[arg-type]
    first = report["vulnerabilities"]["1"]
    assert (first["name"], first["severity"], first["normalized_severity"], first["description"]) == ("X-1", "critical 9.8", "Critical", "flaw CVE-1")
    assert (first["fixed_in_version"], first["issued"], first["package"]["name"]) == ("3.0.11-1", "2023-10-24T00:00:00Z", "openssl")
    assert (report["vulnerabilities"]["2"]["normalized_severity"], report["vulnerabilities"]["2"]["fixed_in_version"]) == ("Unknown", "")
    assert report["package_vulnerabilities"] == {"1": ["1", "2"], "2": ["1"]}
    assert report["packages"]["1"]["source"] == {"id": "", "name": "openssl", "version": "3.0.9-1", "kind": "source"}
    assert report["distributions"] == {"1": {"id": "1", "did": "debian", "name": "Debian GNU/Linux", "version": "12", "version_id": "12", "pretty_name": "Debian GNU/Linux 12"}}
    assert report["environments"]["1"] == [{"package_db": "var/lib/dpkg/status", "distribution_id": "1"}]


def test_packages_without_findings_are_listed() -> None:
    """A report has the packages of the list, and those with findings once."""
    packages = [{name: value for name, value in finding(name=name).items() if name in clair.FACTS} for name in ("a", "libssl3")]
    numbered = clair.Numbered([*packages, finding()])
    assert [one["name"] for one in numbered.members()["packages"].values()] == ["a", "libssl3"]
    assert clair.index_report("sha256:1", packages, "IndexFinished")["success"] is True
