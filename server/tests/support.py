"""Parts that the tests are made of: images, a registry, a server that serves blobs as it is told, a webhook, and the server itself."""

import contextlib
import dataclasses
import gzip
import hashlib
import http.client
import http.server
import io
import json
import os
import signal
import socket
import subprocess
import tarfile
import threading
import time
import zipfile
from pathlib import Path
from typing import Any, Callable, Iterator

ROOT = Path(__file__).resolve().parents[2]
SERVER = ROOT / "server" / "cvwatch-server"
TOOLS = ROOT / "tools"
PATIENCE = 120.0
DEBIAN = b'PRETTY_NAME="Debian GNU/Linux 12 (bookworm)"\nID=debian\nVERSION_ID="12"\n'


def sha256(content: bytes) -> str:
    """The digest of bytes."""
    return f"sha256:{hashlib.sha256(content).hexdigest()}"


def free_port() -> int:
    """A port of the loopback interface that nobody listens on."""
    with socket.socket() as found:
        found.bind(("127.0.0.1", 0))
        return int(found.getsockname()[1])


def wait_for(condition: Callable[[], Any], seconds: float = PATIENCE) -> Any:
    """Waits until a condition holds, and gives its value."""
    end = time.monotonic() + seconds
    while time.monotonic() < end:
        found = condition()
        if found:
            return found
        time.sleep(0.02)
    raise AssertionError(f"{condition} did not hold in {seconds} seconds")


# images


def tar_of(files: dict[str, bytes]) -> bytes:
    """A tar file with these files."""
    output = io.BytesIO()
    with tarfile.open(fileobj=output, mode="w") as tar:
        for name, content in files.items():
            entry = tarfile.TarInfo(name)
            entry.size = len(content)
            tar.addfile(entry, io.BytesIO(content))
    return output.getvalue()


def status_of(*packages: tuple[str, str, str]) -> bytes:
    """A status file of dpkg with packages of a name, a source and a version."""
    paragraphs = (
        f"Package: {name}\nStatus: install ok installed\nArchitecture: amd64\nSource: {source}\nVersion: {version}\n" for name, source, version in packages
    )
    return "\n".join(paragraphs).encode()


@dataclasses.dataclass(frozen=True)
class Blob:
    """A layer: its tar file, and the bytes under which it is fetched."""

    tar: bytes
    content: bytes

    @property
    def digest(self) -> str:
        """The digest of the blob."""
        return sha256(self.content)

    @property
    def diff_id(self) -> str:
        """The digest of the uncompressed bytes."""
        return sha256(self.tar)


def blob_of(files: dict[str, bytes]) -> Blob:
    """A compressed layer with these files."""
    tar = tar_of(files)
    return Blob(tar, gzip.compress(tar, mtime=0))


def debian_blob(*packages: tuple[str, str, str]) -> Blob:
    """A layer with a Debian 12 of these packages."""
    return blob_of({"usr/lib/os-release": DEBIAN, "etc/os-release": DEBIAN, "var/lib/dpkg/status": status_of(*packages)})


def npm_blob(name: str, version: str) -> Blob:
    """A layer with an installed package of npm."""
    return blob_of({f"srv/app/node_modules/{name}/package.json": json.dumps({"name": name, "version": version}).encode()})


def manifest_of(uri: str, *blobs: Blob, digest: str = "", headers: Any = None) -> dict[str, Any]:
    """A manifest whose blobs are below an address."""
    layers = [{"hash": blob.digest, "uri": f"{uri}/{blob.digest}", "headers": headers or {}} for blob in blobs]
    return {"hash": digest or sha256(json.dumps([blob.digest for blob in blobs]).encode()), "layers": layers}


# records


def record(name: str, ecosystem: str, package: str, fixed: str | None, **members: Any) -> dict[str, Any]:
    """A record of OSV on one package."""
    events = [{"introduced": "0"}] + ([{"fixed": fixed}] if fixed else [])
    kind = "SEMVER" if ecosystem == "npm" else "ECOSYSTEM"
    affected = [{"package": {"ecosystem": ecosystem, "name": package}, "ranges": [{"type": kind, "events": events}]}]
    return {"id": name, "modified": "2024-01-01T00:00:00Z", "affected": affected, **members}


def write_feed(file: Path, records: list[dict[str, Any]]) -> None:
    """Replaces a file of records at once: a zip file, or lines."""
    partial = file.with_name(file.name + ".partial")
    if file.suffix == ".zip":
        with zipfile.ZipFile(partial, "w") as archive:
            for one in records:
                archive.writestr(f"{one['id']}.json", json.dumps(one))
    else:
        # a file without a byte is no feed
        partial.write_text("".join(json.dumps(one) + "\n" for one in records) or "[]", encoding="utf-8")
    partial.rename(file)


# parties


class Answers(http.server.BaseHTTPRequestHandler):
    """Answers as the owner says; logs nothing."""

    protocol_version = "HTTP/1.1"
    owner: "Party"

    def do_GET(self) -> None:
        """A fetch."""
        self.owner.asked.append((self.path, dict(self.headers)))
        with contextlib.suppress(OSError):
            self.owner.answer(self)

    def do_POST(self) -> None:
        """A post, whose JSON is kept."""
        body = json.loads(self.rfile.read(int(self.headers["Content-Length"])))
        self.owner.posted.append(body)
        with contextlib.suppress(OSError):
            self.owner.answer(self)

    def log_message(self, *_: Any) -> None:
        """Says nothing."""

    def give(self, status: int, content: bytes = b"", **headers: str) -> None:
        """Answers with content."""
        self.send_response(status)
        for name, value in headers.items():
            self.send_header(name.replace("_", "-"), value)
        self.send_header("Content-Length", str(len(content)))
        self.end_headers()
        self.wfile.write(content)


class Party:
    """A server of HTTP on the loopback interface."""

    def __init__(self, answer: Callable[[Answers], None], port: int = 0):
        self.answer = answer
        self.asked: list[tuple[str, dict[str, str]]] = []
        self.posted: list[dict[str, Any]] = []
        handler = type("Handler", (Answers,), {"owner": self})
        self.server = http.server.ThreadingHTTPServer(("127.0.0.1", port), handler)
        self.server.daemon_threads = True
        self.uri = f"http://127.0.0.1:{self.server.server_port}"
        threading.Thread(target=self.server.serve_forever, daemon=True).start()

    def __enter__(self) -> "Party":
        return self

    def __exit__(self, *_: Any) -> None:
        self.server.shutdown()
        self.server.server_close()


def blob_party(*blobs: Blob) -> Party:
    """A server that has these blobs."""
    contents = {blob.digest: blob.content for blob in blobs}

    def answer(request: Answers) -> None:
        found = contents.get(request.path.rpartition("/")[2])
        request.give(404 if found is None else 200, found or b"")

    return Party(answer)


# the server


class Server:
    """A server that runs with its configuration in a folder."""

    def __init__(self, folder: Path, program: str, tables: str = "", **server: Any):
        self.folder = folder
        self.state = folder / "state"
        self.log = folder / "log"
        self.port = free_port()
        self.token = ""
        members = {"state": str(self.state), "port": self.port, "tools": str(TOOLS), **server}
        text = "[server]\n" + "".join(f"{name} = {json.dumps(value)}\n" for name, value in members.items())
        if "[child]" not in tables:
            tables = f'[child]\nprogram = "{program}"\ncommand = "{os.environ.get("CVWATCH_COMMAND", "")}"\n' + tables
        if "[fetch]" not in tables:
            tables += '\n[fetch]\nnetworks = ["127.0.0.0/8"]\n'
        self.config = folder / "config.toml"
        self.config.write_text(text + tables, encoding="utf-8")
        self.command = [str(SERVER), "--config", str(self.config)]
        self.process: subprocess.Popen[bytes] | None = None

    def start(self, is_waited: bool = True) -> "Server":
        """Starts the server, and waits until it is ready."""
        with self.log.open("ab") as log:
            self.process = subprocess.Popen(self.command, stdout=log, stderr=log)
        if is_waited:
            wait_for(self.is_ready)
        return self

    def is_ready(self) -> bool:
        """Whether the server answers, and its child too."""
        assert self.process is not None
        assert self.process.poll() is None, self.log.read_text()[-3000:]
        try:
            return self.call("GET", "/readyz")[0] == 200
        except OSError:
            return False

    def stop(self, number: int = signal.SIGTERM) -> int:
        """Ends the server by a signal, and gives its status."""
        if self.process is None:
            return 0
        self.process.send_signal(number)
        status = self.process.wait(timeout=PATIENCE)
        self.process = None
        return status

    def __enter__(self) -> "Server":
        try:
            return self.start()
        except BaseException:
            self.stop(signal.SIGKILL)
            raise

    def __exit__(self, *_: Any) -> None:
        self.stop(signal.SIGTERM)

    def call(self, method: str, path: str, body: Any = None, seconds: float = PATIENCE, **headers: str) -> tuple[int, Any]:
        """The status and the body of an answer; JSON is read."""
        connection = http.client.HTTPConnection("127.0.0.1", self.port, timeout=seconds)
        content = body if isinstance(body, bytes) or body is None else json.dumps(body).encode()
        try:
            connection.request(method, path, content, {name.replace("_", "-"): value for name, value in headers.items()})
            response = connection.getresponse()
            text = response.read()
            is_json = response.headers.get("Content-Type", "").startswith("application/json")
            return response.status, json.loads(text) if is_json and text else text
        finally:
            connection.close()

    def index(self, manifest: dict[str, Any], seconds: float = PATIENCE) -> tuple[int, Any]:
        """Posts a manifest."""
        return self.call("POST", "/indexer/api/v1/index_report", manifest, seconds)

    def report(self, digest: str) -> tuple[int, Any]:
        """The vulnerability report of an image."""
        return self.call("GET", f"/matcher/api/v1/vulnerability_report/{digest}")

    def metric(self, name: str) -> float:
        """The value of a metric, written as in its line."""
        for line in self.call("GET", "/metrics")[1].decode().splitlines():
            if line.startswith(name + " "):
                return float(line.split()[-1])
        return 0.0

    def children(self) -> list[int]:
        """The processes of cvwatch that the server started."""
        assert self.process is not None
        found = Path(f"/proc/{self.process.pid}/task/{self.process.pid}/children").read_text().split()
        return [int(number) for number in found if b"--workers" in Path(f"/proc/{number}/cmdline").read_bytes()]

    def memory(self) -> int:
        """The most bytes of memory that the server had so far."""
        assert self.process is not None
        for line in Path(f"/proc/{self.process.pid}/status").read_text().splitlines():
            if line.startswith("VmHWM:"):
                return int(line.split()[1]) * 1024
        raise AssertionError("no memory is stated")


def processor_seconds(number: int) -> float:
    """The processor time that a process took so far, with that of the processes that it waited for."""
    times = Path(f"/proc/{number}/stat").read_text().rpartition(")")[2].split()[11:15]
    return sum(map(int, times)) / os.sysconf("SC_CLK_TCK")


def vulnerable(report: dict[str, Any]) -> list[tuple[str, str, str, str]]:
    """The findings of a vulnerability report: package, version, advisory and fix."""
    found = []
    for package, names in report["package_vulnerabilities"].items():
        for name in names:
            one, of = report["vulnerabilities"][name], report["packages"][package]
            found.append((of["name"], of["version"], one["name"], one["fixed_in_version"]))
    return sorted(found)


def scanned(program: str, folder: Path, digest: str, blobs: tuple[Blob, ...], records: list[dict[str, Any]]) -> list[tuple[str, str, str, str]]:
    """The findings of `cvwatch scan` for layers that are unpacked here again, by another way than that of the server."""
    for blob in blobs:
        place = folder / "layers" / "sha256" / blob.diff_id.removeprefix("sha256:")
        place.mkdir(parents=True, exist_ok=True)
        with tarfile.open(fileobj=io.BytesIO(blob.tar)) as tar:
            tar.extractall(place)
    lines = [{"hash": digest, "layers": [{"hash": blob.diff_id} for blob in blobs]}, *records]
    text = "".join(json.dumps(line) + "\n" for line in lines)
    done = subprocess.run([program, "scan"], input=text.encode(), stdout=subprocess.PIPE, cwd=folder, check=True)
    findings = json.loads(done.stdout)["findings"]
    return sorted((one["name"], one["version"], one["advisory"], one["fixed"] or "") for one in findings)


@contextlib.contextmanager
def registry(folder: Path) -> Iterator[str]:
    """A registry of Docker, with its address."""
    port = free_port()
    config = folder / "registry.yml"
    config.write_text(f"version: 0.1\nlog: {{level: error}}\nstorage: {{filesystem: {{rootdirectory: {folder}/registry}}}}\nhttp: {{addr: 127.0.0.1:{port}}}\n")
    with (folder / "registry.log").open("wb") as log:
        process = subprocess.Popen(["docker-registry", "serve", config], stdout=log, stderr=log)

    def answers() -> bool:
        with contextlib.suppress(OSError), socket.create_connection(("127.0.0.1", port), 1):
            return True
        return False

    try:
        wait_for(answers)
        yield f"127.0.0.1:{port}"
    finally:
        process.terminate()
        process.wait()


def make_layout(layout: Path, blobs: tuple[Blob, ...]) -> str:
    """Makes an OCI layout of an image, and gives the digest of its manifest."""
    place = layout / "blobs" / "sha256"
    place.mkdir(parents=True)

    def put(content: bytes, kind: str) -> dict[str, Any]:
        (place / hashlib.sha256(content).hexdigest()).write_bytes(content)
        return {"mediaType": f"application/vnd.oci.image.{kind}", "digest": sha256(content), "size": len(content)}

    config = {"architecture": "amd64", "os": "linux", "rootfs": {"type": "layers", "diff_ids": [blob.diff_id for blob in blobs]}}
    layers = [put(blob.content, "layer.v1.tar+gzip") for blob in blobs]
    manifest = {"schemaVersion": 2, "mediaType": "application/vnd.oci.image.manifest.v1+json", "layers": layers}
    manifest["config"] = put(json.dumps(config).encode(), "config.v1+json")
    head = put(json.dumps(manifest).encode(), "manifest.v1+json")
    (layout / "index.json").write_text(json.dumps({"schemaVersion": 2, "manifests": [head]}))
    (layout / "oci-layout").write_text('{"imageLayoutVersion":"1.0.0"}')
    return str(head["digest"])


def push(address: str, folder: Path, name: str, blobs: tuple[Blob, ...]) -> str:
    """Pushes an image by skopeo, and gives the digest of its manifest."""
    layout = folder / f"layout-{name}"
    digest = make_layout(layout, blobs)
    subprocess.run(["skopeo", "copy", "--quiet", "--dest-tls-verify=false", f"oci:{layout}", f"docker://{address}/{name}"], check=True)
    return digest
