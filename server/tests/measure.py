"""Measures the server; `server/bench` says what."""

import json
import os
import platform
import re
import shutil
import subprocess
import sys
import tempfile
import time
from concurrent.futures import ThreadPoolExecutor
from pathlib import Path
from typing import Any

sys.dont_write_bytecode = True

# pylint: disable=wrong-import-position
from support import ROOT, Blob, Party, Server, blob_party, debian_blob, manifest_of, npm_blob, processor_seconds, record, wait_for, write_feed

PACKAGES = 100
ADVISORIES = 50
SECONDS = 10
CHANGES = 5
CLIENTS = 8
# images share layers, as those of a registry do: so many lie on the base, and each has images of so many others on it
MIDDLES = 20
# each thread of wrk asks for the reports of all images in turn
SCRIPT = """
local paths, place = {}, 0
for line in io.lines(os.getenv("PATHS")) do paths[#paths + 1] = line end
request = function()
  place = place % #paths + 1
  return wrk.format("GET", paths[place])
end
"""
Row = dict[str, str]


def milliseconds(seconds: float, count: int) -> str:
    """The time of one of these reports, posts or changes."""
    return f"{1000 * seconds / max(count, 1):.2f} ms"


def loop() -> list[float]:
    """The processor times of one fixed loop, by which those of different hours and machines can be compared."""
    times = []
    for _ in range(5):
        before = time.process_time()
        sum(range(5_000_000))
        times.append(time.process_time() - before)
    return times


class Used:
    """The processor time of the server, with the processes that it ran and that have ended, and of its child, since the last look."""

    def __init__(self, server: Server):
        assert server.process is not None
        self.numbers = [server.process.pid, *server.children()]
        self.before = self.now()

    def now(self) -> list[float]:
        """The times so far."""
        return [processor_seconds(number) for number in self.numbers]

    def of(self, count: int) -> list[str]:
        """The times of one of so many, of the server and of the child."""
        before, self.before = self.before, self.now()
        return [milliseconds(now - then, count) for now, then in zip(self.before, before)]


def wrk(server: Server, folder: Path, connections: int) -> Row:
    """Reports a second, their times by the clock, and the processor time of one, by wrk."""
    (folder / "wrk.lua").write_text(SCRIPT)
    used = Used(server)
    command = ["wrk", "--latency", "--timeout", "60s", "-t1", f"-c{connections}", f"-d{SECONDS}s", "-s", folder / "wrk.lua", f"http://127.0.0.1:{server.port}"]
    environment = {**os.environ, "PATHS": str(folder / "paths")}
    done = subprocess.run(command, stdout=subprocess.PIPE, check=True, text=True, timeout=6 * SECONDS, env=environment)
    assert "Non-2xx" not in done.stdout and "Socket errors" not in done.stdout, done.stdout
    found = dict(re.findall(r"^\s*(50%|99%|Requests/sec:)\s+(\S+)", done.stdout, re.MULTILINE))
    of_server, of_child = used.of(int(re.findall(r"(\d+) requests in", done.stdout)[0]))
    return {"rate": found["Requests/sec:"], "half": found["50%"], "slow": found["99%"], "server": of_server, "child": of_child}


def pipes(program: str, folder: Path, requests: list[dict[str, Any]], lines: int) -> Row:
    """The same of the child alone, over pipes, with rounds of this number of lines, after a round of these requests."""
    child = subprocess.Popen([program, "serve"], cwd=folder, stdin=subprocess.PIPE, stdout=subprocess.PIPE)
    assert child.stdin is not None and child.stdout is not None
    # an empty round indexes the layers
    child.stdin.write(b"".join(json.dumps(request).encode() + b"\n" for request in requests) + b'\n\n{"do":"list"}\n\n')
    child.stdin.flush()
    assert any(b'"read":"list"' in line for line in child.stdout)
    digests = [request["manifest"]["hash"].encode() for request in requests if "manifest" in request]
    times: list[float] = []
    began, before = time.monotonic(), processor_seconds(child.pid)
    while time.monotonic() - began < SECONDS:
        start, place = time.monotonic(), len(times)
        some = [digests[(place + step) % len(digests)] for step in range(lines)]
        child.stdin.write(b"".join(b'{"do":"report","image":"%s"}\n' % digest for digest in some) + b"\n")
        child.stdin.flush()
        for _ in some:
            assert b'"reply":"good"' in child.stdout.readline()
        times += [time.monotonic() - start] * lines
    rate, used = len(times) / (time.monotonic() - began), milliseconds(processor_seconds(child.pid) - before, len(times))
    child.stdin.close()
    child.wait()
    times.sort()
    half, slow = (milliseconds(times[len(times) * place // 100], 1) for place in (50, 99))
    return {"rate": f"{rate:.0f}", "half": half, "slow": slow, "server": "", "child": used}


def records_of() -> list[dict[str, Any]]:
    """Advisories on half of the packages."""
    return [record(f"X-{number}", "Debian:12", f"source{number}", "2.0-1", summary="a flaw " * 10) for number in range(ADVISORIES)]


def images_of(count: int) -> list[tuple[Blob, ...]]:
    """The layers of so many images."""
    base = debian_blob(*((f"package{number}", f"source{number}", "1.0-1") for number in range(PACKAGES)))
    middles = [npm_blob("middle", f"1.0.{number}") for number in range(MIDDLES)]
    tops = [npm_blob("own", f"1.0.{number}") for number in range(-(-count // MIDDLES))]
    return [(base, middle, top) for top in tops for middle in middles][:count]


def post(server: Server, manifests: list[dict[str, Any]]) -> None:
    """Posts images by several clients, and says how fast that was."""
    start, used = time.monotonic(), Used(server)
    with ThreadPoolExecutor(CLIENTS) as clients:
        assert set(clients.map(lambda manifest: server.index(manifest)[0], manifests)) == {201}
    rate = len(manifests) / (time.monotonic() - start)
    of_server, of_child = used.of(len(manifests))
    print(f"{len(manifests)} images of {PACKAGES + 2} packages and {ADVISORIES} findings, posted by {CLIENTS} clients: {rate:.1f} a second. ", end="")
    print(f"Processor time of one: {of_server} of the server and what it starts, {of_child} of the child.")


def change(server: Server, hook: Party, feed: Path) -> None:
    """Changes a record of a feed a few times, and says how long it takes to the webhook."""
    waits, used = [], Used(server)
    for number in range(CHANGES):
        before = len(hook.posted)
        write_feed(feed, [*records_of(), record(f"Y-{number}", "Debian:12", "source99", None)])
        start = time.monotonic()
        wait_for(lambda before=before: len(hook.posted) > before)
        waits.append(time.monotonic() - start)
    of_server, of_child = used.of(CHANGES)
    times = ", ".join(f"{wait:.2f}" for wait in sorted(waits))
    print(f"From a changed record in a feed file, looked at every 0.2 seconds, to the webhook: {times} s. ", end="")
    print(f"Processor time of one change: {of_server} of the server and what it starts, {of_child} of the child.")


def measure(program: str, folder: Path, count: int) -> list[tuple[str, Row]]:
    """The rows of the table."""
    images = images_of(count)
    feed = folder / "feed.jsonl"
    write_feed(feed, records_of())
    with blob_party(*{blob for layers in images for blob in layers}) as party, Party(lambda request: request.give(200)) as hook:
        tables = f'[webhook]\ntarget = "{hook.uri}"\n[[feed]]\nname = "a"\nfile = "{feed}"\nseconds = 0.2\n'
        with Server(folder, program, tables) as server:
            wait_for(lambda: server.metric('cvwatch_feed_records{feed="a"}') == ADVISORIES)
            manifests = [manifest_of(party.uri, *layers) for layers in images]
            post(server, manifests)
            (folder / "paths").write_text("".join(f"/matcher/api/v1/vulnerability_report/{manifest['hash']}\n" for manifest in manifests))
            rows = [(f"server, {number} connections", wrk(server, folder, number)) for number in (1, 64)]
            change(server, hook, feed)
            print(f"The server had at most {server.memory() >> 20} MiB of memory.\n")
    requests: list[dict[str, Any]] = [{"do": "update", "feed": "a", "advisories": records_of()}]
    for manifest, layers in zip(manifests, images):
        requests.append({"do": "register", "manifest": {"hash": manifest["hash"], "layers": [{"hash": blob.diff_id} for blob in layers]}})
    return rows + [(f"child alone, rounds of {number}", pipes(program, server.state, requests, number)) for number in (1, 64)]


def main() -> None:
    """Prints the table."""
    program = os.path.realpath(os.environ.get("CVWATCH") or shutil.which("cvwatch") or sys.exit("there is no cvwatch: set CVWATCH"))
    count = int(sys.argv[1]) if len(sys.argv) > 1 else 1000
    commit = subprocess.run(["git", "-C", ROOT, "rev-parse", "--short=8", "HEAD"], stdout=subprocess.PIPE, text=True, check=False).stdout.strip()
    load, began, loops = os.getloadavg()[0], time.monotonic(), loop()
    with tempfile.TemporaryDirectory() as folder:
        rows = measure(program, Path(folder), count)
    loops += loop()
    print("| | Reports a second | Half within | 99 % within | Processor time of one: server | child |\n|---|---|---|---|---|---|")
    for name, row in rows:
        print(f"| {name} | {row['rate']} | {row['half']} | {row['slow']} | {row['server']} | {row['child']} |")
    print(f"\n{platform.machine()}, {os.cpu_count()} processors with a load of {load:.1f} before, Python {platform.python_version()}, ", end="")
    print(f"commit {commit}; all of it took {time.monotonic() - began:.0f} s. ", end="")
    print(f"A loop, `sum(range(5_000_000))`, took {1000 * min(loops):.0f} to {1000 * max(loops):.0f} ms of processor time before and after.")


if __name__ == "__main__":
    main()
