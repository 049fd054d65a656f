#!/usr/bin/python3
"""A stand-in for a cvwatch with the command `keep`, made of one that has `serve`. Its `sbom` lists packages of status files alone.

It keeps the rounds of its input in a file, and plays them again at its start. The program is that of the environment variable STANDS_FOR.
"""

import json
import os
import subprocess
import sys
from pathlib import Path
from typing import Any, Iterator

KEPT = Path("cvwatch.keep")
PROGRAM = os.environ["STANDS_FOR"]


def list_packages() -> None:
    """The packages of the status files of an image's layers, of which the tests have one each."""
    manifest = json.loads(sys.stdin.readline())
    components = []
    for layer in manifest["layers"]:
        status = Path("layers/sha256", layer["hash"].removeprefix("sha256:"), "var/lib/dpkg/status")
        for paragraph in status.read_text().split("\n\n") if status.exists() else []:
            found = dict(line.split(": ", 1) for line in paragraph.strip().splitlines())
            facts = {"arch": found["Architecture"], "ecosystem": "Debian:12", "kind": "deb", "path": "var/lib/dpkg/status", "source": found["Source"]}
            facts["source_version"] = found["Version"]
            properties = [{"name": f"cvwatch:{name}", "value": value} for name, value in facts.items()]
            components.append({"name": found["Package"], "properties": properties, "type": "library", "version": found["Version"]})
    print(json.dumps({"bomFormat": "CycloneDX", "components": components, "specVersion": "1.5", "version": 1}))


class Kept:
    """A service whose rounds are kept."""

    def __init__(self) -> None:
        command = [PROGRAM, "serve", *sys.argv[2:]]
        self.child = subprocess.Popen(command, stdin=subprocess.PIPE, stdout=subprocess.PIPE)
        self.line = 0
        self.events = 0
        self.generation = 0
        # the lines that the child got so far, with the empty ones
        self.base = 0

    def start(self) -> None:
        """Plays what was kept, and says so."""
        rounds = KEPT.read_text().split("\n\n") if KEPT.exists() else []
        if rounds and rounds[0].startswith("bad"):
            self.say({"record": 0, "refused": "bad_keep"})
            self.child.kill()
            sys.exit(11)
        # what a crash left of a round has no empty line after it
        for text in rounds[:-1]:
            list(self.run([json.loads(line) for line in text.splitlines()]))
        KEPT.write_text("".join(text + "\n\n" for text in rounds[:-1]))
        self.say({"events": self.events, "generation": self.generation, "reply": "resumed"})
        self.line = 0

    def say(self, answer: dict[str, Any]) -> None:
        """Writes an answer."""
        print(json.dumps(answer), flush=True)

    def run(self, requests: list[dict[str, Any]]) -> Iterator[dict[str, Any]]:
        """The answers to a round. Their numbers are those of this input."""
        first = self.line + 1
        self.line += len(requests) + 1
        assert self.child.stdin is not None and self.child.stdout is not None
        # a last request says where the round ends
        text = "".join(json.dumps(request) + "\n" for request in requests)
        self.child.stdin.write((text + '{"do":"list"}\n\n{"do":"list"}\n\n').encode())
        self.child.stdin.flush()
        ends = 0
        while ends < 2:
            answer = json.loads(self.child.stdout.readline())
            self.events = max(self.events, answer.get("at", 0))
            if answer.get("reply") == "updated":
                self.generation = answer["generation"]
            place = answer.get("line", 0) - self.base - 1
            if "line" in answer and place >= len(requests):
                ends += 1
            elif "line" in answer:
                yield {**answer, "line": first + place}
            else:
                yield answer
        self.base += len(requests) + 4

    def serve(self) -> None:
        """Keeps and runs rounds until the input ends."""
        self.start()
        lines: list[str] = []
        with KEPT.open("a") as kept:
            for line in sys.stdin:
                if line.strip():
                    lines.append(line)
                    continue
                requests = [json.loads(text) for text in lines]
                kept.write("".join(lines) + "\n")
                kept.flush()
                os.fsync(kept.fileno())
                for answer in self.run(requests):
                    self.say(answer)
                lines = []
        assert self.child.stdin is not None
        self.child.stdin.close()
        self.child.wait()


if __name__ == "__main__":
    if sys.argv[1] == "sbom":
        list_packages()
    elif sys.argv[1] == "keep":
        Kept().serve()
    else:
        sys.exit(2)
