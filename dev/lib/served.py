"""A service that the scripts of bench/ measure, request by request, and the layers and requests of their sessions."""

import json
import os
import subprocess
import time

# lines in a round
MOST_LINES = 4000


def digest(number):
    return f"sha256:{number:064x}"


def register(image, layers):
    """The request that registers an image of these layers, all named by their numbers."""
    return json.dumps({"do": "register", "manifest": {"hash": digest(image), "layers": [{"hash": digest(layer)} for layer in layers]}}).encode()


def make_layer(number, packages):
    """The folder of a layer with packages of dpkg, below the working directory."""
    folder = f"layers/sha256/{number:064x}"
    os.makedirs(folder + "/var/lib/dpkg")
    os.makedirs(folder + "/usr/lib")
    with open(folder + "/usr/lib/os-release", "w", encoding="ascii") as file:
        file.write('ID=debian\nVERSION_ID="12"\n')
    with open(folder + "/var/lib/dpkg/status", "w", encoding="ascii") as file:
        for name, version in packages:
            file.write(f"Package: {name}\nStatus: install ok installed\nArchitecture: amd64\nSource: source-{name}\nVersion: {version}\n\n")


def record(number, name, fixed, more=""):
    return (
        f'{{"id":"B-{number:06}","modified":"2024-01-01T00:00:00Z",{more}"affected":[{{"package":{{"ecosystem":"Debian:12","name":"source-{name}"}},'
        f'"ranges":[{{"type":"ECOSYSTEM","events":[{{"introduced":"0"}},{{"fixed":"{fixed}"}}]}}]}}]}}'
    )


def update(records):
    return b'{"do":"update","feed":"bench","advisories":[' + ",".join(records).encode() + b"]}"


def patch(base, records):
    return b'{"do":"patch","feed":"bench","base":%d,"advisories":[' % base + ",".join(records).encode() + b"]}"


class Service:
    """A running service, of which each request is a round. One of `keep` has said where it goes on."""

    def __init__(self, program, command="serve"):
        self.child = subprocess.Popen([program, command, "--workers", "1"], stdin=subprocess.PIPE, stdout=subprocess.PIPE, stderr=subprocess.DEVNULL)
        self.clock = ~self.child.pid << 3 | 2
        if command == "keep":
            self.child.stdout.readline()

    def seconds(self):
        """The processor time that the service has had."""
        return time.clock_gettime(self.clock)

    def send(self, lines):
        """Sends the lines of a round."""
        self.child.stdin.write(b"".join(line + b"\n" for line in lines) + b"\n")
        self.child.stdin.flush()

    def ask(self, lines, answers):
        """The last one of the answers to the lines of a round, of which there has to be this number, and the seconds that they took."""
        before = self.seconds()
        self.send(lines)
        last = b""
        for _ in range(answers):
            last = self.child.stdout.readline()
        if not last:
            raise SystemExit("the service has ended")
        return json.loads(last), self.seconds() - before

    def memory(self, name):
        """VmRSS or VmHWM, the memory now and at most, in MB."""
        with open(f"/proc/{self.child.pid}/status", encoding="ascii") as file:
            return next(int(line.split()[1]) / 1024 for line in file if line.startswith(name))

    def forget_peak(self):
        with open(f"/proc/{self.child.pid}/clear_refs", "w", encoding="ascii") as file:
            file.write("5")

    def register(self, images):
        """Registers images, lists of numbers of layers by their own numbers."""
        requests = [register(image, layers) for image, layers in images]
        for first in range(0, len(requests), MOST_LINES):
            part = requests[first : first + MOST_LINES]
            self.send(part)
            waiting = len(part)
            while waiting:
                answer = json.loads(self.child.stdout.readline())
                waiting -= answer["event"] == "register"
                if answer["event"] == "register" and answer["reply"] != "registered":
                    raise SystemExit(answer)

    def index(self, image):
        """Goes on until an image is indexed, the last one that was registered."""
        reply = "pending"
        while reply == "pending":
            self.child.stdin.write(b"\n" + json.dumps({"do": "report", "image": digest(image)}).encode() + b"\n\n")
            self.child.stdin.flush()
            answer = {}
            while answer.get("read") != "report":
                answer = json.loads(self.child.stdout.readline())
            reply = answer["reply"]
        if reply != "good":
            raise SystemExit(answer)

    def end(self):
        self.child.stdin.close()
        self.child.stdout.read()
        self.child.wait()
