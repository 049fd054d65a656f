"""Runs of cvwatch that scripts try: the program, and what a run ended with."""

import os
import subprocess
import sys
from collections import namedtuple

TOP = os.path.dirname(os.path.dirname(os.path.dirname(os.path.realpath(__file__))))
EXAMPLES = os.path.join(TOP, "examples")
# examples whose input is that of a scan, and those whose input is that of a service
SCANS, SERVICES = ["first-scan", "three-layers", "python-image"], ["service", "sealed-image"]
# statuses of cvwatch
DONE, USAGE, NO_MEMORY, REFUSED, DESK_FAULT, KEEP_FAULT, BAD_KEEP = 0, 2, 5, 8, 9, 10, 11
HANGS = "hangs"

# a run of some seconds may take this many on a busy machine, by a program that is not optimised
LONGEST = 600

# the status (of a signal -number, or HANGS), the bytes written, and what was said on standard error
Ended = namedtuple("Ended", ["status", "output", "said"])


def find_program(named):
    """The path of cvwatch, as find-cvwatch finds it, or an empty text after what that says."""
    words = ["bash", "-c", '. "$1"; find_cvwatch "$2"', sys.argv[0], os.path.join(TOP, "tools", "lib", "find-cvwatch"), named]
    return subprocess.run(words, stdout=subprocess.PIPE, text=True, check=False).stdout.strip()


def run(command, data, folder, longest=LONGEST, environment=None):
    """Runs a command over the input in a folder, for at most this number of seconds."""
    try:
        done = subprocess.run(command, input=data, cwd=folder, env=environment, capture_output=True, timeout=longest, check=False)
    except subprocess.TimeoutExpired as expired:
        return Ended(HANGS, expired.stdout or b"", expired.stderr or b"")
    return Ended(done.returncode, done.stdout, done.stderr)


def status_text(status):
    if status == HANGS:
        return "it hangs"
    return f"signal {-status}" if status < 0 else f"status {status}"


def is_calm(said):
    """Whether all that was said on standard error are whole lines of cvwatch, and no message of a crash."""
    return all(line.startswith(b"cvwatch: ") for line in said.splitlines()) and (not said or said.endswith(b"\n"))


def put_files(folder, files):
    """Writes files below a folder, by their paths."""
    for path, data in files.items():
        place = os.path.join(folder, path)
        os.makedirs(os.path.dirname(place), exist_ok=True)
        with open(place, "wb") as file:
            file.write(data)


def files_below(folder):
    """The files below a folder, by their paths."""
    files = {}
    for above, _, names in os.walk(folder):
        for name in names:
            place = os.path.join(above, name)
            with open(place, "rb") as file:
                files[os.path.relpath(place, folder)] = file.read()
    return files


def example(name):
    """The input of an example, and the files of its layers."""
    folder = os.path.join(EXAMPLES, name)
    with open(os.path.join(folder, "input.jsonl"), "rb") as file:
        return file.read(), {os.path.join("layers", path): data for path, data in files_below(os.path.join(folder, "layers")).items()}
