"""Runs a program with requests for memory refused to it, by a small library in C that is preloaded."""

import os
import random
import struct
import subprocess
import threading
from collections import namedtuple

import runs

SOURCE = os.path.join(os.path.dirname(os.path.realpath(__file__)), "refuse_memory.c")

# the number of the request that is refused, and whether all later ones are
Refusal = namedtuple("Refusal", ["at", "rest"])
# no request is refused
NONE = Refusal(0, False)
# how a try ended, how many requests it made and how many were refused
Tried = namedtuple("Tried", ["ended", "requests", "refused"])


class Library:
    """The library that refuses memory, and runs with it preloaded."""

    def __init__(self, work, program):
        self.path, self.work, self.program, self.here = os.path.join(work, "refuse_memory.so"), work, program, threading.local()
        subprocess.run(["cc", "-O2", "-shared", "-fPIC", "-o", self.path, SOURCE], check=True)

    def counts(self):
        """The file of counts of this thread, with both at 0."""
        if not hasattr(self.here, "counts"):
            self.here.counts = os.path.join(self.work, f"counts-{threading.get_ident()}")
        with open(self.here.counts, "wb") as file:
            file.write(bytes(16))
        return self.here.counts

    def run(self, case, refusal=NONE, longest=runs.LONGEST):
        counts = self.counts()
        refused = {"REFUSE_AT": str(refusal.at), **({"REFUSE_REST": "1"} if refusal.rest else {})}
        environment = {**os.environ, **refused, "LD_PRELOAD": self.path, "REFUSE_COUNTS": counts}
        ended = runs.run([self.program, *case.arguments], case.data, case.folder, longest, environment)
        with open(counts, "rb") as file:
            return Tried(ended, *struct.unpack("=QQ", file.read(16)))


def planned(requests, options):
    """The requests to be refused, the first ones and some of the later ones, each alone and with the rest."""
    first = range(1, min(requests, options.first) + 1)
    later = range(len(first) + 1, requests + 1)
    chosen = sorted(random.Random(options.seed).sample(later, min(len(later), options.more)))
    return [Refusal(at, rest) for at in [*first, *chosen] for rest in (False, True)]
