#!/usr/bin/env python3
"""A stand-in for `cvwatch serve`, `cvwatch keep` and `cvwatch push`, made of the machine of dev/check-transcript, for tests that have to see wrong programs.

The environment variable WRONG names what it does wrong, if anything.
"""

import contextlib
import errno
import fcntl
import os
import random
import sys

sys.dont_write_bytecode = True
sys.path.insert(0, os.path.dirname(os.path.realpath(__file__)))

# pylint: disable=wrong-import-position
from kept_runs import judge, kept_file
from runs import BAD_KEEP, DESK_FAULT, KEEP_FAULT, NO_MEMORY, USAGE

WRONG = os.environ.get("WRONG", "")


class Ends(Exception):
    """The status with which it ends, and what it says."""


def put(file, data, at=None):
    """Writes all bytes, from a place on or to a stream."""
    while data:
        done = os.write(file, data) if at is None else os.pwrite(file, data, at)
        data, at = data[done:], None if at is None else at + done


class Journal:
    """The file `cvwatch.keep`, opened and repaired."""

    def __init__(self):
        self.file = os.open(kept_file.NAME, os.O_RDWR | os.O_CREAT | os.O_CLOEXEC, 0o666)
        folder = os.open(".", os.O_RDONLY)
        os.fsync(folder)
        os.close(folder)
        fcntl.flock(self.file, fcntl.LOCK_EX | fcntl.LOCK_NB)
        self.sync("the first sync is left out")
        data = self.read()
        self.records = kept_file.records_of(data)
        self.gate = sum(9 + len(record) for record in self.records)
        if len(data) > self.gate + 1 and WRONG != "nothing is cut":
            os.ftruncate(self.file, self.gate + 1)
        self.sync("a cut is not synced")
        put(self.file, kept_file.CLOSED, self.gate)
        self.sync()

    def read(self):
        size, data = os.fstat(self.file).st_size, b""
        while len(data) < size:
            piece = os.pread(self.file, size - len(data), len(data))
            if not piece:
                raise OSError(5, "the file ends too early")
            data += piece
        return data

    def sync(self, unless=None):
        if unless is None or WRONG != unless:
            os.fsync(self.file)

    def append(self, record):
        block = len(record).to_bytes(8, "big") + record + kept_file.CLOSED
        if WRONG == "the gate is written with the record":
            put(self.file, kept_file.OPEN + block, self.gate)
        else:
            put(self.file, block, self.gate + 1)
            self.sync("a record is not synced before its gate")
            put(self.file, kept_file.OPEN, self.gate)
        self.sync("a gate is not synced")
        self.gate += 9 + len(record)


class Round:
    """The events and lines of a round, in which lanes and workers take turns at random."""

    def __init__(self, machine, workers, count, lines):
        self.machine, self.count = machine, count
        self.lines, self.reads, self.events = [], [], []
        self.lanes, self.working = {}, dict.fromkeys(range(workers))
        self.queued = [layer for layer, status in machine.layers.items() if status == "queued"]
        random.shuffle(self.queued)
        for number, line in lines:
            self.take(number, line)

    def take(self, number, line):
        try:
            lane, word, about = judge.read_request(line)
            self.lanes.setdefault(lane, []).append((number, word, about, line))
        except judge.Refused as error:
            self.lines.append(judge.object_text({"line": number, **error.members}))

    def run(self):
        while True:
            turns = [(self.work, worker) for worker, layer in self.working.items() if layer or self.queued]
            turns += [(self.answer, lane) for lane, requests in self.lanes.items() if requests]
            if not turns:
                self.write_reads()
                return
            turn, who = random.choice(turns)
            turn(who)

    def work(self, worker):
        layer = self.working[worker]
        if layer is None:
            layer, word = self.queued.pop(), "claim"
            reply = self.machine.claim(layer, worker)
            self.working[worker] = layer if reply == "claimed" else None
        else:
            word = "fault" if self.machine.tree(layer).fails else "indexed"
            reply = self.machine.finish(word, layer, worker)
            self.working[worker] = None
        self.add({"event": word, "layer": layer, "worker": worker, "reply": reply}, lambda number: kept_file.Work(number, worker, word, layer))

    def answer(self, lane):
        number, word, about, line = self.lanes[lane].pop(0)
        members = {"lane": lane, "line": number, **getattr(self.machine, word)(about)}
        if word in judge.READS:
            self.reads.append(((lane, number), judge.object_text({"at": self.count, "read": word, **members})))
            return
        if word in ("register", "drop"):
            members["image"] = about[0] if word == "register" else about
        self.add({"event": word, **members}, lambda event: kept_file.Line(event, lane, number, line))

    def add(self, members, kept):
        """Adds an event, after the reads before it."""
        self.write_reads()
        self.count += 1
        self.lines.append(judge.object_text({"at": self.count, **members}))
        self.events.append(kept(self.count))

    def write_reads(self):
        self.lines += [text for _, text in sorted(self.reads)]
        self.reads = []


class FolderHook:
    """The folder `hook`, the last number that it took, and why an offer failed the last time."""

    def __init__(self):
        self.last, self.failure = 0, None

    def after_round(self, notices):
        """Offers what stands after the last number, up to the first that is not taken, and gives the lines of the offers."""
        due = [number for number in sorted(notices, reverse=WRONG == "the greatest number is offered first") if number > self.last]
        if WRONG == "the last number is offered again" and self.last in notices:
            due.insert(0, self.last)
        lines = []
        for number in due:
            is_taken = self.offer(number, judge.rows_text(notices[number]).encode())
            lines.append(judge.object_text({"hook": "taken" if is_taken else "fault", "number": number}))
            if is_taken or WRONG == "a fault counts as taken":
                self.last = number
            elif WRONG != "a round goes on after a fault":
                break
        return lines

    def offer(self, number, rows):
        name = f"hook/{number}.json"
        try:
            if WRONG == "a file is written under its name":
                self.write(name, rows)
            else:
                self.write("hook/unfinished", rows)
                os.rename("hook/unfinished", name)
                self.sync("hook")
        except OSError as error:
            with contextlib.suppress(OSError):
                os.remove("hook/unfinished")
            if error.errno == errno.ENOMEM:
                raise Ends(NO_MEMORY, "out of memory") from error
            if WRONG == "a fault ends the run":
                raise Ends(4, f"{name}: {error.strerror}") from error
            self.failure = f"{name}: {error.strerror} (os error {error.errno})"
            return False
        return True

    @staticmethod
    def write(name, rows):
        file = os.open(name, os.O_WRONLY | os.O_CREAT | os.O_TRUNC | os.O_CLOEXEC, 0o666)
        try:
            put(file, rows + b"\n" if WRONG == "a line feed is added to the rows" else rows)
            os.fsync(file)
        finally:
            os.close(file)

    @staticmethod
    def sync(name):
        file = os.open(name, os.O_RDONLY | os.O_CLOEXEC)
        try:
            os.fsync(file)
        finally:
            os.close(file)


class Service:
    def __init__(self, workers, command):
        self.workers, self.count, self.journal = workers, 0, None
        self.machine = judge.Machine("layers", False)
        self.hook = FolderHook() if command == "push" else None
        if command == "keep":
            self.begin()

    def begin(self):
        """Goes on from the file."""
        try:
            self.journal = Journal()
        except OSError as error:
            raise Ends(KEEP_FAULT, error.strerror) from error
        records = self.journal.records
        if WRONG == "a record is passed over" and len(records) > 2:
            del records[1]
        try:
            self.check_layers(records)
            self.count = judge.resume(self.machine, records)
        except judge.BadKeep as error:
            self.write([judge.object_text({"record": error.args[0], "refused": "bad_keep"})])
            raise Ends(BAD_KEEP) from error
        self.write([judge.object_text({"events": self.count, "generation": self.machine.generation, "reply": "resumed"})])

    def check_layers(self, records):
        """The layers that were indexed can be listed."""
        for index, record in enumerate(records):
            try:
                events = kept_file.events_of(record)
            except kept_file.NoRecord:
                return
            work = [event for event in events if isinstance(event, kept_file.Work)]
            if any(event.word == "indexed" and self.machine.tree(event.layer).fails for event in work):
                raise Ends(DESK_FAULT, "a layer could not be read")
            if WRONG == "a worker that this run does not have is refused" and any(event.worker >= self.workers for event in work):
                raise judge.BadKeep(index, "a worker")

    @staticmethod
    def write(lines):
        try:
            put(1, "".join(line + "\n" for line in lines).encode())
        except OSError as error:
            raise Ends(4, error.strerror) from error

    def keep(self, events):
        if WRONG == "an event is left out" and len(events) > 1:
            del events[-1]
        try:
            self.journal.append(kept_file.record_of(events))
            if WRONG == "a record is written twice":
                self.journal.append(kept_file.record_of(events))
        except OSError as error:
            raise Ends(KEEP_FAULT, error.strerror) from error

    def run_round(self, lines):
        made = Round(self.machine, self.workers, self.count, lines)
        made.run()
        self.count = made.count
        is_early = WRONG == "lines are written before the record"
        if is_early:
            self.write(made.lines)
        if self.journal is not None and made.events:
            self.keep(made.events)
        if not is_early:
            self.write(made.lines)
        if self.hook is not None:
            self.write(self.hook.after_round(self.machine.notices))

    def run(self, source):
        """Reads the lines of an input to its end. An empty line ends a round."""
        begun = []
        for number, raw in enumerate(source, 1):
            line = raw.removesuffix(b"\n").removesuffix(b"\r")
            if line:
                begun.append((number, line))
            if not line or len(begun) == judge.MOST_LINES:
                self.run_round(begun)
                begun = []
        if begun:
            self.run_round(begun)
        if "queued" in self.machine.layers.values():
            self.run_round([])
        if self.hook is not None and self.hook.failure is not None:
            print(f"cvwatch: {self.hook.failure}", file=sys.stderr)


def workers_of(words):
    """The number of workers that the arguments name, or None if they are none that it takes."""
    if words[:1] not in (["serve"], ["keep"], ["push"]):
        return None
    if len(words) == 1:
        return 4
    rest = " ".join(words[1:]).replace("--workers=", "--workers ", 1)
    return int(rest[-1]) if rest[:-1] == "--workers " and rest[-1] in "12345678" else None


def main():
    words = sys.argv[1:]
    workers = workers_of(words)
    if workers is None:
        print("usage: cvwatch serve|scan|order|drill|sbom|scan-list|keep|push")
        return USAGE
    try:
        Service(workers, words[0]).run(sys.stdin.buffer)
    except Ends as ends:
        if ends.args[1:]:
            print(f"cvwatch: {ends.args[1]}", file=sys.stderr)
        return ends.args[0]
    return 0


if __name__ == "__main__":
    sys.exit(main())
