"""Runs of `cvwatch keep` over one folder, one after the other, and whether what they wrote and kept is right."""

import contextlib
import os
import subprocess
import sys
import tempfile

import command_line
import runs
import transcripts

sys.dont_write_bytecode = True
sys.path.insert(0, os.path.join(runs.TOP, "dev", "lib"))

# pylint: disable=wrong-import-position
import kept_file

judge = transcripts.judge
KILLED = -9


def has_command(program, command):
    """Whether the program has the command `keep` or `push`; one without it prints its usage."""
    with tempfile.TemporaryDirectory() as folder:
        return runs.run([program, command], b"", folder).status != runs.USAGE


def program_of(options):
    """The program that the options name or that is found. Without one, or where it has no `keep`, the script ends with status 2."""
    program = command_line.program_of(options)
    if not has_command(program, "keep"):
        print(f"{os.path.basename(sys.argv[0])}: {program} has no command keep", file=sys.stderr)
        sys.exit(2)
    return program


def make_session(folder, seed, requests, images):
    """Makes layers and requests in a new folder, and gives the requests."""
    os.makedirs(folder)
    subprocess.run([os.path.join(runs.TOP, "dev", "make-session"), str(seed), str(requests), str(images)], cwd=folder, check=True)
    with open(os.path.join(folder, "requests"), "rb") as file:
        return file.read()


def numbers_of(output):
    """The numbers of the lines that are answered."""
    tags = (judge.read_json(line) for line in output.split(b"\n")[:-1])
    return {tag["line"] for tag in tags if "line" in tag}


def rest_of(rounds, answered):
    """The rounds as an input, from the first one with a line that is not answered, and without those that are."""
    open_rounds = [[line for number, line in lines if number not in answered] for lines in rounds]
    first = next((index for index, lines in enumerate(open_rounds) if lines), len(rounds))
    return b"".join(b"".join(line + b"\n" for line in lines) + b"\n" for lines in open_rounds[first:])


def is_event(line):
    """Whether a line of the input is a request that makes an event."""
    try:
        return judge.read_request(line)[1] not in judge.READS
    except judge.Refused:
        return False


class Lists(judge.Machine):
    """A machine that knows the images and the states of their layers, and nothing of feeds."""

    def __init__(self, machine):
        super().__init__(machine.folder, False)
        self.images, self.layers, self.names = dict(machine.images), dict(machine.layers), dict(machine.names)

    def update(self, update):
        return {}

    def patch(self, patch):
        return {}

    def ack(self, number):
        return {}


class Answers:
    """Takes the place of an output: its lines are those of these events, which a machine gives."""

    def __init__(self, events, first):
        self.events, self.number = list(events), first
        self.tag = None
        self.read()

    def read(self):
        self.tag = None
        if self.events:
            event = self.events.pop(0)
            if isinstance(event, kept_file.Line):
                self.tag = {"lane": event.lane, "line": event.line}
            else:
                self.tag = {"event": event.word, "layer": event.layer, "worker": event.worker}

    def next(self, _):
        self.number += 1
        self.read()

    def refuse(self, why, *_):
        raise judge.Illegal(f"event {self.number + 1}: {why}")

    place = property(lambda self: self.number)


def check_rounds(machine, workers, count, rounds, records):
    """Raises Illegal where the records are not the events of whole rounds, one after the other, from a machine after this number of events."""
    remaining = [*rounds, []]
    for record in records:
        events = kept_file.events_of(record)
        answers = Answers(events, count)
        judged = judge.Judge(answers, workers, machine, count)
        while judged.events == count:
            if not remaining:
                raise judge.Illegal(f"the events from {count + 1} on are of no round")
            try:
                judged.judge_round([(number, line) for number, line in remaining.pop(0) if is_event(line)])
            except judge.Illegal as error:
                raise judge.Illegal(f"the record of event {count + 1} is not a whole round: {error}") from error
        if answers.tag is not None:
            raise judge.Illegal(f"the record of event {count + 1} has more events than its round, which ends with {judged.events}")
        if judged.records != [record]:
            raise judge.Illegal(f"the record of event {count + 1} is not the one of its round")
        count = judged.events


class KeptSession:
    """The input of a session of `keep`, its workers, the folder `layers`, and the records that the file has before."""

    def __init__(self, data, workers, layers, records):
        self.rounds, self.workers, self.layers, self.records = judge.rounds_of(data), workers, layers, records

    def machine(self):
        return judge.Machine(self.layers, False)

    def fault(self, output, is_whole, records):
        """Why an output is not a legal transcript, or if it need not be whole, not a prefix of one, or why these are not the records after it; None if
        all is right. Raises BadKeep where the records before are bad."""
        try:
            judged = self.judged(output, is_whole)
            added = records[len(self.records) :]
            if is_whole:
                judge.compare_kept(added, judged.records)
        except judge.Illegal as error:
            return str(error)
        if records[: len(self.records)] != self.records:
            return "records of before are gone, or changed"
        if not b"".join(added).startswith(b"".join(judged.records) + kept_file.record_of(judged.kept)):
            return "an event whose line was written is not kept"
        try:
            judge.resume(self.machine(), records)
        except judge.BadKeep as error:
            return f"record {error.args[0]} of the file is bad: {error.args[1]}"
        return None

    def has_failing_layer(self):
        """Whether a layer that was indexed by the events kept cannot be listed any more."""
        machine = self.machine()
        for record in self.records:
            with contextlib.suppress(kept_file.NoRecord):
                if any(isinstance(event, kept_file.Work) and event.word == "indexed" and machine.tree(event.layer).fails for event in kept_file.events_of(record)):
                    return True
        return False

    def judged(self, output, is_whole):
        """The judge of an output; one that is not whole may end anywhere."""
        machine = self.machine()
        events = judge.resume(machine, self.records)
        judged = judge.Judge(transcripts.lines_of(output, is_whole), self.workers, machine, events)
        transcripts.judge_rounds(judged, self.rounds, is_whole, True)
        return judged


class Kept:
    """A folder with the layers, the state that is kept in it, and the number of workers of the next run, or of the one that runs."""

    def __init__(self, program, folder):
        self.program, self.folder, self.workers = program, folder, 1
        self.machine = judge.Machine(os.path.join(folder, "layers"), False)
        self.events, self.records = 0, []

    def path(self, name=kept_file.NAME):
        return os.path.join(self.folder, name)

    def start(self, data, **more):
        """Starts `keep` over an input."""
        with open(self.path("input"), "wb") as file:
            file.write(data)
        with open(self.path("input"), "rb") as requests, open(self.path("output"), "wb") as output, open(self.path("said"), "wb") as said:
            command = [self.program, "keep", "--workers", str(self.workers)]
            return subprocess.Popen(command, stdin=requests, stdout=output, stderr=said, cwd=self.folder, **more)

    def written(self):
        with open(self.path("output"), "rb") as file:
            return file.read()

    def take(self, data, status):
        """Takes what a run over an input wrote and kept, of which the state of the next run is made. Gives what it wrote, and how many records
        it kept without a line of their events. Raises Illegal where one of them is wrong."""
        output, is_whole = self.written(), status == runs.DONE
        if status not in (runs.DONE, KILLED):
            raise judge.Illegal(f"{runs.status_text(status)}, after {output[-300:]!r}")
        try:
            return output, self.take_records(output, judge.rounds_of(data), is_whole)
        except kept_file.NoRecord as error:
            raise judge.Illegal(f"a record is bad: {error}") from error

    def take_records(self, output, rounds, is_whole):
        """Takes what an output and the file say of a run, and gives how many records it kept without a line of their events."""
        before, records = Lists(self.machine), kept_file.read(self.path())
        judged = judge.Judge(transcripts.lines_of(output, is_whole), self.workers, self.machine, self.events)
        transcripts.judge_rounds(judged, rounds, is_whole, True)
        added = records[len(self.records) :]
        if records[: len(self.records)] != self.records:
            raise judge.Illegal("records of before are gone, or changed")
        if not b"".join(added).startswith(b"".join(judged.records) + kept_file.record_of(judged.kept)):
            raise judge.Illegal(f"an event whose line was written is not kept, of those from {self.events + 1} to {judged.events}")
        if is_whole:
            judge.compare_kept(added, judged.records)
        check_rounds(before, self.workers, self.events, rounds, added)
        unwritten = len(added) - len(judged.records) - bool(judged.kept)
        if unwritten > 1:
            raise judge.Illegal(f"{unwritten} rounds were kept before their lines were written")
        self.events = self.advanced(judged.events, kept_file.events_of(b"".join(added)) if added else [])
        self.records = records
        return unwritten

    def advanced(self, count, events):
        """The number of the last event, when those after this number are taken too."""
        for event in events:
            if event.number > count:
                judge.submit(self.machine, event)
                count = event.number
        return count

    def go_back(self, records):
        """Knows the state that these records make, whatever was kept since."""
        self.machine = judge.Machine(os.path.join(self.folder, "layers"), False)
        self.events, self.records = judge.resume(self.machine, records), records
