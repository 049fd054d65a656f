"""One run of `cvwatch keep` or `cvwatch serve`: requests go to it in rounds, and its answers find them by the number of their line."""

import asyncio
import collections
import contextlib
import json
import tempfile
from pathlib import Path
from typing import Any

from . import configuration, processes
from .logs import warn
from .metrics import Metrics
from .refusals import Refusal, unavailable

Answer = dict[str, Any]
# cvwatch takes no longer line, and begins another round before a line that would bring it over its limit
LONGEST_LINE = 67_108_864
MOST_BYTES = 67_108_864
# the longest line of an answer, which may be a report with all findings of an image
LONGEST_ANSWER = 1 << 28
LANES = 8
STOP_SECONDS = 60.0
# a process whose pipes are closed ends by itself in this time
END_SECONDS = 1.0
# so does `keep` over an empty input
PROBE_SECONDS = 10.0
# the file of `keep` in its working directory, and statuses of cvwatch: the usage was printed; `keep` cannot read a layer that is kept as
# indexed; it does not take its file; its file is full
KEPT = "cvwatch.keep"
USAGE, DESK_FAULT, BAD_KEEP, KEEP_FULL = 2, 9, 11, 12


class ChildGone(Exception):
    """The child ended before it answered."""


def line_of(request: dict[str, Any]) -> bytes:
    """The line of a request. Its `advisories` are lines of JSON already, and go into it as they are."""
    members = {name: value for name, value in request.items() if name != "advisories"}
    text = json.dumps(members, separators=(",", ":")).encode()
    if "advisories" in request:
        text = text[:-1] + b',"advisories":[' + b",".join(request["advisories"]) + b"]}"
    return text + b"\n"


async def command_of(settings: configuration.Child) -> str:
    """The command that is configured; without one `keep`, where the program has it."""
    if settings.command:
        return settings.command
    nothing = asyncio.subprocess.DEVNULL
    with tempfile.TemporaryDirectory() as folder:
        process = await asyncio.create_subprocess_exec(
            settings.program, "keep", stdin=nothing, stdout=nothing, stderr=nothing, cwd=folder, start_new_session=True
        )
        with contextlib.suppress(TimeoutError):
            await asyncio.wait_for(process.wait(), PROBE_SECONDS)
        return "serve" if await processes.kill(process) == USAGE else "keep"


class Question:
    """A request that waits for its answer."""

    def __init__(self, request: dict[str, Any]):
        self.line = line_of(request)
        self.answer: asyncio.Future[Answer] = asyncio.get_running_loop().create_future()


class Child:
    """A process with its rounds. A round begins when the one before it is answered, with all requests that came meanwhile."""

    def __init__(self, settings: configuration.Child, folder: Path, metrics: Metrics, lock: int):
        self.settings = settings
        self.folder = folder
        self.metrics = metrics
        self.lock = lock
        self.waiting: collections.deque[Question] = collections.deque()
        self.asked: dict[int, Question] = {}
        self.line = 0
        self.has_questions = asyncio.Event()
        self.is_stopping = False
        self.resumed: Answer | None = None
        self.process: asyncio.subprocess.Process | None = None

    async def start(self) -> None:
        """Starts the process. It holds the lock of the state, so that no later server begins before it has ended."""
        pipe = asyncio.subprocess.PIPE
        command = [self.settings.program, await command_of(self.settings), "--workers", str(self.settings.workers)]
        self.process = await asyncio.create_subprocess_exec(
            *command, stdin=pipe, stdout=pipe, cwd=self.folder, limit=LONGEST_ANSWER, pass_fds=[self.lock], start_new_session=True
        )

    async def run(self) -> int:
        """Runs rounds until the child ends, and gives its status."""
        assert self.process is not None
        reading = asyncio.create_task(self.read())
        rounds = asyncio.create_task(self.rounds())
        try:
            await asyncio.wait({reading, rounds}, return_when=asyncio.FIRST_COMPLETED)
            if rounds.done() and rounds.exception() is None:
                await asyncio.wait({reading}, timeout=STOP_SECONDS)
        finally:
            rounds.cancel()
            reading.cancel()
            for failed in await asyncio.gather(rounds, reading, return_exceptions=True):
                if isinstance(failed, Exception):
                    warn("the child is ended", error=repr(failed))
            status = await self.end()
            self.give_up()
        return status

    async def end(self) -> int:
        """Waits a little for the process to end by itself, and kills it otherwise."""
        assert self.process is not None and self.process.stdin is not None
        self.process.stdin.close()
        with contextlib.suppress(TimeoutError):
            await asyncio.wait_for(self.process.wait(), END_SECONDS)
        return await processes.kill(self.process)

    def stop(self) -> None:
        """Takes no more requests. The round that has begun is ended."""
        self.is_stopping = True
        self.has_questions.set()

    def give_up(self) -> None:
        """Fails the requests that are not answered."""
        self.is_stopping = True
        for question in [*self.asked.values(), *self.waiting]:
            if not question.answer.done():
                question.answer.set_exception(ChildGone())
                question.answer.exception()
        self.asked.clear()
        self.waiting.clear()

    async def ask(self, request: dict[str, Any]) -> Answer:
        """The answer to a request. Raises ChildGone if the child ends before."""
        if self.is_stopping:
            raise ChildGone
        if len(self.waiting) >= self.settings.waiting:
            raise unavailable("too many requests are waiting")
        question = Question(request)
        if len(question.line) > LONGEST_LINE:
            raise Refusal(413, "too-large", "the request is longer than a line of cvwatch")
        self.waiting.append(question)
        self.has_questions.set()
        return await question.answer

    async def rounds(self) -> None:
        """Writes rounds one after the other."""
        assert self.process is not None and self.process.stdin is not None
        while True:
            await self.has_questions.wait()
            if self.is_stopping:
                self.process.stdin.close()
                return
            questions = self.take()
            self.process.stdin.write(b"".join(question.line for question in questions) + b"\n")
            await self.process.stdin.drain()
            answers = [question.answer for question in questions]
            _, late = await asyncio.wait(answers, timeout=self.settings.round_seconds)
            if late:
                raise TimeoutError("a round was not answered in time")
            self.metrics.rounds.inc()
            self.metrics.lines.inc(len(questions))

    def take(self) -> list[Question]:
        """The requests of the next round, with their numbers; an empty line ends it, and is counted too."""
        questions: list[Question] = []
        size = 0
        while self.waiting and len(questions) < self.settings.round_lines:
            size += len(self.waiting[0].line)
            if questions and size > MOST_BYTES:
                break
            question = self.waiting.popleft()
            questions.append(question)
            self.line += 1
            self.asked[self.line] = question
        # a round of 4,096 lines ends by itself, and the empty line is a round of its own
        self.line += 1
        if not self.waiting:
            self.has_questions.clear()
        return questions

    async def read(self) -> None:
        """Reads the lines of the child until it ends."""
        assert self.process is not None and self.process.stdout is not None
        while line := await self.process.stdout.readline():
            self.take_answer(json.loads(line))

    def take_answer(self, answer: Answer) -> None:
        """Gives an answer to the request of its line. Lines without a number are about layers, or say that the child resumed."""
        if "line" in answer:
            question = self.asked.pop(answer["line"], None)
            if question is not None and not question.answer.done():
                question.answer.set_result(answer)
        elif answer.get("reply") == "resumed":
            self.resumed = answer
        elif answer.get("event") == "indexed":
            self.metrics.layers.inc()
