"""The child over pipes: rounds, answers by their lines, lanes, and its end."""

import asyncio
import os
import signal
from pathlib import Path
from typing import Any, Awaitable, Callable

import pytest
from support import debian_blob, record, sha256

from cvwatch_server import configuration
from cvwatch_server.child import Child, ChildGone, line_of
from cvwatch_server.keeper import patch, register, update
from cvwatch_server.metrics import Metrics
from cvwatch_server.records import Change
from cvwatch_server.refusals import Refusal

Work = Callable[[Child], Awaitable[Any]]


@pytest.fixture
def with_child(tmp_path: Path, program: str) -> Callable[..., Any]:
    """Runs something with a child, and gives its value and the status of the child."""

    def run(work: Work, **settings: Any) -> tuple[Any, int]:
        async def main() -> tuple[Any, int]:
            lock = os.open(tmp_path / "lock", os.O_RDWR | os.O_CREAT)
            child = Child(configuration.Child(program=program, command="serve", **settings), tmp_path, Metrics(), lock)
            await child.start()
            running = asyncio.create_task(child.run())
            found = await work(child)
            child.stop()
            status = await running
            os.close(lock)
            return found, status

        return asyncio.run(main())

    return run


def test_answers_find_their_requests(with_child: Callable[..., Any]) -> None:
    """Of many requests at once each has the answer with its image, and several go into one round."""
    digests = [sha256(str(number).encode()) for number in range(3000)]

    async def work(child: Child) -> list[dict[str, Any]]:
        requests = (child.ask({"do": "report", "image": digest, "lane": place % 8}) for place, digest in enumerate(digests))
        answers = await asyncio.gather(*requests)
        assert child.metrics.rounds._value.get() < len(digests) / 10
        return answers

    for lines in (1000, 4096):
        answers, status = with_child(work, round_lines=lines)
        assert [answer["image"] for answer in answers] == digests
        assert status == 0


def test_refused_lines(with_child: Callable[..., Any]) -> None:
    """A request that is refused has its answer, too, and one that is too long is not sent."""

    async def work(child: Child) -> list[dict[str, Any]]:
        with pytest.raises(Refusal):
            await child.ask(update("long", {"x": b'"' + b"x" * 67_108_864 + b'"'}))
        requests = [{"do": "other"}, {"do": "list"}, update("a", {"x": b"{"}), patch("a", 0, Change({}, ["x"]))]
        return await asyncio.gather(*map(child.ask, requests))

    answers, status = with_child(work)
    assert [answer.get("refused") or answer["reply"] for answer in answers] == ["bad_request", "list", "bad_json", "no_feed"]
    assert status == 0


def test_a_lane_reads_what_it_wrote(with_child: Callable[..., Any]) -> None:
    """Requests of one lane are carried out in their order, in one round too."""
    image = sha256(b"image")

    async def work(child: Child) -> list[str]:
        requests = [register(image, [debian_blob().diff_id]), {"do": "report", "image": image}, {"do": "drop", "image": image}, {"do": "report", "image": image}]
        return [answer["reply"] for answer in await asyncio.gather(*(child.ask({**one, "lane": 3}) for one in requests))]

    answers, _ = with_child(work)
    assert answers == ["registered", "pending", "dropped", "not_registered"]


def test_a_child_that_is_killed(with_child: Callable[..., Any]) -> None:
    """What waits for a child that ends fails, and so does what comes later."""

    async def work(child: Child) -> None:
        assert child.process is not None
        os.kill(child.process.pid, signal.SIGSTOP)
        asking = [asyncio.create_task(child.ask({"do": "list"})) for _ in range(10)]
        await asyncio.sleep(0.1)
        os.kill(child.process.pid, signal.SIGKILL)
        for task in asking:
            with pytest.raises(ChildGone):
                await task
        with pytest.raises(ChildGone):
            await child.ask({"do": "list"})

    _, status = with_child(work)
    assert status == -signal.SIGKILL


def test_a_child_that_hangs(with_child: Callable[..., Any]) -> None:
    """A child that does not end its round in time is killed."""

    async def work(child: Child) -> None:
        assert child.process is not None
        os.kill(child.process.pid, signal.SIGSTOP)
        with pytest.raises(ChildGone):
            await child.ask({"do": "list"})

    _, status = with_child(work, round_seconds=0.2)
    assert status == -signal.SIGKILL


def test_a_stop_ends_the_round(with_child: Callable[..., Any]) -> None:
    """The round that has begun is answered at a stop."""

    async def work(child: Child) -> Any:
        asking = asyncio.create_task(child.ask(update("a", {str(number): b"%s" % line(number) for number in range(5000)})))
        await asyncio.sleep(0.01)
        child.stop()
        return await asking

    def line(number: int) -> bytes:
        return line_of(record(f"X-{number}", "Debian:12", "bash", None)).rstrip()

    answer, status = with_child(work)
    assert (answer["reply"], status) == ("updated", 0)
