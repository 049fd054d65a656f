"""The end of other processes."""

import asyncio
import contextlib
import os
import signal

CHUNK = 1 << 16


async def drain(stream: asyncio.StreamReader) -> None:
    """Drops what still comes from a process."""
    with contextlib.suppress(OSError, ValueError):
        while await stream.read(CHUNK):
            pass


async def kill(process: asyncio.subprocess.Process) -> int:
    """Kills a process, which has a session of its own, with all that it started; and gives its status.

    Its pipes are read to their end, since asyncio waits for them, too. Nobody else may be reading.
    """
    with contextlib.suppress(ProcessLookupError):
        os.killpg(process.pid, signal.SIGKILL)
    if process.stdin is not None:
        process.stdin.close()
    if process.stdout is not None:
        await drain(process.stdout)
    return await process.wait()
