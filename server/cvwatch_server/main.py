"""The command line of the server."""

import argparse
import asyncio
import resource
import signal
import sys

from . import configuration, logs
from .application import serve

DESCRIPTION = "Answers registries over HTTP, after Clair v4. Each verdict comes from a child `cvwatch`."


def raise_limit() -> None:
    """Lets the process have as many open files as it may."""
    _, hard = resource.getrlimit(resource.RLIMIT_NOFILE)
    resource.setrlimit(resource.RLIMIT_NOFILE, (hard, hard))


async def run(settings: configuration.Configuration) -> None:
    """Serves until SIGTERM or SIGINT."""
    stop = asyncio.Event()
    loop = asyncio.get_running_loop()
    for number in (signal.SIGTERM, signal.SIGINT):
        loop.add_signal_handler(number, stop.set)
    await serve(settings, stop)


def main() -> int:
    """Reads the arguments and the configuration, and serves."""
    parser = argparse.ArgumentParser(prog="cvwatch-server", description=DESCRIPTION)
    parser.add_argument("--config", required=True, metavar="FILE", help="the configuration, in TOML")
    parser.add_argument("--check", action="store_true", help="only read the configuration")
    options = parser.parse_args()
    try:
        settings = configuration.read(options.config)
        settings.token()
    except (configuration.BadConfiguration, OSError) as error:
        print(f"cvwatch-server: {error}", file=sys.stderr)
        return 2
    if options.check:
        return 0
    logs.set_up()
    raise_limit()
    asyncio.run(run(settings))
    return 0
