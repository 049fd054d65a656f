"""The packages of an image, by `cvwatch sbom`."""

import asyncio
import json
from pathlib import Path
from typing import Any

from .logs import warn

PREFIX = "cvwatch:"


def package_of(component: dict[str, Any]) -> dict[str, str]:
    """The facts of a component."""
    properties = {item["name"].removeprefix(PREFIX): item["value"] for item in component["properties"] if item["name"].startswith(PREFIX)}
    return {"name": component["name"], "version": component["version"], **properties}


class PackageLists:
    """Runs `cvwatch sbom` in the state's folder, a few at a time."""

    def __init__(self, program: str, folder: Path, at_once: int):
        self.program = program
        self.folder = folder
        self.slots = asyncio.Semaphore(at_once)
        self.is_known = True

    async def packages(self, digest: str, layers: list[str]) -> list[dict[str, str]] | None:
        """The packages of an image, or None if the program gives no list of them."""
        if not self.is_known:
            return None
        manifest = json.dumps({"hash": digest, "layers": [{"hash": layer} for layer in layers]}) + "\n"
        async with self.slots:
            pipe, nothing = asyncio.subprocess.PIPE, asyncio.subprocess.DEVNULL
            process = await asyncio.create_subprocess_exec(self.program, "sbom", stdin=pipe, stdout=pipe, stderr=nothing, cwd=self.folder)
            output, _ = await process.communicate(manifest.encode())
        if process.returncode == 2:
            self.is_known = False
            warn("this cvwatch has no command sbom: reports list the packages with findings alone")
        if process.returncode != 0:
            return None
        try:
            return [package_of(component) for component in json.loads(output)["components"]]
        except (ValueError, KeyError, TypeError) as error:
            warn("a list of packages was not understood", image=digest, error=repr(error))
            return None
