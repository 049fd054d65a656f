"""The commands of the README, as they stand there, lead from an image in a registry to a notification."""

import contextlib
import os
import re
import shutil
import signal
import subprocess
from pathlib import Path

import pytest
from support import PATIENCE, ROOT, debian_blob, free_port, make_layout

LAYER = debian_blob(("bash", "bash", "5.2.15-2"), ("tar", "tar", "1.34"))


def commands(folder: Path) -> str:
    """The commands, with a folder, an image and ports of this test."""
    _, _, section = (ROOT / "server" / "README.md").read_text(encoding="utf-8").partition("\n### From an image to a webhook\n")
    text = "".join(re.findall(r"```sh\n(.*?)```", section.partition("\nThe `hash` of an image")[0], re.DOTALL))
    port = str(free_port())
    for old, new in (
        ("apt-get install", "true"),
        ("docker://debian:12", f"oci:{folder}/layout"),
        ("/tmp/cvwatch", str(folder)),
        ("[server]\n", f"[server]\nport = {port}\n"),
        ("[webhook]\n", f'[webhook]\ncallback = "http://127.0.0.1:{port}"\n'),
        ("6060", port),
        ("5000", str(free_port())),
        ("8080", str(free_port())),
    ):
        assert old in text
        text = text.replace(old, new)
    return text


@pytest.mark.skipif(shutil.which("curl") is None, reason="curl is not installed")
def test_the_commands(tmp_path: Path, program: str) -> None:
    """What they print is what the page says."""
    make_layout(tmp_path / "layout", (LAYER,))
    (tmp_path / "cvwatch").symlink_to(program)
    environment = {**os.environ, "PATH": f"{tmp_path}:{os.environ['PATH']}"}
    with (tmp_path / "printed").open("wb") as printed:
        process = subprocess.Popen(["bash", "-euo", "pipefail", "-c", commands(tmp_path)], cwd=ROOT, stdout=printed, env=environment, start_new_session=True)
        try:
            assert process.wait(2 * PATIENCE) == 0
        finally:
            with contextlib.suppress(ProcessLookupError):
                os.killpg(process.pid, signal.SIGKILL)
    text = (tmp_path / "printed").read_text()
    for line in ("ready", "true", '    "name": "OWN-1",', '["added","OWN-1","tar"]'):
        assert line in text.splitlines(), text
