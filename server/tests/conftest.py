"""What all tests share."""

import os
import shutil
import sys
from pathlib import Path

import pytest

sys.dont_write_bytecode = True
HERE = Path(__file__).resolve().parent
for folder in (HERE, HERE.parent):
    sys.path.insert(0, str(folder))


@pytest.fixture(scope="session")
def program() -> str:
    """The program cvwatch: that of the environment variable CVWATCH, or on PATH, or the one built here."""
    built = HERE.parents[1] / "crates" / "cvwatch" / "out" / "cvwatch"
    found = os.environ.get("CVWATCH") or shutil.which("cvwatch") or str(built)
    if not os.access(found, os.X_OK):
        pytest.exit("there is no cvwatch: build it, or set CVWATCH", 2)
    return os.path.realpath(found)
