"""The records that were sent to the child last: what a feed changes is compared with them, and reports are joined with them."""

import collections
import contextlib
import dataclasses
import importlib
import sys
from pathlib import Path
from typing import Any, Callable

from .store import connect

SCHEMA = """
CREATE TABLE IF NOT EXISTS part (name TEXT PRIMARY KEY, feed TEXT NOT NULL, generation INTEGER NOT NULL);
CREATE TABLE IF NOT EXISTS record (part TEXT NOT NULL, id TEXT NOT NULL, line BLOB NOT NULL, PRIMARY KEY (part, id));
"""
# how many records are kept as read, for the reports
MOST_READ = 20_000


@dataclasses.dataclass(frozen=True)
class Part:
    """A feed of the child: a feed, or one of the parts that a feed too long for one line has. Its generation is -1 until it was sent."""

    name: str
    feed: str
    generation: int


@dataclasses.dataclass(frozen=True)
class Change:
    """The records of a part that are new or changed, and the ids of those that are gone."""

    changed: dict[str, bytes]
    removed: list[str]

    def is_empty(self) -> bool:
        """Whether nothing changed."""
        return not self.changed and not self.removed


class Records:
    """The tables of records."""

    def __init__(self, path: Path, tools: Path):
        self.path = path
        self.connection = connect(path, SCHEMA)
        self.read: collections.OrderedDict[tuple[str, str], Any] = collections.OrderedDict()
        # what `findings-table` shows of records and findings is shown here too
        if str(tools / "lib") not in sys.path:
            sys.path.insert(0, str(tools / "lib"))
        self.osv_records = importlib.import_module("osv_records")
        self.findings = importlib.import_module("findings")

    def close(self) -> None:
        """Ends the connection."""
        self.connection.close()

    def parts(self) -> list[Part]:
        """The parts that the child has, or may have."""
        return [Part(*row) for row in self.connection.execute("SELECT * FROM part ORDER BY name")]

    def parts_of(self, feed: str) -> list[Part]:
        """The parts of a feed."""
        return [part for part in self.parts() if part.feed == feed]

    def known(self, part: Part) -> Part:
        """A part as it is known. One that is not is noted, since the child may have it although its answer is never read."""
        self.connection.execute("INSERT OR IGNORE INTO part VALUES (?, ?, -1)", (part.name, part.feed))
        return next(one for one in self.parts() if one.name == part.name)

    def set_generation(self, name: str, generation: int) -> None:
        """Notes at which generation the child has a part."""
        self.connection.execute("UPDATE part SET generation = ? WHERE name = ?", (generation, name))

    # the next three read or write many records: they are for a thread, and have a connection of their own

    def lines(self, part: str) -> dict[str, bytes]:
        """The records of a part by their ids."""
        with contextlib.closing(connect(self.path, SCHEMA)) as connection:
            return {row[0]: row[1] for row in connection.execute("SELECT id, line FROM record WHERE part = ? ORDER BY id", (part,))}

    def change(self, part: str, lines: dict[str, bytes]) -> Change:
        """What is to be done for the part to have these records."""
        removed, same = [], set()
        with contextlib.closing(connect(self.path, SCHEMA)) as connection:
            for name, line in connection.execute("SELECT id, line FROM record WHERE part = ?", (part,)):
                if name not in lines:
                    removed.append(name)
                elif lines[name] == line:
                    same.add(name)
        return Change({name: line for name, line in lines.items() if name not in same}, removed)

    def apply(self, part: Part, change: Change) -> None:
        """Keeps the records of a part as they were sent, in one transaction."""
        rows = ((part.name, name, line) for name, line in change.changed.items())
        with contextlib.closing(connect(self.path, SCHEMA)) as connection:
            connection.execute("BEGIN IMMEDIATE")
            connection.executemany("DELETE FROM record WHERE part = ? AND id = ?", ((part.name, name) for name in change.removed))
            connection.executemany("INSERT OR REPLACE INTO record VALUES (?, ?, ?)", rows)
            connection.execute("INSERT OR REPLACE INTO part VALUES (?, ?, ?)", dataclasses.astuple(part))
            connection.execute("COMMIT")

    def forget(self, part: Part, change: Change) -> None:
        """Forgets what was read of records that changed."""
        for name in [*change.changed, *change.removed]:
            self.read.pop((part.name, name), None)

    def parsed(self, line: bytes, name: str) -> Any:
        """What is shown of the record in a line."""
        found, _ = self.osv_records.read_records([line.decode("utf-8", "replace")], {name})
        return found.get(name)

    def record(self, part: str, name: str) -> Any:
        """What is shown of a record, or None if it is not there."""
        key = (part, name)
        if key in self.read:
            self.read.move_to_end(key)
            return self.read[key]
        row = self.connection.execute("SELECT line FROM record WHERE part = ? AND id = ?", key).fetchone()
        self.read[key] = self.parsed(row["line"], name) if row else None
        if len(self.read) > MOST_READ:
            self.read.popitem(last=False)
        return self.read[key]

    def after(self, part: str, change: Change) -> Callable[[str, str], Any]:
        """The same as `record` after a change that is not kept yet; of what it removes, as it was."""

        def record(other: str, name: str) -> Any:
            if other == part and name in change.changed:
                return self.parsed(change.changed[name], name)
            return self.record(other, name)

        return record
