"""What outlives the server: images, blobs, feeds and notifications, in an SQLite file. Each call is one transaction on disk."""

import dataclasses
import json
import sqlite3
import time
import uuid
from pathlib import Path
from typing import Any, Iterator

SCHEMA = """
CREATE TABLE IF NOT EXISTS image (digest TEXT PRIMARY KEY, layers TEXT NOT NULL, created REAL NOT NULL, state TEXT NOT NULL, packages TEXT);
CREATE TABLE IF NOT EXISTS image_layer (layer TEXT NOT NULL, image TEXT NOT NULL, PRIMARY KEY (layer, image)) WITHOUT ROWID;
CREATE INDEX IF NOT EXISTS layer_of_image ON image_layer (image);
CREATE TABLE IF NOT EXISTS blob (digest TEXT PRIMARY KEY, diff_id TEXT NOT NULL);
CREATE TABLE IF NOT EXISTS feed (name TEXT PRIMARY KEY, mark TEXT NOT NULL, looked REAL, fresh REAL, records INTEGER NOT NULL, error TEXT NOT NULL);
CREATE TABLE IF NOT EXISTS notification (id TEXT PRIMARY KEY, number INTEGER NOT NULL, epoch TEXT NOT NULL, created REAL NOT NULL,
    rows INTEGER NOT NULL, is_taken INTEGER NOT NULL);
CREATE TABLE IF NOT EXISTS notification_row (notification TEXT NOT NULL, place INTEGER NOT NULL, text TEXT NOT NULL, PRIMARY KEY (notification, place));
CREATE TABLE IF NOT EXISTS setting (name TEXT PRIMARY KEY, value TEXT NOT NULL);
"""


def connect(path: Path, schema: str) -> sqlite3.Connection:
    """A connection to a file, which is made with its tables if it is not there."""
    connection = sqlite3.connect(path, isolation_level=None, check_same_thread=False)
    connection.row_factory = sqlite3.Row
    connection.execute("PRAGMA journal_mode=WAL")
    connection.execute("PRAGMA synchronous=FULL")
    connection.execute("PRAGMA busy_timeout=10000")
    connection.executescript(schema)
    return connection


@dataclasses.dataclass(frozen=True)
class Image:
    """A registered image: its layers by their diff IDs, and what was found of it when its layers were indexed."""

    digest: str
    layers: list[str]
    created: float
    state: str
    packages: list[dict[str, str]] | None


@dataclasses.dataclass(frozen=True)
class FeedState:
    """When a feed was looked at, when that succeeded, and the mark (an ETag) of what was sent last."""

    name: str
    mark: str = ""
    looked: float | None = None
    fresh: float | None = None
    records: int = 0
    error: str = ""


@dataclasses.dataclass(frozen=True)
class Notification:
    """A notification that is not acknowledged. Its number is that of the child in the epoch."""

    id: str
    number: int
    epoch: str
    created: float
    rows: int
    is_taken: bool


def image_of(row: sqlite3.Row) -> Image:
    """The image of a row."""
    packages = None if row["packages"] is None else json.loads(row["packages"])
    return Image(row["digest"], json.loads(row["layers"]), row["created"], row["state"], packages)


class Store:
    """The tables of the state."""

    def __init__(self, path: Path):
        self.connection = connect(path, SCHEMA)

    def all(self, statement: str, *values: Any) -> list[sqlite3.Row]:
        """The rows of a query, or of a statement that changes one table."""
        return self.connection.execute(statement, values).fetchall()

    def close(self) -> None:
        """Ends the connection."""
        self.connection.close()

    # images

    def add_image(self, digest: str, layers: list[str]) -> bool:
        """Adds an image that is not there, and says whether it did."""
        with self.connection:
            self.connection.execute("BEGIN")
            values = (digest, json.dumps(layers), time.time())
            cursor = self.connection.execute("INSERT OR IGNORE INTO image VALUES (?, ?, ?, 'pending', NULL)", values)
            if cursor.rowcount == 1:
                rows = [(layer, digest) for layer in layers]
                self.connection.executemany("INSERT OR IGNORE INTO image_layer VALUES (?, ?)", rows)
        return cursor.rowcount == 1

    def image(self, digest: str) -> Image | None:
        """The image of a digest."""
        rows = self.all("SELECT * FROM image WHERE digest = ?", digest)
        return image_of(rows[0]) if rows else None

    def images(self, limit: int = -1, offset: int = 0) -> Iterator[Image]:
        """The images, the latest first."""
        for row in self.all("SELECT * FROM image ORDER BY created DESC, digest LIMIT ? OFFSET ?", limit, offset):
            yield image_of(row)

    def count_images(self) -> int:
        """How many images there are."""
        return int(self.all("SELECT count(*) FROM image")[0][0])

    def images_by_state(self) -> dict[str, int]:
        """How many images there are in each state."""
        return {row[0]: row[1] for row in self.all("SELECT state, count(*) FROM image GROUP BY state")}

    def set_image(self, image: Image) -> None:
        """Notes the state and the packages of an image, if it still has these layers."""
        text = None if image.packages is None else json.dumps(image.packages)
        values = (image.state, text, image.digest, json.dumps(image.layers))
        self.all("UPDATE image SET state = ?, packages = ? WHERE digest = ? AND layers = ?", *values)

    def set_state(self, digest: str, state: str) -> None:
        """Notes the state of an image, if it is another one."""
        self.all("UPDATE image SET state = ? WHERE digest = ? AND state != ?", state, digest, state)

    def drop_image(self, digest: str) -> None:
        """Forgets an image."""
        with self.connection:
            self.connection.execute("BEGIN")
            self.connection.execute("DELETE FROM image_layer WHERE image = ?", (digest,))
            self.connection.execute("DELETE FROM image WHERE digest = ?", (digest,))

    def uses_layer(self, diff_id: str) -> bool:
        """Whether an image has the layer."""
        return bool(self.all("SELECT 1 FROM image_layer WHERE layer = ? LIMIT 1", diff_id))

    # blobs

    def diff_id(self, digest: str) -> str | None:
        """The diff ID of a blob that was unpacked."""
        rows = self.all("SELECT diff_id FROM blob WHERE digest = ?", digest)
        return str(rows[0][0]) if rows else None

    def diff_ids(self) -> list[str]:
        """The diff IDs of all blobs."""
        return [row[0] for row in self.all("SELECT DISTINCT diff_id FROM blob")]

    def add_blob(self, digest: str, diff_id: str) -> None:
        """Keeps the pair of a blob and its diff ID."""
        self.all("INSERT OR REPLACE INTO blob VALUES (?, ?)", digest, diff_id)

    # feeds

    def feed(self, name: str) -> FeedState:
        """The state of a feed."""
        rows = self.all("SELECT * FROM feed WHERE name = ?", name)
        return FeedState(**dict(rows[0])) if rows else FeedState(name)

    def set_feed(self, feed: FeedState) -> None:
        """Notes the state of a feed."""
        self.all("INSERT OR REPLACE INTO feed VALUES (?, ?, ?, ?, ?, ?)", *dataclasses.astuple(feed))

    # notifications

    def epoch(self) -> str:
        """The name of the child's numbering of notifications: a UUID."""
        rows = self.all("SELECT value FROM setting WHERE name = 'epoch'")
        return str(rows[0][0]) if rows else self.new_epoch()

    def new_epoch(self) -> str:
        """Begins another numbering, as the child forgot its own."""
        epoch = str(uuid.uuid4())
        self.all("INSERT OR REPLACE INTO setting VALUES ('epoch', ?)", epoch)
        return epoch

    def add_notification(self, number: int, rows: list[dict[str, Any]]) -> str:
        """Keeps a notification of the child with its rows, and gives its id, which depends on epoch and number alone."""
        epoch = self.epoch()
        name = str(uuid.uuid5(uuid.UUID(epoch), str(number)))
        texts = [(name, place, json.dumps(row)) for place, row in enumerate(rows)]
        with self.connection:
            self.connection.execute("BEGIN")
            self.connection.execute("INSERT OR IGNORE INTO notification VALUES (?, ?, ?, ?, ?, 0)", (name, number, epoch, time.time(), len(rows)))
            self.connection.executemany("INSERT OR IGNORE INTO notification_row VALUES (?, ?, ?)", texts)
        return name

    def notifications(self) -> list[Notification]:
        """The notifications, in the order in which they came."""
        return [Notification(*row) for row in self.all("SELECT * FROM notification ORDER BY created, number")]

    def notification(self, name: str) -> Notification | None:
        """The notification of an id."""
        rows = self.all("SELECT * FROM notification WHERE id = ?", name)
        return Notification(*rows[0]) if rows else None

    def has_number(self, number: int) -> bool:
        """Whether a notification of the present epoch is kept."""
        return bool(self.all("SELECT 1 FROM notification WHERE epoch = ? AND number = ?", self.epoch(), number))

    def notification_rows(self, name: str, first: int, size: int) -> list[dict[str, Any]]:
        """Rows of a notification."""
        statement = "SELECT text FROM notification_row WHERE notification = ? AND place >= ? ORDER BY place LIMIT ?"
        return [json.loads(row[0]) for row in self.all(statement, name, first, size)]

    def take_notification(self, name: str) -> None:
        """Notes that the webhook took a notification."""
        self.all("UPDATE notification SET is_taken = 1 WHERE id = ?", name)

    def drop_notification(self, name: str) -> None:
        """Forgets a notification."""
        with self.connection:
            self.connection.execute("BEGIN")
            self.connection.execute("DELETE FROM notification_row WHERE notification = ?", (name,))
            self.connection.execute("DELETE FROM notification WHERE id = ?", (name,))
