"""The configuration: a TOML file whose tables are these classes. Unknown names and wrong types are refused."""

import dataclasses
import ipaddress
import re
import types
import typing
from pathlib import Path
from typing import Any, TypeVar

import tomllib

MEBIBYTE = 1 << 20
GIBIBYTE = 1 << 30
Network = ipaddress.IPv4Network | ipaddress.IPv6Network
Table = TypeVar("Table")


class BadConfiguration(Exception):
    """The file is not a configuration."""


@dataclasses.dataclass(frozen=True)
class Server:
    """Where the server listens and keeps its state, and what it takes from a client."""

    state: str
    listen: str = "127.0.0.1"
    port: int = 6060
    token_file: str = ""
    tools: str = ""
    body_bytes: int = 4 * MEBIBYTE
    all_bodies_bytes: int = 256 * MEBIBYTE
    connections: int = 1024
    request_seconds: float = 30.0
    index_seconds: float = 60.0


@dataclasses.dataclass(frozen=True)
class Child:
    """The program that gives the verdicts, and the rounds in which it is asked."""

    program: str = "cvwatch"
    # without one it is `keep`, if the program has it, and else `serve`
    command: str = ""
    workers: int = 4
    round_lines: int = 256
    round_seconds: float = 600.0
    waiting: int = 16384


@dataclasses.dataclass(frozen=True)
class Fetch:
    """What is fetched of layers. Private addresses are reached only in the named networks."""

    networks: tuple[str, ...] = ()
    blob_bytes: int = 4 * GIBIBYTE
    layer_bytes: int = 16 * GIBIBYTE
    memory_bytes: int = 2 * GIBIBYTE
    seconds: float = 600.0
    silent_seconds: float = 30.0
    redirects: int = 5
    at_once: int = 4

    def allowed(self) -> list[Network]:
        """The networks that may be reached although they are not public."""
        return [ipaddress.ip_network(name) for name in self.networks]


@dataclasses.dataclass(frozen=True)
class Webhook:
    """Where new notifications are posted. Without a target none is."""

    target: str = ""
    callback: str = "http://127.0.0.1:6060"
    headers: dict[str, str] = dataclasses.field(default_factory=dict)
    seconds: float = 10.0
    longest_pause: float = 300.0


@dataclasses.dataclass(frozen=True)
class Feed:
    """A feed of OSV records: a URL or a file, and how often it is looked at."""

    name: str
    url: str = ""
    file: str = ""
    ecosystems: tuple[str, ...] = ()
    seconds: float = 3600.0
    bytes: int = 4 * GIBIBYTE

    def check(self) -> None:
        """Refuses a name that is not one of a feed, and a feed without one source."""
        if not re.fullmatch(r"[a-z0-9_-]{1,48}", self.name):
            raise BadConfiguration(f"feed {self.name!r}: a name has 1 to 48 of the characters a-z0-9_-")
        if bool(self.url) == bool(self.file):
            raise BadConfiguration(f"feed {self.name}: it has either a url or a file")


@dataclasses.dataclass(frozen=True)
class Configuration:
    """All tables of the file."""

    server: Server
    child: Child
    fetch: Fetch
    webhook: Webhook
    feeds: tuple[Feed, ...]

    @property
    def state(self) -> Path:
        """The folder of the state, which is the working directory of the child."""
        return Path(self.server.state).resolve()

    @property
    def tools(self) -> Path:
        """The folder of the operators' scripts."""
        if self.server.tools:
            return Path(self.server.tools).resolve()
        # in the Debian package they lie beside the folder of the server
        above = Path(__file__).resolve().parents[2]
        return above / "tools" if (above / "tools").is_dir() else above

    def token(self) -> str:
        """The bearer token, or an empty text if none is asked for."""
        if not self.server.token_file:
            return ""
        token = Path(self.server.token_file).read_text(encoding="utf-8").strip()
        if not token:
            raise BadConfiguration(f"{self.server.token_file} has no token")
        return token


def converted(kind: Any, value: Any) -> Any:
    """A value of TOML as the type of a member has it. Raises TypeError if it is not one."""
    origin = typing.get_origin(kind)
    if origin is tuple and isinstance(value, list):
        return tuple(converted(typing.get_args(kind)[0], item) for item in value)
    if origin is dict and isinstance(value, dict):
        return {name: converted(str, item) for name, item in value.items()}
    if kind is float and isinstance(value, int) and not isinstance(value, bool):
        return float(value)
    if isinstance(origin, types.UnionType) or origin is not None or not isinstance(value, kind) or isinstance(value, bool):
        raise TypeError
    return value


def read_table(kind: type[Table], name: str, table: Any) -> Table:
    """A table of the file as an object of its class."""
    if not isinstance(table, dict):
        raise BadConfiguration(f"{name} is not a table")
    hints = typing.get_type_hints(kind)
    members = {}
    for member, value in table.items():
        if member not in hints:
            raise BadConfiguration(f"[{name}] has no member {member}")
        try:
            members[member] = converted(hints[member], value)
        except TypeError:
            raise BadConfiguration(f"[{name}] {member} is of another type") from None
        if isinstance(members[member], (int, float)) and members[member] < 0:
            raise BadConfiguration(f"[{name}] {member} is negative")
    try:
        return kind(**members)
    except TypeError as error:
        raise BadConfiguration(f"[{name}]: {error}") from None


def read_feeds(tables: Any) -> tuple[Feed, ...]:
    """The feeds of the file, whose names differ."""
    if not isinstance(tables, list):
        raise BadConfiguration("feed is not a list of tables: write [[feed]]")
    feeds = tuple(read_table(Feed, "feed", table) for table in tables)
    for feed in feeds:
        feed.check()
    if len({feed.name for feed in feeds}) < len(feeds):
        raise BadConfiguration("two feeds have one name")
    return feeds


def parse(text: str) -> Configuration:
    """The configuration of a text."""
    try:
        tables = tomllib.loads(text)
    except tomllib.TOMLDecodeError as error:
        raise BadConfiguration(f"not TOML: {error}") from None
    unknown = tables.keys() - {"server", "child", "fetch", "webhook", "feed"}
    if unknown:
        raise BadConfiguration(f"unknown tables: {', '.join(sorted(unknown))}")
    found = Configuration(
        read_table(Server, "server", tables.get("server", {})),
        read_table(Child, "child", tables.get("child", {})),
        read_table(Fetch, "fetch", tables.get("fetch", {})),
        read_table(Webhook, "webhook", tables.get("webhook", {})),
        read_feeds(tables.get("feed", [])),
    )
    if found.child.command not in ("", "keep", "serve"):
        raise BadConfiguration("[child] command is keep or serve")
    if not 1 <= found.child.workers <= 8 or not 1 <= found.child.round_lines <= 4096:
        raise BadConfiguration("[child] has 1 to 8 workers and rounds of 1 to 4096 lines")
    try:
        found.fetch.allowed()
    except ValueError as error:
        raise BadConfiguration(f"[fetch] networks: {error}") from None
    return found


def read(path: str) -> Configuration:
    """The configuration of a file."""
    try:
        return parse(Path(path).read_text(encoding="utf-8"))
    except (OSError, UnicodeDecodeError) as error:
        raise BadConfiguration(f"{path} cannot be read: {error}") from None
