"""The manifest of an image as Clair's clients post it."""

import dataclasses
import json
import re
from typing import Any

from .refusals import Refusal, bad_request

MOST_LAYERS = 128
LONGEST_URI = 8192
DIGEST = re.compile(r"sha256:[0-9a-f]{64}")
HEADER_NAME = re.compile(r"[A-Za-z0-9!#$%&'*+.^_`|~-]{1,128}")
HEADER_VALUE = re.compile(r"[\t\x20-\x7e]{0,8192}")
# these belong to the connection, and are not a client's to choose
OWN_HEADERS = {"host", "connection", "content-length", "transfer-encoding", "upgrade", "te", "trailer", "accept-encoding", "range"}


@dataclasses.dataclass(frozen=True)
class Layer:
    """A layer: the digest of its blob, and where the blob is."""

    digest: str
    uri: str
    headers: tuple[tuple[str, str], ...] = ()


@dataclasses.dataclass(frozen=True)
class Manifest:
    """An image: the digest of its manifest, and its layers, the base first."""

    digest: str
    layers: tuple[Layer, ...]


def is_digest(value: Any) -> bool:
    """Whether a value is the text of a digest of sha256."""
    return isinstance(value, str) and DIGEST.fullmatch(value) is not None


def digest_of_path(text: str) -> str:
    """The digest in the path of a request."""
    if not is_digest(text):
        raise bad_request("the path does not end with a digest of sha256")
    return text


def parse_headers(value: Any) -> tuple[tuple[str, str], ...]:
    """The headers of a layer, each with one value or a list of values."""
    if value is None:
        return ()
    if not isinstance(value, dict):
        raise bad_request("the headers of a layer are not an object")
    headers = []
    for name, values in value.items():
        for one in values if isinstance(values, list) else [values]:
            if not HEADER_NAME.fullmatch(name) or not isinstance(one, str) or not HEADER_VALUE.fullmatch(one):
                raise bad_request("a layer has a malformed header")
            if name.lower() not in OWN_HEADERS:
                headers.append((name, one))
    return tuple(headers)


def parse_layer(value: Any) -> Layer:
    """A layer of a manifest."""
    if not isinstance(value, dict) or not is_digest(value.get("hash")):
        raise bad_request("a layer has no hash that is a digest of sha256")
    uri = value.get("uri", "")
    if not isinstance(uri, str) or len(uri) > LONGEST_URI or not uri.isascii() or not uri.isprintable():
        raise bad_request("a layer has a malformed uri")
    return Layer(value["hash"], uri, parse_headers(value.get("headers")))


def parse_json(body: bytes) -> Any:
    """The JSON of a body."""
    try:
        return json.loads(body)
    except (ValueError, RecursionError):
        raise bad_request("the body is not JSON") from None


def parse(body: bytes) -> Manifest:
    """The manifest in a body."""
    value = parse_json(body)
    if not isinstance(value, dict) or not is_digest(value.get("hash")):
        raise bad_request("the manifest has no hash that is a digest of sha256")
    layers = value.get("layers")
    if not isinstance(layers, list) or not 1 <= len(layers) <= MOST_LAYERS:
        raise Refusal(400, "bad-request", f"the manifest does not have 1 to {MOST_LAYERS} layers")
    return Manifest(value["hash"], tuple(parse_layer(layer) for layer in layers))
