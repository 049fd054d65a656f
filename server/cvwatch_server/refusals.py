"""What a request is refused with: a status, a code and a message, in the form of Clair."""

from typing import Any


class Refusal(Exception):
    """A request is not carried out."""

    def __init__(self, status: int, code: str, message: str):
        super().__init__(message)
        self.status = status
        self.code = code
        self.message = message

    def body(self) -> dict[str, str]:
        """The body of the answer."""
        return {"code": self.code, "message": self.message}


def bad_request(message: str) -> Refusal:
    """The request is malformed."""
    return Refusal(400, "bad-request", message)


def not_found(message: str) -> Refusal:
    """What the request names is not there."""
    return Refusal(404, "not-found", message)


def unavailable(message: str) -> Refusal:
    """The child cannot be asked now."""
    return Refusal(503, "unavailable", message)


def refusal_of(answer: dict[str, Any]) -> Refusal:
    """What a request is answered that the child did not carry out."""
    reply = answer.get("reply") or answer.get("refused")
    if reply == "conflict":
        return Refusal(409, "conflict", "the image is registered with other layers")
    if reply == "too_many_images":
        return Refusal(507, "too-many-images", "cvwatch takes no more images")
    if reply == "no_memory":
        return unavailable("cvwatch is out of memory")
    return Refusal(500, "internal", f"cvwatch answered {reply}")
